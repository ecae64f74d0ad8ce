//! Timing two pieces of work by turns.

/// A timing lasts at least this long.
const LEAST: f64 = 4e6;

#[repr(C)]
struct Timespec {
    seconds: i64,
    nanoseconds: i64,
}

extern "C" {
    fn clock_gettime(clock: i32, time: *mut Timespec) -> i32;
}

/// Processor time of this thread, in nanoseconds: what else runs on the
/// machine counts less than by the clock on the wall.
fn now() -> f64 {
    const THREAD_TIME: i32 = 3;
    let mut time = Timespec {
        seconds: 0,
        nanoseconds: 0,
    };
    // Safe: the pointer is to a time of the layout that x86-64 Linux has.
    let failed = unsafe { clock_gettime(THREAD_TIME, &mut time) };
    assert_eq!(failed, 0, "no clock for the time of a thread");
    time.seconds as f64 * 1e9 + time.nanoseconds as f64
}

/// The numbers of all rounds, the smallest first.
pub struct Spread(Vec<f64>);

impl Spread {
    fn new(mut all: Vec<f64>) -> Spread {
        all.sort_by(f64::total_cmp);
        Spread(all)
    }

    /// The one that so many of four parts lie below: 0 is the smallest, 2 the
    /// median, 4 the largest.
    pub fn quarter(&self, parts: usize) -> f64 {
        self.0[(self.0.len() - 1) * parts / 4]
    }

    pub fn median(&self) -> f64 {
        self.quarter(2)
    }
}

/// Nanoseconds of each, and in each round the one time by the other.
pub struct Timed {
    pub plain: Spread,
    pub exported: Spread,
    pub ratio: Spread,
}

/// Nanoseconds of one run, out of so many in a row.
fn time(work: &mut dyn FnMut(), runs: usize) -> f64 {
    let start = now();
    for _ in 0..runs {
        work();
    }
    (now() - start) / runs as f64
}

/// How many runs in a row last long enough.
fn runs_needed(work: &mut dyn FnMut()) -> usize {
    let mut runs = 1;
    loop {
        let each = time(work, runs);
        if each * runs as f64 >= LEAST / 2.0 {
            return (1.1 * LEAST / each).ceil() as usize;
        }
        runs *= 2;
    }
}

/// Each round times the one and then the other, and the next round the other
/// way about.
pub fn by_turns(plain: &mut dyn FnMut(), exported: &mut dyn FnMut(), rounds: usize) -> Timed {
    let plain_runs = runs_needed(plain);
    let exported_runs = runs_needed(exported);
    let mut times: [Vec<f64>; 3] = Default::default();
    for round in 0..rounds {
        let (first, second);
        if round % 2 == 0 {
            first = time(plain, plain_runs);
            second = time(exported, exported_runs);
        } else {
            second = time(exported, exported_runs);
            first = time(plain, plain_runs);
        }
        times[0].push(first);
        times[1].push(second);
        times[2].push(second / first);
    }
    let [plain, exported, ratio] = times.map(Spread::new);
    Timed {
        plain,
        exported,
        ratio,
    }
}
