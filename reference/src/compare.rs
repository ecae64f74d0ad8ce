//! Holds a program that scores `rally.log` in its current folder to the
//! sheets made here, on random logs.

use crate::formats::Format;
use crate::random_logs::{self, KINDS};
use crate::{rally_log, sheet};
use std::collections::BTreeMap;
use std::fs;
use std::path::{Path, PathBuf};
use std::process::Command;
use std::sync::atomic::{AtomicBool, AtomicU64, Ordering};
use std::thread;

const WORKERS: usize = 2;

/// How many logs there were of what.
#[derive(Default)]
struct Counts {
    kinds: [u64; KINDS.len()],
    formats: [u64; 8],
    finished: u64,
    unfinished: u64,
    faults: BTreeMap<u32, u64>,
}

impl Counts {
    fn note(&mut self, kind: usize, bytes: &[u8], text: &str) {
        self.kinds[kind] += 1;
        if let Some(fault) = text.strip_prefix("fault ") {
            let number = fault.split(' ').next().and_then(|n| n.parse().ok());
            *self.faults.entry(number.unwrap_or(0)).or_default() += 1;
            return;
        }
        self.formats[bytes[3] as usize] += 1;
        if text.lines().last().is_some_and(|l| l.starts_with("won")) {
            self.finished += 1;
        } else {
            self.unfinished += 1;
        }
    }

    fn add(&mut self, other: Counts) {
        for (mine, theirs) in self.kinds.iter_mut().zip(other.kinds) {
            *mine += theirs;
        }
        for (mine, theirs) in self.formats.iter_mut().zip(other.formats) {
            *mine += theirs;
        }
        self.finished += other.finished;
        self.unfinished += other.unfinished;
        for (number, count) in other.faults {
            *self.faults.entry(number).or_default() += count;
        }
    }

    fn text(&self) -> String {
        let mut text = String::new();
        let mut line = |count: u64, what: &str| text += &format!("{count:>9}  {what}\n");
        line(self.kinds.iter().sum(), "logs compared, of these made as");
        for (count, (_, name, _)) in self.kinds.iter().zip(KINDS) {
            line(*count, &format!("  {name}"));
        }
        line(self.finished + self.unfinished, "sheets");
        line(self.finished, "  of a finished match");
        line(self.unfinished, "  of an unfinished match");
        for (code, count) in self.formats.iter().enumerate() {
            let name = Format::from_code(code as u8).map_or("", Format::name);
            line(*count, &format!("  by format {code}, {name}"));
        }
        line(self.faults.values().sum(), "faults");
        for (number, count) in &self.faults {
            line(*count, &format!("  fault {number}"));
        }
        text
    }
}

/// A summary of the comparison, or what was different and where the log is.
pub fn with_program(program: &str, count: u64, seed: u64) -> Result<String, String> {
    let program = fs::canonicalize(program).map_err(|error| format!("{program}: {error}"))?;
    let next = AtomicU64::new(0);
    let stop = AtomicBool::new(false);
    let ended: Vec<Result<Counts, String>> = thread::scope(|scope| {
        let work = |worker| {
            let done = work_in_folder(worker, &program, count, seed, &next, &stop);
            if done.is_err() {
                stop.store(true, Ordering::Relaxed);
            }
            done
        };
        let workers: Vec<_> = (0..WORKERS)
            .map(|worker| scope.spawn(move || work(worker)))
            .collect();
        workers
            .into_iter()
            .map(|worker| worker.join().expect("a worker ended early"))
            .collect()
    });
    let mut counts = Counts::default();
    for done in ended {
        counts.add(done?);
    }
    Ok(counts.text() + "        0  differences\n")
}

fn work_in_folder(
    worker: usize,
    program: &Path,
    count: u64,
    seed: u64,
    next: &AtomicU64,
    stop: &AtomicBool,
) -> Result<Counts, String> {
    let folder = temporary(&format!("compare-{}-{worker}", std::process::id()));
    fs::create_dir(&folder).map_err(|error| format!("{}: {error}", folder.display()))?;
    let mut counts = Counts::default();
    let mut done = Ok(());
    while done.is_ok() && !stop.load(Ordering::Relaxed) {
        let index = next.fetch_add(1, Ordering::Relaxed);
        if index >= count {
            break;
        }
        let (kind, bytes) = random_logs::log(seed, index);
        let read = &bytes[..bytes.len().min(rally_log::MOST_BYTES)];
        let expected = sheet::printed(read);
        done = compare_one(program, &folder, &bytes, &expected).map_err(|why| {
            let kept = temporary(&format!("difference-{seed}-{index}.log"));
            let place = match fs::write(&kept, &bytes) {
                Ok(()) => kept.display().to_string(),
                Err(error) => format!("not kept, {error}"),
            };
            let kind = KINDS[kind].1;
            format!("log {index} of seed {seed} ({kind}): {place}\n{why}")
        });
        counts.note(kind, &bytes, &expected);
    }
    let removed = fs::remove_dir_all(&folder);
    done?;
    removed.map_err(|error| format!("{}: {error}", folder.display()))?;
    Ok(counts)
}

fn temporary(name: &str) -> PathBuf {
    std::env::temp_dir().join(name)
}

fn compare_one(program: &Path, folder: &Path, bytes: &[u8], expected: &str) -> Result<(), String> {
    fs::write(folder.join("rally.log"), bytes).map_err(|error| error.to_string())?;
    let ended = Command::new(program)
        .current_dir(folder)
        .output()
        .map_err(|error| error.to_string())?;
    if ended.status.success() && ended.stderr.is_empty() && ended.stdout == expected.as_bytes() {
        return Ok(());
    }
    Err(format!(
        "expected:\n{expected}the program ended with {} and wrote:\n{}{}",
        ended.status,
        String::from_utf8_lossy(&ended.stdout),
        String::from_utf8_lossy(&ended.stderr)
    ))
}
