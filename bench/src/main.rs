//! Times the exported scorer and the plain one on the same logs, by turns:
//! bench [ROUNDS]. Both go from the bytes of a log to the bytes of its sheet.
//! Ends with status 1 if they differ on a log; how long they take does not
//! matter for that.

mod agreement;
mod exported;
mod logs;
mod timing;

use logs::Item;
use std::hint::black_box;
use std::process::ExitCode;
use timing::Timed;

/// Bytes lent to the exported scorer, once for all calls.
const LENT: usize = 65_536;

fn main() -> ExitCode {
    let words: Vec<String> = std::env::args().skip(1).collect();
    let rounds = match words.as_slice() {
        [] => Some(31),
        [word] => word.parse().ok().filter(|&rounds| rounds > 0),
        _ => None,
    };
    let Some(rounds) = rounds else {
        eprintln!("usage: bench [ROUNDS]");
        return ExitCode::from(2);
    };
    match run(rounds) {
        Ok(()) => ExitCode::SUCCESS,
        Err(why) => {
            eprintln!("{why}");
            ExitCode::FAILURE
        }
    }
}

fn run(rounds: usize) -> Result<(), String> {
    let mut lent = vec![0; LENT];
    let groups = logs::all();
    let growing = logs::growing();

    let mut compared = agreement::on_random_logs(&mut lent)?;
    let items = groups.iter().flat_map(|group| &group.items);
    for log in items.chain(&growing).flat_map(|item| &item.logs) {
        if reference::sheet::of_bytes(log).is_err() {
            return Err("a log to be timed has a fault".to_string());
        }
        compared += agreement::on_log_and_copies(log, &mut lent)?;
    }
    println!("{compared} logs compared, valid and damaged: no difference");
    println!();
    println!("Processor time from the bytes of a log to the bytes of its sheet, median of {rounds} rounds.");
    println!("Ratio: exported by plain, taken in each round; below 1 the exported scorer is the quicker one.");

    let mut slower = Vec::new();
    println!();
    columns();
    for group in &groups {
        println!("{}", group.heading);
        for item in &group.items {
            let timed = timed(item, &mut lent, rounds);
            line(item, &timed, "us", 1e3);
            if timed.ratio.median() > 1.0 {
                slower.push(&item.name);
            }
        }
    }
    println!("growth: time for each entry");
    for item in &growing {
        let timed = timed(item, &mut lent, rounds);
        line(item, &timed, "ns", item.entries as f64);
    }

    println!();
    let all: usize = groups.iter().map(|group| group.items.len()).sum();
    println!(
        "The exported scorer is slower on {} of {all} items.",
        slower.len()
    );
    for name in slower {
        println!("  {name}");
    }
    Ok(())
}

fn timed(item: &Item, lent: &mut [u8], rounds: usize) -> Timed {
    let mut plain = || {
        for log in &item.logs {
            drop(black_box(reference::sheet::of_bytes(black_box(log))));
        }
    };
    let mut exported = || {
        for log in &item.logs {
            black_box(exported::sheet(black_box(log), black_box(lent)));
        }
    };
    timing::by_turns(&mut plain, &mut exported, rounds)
}

fn columns() {
    println!(
        "{:<64}{:>8}{:>11}{:>12}{:>8}   {:<15}smallest, largest",
        "", "entries", "plain", "exported", "ratio", "its quartiles"
    );
}

/// A line of the table, the times in a unit of so many nanoseconds.
fn line(item: &Item, timed: &Timed, unit: &str, size: f64) {
    let ratio = |parts| timed.ratio.quarter(parts);
    let quartiles = format!("{:.2} - {:.2}", ratio(1), ratio(3));
    println!(
        "  {:<62}{:>8}{:>8.2} {unit}{:>9.2} {unit}{:>8.2}   {quartiles:<15}{:.2} - {:.2}",
        item.name,
        item.entries,
        timed.plain.median() / size,
        timed.exported.median() / size,
        ratio(2),
        ratio(0),
        ratio(4),
    );
}
