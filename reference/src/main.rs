//! The program: sheets, tables and logs, and comparing a program with them.

use reference::{compare, formats, generate, rally_log, replay, sheet, side};
use std::fs::File;
use std::io::{self, Read, Write};
use std::process::ExitCode;

const USAGE: &str = "usage:
  reference sheet FILE                      score sheet of a rally log
  reference replay < TABLE                  what became of each match of a table
  reference gen SEED                        a table of matches
  reference log NAME NUMBER OPENER POINTS   bytes of a rally log (A, B, L)
  reference compare PROGRAM COUNT SEED      holds a program to random logs";

fn main() -> ExitCode {
    let words: Vec<String> = std::env::args().skip(1).collect();
    let words: Vec<&str> = words.iter().map(String::as_str).collect();
    let done = match words.as_slice() {
        ["sheet", path] => sheet_of_file(path),
        ["replay"] => replay_input(),
        ["gen", seed] => table_for(seed),
        ["log", name, number, opener, points] => log_bytes(name, number, opener, points),
        ["compare", program, count, seed] => comparison(program, count, seed),
        _ => Err(USAGE.to_string()),
    };
    let written = done.and_then(|bytes| {
        let mut out = io::stdout().lock();
        out.write_all(&bytes)
            .and_then(|()| out.flush())
            .map_err(|error| error.to_string())
    });
    match written {
        Ok(()) => ExitCode::SUCCESS,
        Err(why) => {
            eprintln!("{why}");
            ExitCode::FAILURE
        }
    }
}

/// A fault in the log is an answer like any other and goes to the output.
fn sheet_of_file(path: &str) -> Result<Vec<u8>, String> {
    let bytes = match File::open(path) {
        Ok(file) => {
            let mut bytes = Vec::new();
            file.take(rally_log::MOST_BYTES as u64)
                .read_to_end(&mut bytes)
                .map_err(|error| format!("{path}: {error}"))?;
            bytes
        }
        // A missing file is an empty one.
        Err(error) if error.kind() == io::ErrorKind::NotFound => Vec::new(),
        Err(error) => return Err(format!("{path}: {error}")),
    };
    Ok(sheet::printed(&bytes).into_bytes())
}

fn replay_input() -> Result<Vec<u8>, String> {
    let mut text = String::new();
    io::stdin()
        .read_to_string(&mut text)
        .map_err(|error| error.to_string())?;
    Ok(replay::table(&text)?.into_bytes())
}

fn whole_number(name: &str, text: &str) -> Result<u64, String> {
    text.parse()
        .map_err(|_| format!("the {name} is not a whole number"))
}

fn table_for(seed: &str) -> Result<Vec<u8>, String> {
    Ok(generate::table(whole_number("seed", seed)?).into_bytes())
}

fn comparison(program: &str, count: &str, seed: &str) -> Result<Vec<u8>, String> {
    let count = whole_number("count", count)?;
    let seed = whole_number("seed", seed)?;
    Ok(compare::with_program(program, count, seed)?.into_bytes())
}

fn log_bytes(name: &str, number: &str, opener: &str, points: &str) -> Result<Vec<u8>, String> {
    let format = formats::Format::from_name(name).ok_or(format!("no format is called {name}"))?;
    let number = number
        .parse()
        .map_err(|_| "the match number is not from 0 to 65535".to_string())?;
    let opener = replay::parse_side(opener).ok_or("the opener is not A or B")?;
    let mut entries = Vec::new();
    for byte in points.bytes() {
        entries.push(match byte {
            b'A' => rally_log::Entry::Point(side::Side::A),
            b'B' => rally_log::Entry::Point(side::Side::B),
            b'L' => rally_log::Entry::Let,
            _ => return Err("the points are not all A, B or L".to_string()),
        });
    }
    Ok(rally_log::write(&rally_log::RallyLog {
        number,
        format,
        opener,
        entries,
    }))
}
