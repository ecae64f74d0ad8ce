//! Both scorers must answer the same, and the exported one must keep to the
//! bytes that it is lent.

use crate::exported::{self, Answer};
use reference::rally_log::DOES_NOT_FIT;
use reference::{random_logs, sheet};

/// What the lent bytes hold before a call.
const BEFORE: u8 = 0xA5;

/// How many random logs are compared, valid and damaged.
const RANDOM: u64 = 5_000;

/// Compares on the log, on damaged copies of it, and counts them.
pub fn on_log_and_copies(log: &[u8], lent: &mut [u8]) -> Result<usize, String> {
    let middle = 5 + (log.len() - 5) / 2;
    let mut copies = vec![
        log.to_vec(),
        log[..middle].to_vec(),
        log[..log.len() - 1].to_vec(),
    ];
    for (place, byte) in [
        (0, b'P'),
        (3, 8),
        (4, b'L'),
        (middle, b'M'),
        (log.len() - 1, b'X'),
    ] {
        let mut copy = log.to_vec();
        copy[place] = byte;
        copies.push(copy);
    }
    for tail in ["L", "PA", "PB", "P", "X", "LLPALPB"] {
        copies.push([log, tail.as_bytes()].concat());
    }
    for copy in &copies {
        on_log(copy, lent)?;
    }
    Ok(copies.len())
}

/// Compares on random logs, and counts them.
pub fn on_random_logs(lent: &mut [u8]) -> Result<usize, String> {
    for index in 0..RANDOM {
        on_log(&random_logs::log(1, index).1, lent)?;
    }
    Ok(RANDOM as usize)
}

fn on_log(log: &[u8], lent: &mut [u8]) -> Result<(), String> {
    let plain = sheet::of_bytes(log);
    let expected = match &plain {
        Ok(text) => Answer {
            length: text.len(),
            place: 0,
            fault: 0,
            winner: winner(text),
        },
        Err(fault) => refused(fault.number, fault.place),
    };
    let text = plain.unwrap_or_default();
    answers(log, lent, expected, &text)?;
    if expected.fault == 0 {
        // Just enough bytes, and one too few.
        answers(log, &mut lent[..text.len()], expected, &text)?;
        answers(
            log,
            &mut lent[..text.len() - 1],
            refused(DOES_NOT_FIT, 0),
            "",
        )?;
    }
    Ok(())
}

fn refused(number: u32, place: usize) -> Answer {
    Answer {
        length: 0,
        place,
        fault: number as u8,
        winner: 0,
    }
}

/// The winner that the last line of a sheet names, or 0.
fn winner(text: &str) -> u8 {
    let last = text.lines().last().unwrap_or("");
    last.strip_prefix("won ")
        .map_or(0, |side| side.as_bytes()[0])
}

/// The exported scorer gives this answer, and of the lent bytes changes those
/// of the sheet only.
fn answers(log: &[u8], lent: &mut [u8], expected: Answer, text: &str) -> Result<(), String> {
    lent.fill(BEFORE);
    let answer = exported::sheet(log, lent);
    let (written, rest) = lent.split_at(text.len());
    if answer == expected && written == text.as_bytes() && rest.iter().all(|&b| b == BEFORE) {
        return Ok(());
    }
    let length = answer.length.min(lent.len());
    let kept = std::env::temp_dir().join("bench-difference.log");
    let place = match std::fs::write(&kept, log) {
        Ok(()) => kept.display().to_string(),
        Err(error) => format!("not kept, {error}"),
    };
    Err(format!(
        "the scorers differ, or a byte was changed that is not the sheet's; the log: {place}\n\
         lent bytes: {}\nexpected: {expected:?}\n{text}exported: {answer:?}\n{}",
        lent.len(),
        String::from_utf8_lossy(&lent[..length])
    ))
}
