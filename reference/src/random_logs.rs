//! Random rally logs, valid and damaged.

use crate::dice::Dice;
use crate::formats::{Format, Match};
use crate::rally_log::{self, Entry, RallyLog};
use crate::side::{Side, Tally};

/// What a log was made to be.
#[derive(Clone, Copy, PartialEq, Eq, Debug)]
pub enum Kind {
    Finished,
    FinishedWithLets,
    Unfinished,
    UnfinishedWithLets,
    PointsAfterTheEnd,
    Long,
    BytesChanged,
    BytesCut,
    BytesInserted,
    OutOfOrder,
    CodeAboveSeven,
    Noise,
    Empty,
}

/// Each kind, its name, and how many of a thousand logs are of it.
pub const KINDS: [(Kind, &str, usize); 13] = [
    (Kind::Finished, "finished", 160),
    (Kind::FinishedWithLets, "finished, with lets", 160),
    (Kind::Unfinished, "unfinished", 140),
    (Kind::UnfinishedWithLets, "unfinished, with lets", 160),
    (Kind::PointsAfterTheEnd, "points after the end", 90),
    (Kind::Long, "as long as a log may be, or longer", 4),
    (Kind::BytesChanged, "bytes changed", 90),
    (Kind::BytesCut, "cut", 60),
    (Kind::BytesInserted, "bytes inserted", 50),
    (Kind::OutOfOrder, "records out of order", 40),
    (Kind::CodeAboveSeven, "code above 7", 20),
    (Kind::Noise, "only noise", 20),
    (Kind::Empty, "empty", 6),
];

/// The log of a seed and a place in the row of logs.
pub fn log(seed: u64, index: u64) -> (usize, Vec<u8>) {
    // Far enough apart that the rows of neighbouring seeds share nothing.
    let mut dice = Dice::new(seed.wrapping_mul(0xD134_2543_DE82_EF95) ^ (index << 20));
    let mut rest = dice.below(1000);
    let mut chosen = 0;
    while rest >= KINDS[chosen].2 {
        rest -= KINDS[chosen].2;
        chosen += 1;
    }
    (chosen, of_kind(&mut dice, KINDS[chosen].0))
}

fn of_kind(dice: &mut Dice, kind: Kind) -> Vec<u8> {
    match kind {
        Kind::Finished => rally_log::write(&finished(dice)),
        Kind::FinishedWithLets => {
            let log = finished(dice);
            rally_log::write(&with_lets(dice, log))
        }
        Kind::Unfinished => rally_log::write(&unfinished(dice)),
        Kind::UnfinishedWithLets => {
            let log = unfinished(dice);
            rally_log::write(&with_lets(dice, log))
        }
        Kind::PointsAfterTheEnd => {
            let mut log = finished(dice);
            if dice.percent(50) {
                log = with_lets(dice, log);
            }
            for _ in 0..1 + dice.below(4) {
                log.entries.push(Entry::Point(dice.side()));
            }
            rally_log::write(&log)
        }
        Kind::Long => long(dice),
        Kind::BytesChanged => {
            let mut bytes = undamaged(dice);
            for _ in 0..1 + dice.below(3) {
                let place = near_the_start_or_any(dice, bytes.len());
                bytes[place] = any_byte(dice);
            }
            bytes
        }
        Kind::BytesCut => {
            let mut bytes = undamaged(dice);
            let kept = near_the_start_or_any(dice, bytes.len());
            bytes.truncate(kept);
            bytes
        }
        Kind::BytesInserted => {
            let mut bytes = undamaged(dice);
            for _ in 0..1 + dice.below(3) {
                let place = near_the_start_or_any(dice, bytes.len() + 1);
                bytes.insert(place, any_byte(dice));
            }
            bytes
        }
        Kind::OutOfOrder => out_of_order(dice),
        Kind::CodeAboveSeven => {
            let mut bytes = undamaged(dice);
            bytes[3] = 8 + dice.below(248) as u8;
            bytes
        }
        Kind::Noise => (0..1 + dice.below(40)).map(|_| any_byte(dice)).collect(),
        Kind::Empty => Vec::new(),
    }
}

fn any_format(dice: &mut Dice) -> Format {
    Format::from_code(dice.below(8) as u8).unwrap()
}

fn any_number(dice: &mut Dice) -> u16 {
    let edges = [0, 9, 10, 99, 100, 255, 256, 999, 1000, 9999, 10_000, 65_535];
    if dice.percent(25) {
        edges[dice.below(edges.len())]
    } else {
        dice.below(65_536) as u16
    }
}

/// A byte that a log has, or any at all.
fn any_byte(dice: &mut Dice) -> u8 {
    let known = b"MPLAB\x00\x07\x08";
    if dice.percent(60) {
        known[dice.below(known.len())]
    } else {
        dice.below(256) as u8
    }
}

fn near_the_start_or_any(dice: &mut Dice, length: usize) -> usize {
    if dice.percent(30) {
        dice.below(length.min(8))
    } else {
        dice.below(length)
    }
}

fn undamaged(dice: &mut Dice) -> Vec<u8> {
    let mut log = if dice.percent(60) {
        finished(dice)
    } else {
        unfinished(dice)
    };
    if dice.percent(50) {
        log = with_lets(dice, log);
    }
    rally_log::write(&log)
}

/// How the rallies of a match are given out.
enum Style {
    /// A wins so many of a hundred.
    Leaning(usize),
    /// The server wins so many of a hundred.
    Serving(usize),
    /// The side that is behind at a depth wins so many of a hundred.
    Close(usize, usize),
}

fn any_style(dice: &mut Dice) -> Style {
    match dice.below(4) {
        0 => Style::Leaning(20 + dice.below(61)),
        1 => Style::Serving(25 + dice.below(51)),
        _ => Style::Close(dice.below(3), 50 + dice.below(36)),
    }
}

fn next_winner(dice: &mut Dice, style: &Style, game: &Match) -> Side {
    match *style {
        Style::Leaning(for_a) => one_of(dice, Side::A, for_a),
        Style::Serving(for_server) => one_of(dice, game.server(), for_server),
        Style::Close(depth, for_behind) => {
            let levels = game.levels();
            let level = &levels[depth.min(levels.len() - 1)];
            match behind(&level.tally) {
                Some(side) if level.winner.is_none() => one_of(dice, side, for_behind),
                _ => dice.side(),
            }
        }
    }
}

fn one_of(dice: &mut Dice, side: Side, chance: usize) -> Side {
    if dice.percent(chance) {
        side
    } else {
        side.other()
    }
}

fn behind(tally: &Tally) -> Option<Side> {
    if tally.a == tally.b {
        None
    } else if tally.a < tally.b {
        Some(Side::A)
    } else {
        Some(Side::B)
    }
}

/// A log of a match played to its end, without lets.
fn finished(dice: &mut Dice) -> RallyLog {
    let format = any_format(dice);
    let opener = dice.side();
    let style = any_style(dice);
    let mut game = Match::open(format, opener);
    let mut entries = Vec::new();
    while game.winner().is_none() {
        let side = next_winner(dice, &style, &game);
        game.point(side);
        entries.push(Entry::Point(side));
    }
    RallyLog {
        number: any_number(dice),
        format,
        opener,
        entries,
    }
}

/// A log that ends before the last point, often right where something has
/// just been won.
fn unfinished(dice: &mut Dice) -> RallyLog {
    let mut log = finished(dice);
    let mut kept = dice.below(log.entries.len());
    if dice.percent(35) {
        let ends = ends_before_the_last(&log);
        if !ends.is_empty() {
            kept = ends[dice.below(ends.len())];
        }
    }
    log.entries.truncate(kept);
    log
}

/// After how many points something was won, the end of the match left out.
fn ends_before_the_last(log: &RallyLog) -> Vec<usize> {
    let mut game = Match::open(log.format, log.opener);
    let mut ends = Vec::new();
    for (index, entry) in log.entries.iter().enumerate() {
        if let Entry::Point(side) = entry {
            game.point(*side);
        }
        let won = game.levels().iter().any(|level| level.winner.is_some());
        if won && game.winner().is_none() {
            ends.push(index + 1);
        }
    }
    ends
}

/// The log with at least one let in it.
fn with_lets(dice: &mut Dice, mut log: RallyLog) -> RallyLog {
    let chance = 1 + dice.below(25);
    let mut entries = Vec::new();
    for entry in log.entries {
        while dice.percent(chance) {
            entries.push(Entry::Let);
        }
        entries.push(entry);
    }
    for _ in 0..1 + dice.below(3) {
        entries.push(Entry::Let);
    }
    log.entries = entries;
    log
}

/// Around the 30,000 entries that are taken of a log, and around the 9,999
/// points that end a game nobody gets two ahead in.
fn long(dice: &mut Dice) -> Vec<u8> {
    let format = any_format(dice);
    let opener = dice.side();
    let mut entries = Vec::new();
    match dice.below(3) {
        0 => {
            entries.resize(29_990 + dice.below(20), Entry::Let);
            for _ in 0..dice.below(4) {
                entries.push(Entry::Point(dice.side()));
            }
        }
        1 => {
            // By turns, beginning with the receiver: in the side-out game
            // nothing is ever scored.
            for index in 0..29_990 + dice.below(20) {
                let side = if index % 2 == 0 {
                    opener.other()
                } else {
                    opener
                };
                entries.push(Entry::Point(side));
            }
        }
        _ => {
            // Up to about the longest game, the last points at random.
            for _ in 0..9_990 + dice.below(9) {
                let side = dice.side();
                entries.push(Entry::Point(side));
                entries.push(Entry::Point(side.other()));
            }
            for _ in 0..dice.below(30) {
                entries.push(Entry::Point(dice.side()));
            }
        }
    }
    let mut bytes = rally_log::write(&RallyLog {
        number: any_number(dice),
        format,
        opener,
        entries,
    });
    if dice.percent(30) {
        bytes.push(any_byte(dice));
    }
    bytes
}

/// The records of a log with some of them moved, the header perhaps too.
fn out_of_order(dice: &mut Dice) -> Vec<u8> {
    let bytes = undamaged(dice);
    let mut records: Vec<&[u8]> = vec![&bytes[..5]];
    let mut rest = &bytes[5..];
    while !rest.is_empty() {
        let (record, after) = rest.split_at(if rest[0] == b'P' { 2 } else { 1 });
        records.push(record);
        rest = after;
    }
    let count = records.len();
    if dice.percent(50) {
        // The header somewhere else, or there a second time.
        let to = dice.below(count);
        let header = records[0];
        if dice.percent(50) {
            records.remove(0);
        }
        records.insert(to, header);
    }
    for _ in 0..1 + dice.below(5) {
        let from = dice.below(records.len());
        let to = dice.below(records.len());
        records.swap(from, to);
    }
    records.concat()
}

#[cfg(test)]
mod tests {
    use super::*;
    use crate::sheet;

    #[test]
    fn the_kinds_add_up() {
        assert_eq!(KINDS.iter().map(|kind| kind.2).sum::<usize>(), 1000);
    }

    #[test]
    fn a_place_has_one_log() {
        assert_eq!(log(3, 17), log(3, 17));
        assert_ne!(log(3, 17), log(4, 17));
    }

    #[test]
    fn logs_are_what_they_were_made_to_be() {
        for index in 0..3_000 {
            let (chosen, bytes) = log(1, index);
            let text = sheet::printed(&bytes);
            let last = text.lines().last().unwrap();
            match KINDS[chosen].0 {
                Kind::Finished => assert!(last.starts_with("won") && text.contains("lets 0\n")),
                Kind::FinishedWithLets => {
                    assert!(last.starts_with("won") && !text.contains("lets 0\n"))
                }
                Kind::Unfinished => {
                    assert!(last.starts_with("serves") && text.contains("lets 0\n"))
                }
                Kind::UnfinishedWithLets => {
                    assert!(last.starts_with("serves") && !text.contains("lets 0\n"))
                }
                Kind::PointsAfterTheEnd => assert!(text.starts_with("fault 14 at ")),
                Kind::CodeAboveSeven => assert_eq!(text, "fault 13 at 0\n"),
                Kind::Empty => assert_eq!(text, "fault 11 at 0\n"),
                _ => {}
            }
        }
    }
}
