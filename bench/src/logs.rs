//! The logs that are timed.

use reference::dice::Dice;
use reference::formats::{Format, Match};
use reference::rally_log::{self, Entry, RallyLog, MOST_ENTRIES};
use reference::side::Side;
use Side::{A, B};

/// Logs that are timed together, scored one after the other.
pub struct Item {
    pub name: String,
    pub logs: Vec<Vec<u8>>,
    pub entries: usize,
}

/// Items under a heading.
pub struct Group {
    pub heading: &'static str,
    pub items: Vec<Item>,
}

fn item(name: impl Into<String>, logs: Vec<RallyLog>) -> Item {
    Item {
        name: name.into(),
        entries: logs.iter().map(|log| log.entries.len()).sum(),
        logs: logs.iter().map(rally_log::write).collect(),
    }
}

pub fn all() -> Vec<Group> {
    let dice = &mut Dice::new(2024);
    vec![
        Group {
            heading: "30,000 entries",
            items: full(dice),
        },
        Group {
            heading: "the longest natural match of each format, with a let for every 20 points",
            items: natural(dice),
        },
        Group {
            heading: "short matches",
            items: vec![item(
                "1000 matches of all formats, each 5 to 60 entries",
                (0..1000).map(|_| short(dice)).collect(),
            )],
        },
    ]
}

/// The same kind of log, longer and longer.
pub fn growing() -> Vec<Item> {
    let dice = &mut Dice::new(2025);
    [3_000, 10_000, MOST_ENTRIES]
        .into_iter()
        .map(|entries| {
            let points = tennis5_of_long_games(dice, entries);
            item("tennis5, 65 long games", vec![log(2, points)])
        })
        .collect()
}

/// Logs as long as a log may be, without a fault.
fn full(dice: &mut Dice) -> Vec<Item> {
    let mut items = Vec::new();

    let points = tennis5_of_long_games(dice, MOST_ENTRIES);
    items.push(item(
        "tennis5, 65 games of 460 or 462 points",
        vec![log(2, points)],
    ));

    // Each set by love games to 6-6, so that nearly all is tie-break.
    let mut points = Vec::new();
    for (set, lost) in shares((MOST_ENTRIES - 5 * 48) / 2 - 5, 5)
        .into_iter()
        .enumerate()
    {
        points.extend((0..12).flat_map(|game| [turn(game); 4]));
        points.extend(two_ahead(dice, 7, turn(set), lost));
    }
    items.push(item(
        "tennis5, 5 tie-breaks of 5952 points",
        vec![log(2, points)],
    ));

    // By turns, so that nobody gets two ahead: the first game ends at 9999-9998.
    let points = (0..MOST_ENTRIES).map(turn).collect();
    items.push(item(
        "tennis5, points by turns: a game of 19997, and 10003 more",
        vec![log(2, points)],
    ));

    let mut points = Vec::new();
    for (set, lost) in shares(MOST_ENTRIES / 2 - 5, 5).into_iter().enumerate() {
        let enough = if set < 4 { 25 } else { 15 };
        points.extend(two_ahead(dice, enough, turn(set), lost));
    }
    items.push(item(
        "volleyball, 5 sets of 6000 points",
        vec![log(5, points)],
    ));

    let mut points = Vec::new();
    for (game, lost) in shares(MOST_ENTRIES / 2 - 5, 5).into_iter().enumerate() {
        points.extend(two_ahead(dice, 11, turn(game), lost));
    }
    items.push(item("table5, 5 games of 6000 points", vec![log(6, points)]));

    let points = sideout(dice, |_| 342);
    let filled = spread(dice, log(7, points), MOST_ENTRIES);
    items.push(item(
        "sideout, some 342 side-outs for a count",
        vec![filled],
    ));

    let points = tennis_sets(dice, 5);
    let filled = spread(dice, log(2, points), MOST_ENTRIES);
    items.push(item("tennis5, 97 of 100 entries lets", vec![filled]));

    items
}

/// As long as matches come to be: all the sets, and every game close.
fn natural(dice: &mut Dice) -> Vec<Item> {
    let game = two_ahead(dice, 4, A, 39);
    let tennis3 = tennis_sets(dice, 3);
    let tennis5 = tennis_sets(dice, 5);
    let mut tennismt = tennis_sets(dice, 2);
    tennismt.extend(two_ahead(dice, 10, A, 18));
    let mut badminton = Vec::new();
    for game in 0..3 {
        badminton.extend(dice.mixed(A, 20, 20));
        badminton.extend(pairs(dice, 9));
        badminton.push(turn(game));
    }
    let mut volleyball = Vec::new();
    let mut table5 = Vec::new();
    for set in 0..5 {
        let (enough, lost) = if set < 4 { (25, 33) } else { (15, 23) };
        volleyball.extend(two_ahead(dice, enough, turn(set), lost));
        table5.extend(two_ahead(dice, 11, turn(set), 18));
    }
    let sideout = sideout(dice, |dice| dice.below(9));
    let chosen = [
        ("game, 37 deuces", game),
        (
            "tennis3, 3 sets 7-6, games of 12 points, tie-breaks to 20-18",
            tennis3,
        ),
        (
            "tennis5, 5 sets 7-6, games of 12 points, tie-breaks to 20-18",
            tennis5,
        ),
        ("tennismt, 2 such sets, match tie-break 20-18", tennismt),
        ("badminton, 3 games to 30-29", badminton),
        ("volleyball, 4 sets to 35-33, the fifth 25-23", volleyball),
        ("table5, 5 games to 20-18", table5),
        (
            "sideout, 3 games to 15-14, some 4 side-outs for a count",
            sideout,
        ),
    ];
    let mut items = Vec::new();
    for (code, (name, points)) in chosen.into_iter().enumerate() {
        let entries = points.len() + points.len() / 20;
        let filled = spread(dice, log(code as u8, points), entries);
        items.push(item(name, vec![filled]));
    }
    items
}

/// A match of any format, 5 to 60 entries, often not at its end.
fn short(dice: &mut Dice) -> RallyLog {
    let format = Format::from_code(dice.below(8) as u8).unwrap();
    let opener = dice.side();
    let length = 5 + dice.below(56);
    let mut game = Match::open(format, opener);
    let mut entries = Vec::new();
    while entries.len() < length && (game.winner().is_none() || entries.len() < 5) {
        let side = dice.side();
        if game.winner().is_some() || dice.percent(5) {
            entries.push(Entry::Let);
        } else {
            game.point(side);
            entries.push(Entry::Point(side));
        }
    }
    RallyLog {
        number: dice.below(65_536) as u16,
        format,
        opener,
        entries,
    }
}

fn log(code: u8, points: Vec<Side>) -> RallyLog {
    RallyLog {
        number: 1000 + u16::from(code),
        format: Format::from_code(code).unwrap(),
        opener: A,
        entries: points.into_iter().map(Entry::Point).collect(),
    }
}

/// The log with lets at random places, so that it has so many entries.
fn spread(dice: &mut Dice, mut log: RallyLog, entries: usize) -> RallyLog {
    let mut points = log.entries.len();
    let mut lets = entries - points;
    let mut mixed = Vec::with_capacity(entries);
    for entry in log.entries {
        while dice.below(points + lets) < lets {
            mixed.push(Entry::Let);
            lets -= 1;
        }
        mixed.push(entry);
        points -= 1;
    }
    mixed.resize(entries, Entry::Let);
    log.entries = mixed;
    log
}

/// A total in so many parts, as equal as can be.
fn shares(total: usize, parts: usize) -> Vec<usize> {
    (0..parts)
        .map(|part| total / parts + usize::from(part < total % parts))
        .collect()
}

/// A and B by turns.
fn turn(index: usize) -> Side {
    if index % 2 == 0 {
        A
    } else {
        B
    }
}

/// One point for each side, so many times, in either order.
fn pairs(dice: &mut Dice, count: usize) -> Vec<Side> {
    (0..count).flat_map(|_| dice.mixed(A, 1, 1)).collect()
}

/// Points of a game that is won with two ahead and at least `enough`, the
/// loser having `lost`, which is no less than `enough` - 1.
fn two_ahead(dice: &mut Dice, enough: usize, winner: Side, lost: usize) -> Vec<Side> {
    let mut points = dice.mixed(A, enough - 1, enough - 1);
    points.extend(pairs(dice, lost + 1 - enough));
    points.extend([winner; 2]);
    points
}

/// Sets to 7-6, won by turns: games of 3 deuces, tie-breaks to 20-18.
fn tennis_sets(dice: &mut Dice, sets: usize) -> Vec<Side> {
    let mut points = Vec::new();
    for set in 0..sets {
        for game in 0..12 {
            points.extend(two_ahead(dice, 4, turn(game), 5));
        }
        points.extend(two_ahead(dice, 7, turn(set), 18));
    }
    points
}

/// Five sets of twelve games and a tie-break each, all about as long, with so
/// many points together.
fn tennis5_of_long_games(dice: &mut Dice, entries: usize) -> Vec<Side> {
    let mut points = Vec::new();
    for (index, lost) in shares(entries / 2 - 65, 65).into_iter().enumerate() {
        let (set, game) = (index / 13, index % 13);
        points.extend(if game < 12 {
            two_ahead(dice, 4, turn(game), lost)
        } else {
            two_ahead(dice, 7, turn(set), lost)
        });
    }
    points
}

/// Three games to 15-14, with about so many side-outs before each count.
fn sideout(dice: &mut Dice, mut side_outs: impl FnMut(&mut Dice) -> usize) -> Vec<Side> {
    let mut game = Match::open(Format::SideOut, A);
    let mut points = Vec::new();
    for number in 0..3 {
        let mut counts = dice.mixed(A, 14, 14);
        counts.push(turn(number));
        for counted in counts {
            let mut left = side_outs(dice);
            // One more where the other side would be serving.
            while left > 0 || game.server() != counted {
                let side = game.server().other();
                game.point(side);
                points.push(side);
                left = left.saturating_sub(1);
            }
            game.point(counted);
            points.push(counted);
        }
    }
    points
}
