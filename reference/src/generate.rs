//! Makes a table of matches: cases from the rule books, and matches made up
//! with a small random number generator, so that one seed always gives the
//! same table.

use crate::dice::Dice;
use crate::formats::{Format, Match};
use crate::side::Side;
use Side::{A, B};

fn letters(sides: &[Side]) -> String {
    sides.iter().map(|side| side.letter()).collect()
}

/// Points of a game that the winner takes with `enough` points and two ahead,
/// the loser having `lost` in the end.
fn two_ahead(dice: &mut Dice, enough: usize, winner: Side, lost: usize) -> String {
    if lost + 2 <= enough {
        let before = dice.mixed(winner, enough - 1, lost);
        return letters(&before) + &letters(&[winner]);
    }
    let mut points = letters(&dice.mixed(winner, enough - 1, enough - 1));
    for _ in enough - 1..lost {
        // One each, so that neither gets two ahead.
        points += &letters(&dice.mixed(winner, 1, 1));
    }
    points + &letters(&[winner, winner])
}

/// A badminton game that goes to 29 all and is won 30-29.
fn thirty_twenty_nine(dice: &mut Dice, winner: Side) -> String {
    let mut points = letters(&dice.mixed(winner, 20, 20));
    for _ in 20..29 {
        points += &letters(&dice.mixed(winner, 1, 1));
    }
    points + &letters(&[winner])
}

fn tennis_game(dice: &mut Dice, winner: Side) -> String {
    let lost = dice.below(6);
    two_ahead(dice, 4, winner, lost)
}

fn tennis_games(dice: &mut Dice, winners: &[Side]) -> String {
    winners
        .iter()
        .map(|&side| tennis_game(dice, side))
        .collect()
}

/// A set won 6-0 to 6-4, or 7-5 if the loser has five games.
fn tennis_set(dice: &mut Dice, winner: Side, lost: usize) -> String {
    let mut order = dice.mixed(winner, 5, lost);
    order.push(winner);
    if lost == 5 {
        order.push(winner);
    }
    tennis_games(dice, &order)
}

/// The twelve games up to six all.
fn six_games_all(dice: &mut Dice) -> String {
    let mut order = dice.mixed(A, 5, 5);
    order.extend(dice.mixed(A, 1, 1));
    tennis_games(dice, &order)
}

/// A set won 7-6, the loser of the tie-break having `lost` points in it.
fn tie_break_set(dice: &mut Dice, winner: Side, lost: usize) -> String {
    six_games_all(dice) + &two_ahead(dice, 7, winner, lost)
}

/// A whole match in which A wins so many of a hundred rallies.
fn leaning(dice: &mut Dice, format: Format, opener: Side, for_a: usize) -> String {
    let mut game = Match::open(format, opener);
    let mut points = String::new();
    while game.winner().is_none() {
        let side = if dice.percent(for_a) { A } else { B };
        game.point(side);
        points.push(side.letter());
    }
    points
}

/// A whole match in which the server wins so many of a hundred rallies.
fn serving(dice: &mut Dice, format: Format, opener: Side, for_server: usize) -> String {
    let mut game = Match::open(format, opener);
    let mut points = String::new();
    while game.winner().is_none() {
        let server = game.server();
        let side = if dice.percent(for_server) {
            server
        } else {
            server.other()
        };
        game.point(side);
        points.push(side.letter());
    }
    points
}

/// The first part of a match, ended before its last point.
fn broken_off(dice: &mut Dice, points: &str) -> String {
    let half = points.len() / 2;
    let kept = half + dice.below(points.len() - half);
    points[..kept].to_string()
}

/// A few points more than were played.
fn and_more(dice: &mut Dice, points: &str) -> String {
    let mut all = points.to_string();
    for _ in 0..1 + dice.below(5) {
        all.push(dice.side().letter());
    }
    all
}

struct Table {
    text: String,
}

impl Table {
    fn add(&mut self, format: Format, opener: Side, points: &str) {
        self.text += &format!("{} {} {}\n", format.name(), opener.letter(), points);
    }
}

/// The whole table for a seed.
pub fn table(seed: u64) -> String {
    let mut dice = Dice::new(seed);
    let mut table = Table {
        text: String::new(),
    };
    games(&mut dice, &mut table);
    tennis_best_of_three(&mut dice, &mut table);
    tennis_best_of_five(&mut dice, &mut table);
    tennis_with_match_tie_break(&mut dice, &mut table);
    badminton(&mut dice, &mut table);
    volleyball(&mut dice, &mut table);
    table_tennis(&mut dice, &mut table);
    side_out(&mut dice, &mut table);
    table.text
}

fn games(dice: &mut Dice, table: &mut Table) {
    let format = Format::Game;
    // To love, by the server and by the receiver, and points too many.
    table.add(format, A, "AAAA");
    table.add(format, A, "BBBBAB");
    // 3-3 is deuce; 4-3 is open, 5-3 is won.
    table.add(format, A, "ABABABA");
    table.add(format, B, "ABABABAA");
    let deuces = two_ahead(dice, 4, B, 9);
    table.add(format, A, &deuces);
    let random = leaning(dice, format, B, 50);
    table.add(format, B, &and_more(dice, &random));
}

fn tennis_best_of_three(dice: &mut Dice, table: &mut Table) {
    let format = Format::Tennis3;
    // Every game to love for its server up to six all.
    let six_all = "AAAABBBB".repeat(6);
    // A tie-break at 7-6 is open; at 8-6 it is won, and the side that
    // received first in it serves first in the next set.
    table.add(format, A, &format!("{six_all}ABABABABABABA"));
    table.add(format, A, &format!("{six_all}ABABABABABABAA"));
    table.add(format, A, &format!("{six_all}ABABABABABABAABBBBAA"));
    // 6-5 in games is open, 7-5 is won.
    let six_five = "BBBBAAAA".repeat(5) + "AAAA";
    table.add(format, B, &six_five);
    table.add(format, B, &format!("{six_five}AAAAB"));
    // Two straight sets, without the loss of a point and otherwise.
    table.add(format, A, &"AAAA".repeat(12));
    let straight = tennis_set(dice, B, 3) + &tennis_set(dice, B, 5);
    table.add(format, B, &straight);
    // Three tie-breaks, all past 7-6.
    let long = tie_break_set(dice, A, 7) + &tie_break_set(dice, B, 6) + &tie_break_set(dice, A, 10);
    table.add(format, A, &long);
    table.add(format, B, &and_more(dice, &long));
    let random = leaning(dice, format, B, 50);
    table.add(format, B, &random);
    let random = serving(dice, format, A, 65);
    table.add(format, A, &broken_off(dice, &random));
}

fn tennis_best_of_five(dice: &mut Dice, table: &mut Table) {
    let format = Format::Tennis5;
    let straight = tennis_set(dice, A, 0) + &tennis_set(dice, A, 1) + &tennis_set(dice, A, 4);
    table.add(format, B, &straight);
    let five_sets = tennis_set(dice, A, 3)
        + &tie_break_set(dice, B, 8)
        + &tie_break_set(dice, A, 5)
        + &tennis_set(dice, B, 5)
        + &tie_break_set(dice, B, 12);
    table.add(format, A, &five_sets);
    table.add(format, B, &and_more(dice, &five_sets));
    let served = serving(dice, format, B, 75);
    table.add(format, B, &served);
    let random = leaning(dice, format, A, 52);
    table.add(format, A, &broken_off(dice, &random));
}

fn tennis_with_match_tie_break(dice: &mut Dice, table: &mut Table) {
    let format = Format::TennisMt;
    // 6-1 and 1-6 to love: after fourteen games A opens the match tie-break.
    // 10-9 is open, 11-9 is won.
    let one_all = "BBBB".to_string() + &"AAAA".repeat(6) + "AAAA" + &"BBBB".repeat(6);
    table.add(format, A, &one_all);
    table.add(format, A, &format!("{one_all}ABBAABBAABBAABBAABA"));
    table.add(format, A, &format!("{one_all}ABBAABBAABBAABBAABAA"));
    let straight = tennis_set(dice, A, 2) + &tie_break_set(dice, A, 6);
    table.add(format, B, &and_more(dice, &straight));
    // After an odd number of games the other side opens it.
    let past = tie_break_set(dice, B, 7) + &tennis_set(dice, A, 4) + &two_ahead(dice, 10, B, 13);
    table.add(format, A, &past);
    table.add(format, B, &and_more(dice, &past));
    let served = serving(dice, format, B, 60);
    table.add(format, B, &served);
    let decided = tennis_set(dice, A, 5) + &tennis_set(dice, B, 4) + &two_ahead(dice, 10, A, 8);
    table.add(format, B, &decided);
}

fn badminton(dice: &mut Dice, table: &mut Table) {
    let format = Format::Badminton;
    // 21-20 is open, 22-20 is won; 29 all is open, 30-29 is won.
    let twenty_all = "AB".repeat(20);
    table.add(format, A, &format!("{twenty_all}A"));
    table.add(format, A, &format!("{twenty_all}AA"));
    let twenty_nine_all = "BA".repeat(29);
    table.add(format, B, &twenty_nine_all);
    table.add(format, B, &format!("{twenty_nine_all}BA"));
    let straight = two_ahead(dice, 21, B, 12) + &two_ahead(dice, 21, B, 19);
    table.add(format, A, &straight);
    let long =
        thirty_twenty_nine(dice, A) + &thirty_twenty_nine(dice, B) + &thirty_twenty_nine(dice, A);
    table.add(format, A, &and_more(dice, &long));
    let random = leaning(dice, format, B, 50);
    table.add(format, B, &random);
}

fn volleyball(dice: &mut Dice, table: &mut Table) {
    let format = Format::Volleyball;
    // 25-24 is open, 26-24 is won, and the second set is opened by B.
    let twenty_four_all = "AB".repeat(24);
    table.add(format, A, &format!("{twenty_four_all}A"));
    table.add(format, A, &format!("{twenty_four_all}AAA"));
    // Two sets all, and the fifth set at 15-14 and at 16-14.
    let two_all = "A".repeat(25) + &"B".repeat(50) + &"A".repeat(25);
    let fifteen_fourteen = "BA".repeat(14) + "B";
    table.add(format, B, &format!("{two_all}{fifteen_fourteen}"));
    table.add(format, B, &format!("{two_all}{fifteen_fourteen}BA"));
    let straight =
        two_ahead(dice, 25, A, 17) + &two_ahead(dice, 25, A, 23) + &two_ahead(dice, 25, A, 28);
    table.add(format, B, &straight);
    let five_sets = two_ahead(dice, 25, B, 20)
        + &two_ahead(dice, 25, A, 26)
        + &two_ahead(dice, 25, A, 22)
        + &two_ahead(dice, 25, B, 24)
        + &two_ahead(dice, 15, B, 18);
    table.add(format, A, &and_more(dice, &five_sets));
    let random = leaning(dice, format, B, 49);
    table.add(format, B, &broken_off(dice, &random));
}

fn table_tennis(dice: &mut Dice, table: &mut Table) {
    let format = Format::Table5;
    // Past 10 all a game is open at 13-12; another is won 12-10, with three
    // points of the second game after it.
    let nine_all = "AB".repeat(9);
    table.add(format, A, &format!("{nine_all}ABABBAA"));
    table.add(format, A, &format!("{nine_all}ABAABBA"));
    // 11-9 is won.
    table.add(format, B, &format!("{nine_all}BB"));
    let straight =
        two_ahead(dice, 11, A, 4) + &two_ahead(dice, 11, A, 9) + &two_ahead(dice, 11, A, 0);
    table.add(format, B, &and_more(dice, &straight));
    let five_games = two_ahead(dice, 11, A, 14)
        + &two_ahead(dice, 11, B, 10)
        + &two_ahead(dice, 11, B, 7)
        + &two_ahead(dice, 11, A, 11)
        + &two_ahead(dice, 11, B, 17);
    table.add(format, A, &five_games);
    table.add(format, B, &five_games);
    let random = leaning(dice, format, B, 50);
    table.add(format, B, &broken_off(dice, &random));
}

fn side_out(dice: &mut Dice, table: &mut Table) {
    let format = Format::SideOut;
    // The receiver wins a rally, loses the next, and then the server scores.
    table.add(format, A, "BAA");
    // 14 all; A wins back the service and then the game, without two ahead.
    let fourteen_all = "A".repeat(14) + &"B".repeat(15);
    table.add(format, A, &format!("{fourteen_all}A"));
    table.add(format, A, &format!("{fourteen_all}AA"));
    // The second game begins with a side-out.
    table.add(format, A, &format!("{fourteen_all}AAB"));
    let straight = "B".repeat(31);
    table.add(format, A, &straight);
    let many = serving(dice, format, B, 25);
    table.add(format, B, &and_more(dice, &many));
    let random = leaning(dice, format, A, 50);
    table.add(format, A, &random);
    let many = serving(dice, format, A, 35);
    table.add(format, A, &broken_off(dice, &many));
}

#[cfg(test)]
mod tests {
    use super::*;
    use crate::replay;

    #[test]
    fn one_seed_gives_one_table() {
        assert_eq!(table(5), table(5));
        assert_ne!(table(5), table(6));
    }

    #[test]
    fn every_line_can_be_replayed() {
        for seed in 0..20 {
            let text = table(seed);
            assert!(text.lines().count() <= 60);
            assert!(replay::table(&text).is_ok());
        }
    }

    /// The builders put a match together from its score; played, it has to
    /// come to that score.
    #[test]
    fn built_matches_end_with_their_last_point() {
        for seed in 0..20 {
            let dice = &mut Dice::new(seed);
            let built = [
                (
                    Format::Tennis3,
                    tie_break_set(dice, A, 7)
                        + &tennis_set(dice, B, 5)
                        + &tie_break_set(dice, B, 4),
                    B,
                ),
                (
                    Format::TennisMt,
                    tennis_set(dice, B, 0)
                        + &tie_break_set(dice, A, 9)
                        + &two_ahead(dice, 10, A, 12),
                    A,
                ),
                (
                    Format::Badminton,
                    thirty_twenty_nine(dice, A)
                        + &two_ahead(dice, 21, B, 20)
                        + &thirty_twenty_nine(dice, B),
                    B,
                ),
            ];
            for (format, points, winner) in built {
                let mut game = Match::open(format, dice.side());
                for byte in points.bytes() {
                    assert_eq!(game.winner(), None);
                    assert!(game.point(Side::from_byte(byte).unwrap()));
                }
                assert_eq!(game.winner(), Some(winner));
            }
        }
    }
}
