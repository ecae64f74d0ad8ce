//! Badminton: best of three games to 21.

use crate::side::{Level, Side, Tally};

#[derive(Clone, Debug)]
pub struct BadmintonMatch {
    games: Tally,
    points: Tally,
    /// The side that serves the next rally.
    server: Side,
    /// Winner of the game on the board, which stays there until the first
    /// rally of the next one.
    game_winner: Option<Side>,
    match_winner: Option<Side>,
}

/// A game is won with 21 points and two ahead. At 20 all the side that first
/// gets two ahead wins, and at 29 all the side that scores the 30th point.
fn wins_game(points: &Tally, side: Side) -> bool {
    let own = points.of(side);
    let theirs = points.of(side.other());
    (own >= 21 && own >= theirs + 2) || own == 30
}

impl BadmintonMatch {
    pub fn new(opener: Side) -> BadmintonMatch {
        BadmintonMatch {
            games: Tally::zero(),
            points: Tally::zero(),
            server: opener,
            game_winner: None,
            match_winner: None,
        }
    }

    /// False, with nothing changed, if the match is over.
    pub fn rally_won_by(&mut self, side: Side) -> bool {
        if self.match_winner.is_some() {
            return false;
        }
        if self.game_winner.is_some() {
            self.game_winner = None;
            self.points = Tally::zero();
        }
        // The side that wins a rally adds a point and serves next. The same
        // holds over the end of a game: it is won with a rally, and its
        // winner serves first in the next game.
        self.points.add(side);
        self.server = side;
        if wins_game(&self.points, side) {
            self.game_winner = Some(side);
            self.games.add(side);
            if self.games.of(side) == 2 {
                self.match_winner = Some(side);
            }
        }
        true
    }

    pub fn winner(&self) -> Option<Side> {
        self.match_winner
    }

    pub fn server(&self) -> Side {
        self.server
    }

    /// Games, and points of the game.
    pub fn levels(&self) -> Vec<Level> {
        vec![
            Level {
                tally: self.games,
                winner: self.match_winner,
            },
            Level {
                tally: self.points,
                winner: self.game_winner,
            },
        ]
    }
}

#[cfg(test)]
mod tests {
    use super::*;
    use Side::{A, B};

    fn give(m: &mut BadmintonMatch, rallies: &str) {
        for byte in rallies.bytes() {
            assert!(m.rally_won_by(Side::from_byte(byte).unwrap()));
        }
    }

    fn board(m: &BadmintonMatch) -> Vec<(u32, u32, Option<Side>)> {
        m.levels()
            .iter()
            .map(|l| (l.tally.a, l.tally.b, l.winner))
            .collect()
    }

    #[test]
    fn twenty_one_twenty_open_twenty_two_twenty_won() {
        let mut m = BadmintonMatch::new(A);
        give(&mut m, &"AB".repeat(20));
        give(&mut m, "A");
        assert_eq!(board(&m), [(0, 0, None), (21, 20, None)]);
        give(&mut m, "A");
        assert_eq!(board(&m), [(1, 0, None), (22, 20, Some(A))]);
    }

    #[test]
    fn twenty_one_nineteen_won() {
        let mut m = BadmintonMatch::new(A);
        give(&mut m, &"BA".repeat(19));
        give(&mut m, "B");
        assert_eq!(board(&m), [(0, 0, None), (19, 20, None)]);
        give(&mut m, "B");
        assert_eq!(board(&m), [(0, 1, None), (19, 21, Some(B))]);
    }

    #[test]
    fn the_thirtieth_point_wins() {
        let mut m = BadmintonMatch::new(A);
        give(&mut m, &"AB".repeat(29));
        assert_eq!(board(&m), [(0, 0, None), (29, 29, None)]);
        give(&mut m, "B");
        assert_eq!(board(&m), [(0, 1, None), (29, 30, Some(B))]);
    }

    #[test]
    fn who_wins_serves() {
        let mut m = BadmintonMatch::new(B);
        assert_eq!(m.server(), B);
        give(&mut m, "A");
        assert_eq!(m.server(), A);
        give(&mut m, &"A".repeat(20));
        assert_eq!(board(&m), [(1, 0, None), (21, 0, Some(A))]);
        // The winner of the game opens the next one.
        assert_eq!(m.server(), A);
        give(&mut m, "B");
        assert_eq!(board(&m), [(1, 0, None), (0, 1, None)]);
        assert_eq!(m.server(), B);
        give(&mut m, &"A".repeat(21));
        assert_eq!(board(&m), [(2, 0, Some(A)), (21, 1, Some(A))]);
        assert_eq!(m.server(), A);
        assert!(!m.rally_won_by(B));
        assert_eq!(m.server(), A);
    }
}
