//! The side-out game: best of three games to 15, where only the serving side
//! can score.

use crate::side::{Level, Side, Tally};

#[derive(Clone, Debug)]
pub struct SideOutMatch {
    games: Tally,
    points: Tally,
    /// The side that serves the next rally.
    server: Side,
    /// Winner of the game on the board, which stays there until the first
    /// rally of the next one.
    game_winner: Option<Side>,
    match_winner: Option<Side>,
}

impl SideOutMatch {
    pub fn new(opener: Side) -> SideOutMatch {
        SideOutMatch {
            games: Tally::zero(),
            points: Tally::zero(),
            server: opener,
            game_winner: None,
            match_winner: None,
        }
    }

    /// False, with nothing changed, if the match is over.
    pub fn rally_won_by(&mut self, side: Side) -> bool {
        if self.match_winner.is_some() {
            return false;
        }
        // The first rally of a new game clears the board, whether it scores
        // or not. The service has stayed with the winner of the last game,
        // who opens this one.
        if self.game_winner.is_some() {
            self.game_winner = None;
            self.points = Tally::zero();
        }
        if side != self.server {
            // Side out: the service goes over and nobody scores.
            self.server = side;
            return true;
        }
        // The serving side won the rally: it scores and serves on.
        self.points.add(side);
        // The first side with 15 wins the game, whatever the lead.
        if self.points.of(side) == 15 {
            self.game_winner = Some(side);
            self.games.add(side);
            if self.games.of(side) == 2 {
                self.match_winner = Some(side);
            }
        }
        true
    }

    pub fn winner(&self) -> Option<Side> {
        self.match_winner
    }

    pub fn server(&self) -> Side {
        self.server
    }

    /// Games, and points of the game.
    pub fn levels(&self) -> Vec<Level> {
        vec![
            Level {
                tally: self.games,
                winner: self.match_winner,
            },
            Level {
                tally: self.points,
                winner: self.game_winner,
            },
        ]
    }
}

#[cfg(test)]
mod tests {
    use super::*;
    use Side::{A, B};

    fn give(m: &mut SideOutMatch, rallies: &str) {
        for byte in rallies.bytes() {
            assert!(m.rally_won_by(Side::from_byte(byte).unwrap()));
        }
    }

    fn board(m: &SideOutMatch) -> Vec<(u32, u32, Option<Side>)> {
        m.levels()
            .iter()
            .map(|l| (l.tally.a, l.tally.b, l.winner))
            .collect()
    }

    #[test]
    fn only_the_server_scores() {
        let mut m = SideOutMatch::new(A);
        give(&mut m, "B");
        assert_eq!(board(&m)[1], (0, 0, None));
        assert_eq!(m.server(), B);
        give(&mut m, "A");
        assert_eq!(board(&m)[1], (0, 0, None));
        assert_eq!(m.server(), A);
        give(&mut m, "A");
        assert_eq!(board(&m)[1], (1, 0, None));
        assert_eq!(m.server(), A);
    }

    #[test]
    fn fifteen_fourteen_wins() {
        let mut m = SideOutMatch::new(A);
        give(&mut m, &"A".repeat(14));
        give(&mut m, &"B".repeat(15));
        assert_eq!(board(&m), [(0, 0, None), (14, 14, None)]);
        give(&mut m, "A");
        assert_eq!(board(&m), [(0, 0, None), (14, 14, None)]);
        give(&mut m, "A");
        assert_eq!(board(&m), [(1, 0, None), (15, 14, Some(A))]);
        assert_eq!(m.server(), A);
        // A side-out right at the start of the second game.
        give(&mut m, "B");
        assert_eq!(board(&m), [(1, 0, None), (0, 0, None)]);
        assert_eq!(m.server(), B);
        give(&mut m, "A");
        give(&mut m, &"A".repeat(15));
        assert_eq!(board(&m), [(2, 0, Some(A)), (15, 0, Some(A))]);
        assert!(!m.rally_won_by(B));
        assert_eq!(m.server(), A);
    }
}
