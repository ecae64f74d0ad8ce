//! Table tennis: best of five games to 11.

use crate::side::{Level, Side, Tally, LONGEST};

#[derive(Clone, Debug)]
pub struct TableTennisMatch {
    opener: Side,
    games: Tally,
    points: Tally,
    /// Winner of the game on the board, which stays there until the first
    /// point of the next one.
    game_winner: Option<Side>,
    match_winner: Option<Side>,
}

/// A game is won with 11 points; if both sides have 10, by the side that
/// first gets two ahead.
fn wins_game(points: &Tally, side: Side) -> bool {
    let own = points.of(side);
    let theirs = points.of(side.other());
    if theirs < 10 {
        own == 11
    } else {
        own == theirs + 2 || own == LONGEST
    }
}

/// Each side serves two points in turn. From 10 all on each serves one point
/// in turn, and the side that served first in the game begins again.
fn server_in_game(first: Side, points: &Tally) -> Side {
    if points.a >= 10 && points.b >= 10 {
        let since_ten_all = points.total() - 20;
        if since_ten_all % 2 == 0 {
            first
        } else {
            first.other()
        }
    } else {
        // Of every four points the first two are served by the first side.
        match points.total() % 4 {
            0 | 1 => first,
            _ => first.other(),
        }
    }
}

impl TableTennisMatch {
    pub fn new(opener: Side) -> TableTennisMatch {
        TableTennisMatch {
            opener,
            games: Tally::zero(),
            points: Tally::zero(),
            game_winner: None,
            match_winner: None,
        }
    }

    /// False, with nothing changed, if the match is over.
    pub fn point(&mut self, side: Side) -> bool {
        if self.match_winner.is_some() {
            return false;
        }
        if self.game_winner.is_some() {
            self.game_winner = None;
            self.points = Tally::zero();
        }
        self.points.add(side);
        if wins_game(&self.points, side) {
            self.game_winner = Some(side);
            self.games.add(side);
            if self.games.of(side) == 3 {
                self.match_winner = Some(side);
            }
        }
        true
    }

    pub fn winner(&self) -> Option<Side> {
        self.match_winner
    }

    /// The side that serves first in a game receives first in the next.
    fn first_server(&self, games_before: u32) -> Side {
        if games_before % 2 == 0 {
            self.opener
        } else {
            self.opener.other()
        }
    }

    /// Between two games, and after the match, it is the first server of the
    /// game that would come next.
    pub fn server(&self) -> Side {
        let first = self.first_server(self.games.total());
        if self.game_winner.is_some() {
            first
        } else {
            server_in_game(first, &self.points)
        }
    }

    /// Games, and points of the game.
    pub fn levels(&self) -> Vec<Level> {
        vec![
            Level {
                tally: self.games,
                winner: self.match_winner,
            },
            Level {
                tally: self.points,
                winner: self.game_winner,
            },
        ]
    }
}

#[cfg(test)]
mod tests {
    use super::*;
    use Side::{A, B};

    fn give(m: &mut TableTennisMatch, points: &str) {
        for byte in points.bytes() {
            assert!(m.point(Side::from_byte(byte).unwrap()));
        }
    }

    fn servers_of(m: &mut TableTennisMatch, points: &str) -> String {
        let mut servers = String::new();
        for byte in points.bytes() {
            servers.push(m.server().letter());
            assert!(m.point(Side::from_byte(byte).unwrap()));
        }
        servers
    }

    fn board(m: &TableTennisMatch) -> Vec<(u32, u32, Option<Side>)> {
        m.levels()
            .iter()
            .map(|l| (l.tally.a, l.tally.b, l.winner))
            .collect()
    }

    #[test]
    fn servers_around_ten_all() {
        let mut m = TableTennisMatch::new(A);
        give(&mut m, &"AB".repeat(9));
        assert_eq!(board(&m)[1], (9, 9, None));
        assert_eq!(m.server(), B);
        give(&mut m, "A");
        assert_eq!(m.server(), B);
        give(&mut m, "B");
        assert_eq!(board(&m)[1], (10, 10, None));
        assert_eq!(m.server(), A);
        give(&mut m, "A");
        assert_eq!(board(&m)[1], (11, 10, None));
        assert_eq!(m.server(), B);
        give(&mut m, "B");
        assert_eq!(m.server(), A);
        give(&mut m, "B");
        assert_eq!(m.server(), B);
        give(&mut m, "B");
        assert_eq!(board(&m), [(0, 1, None), (11, 13, Some(B))]);
        // A served first in this game, so B does in the next.
        assert_eq!(m.server(), B);
    }

    #[test]
    fn two_serves_each() {
        let mut m = TableTennisMatch::new(A);
        assert_eq!(servers_of(&mut m, "AAAAAAAAAAA"), "AABBAABBAAB");
        assert_eq!(servers_of(&mut m, "BBBBBBBBBBB"), "BBAABBAABBA");
        assert_eq!(servers_of(&mut m, "ABA"), "AAB");
        assert_eq!(board(&m), [(1, 1, None), (2, 1, None)]);
    }

    #[test]
    fn eleven_nine_won_and_three_games_take_the_match() {
        let mut m = TableTennisMatch::new(B);
        give(&mut m, &"AB".repeat(9));
        give(&mut m, "AA");
        assert_eq!(board(&m), [(1, 0, None), (11, 9, Some(A))]);
        assert_eq!(m.server(), A);
        give(&mut m, &"A".repeat(22));
        assert_eq!(board(&m), [(3, 0, Some(A)), (11, 0, Some(A))]);
        assert_eq!(m.server(), A);
        assert!(!m.point(B));
    }
}
