//! Tennis: one single game, and matches of tie-break sets.

use crate::side::{Level, Side, Tally, LONGEST};

/// A game is won by the side that has at least four points (past 0, 15, 30
/// and 40) and two more than the other side.
fn wins_game(points: &Tally, side: Side) -> bool {
    let own = points.of(side);
    let theirs = points.of(side.other());
    (own >= 4 && own >= theirs + 2) || own == LONGEST
}

/// The tie-break of a set is won with at least seven points and two ahead.
fn wins_tie_break(points: &Tally, side: Side) -> bool {
    let own = points.of(side);
    let theirs = points.of(side.other());
    (own >= 7 && own >= theirs + 2) || own == LONGEST
}

/// The match tie-break is won with at least ten points and two ahead.
fn wins_match_tie_break(points: &Tally, side: Side) -> bool {
    let own = points.of(side);
    let theirs = points.of(side.other());
    (own >= 10 && own >= theirs + 2) || own == LONGEST
}

/// In a tie-break one side serves the first point, the other side the second
/// and third, and from there on each side serves two points in turn.
fn tie_break_server(first: Side, points_played: u32) -> Side {
    if points_played == 0 {
        return first;
    }
    let pairs_finished = (points_played - 1) / 2;
    if pairs_finished % 2 == 0 {
        first.other()
    } else {
        first
    }
}

/// One game and nothing else. The side that opens it serves all of it.
#[derive(Clone, Debug)]
pub struct SingleGame {
    opener: Side,
    points: Tally,
    winner: Option<Side>,
}

impl SingleGame {
    pub fn new(opener: Side) -> SingleGame {
        SingleGame {
            opener,
            points: Tally::zero(),
            winner: None,
        }
    }

    /// False, with nothing changed, if the game is over.
    pub fn point(&mut self, side: Side) -> bool {
        if self.winner.is_some() {
            return false;
        }
        self.points.add(side);
        if wins_game(&self.points, side) {
            self.winner = Some(side);
        }
        true
    }

    pub fn winner(&self) -> Option<Side> {
        self.winner
    }

    pub fn server(&self) -> Side {
        self.opener
    }

    pub fn levels(&self) -> Vec<Level> {
        vec![Level {
            tally: self.points,
            winner: self.winner,
        }]
    }
}

/// What the points on the board belong to.
#[derive(Clone, Copy, PartialEq, Eq, Debug)]
enum Playing {
    Game,
    TieBreak,
    MatchTieBreak,
}

/// A match of tie-break sets.
#[derive(Clone, Debug)]
pub struct TennisMatch {
    opener: Side,
    sets_to_win: u32,
    match_tie_break_at_one_all: bool,
    sets: Tally,
    games: Tally,
    points: Tally,
    playing: Playing,
    /// Games finished since the match began, over all sets. A set's
    /// tie-break counts as one game.
    games_finished: u32,
    /// Winner of the game or tie-break on the board, which stays there until
    /// the first point of the next one.
    game_winner: Option<Side>,
    /// Winner of the set on the board, which stays there as well.
    set_winner: Option<Side>,
    match_winner: Option<Side>,
}

impl TennisMatch {
    pub fn best_of_three(opener: Side) -> TennisMatch {
        TennisMatch::new(opener, 2, false)
    }

    pub fn best_of_five(opener: Side) -> TennisMatch {
        TennisMatch::new(opener, 3, false)
    }

    /// Two sets, and at one set all a match tie-break in place of the third.
    pub fn with_match_tie_break(opener: Side) -> TennisMatch {
        TennisMatch::new(opener, 2, true)
    }

    fn new(opener: Side, sets_to_win: u32, match_tie_break_at_one_all: bool) -> TennisMatch {
        TennisMatch {
            opener,
            sets_to_win,
            match_tie_break_at_one_all,
            sets: Tally::zero(),
            games: Tally::zero(),
            points: Tally::zero(),
            playing: Playing::Game,
            games_finished: 0,
            game_winner: None,
            set_winner: None,
            match_winner: None,
        }
    }

    /// False, with nothing changed, if the match is over.
    pub fn point(&mut self, side: Side) -> bool {
        if self.match_winner.is_some() {
            return false;
        }
        if self.set_winner.is_some() {
            self.clear_board_for_next_set();
        } else if self.game_winner.is_some() {
            self.clear_board_for_next_game();
        }
        self.points.add(side);
        match self.playing {
            Playing::Game => {
                if wins_game(&self.points, side) {
                    self.game_goes_to(side);
                }
            }
            Playing::TieBreak => {
                if wins_tie_break(&self.points, side) {
                    self.game_goes_to(side);
                }
            }
            Playing::MatchTieBreak => {
                if wins_match_tie_break(&self.points, side) {
                    self.game_winner = Some(side);
                    self.set_goes_to(side);
                }
            }
        }
        true
    }

    fn clear_board_for_next_set(&mut self) {
        self.set_winner = None;
        self.game_winner = None;
        self.games = Tally::zero();
        self.points = Tally::zero();
        let one_set_all = self.sets.a == 1 && self.sets.b == 1;
        if self.match_tie_break_at_one_all && one_set_all {
            self.playing = Playing::MatchTieBreak;
        } else {
            self.playing = Playing::Game;
        }
    }

    fn clear_board_for_next_game(&mut self) {
        self.game_winner = None;
        self.points = Tally::zero();
        let six_games_all = self.games.a == 6 && self.games.b == 6;
        if six_games_all {
            self.playing = Playing::TieBreak;
        } else {
            self.playing = Playing::Game;
        }
    }

    fn game_goes_to(&mut self, side: Side) {
        self.game_winner = Some(side);
        self.games_finished += 1;
        self.games.add(side);
        // Six games and two ahead take the set, so 6-0 to 6-4. From 6-5 the
        // seventh game takes it: 7-5, or 7-6 by the tie-break.
        let own = self.games.of(side);
        let theirs = self.games.of(side.other());
        if (own == 6 && theirs <= 4) || own == 7 {
            self.set_goes_to(side);
        }
    }

    fn set_goes_to(&mut self, side: Side) {
        self.set_winner = Some(side);
        self.sets.add(side);
        if self.sets.of(side) == self.sets_to_win {
            self.match_winner = Some(side);
        }
    }

    pub fn winner(&self) -> Option<Side> {
        self.match_winner
    }

    /// The sides serve a game each in turn through the whole match, also
    /// across the sets. The tie-break counts as one game of this order, so
    /// the side that received first in it serves first in the next set.
    fn whose_turn(&self) -> Side {
        if self.games_finished % 2 == 0 {
            self.opener
        } else {
            self.opener.other()
        }
    }

    pub fn server(&self) -> Side {
        match self.playing {
            // Nothing comes after the match tie-break, so also when it is
            // over the side is named that its own order has next.
            Playing::MatchTieBreak => tie_break_server(self.whose_turn(), self.points.total()),
            // After the last point of a tie-break the next game is served by
            // the side whose turn it is, not by the tie-break's order.
            Playing::TieBreak if self.game_winner.is_none() => {
                tie_break_server(self.whose_turn(), self.points.total())
            }
            Playing::TieBreak | Playing::Game => self.whose_turn(),
        }
    }

    /// Sets, games of the set and points of the game or tie-break. A match
    /// tie-break stands in the place of a set and has points only.
    pub fn levels(&self) -> Vec<Level> {
        let sets = Level {
            tally: self.sets,
            winner: self.match_winner,
        };
        let games = Level {
            tally: self.games,
            winner: self.set_winner,
        };
        let points = Level {
            tally: self.points,
            winner: self.game_winner,
        };
        match self.playing {
            Playing::MatchTieBreak => vec![sets, points],
            Playing::Game | Playing::TieBreak => vec![sets, games, points],
        }
    }
}

#[cfg(test)]
mod tests {
    use super::*;
    use Side::{A, B};

    fn give(m: &mut TennisMatch, points: &str) {
        for byte in points.bytes() {
            assert!(m.point(Side::from_byte(byte).unwrap()));
        }
    }

    /// Six games each, every one to love for its server.
    fn six_all(opener: Side) -> String {
        match opener {
            A => "AAAABBBB".repeat(6),
            B => "BBBBAAAA".repeat(6),
        }
    }

    fn servers_of(m: &mut TennisMatch, points: &str) -> String {
        let mut servers = String::new();
        for byte in points.bytes() {
            servers.push(m.server().letter());
            assert!(m.point(Side::from_byte(byte).unwrap()));
        }
        servers
    }

    fn board(m: &TennisMatch) -> Vec<(u32, u32, Option<Side>)> {
        m.levels()
            .iter()
            .map(|l| (l.tally.a, l.tally.b, l.winner))
            .collect()
    }

    #[test]
    fn game_after_deuce() {
        let mut g = SingleGame::new(B);
        for byte in "ABABAB".bytes() {
            assert!(g.point(Side::from_byte(byte).unwrap()));
        }
        assert_eq!(g.winner(), None);
        assert!(g.point(A));
        assert_eq!(g.winner(), None);
        assert!(g.point(A));
        assert_eq!(g.winner(), Some(A));
        assert_eq!(g.levels()[0].tally, Tally { a: 5, b: 3 });
        assert_eq!(g.server(), B);
        assert!(!g.point(B));
        assert_eq!(g.levels()[0].tally, Tally { a: 5, b: 3 });
    }

    #[test]
    fn game_to_love() {
        let mut g = SingleGame::new(A);
        for _ in 0..3 {
            assert!(g.point(B));
            assert_eq!(g.winner(), None);
        }
        assert!(g.point(B));
        assert_eq!(g.winner(), Some(B));
    }

    #[test]
    fn game_ends_at_the_longest() {
        let mut g = SingleGame::new(A);
        for _ in 0..LONGEST - 1 {
            assert!(g.point(A));
            // A is never more than one ahead.
            assert!(g.point(B));
        }
        assert_eq!(g.winner(), None);
        assert!(g.point(B));
        assert_eq!(g.winner(), Some(B));
        assert_eq!(g.levels()[0].tally, Tally { a: 9_998, b: 9_999 });
    }

    #[test]
    fn tie_break_is_served_in_pairs() {
        let order: String = (0..7).map(|n| tie_break_server(A, n).letter()).collect();
        assert_eq!(order, "ABBAABB");
        let mut m = TennisMatch::best_of_three(A);
        give(&mut m, &six_all(A));
        assert_eq!(servers_of(&mut m, "ABABABABABAB"), "ABBAABBAABBA");
    }

    #[test]
    fn tie_break_seven_six_open_eight_six_won() {
        let mut m = TennisMatch::best_of_three(A);
        give(&mut m, &six_all(A));
        assert_eq!(board(&m), [(0, 0, None), (6, 6, None), (0, 4, Some(B))]);
        give(&mut m, "ABABABABABABA");
        assert_eq!(board(&m), [(0, 0, None), (6, 6, None), (7, 6, None)]);
        give(&mut m, "A");
        assert_eq!(board(&m), [(1, 0, None), (7, 6, Some(A)), (8, 6, Some(A))]);
    }

    #[test]
    fn the_other_side_opens_the_set_after_a_tie_break() {
        // A opens the match and so, after twelve games, the tie-break. B
        // received first in it and serves first in the second set.
        let mut m = TennisMatch::best_of_three(A);
        give(&mut m, &six_all(A));
        assert_eq!(m.server(), A);
        give(&mut m, "AAAAAAA");
        assert_eq!(board(&m)[1], (7, 6, Some(A)));
        assert_eq!(m.server(), B);
        assert_eq!(servers_of(&mut m, "AAAABBBB"), "BBBBAAAA");
        // Whatever the length of the tie-break.
        let mut m = TennisMatch::best_of_three(A);
        give(&mut m, &six_all(A));
        give(&mut m, "ABABABABABABABBB");
        assert_eq!(board(&m)[2], (7, 9, Some(B)));
        assert_eq!(m.server(), B);
    }

    #[test]
    fn the_order_of_games_runs_on_into_the_next_set() {
        // Six games: A served the first and B the last, A opens the next set.
        let mut m = TennisMatch::best_of_three(A);
        give(&mut m, &"AAAA".repeat(6));
        assert_eq!(board(&m)[1], (6, 0, Some(A)));
        assert_eq!(m.server(), A);
        // Seven games: B opens the next set.
        let mut m = TennisMatch::best_of_three(A);
        give(&mut m, "BBBB");
        give(&mut m, &"AAAA".repeat(6));
        assert_eq!(board(&m)[1], (6, 1, Some(A)));
        assert_eq!(m.server(), B);
    }

    #[test]
    fn set_six_five_open_seven_five_won() {
        let mut m = TennisMatch::best_of_three(B);
        give(&mut m, &"BBBBAAAA".repeat(5));
        give(&mut m, "AAAA");
        assert_eq!(board(&m), [(0, 0, None), (6, 5, None), (4, 0, Some(A))]);
        give(&mut m, "AAAA");
        assert_eq!(board(&m), [(1, 0, None), (7, 5, Some(A)), (4, 0, Some(A))]);
    }

    #[test]
    fn five_sets_need_three() {
        let mut m = TennisMatch::best_of_five(A);
        give(&mut m, &"AAAA".repeat(12));
        assert_eq!(m.winner(), None);
        give(&mut m, &"BBBB".repeat(12));
        assert_eq!(m.winner(), None);
        give(&mut m, &"BBBB".repeat(6));
        assert_eq!(m.winner(), Some(B));
        assert!(!m.point(A));
        assert_eq!(
            board(&m),
            [(2, 3, Some(B)), (0, 6, Some(B)), (0, 4, Some(B))]
        );
    }

    #[test]
    fn match_tie_break_in_place_of_the_third_set() {
        let mut m = TennisMatch::with_match_tie_break(A);
        give(&mut m, &"AAAA".repeat(6));
        give(&mut m, "AAAA");
        give(&mut m, &"BBBB".repeat(6));
        // Thirteen games are over: B's turn. The last set still stands.
        assert_eq!(board(&m), [(1, 1, None), (1, 6, Some(B)), (0, 4, Some(B))]);
        assert_eq!(m.server(), B);
        assert_eq!(
            servers_of(&mut m, "ABABABABABABABABAB"),
            "BAABBAABBAABBAABBA"
        );
        assert_eq!(board(&m), [(1, 1, None), (9, 9, None)]);
        give(&mut m, "A");
        assert_eq!(board(&m), [(1, 1, None), (10, 9, None)]);
        give(&mut m, "A");
        assert_eq!(board(&m), [(2, 1, Some(A)), (11, 9, Some(A))]);
        // The first point was B's to serve, the next two A's, the two after them B's, and so on:
        // 18 and 19 were A's, 20 and 21 are B's. Twenty have been played.
        assert_eq!(m.server(), B);
        assert!(!m.point(A));
    }
}
