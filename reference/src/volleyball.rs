//! Volleyball: best of five sets, four to 25 and the fifth to 15.

use crate::side::{Level, Side, Tally, LONGEST};

#[derive(Clone, Debug)]
pub struct VolleyballMatch {
    opener: Side,
    sets: Tally,
    points: Tally,
    /// Whether the set on the board is the fifth.
    fifth: bool,
    /// Winner of the last rally of the set on the board, if one was played.
    last_rally: Option<Side>,
    /// Winner of the set on the board, which stays there until the first
    /// rally of the next one.
    set_winner: Option<Side>,
    match_winner: Option<Side>,
}

impl VolleyballMatch {
    pub fn new(opener: Side) -> VolleyballMatch {
        VolleyballMatch {
            opener,
            sets: Tally::zero(),
            points: Tally::zero(),
            fifth: false,
            last_rally: None,
            set_winner: None,
            match_winner: None,
        }
    }

    /// False, with nothing changed, if the match is over.
    pub fn rally_won_by(&mut self, side: Side) -> bool {
        if self.match_winner.is_some() {
            return false;
        }
        if self.set_winner.is_some() {
            self.set_winner = None;
            self.points = Tally::zero();
            self.last_rally = None;
            self.fifth = self.sets.a == 2 && self.sets.b == 2;
        }
        self.points.add(side);
        self.last_rally = Some(side);
        if self.wins_set(side) {
            self.set_winner = Some(side);
            self.sets.add(side);
            if self.sets.of(side) == 3 {
                self.match_winner = Some(side);
            }
        }
        true
    }

    /// The first four sets are won with 25 points and two ahead, the fifth
    /// with 15 and two ahead.
    fn wins_set(&self, side: Side) -> bool {
        let enough = if self.fifth { 15 } else { 25 };
        let own = self.points.of(side);
        let theirs = self.points.of(side.other());
        (own >= enough && own >= theirs + 2) || own == LONGEST
    }

    pub fn winner(&self) -> Option<Side> {
        self.match_winner
    }

    /// The first, third and fifth set are opened by the side that opened the
    /// match, the second and fourth by the other side. That the order also
    /// holds for the fifth set, where the rule book draws lots again, is a
    /// house rule.
    fn opener_of_set(&self, sets_before: u32) -> Side {
        match sets_before {
            1 | 3 | 5 => self.opener.other(),
            _ => self.opener,
        }
    }

    /// Within a set the winner of a rally serves next. Between two sets, and
    /// after the match, it is the opener of the set that would come next.
    pub fn server(&self) -> Side {
        if self.set_winner.is_some() {
            return self.opener_of_set(self.sets.total());
        }
        match self.last_rally {
            Some(side) => side,
            None => self.opener_of_set(self.sets.total()),
        }
    }

    /// Sets, and points of the set.
    pub fn levels(&self) -> Vec<Level> {
        vec![
            Level {
                tally: self.sets,
                winner: self.match_winner,
            },
            Level {
                tally: self.points,
                winner: self.set_winner,
            },
        ]
    }
}

#[cfg(test)]
mod tests {
    use super::*;
    use Side::{A, B};

    fn give(m: &mut VolleyballMatch, rallies: &str) {
        for byte in rallies.bytes() {
            assert!(m.rally_won_by(Side::from_byte(byte).unwrap()));
        }
    }

    fn board(m: &VolleyballMatch) -> Vec<(u32, u32, Option<Side>)> {
        m.levels()
            .iter()
            .map(|l| (l.tally.a, l.tally.b, l.winner))
            .collect()
    }

    #[test]
    fn twenty_five_twenty_four_open_twenty_six_twenty_four_won() {
        let mut m = VolleyballMatch::new(A);
        give(&mut m, &"AB".repeat(24));
        give(&mut m, "A");
        assert_eq!(board(&m), [(0, 0, None), (25, 24, None)]);
        give(&mut m, "A");
        assert_eq!(board(&m), [(1, 0, None), (26, 24, Some(A))]);
        // A opened the first set, so B opens the second, though A won.
        assert_eq!(m.server(), B);
        give(&mut m, "A");
        assert_eq!(m.server(), A);
    }

    #[test]
    fn fifth_set_to_fifteen() {
        let mut m = VolleyballMatch::new(A);
        give(&mut m, &"A".repeat(25));
        assert_eq!(m.server(), B);
        give(&mut m, &"B".repeat(25));
        assert_eq!(m.server(), A);
        give(&mut m, &"A".repeat(25));
        assert_eq!(m.server(), B);
        give(&mut m, &"B".repeat(25));
        assert_eq!(board(&m), [(2, 2, None), (0, 25, Some(B))]);
        // House rule: the order of openers runs on into the fifth set.
        assert_eq!(m.server(), A);
        give(&mut m, &"BA".repeat(14));
        give(&mut m, "B");
        assert_eq!(board(&m), [(2, 2, None), (14, 15, None)]);
        give(&mut m, "B");
        assert_eq!(board(&m), [(2, 3, Some(B)), (14, 16, Some(B))]);
        assert_eq!(m.server(), B);
        assert!(!m.rally_won_by(A));
    }

    #[test]
    fn a_fourth_set_goes_to_twenty_five() {
        let mut m = VolleyballMatch::new(B);
        give(&mut m, &"A".repeat(50));
        assert_eq!(board(&m), [(2, 0, None), (25, 0, Some(A))]);
        give(&mut m, &"B".repeat(25));
        give(&mut m, &"A".repeat(24));
        assert_eq!(board(&m), [(2, 1, None), (24, 0, None)]);
        give(&mut m, "A");
        assert_eq!(board(&m), [(3, 1, Some(A)), (25, 0, Some(A))]);
    }
}
