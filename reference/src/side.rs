//! The two sides of a match, and what is counted for them.

/// One of the two sides.
#[derive(Clone, Copy, PartialEq, Eq, Debug)]
pub enum Side {
    A,
    B,
}

impl Side {
    pub fn other(self) -> Side {
        match self {
            Side::A => Side::B,
            Side::B => Side::A,
        }
    }

    pub fn letter(self) -> char {
        match self {
            Side::A => 'A',
            Side::B => 'B',
        }
    }

    pub fn from_byte(byte: u8) -> Option<Side> {
        match byte {
            b'A' => Some(Side::A),
            b'B' => Some(Side::B),
            _ => None,
        }
    }
}

/// A count for A and a count for B.
#[derive(Clone, Copy, PartialEq, Eq, Debug, Default)]
pub struct Tally {
    pub a: u32,
    pub b: u32,
}

impl Tally {
    pub fn zero() -> Tally {
        Tally { a: 0, b: 0 }
    }

    pub fn of(&self, side: Side) -> u32 {
        match side {
            Side::A => self.a,
            Side::B => self.b,
        }
    }

    pub fn add(&mut self, side: Side) {
        match side {
            Side::A => self.a += 1,
            Side::B => self.b += 1,
        }
    }

    pub fn total(&self) -> u32 {
        self.a + self.b
    }
}

/// One level of the score as it is shown: two counts, and the side that has
/// won that level, if one has.
#[derive(Clone, Copy, PartialEq, Eq, Debug)]
pub struct Level {
    pub tally: Tally,
    pub winner: Option<Side>,
}

/// House rule for every game, tie-break or set that has to be won by two
/// points and that the rule book lets go on for ever: the side that gets to
/// this many points has won it, whatever the lead.
pub const LONGEST: u32 = 9_999;
