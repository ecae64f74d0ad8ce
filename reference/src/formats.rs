//! The eight formats: their codes, their names, and a match of any of them.

use crate::badminton::BadmintonMatch;
use crate::side::{Level, Side};
use crate::sideout::SideOutMatch;
use crate::table_tennis::TableTennisMatch;
use crate::tennis::{SingleGame, TennisMatch};
use crate::volleyball::VolleyballMatch;

#[derive(Clone, Copy, PartialEq, Eq, Debug)]
pub enum Format {
    Game,
    Tennis3,
    Tennis5,
    TennisMt,
    Badminton,
    Volleyball,
    Table5,
    SideOut,
}

impl Format {
    pub fn from_code(code: u8) -> Option<Format> {
        match code {
            0 => Some(Format::Game),
            1 => Some(Format::Tennis3),
            2 => Some(Format::Tennis5),
            3 => Some(Format::TennisMt),
            4 => Some(Format::Badminton),
            5 => Some(Format::Volleyball),
            6 => Some(Format::Table5),
            7 => Some(Format::SideOut),
            _ => None,
        }
    }

    pub fn code(self) -> u8 {
        match self {
            Format::Game => 0,
            Format::Tennis3 => 1,
            Format::Tennis5 => 2,
            Format::TennisMt => 3,
            Format::Badminton => 4,
            Format::Volleyball => 5,
            Format::Table5 => 6,
            Format::SideOut => 7,
        }
    }

    pub fn name(self) -> &'static str {
        match self {
            Format::Game => "game",
            Format::Tennis3 => "tennis3",
            Format::Tennis5 => "tennis5",
            Format::TennisMt => "tennismt",
            Format::Badminton => "badminton",
            Format::Volleyball => "volleyball",
            Format::Table5 => "table5",
            Format::SideOut => "sideout",
        }
    }

    pub fn from_name(name: &str) -> Option<Format> {
        (0..8)
            .filter_map(Format::from_code)
            .find(|format| format.name() == name)
    }
}

/// A match of one of the formats.
#[derive(Clone, Debug)]
pub enum Match {
    Game(SingleGame),
    Tennis(TennisMatch),
    Badminton(BadmintonMatch),
    Volleyball(VolleyballMatch),
    TableTennis(TableTennisMatch),
    SideOut(SideOutMatch),
}

impl Match {
    pub fn open(format: Format, opener: Side) -> Match {
        match format {
            Format::Game => Match::Game(SingleGame::new(opener)),
            Format::Tennis3 => Match::Tennis(TennisMatch::best_of_three(opener)),
            Format::Tennis5 => Match::Tennis(TennisMatch::best_of_five(opener)),
            Format::TennisMt => Match::Tennis(TennisMatch::with_match_tie_break(opener)),
            Format::Badminton => Match::Badminton(BadmintonMatch::new(opener)),
            Format::Volleyball => Match::Volleyball(VolleyballMatch::new(opener)),
            Format::Table5 => Match::TableTennis(TableTennisMatch::new(opener)),
            Format::SideOut => Match::SideOut(SideOutMatch::new(opener)),
        }
    }

    /// Gives a rally to a side. False, with nothing changed, if the match is
    /// over.
    pub fn point(&mut self, side: Side) -> bool {
        match self {
            Match::Game(m) => m.point(side),
            Match::Tennis(m) => m.point(side),
            Match::Badminton(m) => m.rally_won_by(side),
            Match::Volleyball(m) => m.rally_won_by(side),
            Match::TableTennis(m) => m.point(side),
            Match::SideOut(m) => m.rally_won_by(side),
        }
    }

    pub fn winner(&self) -> Option<Side> {
        match self {
            Match::Game(m) => m.winner(),
            Match::Tennis(m) => m.winner(),
            Match::Badminton(m) => m.winner(),
            Match::Volleyball(m) => m.winner(),
            Match::TableTennis(m) => m.winner(),
            Match::SideOut(m) => m.winner(),
        }
    }

    /// The side that serves the next rally, or would if there were one.
    pub fn server(&self) -> Side {
        match self {
            Match::Game(m) => m.server(),
            Match::Tennis(m) => m.server(),
            Match::Badminton(m) => m.server(),
            Match::Volleyball(m) => m.server(),
            Match::TableTennis(m) => m.server(),
            Match::SideOut(m) => m.server(),
        }
    }

    /// The score from the outside in: the first level is depth 0.
    pub fn levels(&self) -> Vec<Level> {
        match self {
            Match::Game(m) => m.levels(),
            Match::Tennis(m) => m.levels(),
            Match::Badminton(m) => m.levels(),
            Match::Volleyball(m) => m.levels(),
            Match::TableTennis(m) => m.levels(),
            Match::SideOut(m) => m.levels(),
        }
    }
}
