//! A plain scorer for tennis, badminton, volleyball, table tennis and a
//! side-out game, each written out from its own rules.

pub mod badminton;
pub mod compare;
pub mod dice;
pub mod formats;
pub mod generate;
pub mod rally_log;
pub mod random_logs;
pub mod replay;
pub mod sheet;
pub mod side;
pub mod sideout;
pub mod table_tennis;
pub mod tennis;
pub mod volleyball;
