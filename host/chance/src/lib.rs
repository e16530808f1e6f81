//! Random days for tests of the book: messages, how a line delivers them, lent contents, counters.
//! The layouts and pools are this crate's own, so that no book under test builds its own input.
#![forbid(unsafe_code)]

mod counters;
mod day;
mod dice;
mod maker;
mod nls_plus;
mod pls;
mod rooms;

pub use counters::{odd_counters, sound_counters, Counts};
pub use day::{arrivals, day, reach, Day, Trouble};
pub use dice::Dice;
pub use maker::{
    control, cut, flip, retype, Edition, Maker, New, Summary, Trade, EVENTS, LEVELS, PRICES,
    SYMBOLS, TIMES,
};
pub use rooms::{contents, Kind, LINE, ROW};
