//! The proved book of one trading day, safe to call from Rust.
//!
//! [`Book`] keeps one row per listed symbol from numbered messages of an [`Edition`]; [`Record`] reads and writes one message. The work is
//! done by a library whose every function is proved for every input; this crate only passes values over and names them. It is
//! itself tested and not proved.
mod answer;
mod book;
mod edition;
pub mod raw;
mod record;

pub use answer::{Answer, DeliverError, ListError, ReadError, RowError, WriteError};
pub use book::{room_for_lines, room_for_rows, Book, Counters, Row};
pub use edition::Edition;
pub use record::{Record, Sale};
