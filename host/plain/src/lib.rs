//! The book of one trading day, in ordinary Rust. Every call is total: whatever
//! bytes, numbers or lent contents come in, it gives one answer and never panics.
#![forbid(unsafe_code)]

mod answer;
mod book;
mod bytes;
mod cells;
mod edition;
mod message;
mod nls_plus;
mod pls;
mod record;

pub use answer::Answer;
pub use book::{deliver, fresh, list, row, Counters, Row};
pub use edition::Edition;
pub use message::{read, write};
pub use record::{Record, Sale};
