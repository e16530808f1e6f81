//! One message read and written, each way timed in nanoseconds.
use crate::day::Sample;
use crate::sides::{Plain, Proved};
use crate::timed::timed;
use std::hint::black_box;

/// As much as the longest message.
const SPACE: usize = 85;

/// What reads and writes messages.
pub trait Messages {
    /// A message read so many times, by its edition.
    fn reads(message: &Sample, times: usize) -> u64;
    /// A message's record written so many times.
    fn writes(message: &Sample, times: usize) -> u64;
}

/// The proved library through its wrapper, which makes a `Record` of the eighty bytes and eighty bytes of a `Record`.
pub struct Wrapped;

/// The library's reader and writer of NLS Plus with unchecked loads and stores.
pub struct Limit;

// A lawful message's eighty bytes.
fn record_of(message: &Sample) -> [u8; 80] {
    let mut record = [0; 80];
    let told = sorundappa::raw::read(message.edition.number(), &message.bytes, &mut record);
    assert_eq!(told, 0, "a lawful message");
    record
}

// The edition, as plain has it.
fn plain_edition(message: &Sample) -> plain::Edition {
    plain::Edition::of(message.edition.number()).expect("both have the same editions")
}

impl Messages for Proved {
    fn reads(message: &Sample, times: usize) -> u64 {
        let (edition, message) = (message.edition.number(), &message.bytes[..]);
        timed(|| {
            for _ in 0..times {
                let mut record = [0; 80];
                let told =
                    sorundappa::raw::read(black_box(edition), black_box(message), &mut record);
                black_box((told, &record));
            }
        })
    }

    fn writes(message: &Sample, times: usize) -> u64 {
        let (edition, record) = (message.edition.number(), record_of(message));
        let mut out = [0; SPACE];
        timed(|| {
            for _ in 0..times {
                black_box(sorundappa::raw::write(
                    black_box(edition),
                    black_box(&record),
                    black_box(&mut out),
                ));
            }
        })
    }
}

impl Messages for Limit {
    fn reads(message: &Sample, times: usize) -> u64 {
        let message = &message.bytes[..];
        timed(|| {
            for _ in 0..times {
                let mut record = [0; 80];
                let told = limit::read(black_box(message), &mut record);
                black_box((told, &record));
            }
        })
    }

    fn writes(message: &Sample, times: usize) -> u64 {
        let record = record_of(message);
        let mut out = [0; SPACE];
        timed(|| {
            for _ in 0..times {
                black_box(limit::write(black_box(&record), black_box(&mut out)));
            }
        })
    }
}

impl Messages for Wrapped {
    fn reads(message: &Sample, times: usize) -> u64 {
        let (edition, message) = (message.edition, &message.bytes[..]);
        timed(|| {
            for _ in 0..times {
                let _ = black_box(sorundappa::Record::read(black_box(edition), black_box(message)));
            }
        })
    }

    fn writes(message: &Sample, times: usize) -> u64 {
        let edition = message.edition;
        let record = sorundappa::Record::read(edition, &message.bytes).expect("a lawful message");
        let mut out = [0; SPACE];
        timed(|| {
            for _ in 0..times {
                let _ =
                    black_box(black_box(&record).write(black_box(edition), black_box(&mut out)));
            }
        })
    }
}

impl Messages for Plain {
    fn reads(message: &Sample, times: usize) -> u64 {
        let (edition, message) = (plain_edition(message), &message.bytes[..]);
        timed(|| {
            for _ in 0..times {
                black_box(plain::read(black_box(edition), black_box(message)));
            }
        })
    }

    fn writes(message: &Sample, times: usize) -> u64 {
        let edition = plain_edition(message);
        let (_, record) = plain::read(edition, &message.bytes);
        let mut out = [0; SPACE];
        timed(|| {
            for _ in 0..times {
                black_box(plain::write(
                    black_box(edition),
                    black_box(&record),
                    black_box(&mut out),
                ));
            }
        })
    }
}
