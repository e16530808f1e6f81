//! The two books under one set of calls, each timed in nanoseconds.
use crate::day;
use crate::timed::timed;
use std::hint::black_box;

/// The day that is measured is one of NLS Plus.
const NLS_PLUS: u64 = 0;

fn symbols() -> Vec<[u8; 8]> {
    (0..256).map(day::symbol).collect()
}

/// What is measured of a side.
pub trait Side {
    fn new(rows: usize, lines: usize) -> Self;
    /// The rooms cleared and a fresh book started.
    fn clear(&mut self);
    /// The symbols listed.
    fn list(&mut self, symbols: &[[u8; 8]]);
    /// The messages delivered in order.
    fn deliver(&mut self, messages: &[Vec<u8>]);
    /// The listings alone, timed.
    fn sheet(&mut self) -> u64 {
        self.clear();
        let symbols = symbols();
        timed(|| self.list(&symbols))
    }
    /// A whole day.
    fn play(&mut self, messages: &[Vec<u8>]) {
        self.clear();
        self.list(&symbols());
        self.deliver(messages);
    }
    /// The same, of which the messages alone are timed.
    fn day(&mut self, messages: &[Vec<u8>]) -> u64 {
        self.clear();
        self.list(&symbols());
        timed(|| self.deliver(messages))
    }
    /// The rows of these symbols read.
    fn rows(&self, symbols: &[[u8; 8]]) -> u64;
    /// Every row of the sheet read once.
    fn wall(&self) -> u64 {
        self.rows(&symbols())
    }
    /// A message that names no line delivered so many times, each under the next number: a refused one uses it up.
    fn unnamed(&mut self, message: &[u8], times: u64) -> u64;
}

/// The rooms and the counters of the proved book.
pub struct Proved {
    counters: [u64; 6],
    rows: Vec<u8>,
    lines: Vec<u8>,
}

/// The rooms and the counters of the plain one.
pub struct Plain {
    counters: plain::Counters,
    rows: Vec<u8>,
    lines: Vec<u8>,
}

impl Side for Proved {
    fn new(rows: usize, lines: usize) -> Proved {
        Proved { counters: [0; 6], rows: vec![0; rows * 30], lines: vec![0; lines * 40] }
    }

    fn clear(&mut self) {
        self.rows.fill(0);
        self.lines.fill(0);
        sorundappa::raw::start(&mut self.counters, NLS_PLUS);
    }

    fn list(&mut self, symbols: &[[u8; 8]]) {
        for symbol in symbols {
            let told = sorundappa::raw::list(
                &mut self.counters,
                &mut self.rows,
                &self.lines,
                symbol,
                250_000,
            );
            assert_eq!(told, 0);
        }
    }

    fn deliver(&mut self, messages: &[Vec<u8>]) {
        for (number, message) in (1..).zip(messages) {
            let told = sorundappa::raw::deliver(
                &mut self.counters,
                &mut self.rows,
                &mut self.lines,
                number,
                message,
            );
            assert_eq!(told, 0, "number {number}");
        }
    }

    fn rows(&self, symbols: &[[u8; 8]]) -> u64 {
        let mut row = [0; 15];
        timed(|| {
            for symbol in symbols {
                let told =
                    sorundappa::raw::row(&self.counters, &self.rows, &self.lines, symbol, &mut row);
                assert_eq!(black_box((told, sorundappa::Row::of(&row))).0, 0);
            }
        })
    }

    fn unnamed(&mut self, message: &[u8], times: u64) -> u64 {
        let wanted = self.counters[0];
        timed(|| {
            for number in wanted..wanted + times {
                let told = sorundappa::raw::deliver(
                    &mut self.counters,
                    &mut self.rows,
                    &mut self.lines,
                    number,
                    message,
                );
                assert_eq!(told, 8, "number {number}");
            }
        })
    }
}

impl Side for Plain {
    fn new(rows: usize, lines: usize) -> Plain {
        Plain {
            counters: plain::fresh(plain::Edition::NlsPlus),
            rows: vec![0; rows * 30],
            lines: vec![0; lines * 40],
        }
    }

    fn clear(&mut self) {
        self.rows.fill(0);
        self.lines.fill(0);
        self.counters = plain::fresh(plain::Edition::NlsPlus);
    }

    fn list(&mut self, symbols: &[[u8; 8]]) {
        for symbol in symbols {
            let told =
                plain::list(&mut self.counters, &mut self.rows, &self.lines, *symbol, 250_000);
            assert_eq!(told, plain::Answer::Done);
        }
    }

    fn deliver(&mut self, messages: &[Vec<u8>]) {
        for (number, message) in (1..).zip(messages) {
            let told = plain::deliver(
                &mut self.counters,
                &mut self.rows,
                &mut self.lines,
                number,
                message,
            );
            assert_eq!(told, plain::Answer::Done, "number {number}");
        }
    }

    fn rows(&self, symbols: &[[u8; 8]]) -> u64 {
        timed(|| {
            for symbol in symbols {
                let (told, row) = plain::row(&self.counters, &self.rows, &self.lines, *symbol);
                assert_eq!(black_box((told, row)).0, plain::Answer::Done);
            }
        })
    }

    fn unnamed(&mut self, message: &[u8], times: u64) -> u64 {
        let wanted = self.counters.wanted;
        timed(|| {
            for number in wanted..wanted + times {
                let told = plain::deliver(
                    &mut self.counters,
                    &mut self.rows,
                    &mut self.lines,
                    number,
                    message,
                );
                assert_eq!(told, plain::Answer::NoLine, "number {number}");
            }
        })
    }
}

impl Proved {
    /// Whether both hold the same bytes.
    pub fn same_as(&self, other: &Plain) -> bool {
        self.rows == other.rows && self.lines == other.lines
    }

    /// A book with so many rows and lines used: nanoseconds of a trade of the last row there, and of reading that row.
    pub fn grown(lines: usize, rows: usize) -> (f64, f64) {
        const MORE: usize = 64;
        let mut book = Proved::new(256, 65_536);
        let all = day::messages(lines, rows);
        sorundappa::raw::start(&mut book.counters, NLS_PLUS);
        for i in 0..rows {
            sorundappa::raw::list(
                &mut book.counters,
                &mut book.rows,
                &book.lines,
                &day::symbol(i),
                250_000,
            );
        }
        for (number, message) in (1..).zip(&all) {
            sorundappa::raw::deliver(
                &mut book.counters,
                &mut book.rows,
                &mut book.lines,
                number,
                message,
            );
        }
        let more = day::of_last_row(lines, MORE, rows);
        let mut row = [0; 15];
        let read = (0..25)
            .map(|_| {
                timed(|| {
                    black_box(sorundappa::raw::row(
                        &book.counters,
                        &book.rows,
                        &book.lines,
                        &day::symbol(rows - 1),
                        &mut row,
                    ));
                })
            })
            .min();
        let trades = timed(|| {
            for (number, message) in (all.len() as u64 + 1..).zip(&more) {
                assert_eq!(
                    sorundappa::raw::deliver(
                        &mut book.counters,
                        &mut book.rows,
                        &mut book.lines,
                        number,
                        message
                    ),
                    0
                );
            }
        });
        (trades as f64 / MORE as f64, read.unwrap_or(0) as f64)
    }
}
