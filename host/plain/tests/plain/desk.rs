//! Messages built byte by byte, and a book with its lent room.

use plain::{deliver, fresh, list, row, Answer, Counters, Edition, Record, Row};

pub const ROW: usize = 30;
pub const LINE: usize = 40;

/// Text and then spaces up to `N` bytes.
pub fn pad<const N: usize>(text: &str) -> [u8; N] {
    let mut out = [b' '; N];
    out[..text.len()].copy_from_slice(text.as_bytes());
    out
}

/// The fields of T, X and C's original.
#[derive(Clone, Copy)]
pub struct Trade {
    pub time: u32,
    pub centre: u8,
    pub symbol: &'static str,
    pub class: u8,
    pub control: &'static str,
    pub price: u32,
    pub size: u32,
    pub condition: &'static str,
    pub consolidated: u64,
}

/// A lawful trade to vary.
pub const TRADE: Trade = Trade {
    time: 2_000,
    centre: b'Q',
    symbol: "ABCD",
    class: b'Q',
    control: "1",
    price: 251_000,
    size: 100,
    condition: "@   ",
    consolidated: 100,
};

/// What a correction puts in the original's place.
#[derive(Clone, Copy)]
pub struct New {
    pub control: &'static str,
    pub price: u32,
    pub size: u32,
    pub condition: &'static str,
}

pub const NEW: New = New { control: "9", price: 252_500, size: 120, condition: "@   " };

pub fn event(time: u32, event: u8) -> Vec<u8> {
    let mut out = time.to_be_bytes().to_vec();
    out.extend([b'S', event]);
    out
}

fn up_to_condition(letter: u8, t: &Trade) -> Vec<u8> {
    let mut out = t.time.to_be_bytes().to_vec();
    out.extend([letter, t.centre]);
    out.extend(pad::<8>(t.symbol));
    out.push(t.class);
    out.extend(pad::<10>(t.control));
    out.extend(t.price.to_be_bytes());
    out.extend(t.size.to_be_bytes());
    out.extend(t.condition.bytes());
    out
}

pub fn trade(t: &Trade) -> Vec<u8> {
    let mut out = up_to_condition(b'T', t);
    out.extend(t.consolidated.to_be_bytes());
    out
}

pub fn cancel(t: &Trade) -> Vec<u8> {
    let mut out = up_to_condition(b'X', t);
    out.extend(t.consolidated.to_be_bytes());
    out
}

pub fn correction(t: &Trade, new: &New) -> Vec<u8> {
    let mut out = up_to_condition(b'C', t);
    out.extend(pad::<10>(new.control));
    out.extend(new.price.to_be_bytes());
    out.extend(new.size.to_be_bytes());
    out.extend(new.condition.bytes());
    out.extend(t.consolidated.to_be_bytes());
    out
}

pub fn summary(symbol: &str, high: u32, low: u32, close: u32, consolidated: u64) -> Vec<u8> {
    let mut out = 60_000u32.to_be_bytes().to_vec();
    out.push(b'J');
    out.extend(pad::<8>(symbol));
    out.push(b'Q');
    out.extend(high.to_be_bytes());
    out.extend(low.to_be_bytes());
    out.extend(close.to_be_bytes());
    out.extend(consolidated.to_be_bytes());
    out
}

/// Reads a message of NLS Plus.
pub fn read(message: &[u8]) -> (Answer, Record) {
    plain::read(Edition::NlsPlus, message)
}

/// Writes a record as NLS Plus has it.
pub fn write(record: &Record, out: &mut [u8]) -> Answer {
    plain::write(Edition::NlsPlus, record, out)
}

/// A book together with what it was lent.
#[derive(Clone, PartialEq, Debug)]
pub struct Desk {
    pub counters: Counters,
    pub rows: Vec<u8>,
    pub lines: Vec<u8>,
}

impl Desk {
    /// A fresh book of NLS Plus over room that is full of old bytes.
    pub fn new(rows: usize, lines: usize) -> Desk {
        Desk::of(Edition::NlsPlus, rows, lines)
    }

    /// A fresh book of an edition.
    pub fn of(edition: Edition, rows: usize, lines: usize) -> Desk {
        let (rows, lines) = (vec![0xA5; rows * ROW], vec![0x5A; lines * LINE]);
        Desk { counters: fresh(edition), rows, lines }
    }

    /// ABCD listed at 250000 and event O taken as number 1.
    pub fn open(rows: usize, lines: usize) -> Desk {
        let mut desk = Desk::new(rows, lines);
        assert_eq!(desk.list("ABCD", 250_000), 0);
        assert_eq!(desk.next(&event(1_000, b'O')), 0);
        desk
    }

    pub fn list(&mut self, symbol: &str, close: u32) -> u8 {
        self.list_bytes(pad(symbol), close)
    }

    /// Lists, and sees that a refusal changed nothing.
    pub fn list_bytes(&mut self, symbol: [u8; 8], close: u32) -> u8 {
        let before = self.clone();
        let answer = list(&mut self.counters, &mut self.rows, &self.lines, symbol, close);
        assert_eq!(self.lines, before.lines);
        if answer != Answer::Done {
            assert_eq!(*self, before);
        }
        answer.number()
    }

    /// Delivers, and sees that a refusal used up the wanted number or changed nothing.
    pub fn say(&mut self, number: u64, message: &[u8]) -> u8 {
        let mut expected = self.clone();
        let answer =
            deliver(&mut self.counters, &mut self.rows, &mut self.lines, number, message).number();
        if (4..=12).contains(&answer) {
            expected.counters.wanted += 1;
        }
        if answer != 0 {
            assert_eq!(*self, expected);
        } else {
            assert_eq!(self.counters.wanted, expected.counters.wanted + 1);
            assert_eq!(self.counters.taken, expected.counters.taken + 1);
            assert_eq!(self.counters.rows, expected.counters.rows);
            assert_eq!(self.counters.edition, expected.counters.edition);
        }
        answer
    }

    /// Delivers under the wanted number.
    pub fn next(&mut self, message: &[u8]) -> u8 {
        self.say(self.counters.wanted, message)
    }

    /// The row of a listed symbol.
    pub fn row(&self, symbol: &str) -> Row {
        let (answer, row) = row(&self.counters, &self.rows, &self.lines, pad(symbol));
        assert_eq!(answer, Answer::Done);
        row
    }

    /// The answer of a row's reading, its row being empty where refused.
    pub fn asked(&self, symbol: [u8; 8]) -> u8 {
        let (answer, row) = row(&self.counters, &self.rows, &self.lines, symbol);
        if answer != Answer::Done {
            assert_eq!(row, NOTHING);
        }
        answer.number()
    }
}

/// A refused reading's row.
pub const NOTHING: Row = Row {
    symbol: [0; 8],
    close: 0,
    last: None,
    high: None,
    low: None,
    net: None,
    volume: 0,
    count: 0,
    agrees: false,
    reported: None,
};
