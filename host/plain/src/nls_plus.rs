//! NLS Plus 2.0: the binary layouts.

use crate::bytes::{field, put};
use crate::message::Feed;
use crate::record::{Record, Rules, Sale};

pub(crate) struct NlsPlus;

impl Rules for NlsPlus {
    const CENTRES: &'static [u8] = b"QLBX";
    const CLASSES: &'static [u8] = b"QNAPZB";
    const TOP_SIZE: u32 = u32::MAX;
    const REPORTS: bool = true;
}

impl Feed for NlsPlus {
    const LETTER_AT: usize = 4;

    fn length_of(letter: u8) -> Option<usize> {
        match letter {
            b'S' => Some(6),
            b'T' | b'X' => Some(45),
            b'C' => Some(67),
            b'J' => Some(34),
            _ => None,
        }
    }

    #[inline]
    fn fields(message: &[u8]) -> Option<Record> {
        Some(match message[4] {
            b'S' => event(message),
            b'J' => summary(message),
            b'C' => Record { new: sale_at(message, 37), ..trade(message, 59) },
            _ => trade(message, 37),
        })
    }

    fn put_fields(out: &mut [u8], record: &Record) {
        put(out, 0, record.time.to_be_bytes());
        out[4] = record.letter;
        match record.letter {
            b'S' => out[5] = record.event,
            b'J' => put_summary(out, record),
            b'C' => {
                put_trade(out, record, 59);
                put_sale(out, 37, &record.new);
            }
            _ => put_trade(out, record, 37),
        }
    }
}

#[inline]
fn event(message: &[u8]) -> Record {
    Record { letter: b'S', time: u32_at(message, 0), event: message[5], ..Record::default() }
}

#[inline]
fn u32_at(message: &[u8], at: usize) -> u32 {
    u32::from_be_bytes(field(message, at))
}

#[inline]
fn u64_at(message: &[u8], at: usize) -> u64 {
    u64::from_be_bytes(field(message, at))
}

#[inline]
fn sale_at(message: &[u8], at: usize) -> Sale {
    Sale {
        control: field(message, at),
        price: u32_at(message, at + 10),
        size: u32_at(message, at + 14),
        condition: field(message, at + 18),
    }
}

/// What T, X and C share; they differ in where the consolidated volume stands.
#[inline]
fn trade(message: &[u8], volume_at: usize) -> Record {
    Record {
        letter: message[4],
        time: u32_at(message, 0),
        centre: message[5],
        symbol: field(message, 6),
        class: message[14],
        sale: sale_at(message, 15),
        consolidated: u64_at(message, volume_at),
        ..Record::default()
    }
}

#[inline]
fn summary(message: &[u8]) -> Record {
    Record {
        letter: b'J',
        time: u32_at(message, 0),
        symbol: field(message, 5),
        class: message[13],
        high: u32_at(message, 14),
        low: u32_at(message, 18),
        close: u32_at(message, 22),
        consolidated: u64_at(message, 26),
        ..Record::default()
    }
}

fn put_trade(out: &mut [u8], record: &Record, volume_at: usize) {
    out[5] = record.centre;
    put(out, 6, record.symbol);
    out[14] = record.class;
    put_sale(out, 15, &record.sale);
    put(out, volume_at, record.consolidated.to_be_bytes());
}

fn put_sale(out: &mut [u8], at: usize, sale: &Sale) {
    put(out, at, sale.control);
    put(out, at + 10, sale.price.to_be_bytes());
    put(out, at + 14, sale.size.to_be_bytes());
    put(out, at + 18, sale.condition);
}

fn put_summary(out: &mut [u8], record: &Record) {
    put(out, 5, record.symbol);
    out[13] = record.class;
    put(out, 14, record.high.to_be_bytes());
    put(out, 18, record.low.to_be_bytes());
    put(out, 22, record.close.to_be_bytes());
    put(out, 26, record.consolidated.to_be_bytes());
}
