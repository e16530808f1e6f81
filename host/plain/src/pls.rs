//! PLS 1.1: the ASCII layouts. A number is spaces and then digits to its field's end.

use crate::bytes::{field, put};
use crate::message::Feed;
use crate::record::{Record, Rules, Sale};

/// Digits that a price has at least: its four decimals.
const DECIMALS: usize = 4;

pub(crate) struct Pls;

impl Rules for Pls {
    const CENTRES: &'static [u8] = b"X";
    const CLASSES: &'static [u8] = b"QNAPZ";
    /// Nine digits.
    const TOP_SIZE: u32 = 999_999_999;
    const REPORTS: bool = false;
}

impl Feed for Pls {
    const LETTER_AT: usize = 8;

    fn length_of(letter: u8) -> Option<usize> {
        match letter {
            b'S' => Some(10),
            b'T' | b'X' => Some(52),
            b'C' => Some(85),
            _ => None,
        }
    }

    #[inline]
    fn fields(message: &[u8]) -> Option<Record> {
        match message[8] {
            b'S' => event(message),
            b'C' => {
                let trade = trade(message)?;
                Some(Record { new: sale_at(message, 52)?, ..trade })
            }
            _ => trade(message),
        }
    }

    fn put_fields(out: &mut [u8], record: &Record) {
        put(out, 0, spell::<8>(record.time, 1));
        out[8] = record.letter;
        match record.letter {
            b'S' => out[9] = record.event,
            b'C' => {
                put_trade(out, record);
                put_sale(out, 52, &record.new);
            }
            _ => put_trade(out, record),
        }
    }
}

#[inline]
fn event(message: &[u8]) -> Option<Record> {
    let time = number(field::<8>(message, 0), 1)?;
    Some(Record { letter: b'S', time, event: message[9], ..Record::default() })
}

/// What T, X and C share.
#[inline]
fn trade(message: &[u8]) -> Option<Record> {
    Some(Record {
        letter: message[8],
        time: number(field::<8>(message, 0), 1)?,
        centre: message[9],
        symbol: field(message, 10),
        class: message[18],
        sale: sale_at(message, 19)?,
        ..Record::default()
    })
}

#[inline]
fn sale_at(message: &[u8], at: usize) -> Option<Sale> {
    Some(Sale {
        control: field(message, at),
        price: number(field::<10>(message, at + 10), DECIMALS)?,
        size: number(field::<9>(message, at + 20), 1)?,
        condition: field(message, at + 29),
    })
}

/// What spaces and then at least so many digits spell. A number past 32 bits is past every field's range as well.
#[inline]
fn number<const N: usize>(field: [u8; N], least: usize) -> Option<u32> {
    let spaces = field.iter().take_while(|byte| **byte == b' ').count();
    let digits = &field[spaces..];
    if digits.len() < least || !digits.iter().all(u8::is_ascii_digit) {
        return None;
    }
    let value = digits.iter().fold(0, |value, digit| value * 10 + u64::from(digit - b'0'));
    u32::try_from(value).ok()
}

fn put_trade(out: &mut [u8], record: &Record) {
    out[9] = record.centre;
    put(out, 10, record.symbol);
    out[18] = record.class;
    put_sale(out, 19, &record.sale);
}

fn put_sale(out: &mut [u8], at: usize, sale: &Sale) {
    put(out, at, sale.control);
    put(out, at + 10, spell::<10>(sale.price, DECIMALS));
    put(out, at + 20, spell::<9>(sale.size, 1));
    put(out, at + 29, sale.condition);
}

/// The digits of a number, at least so many, behind spaces. A lawful number fits its field.
#[inline]
fn spell<const N: usize>(value: u32, least: usize) -> [u8; N] {
    let mut out = [b' '; N];
    let (mut left, mut at) = (value, N);
    while left != 0 || N - at < least {
        at -= 1;
        out[at] = b'0' + (left % 10) as u8;
        left /= 10;
    }
    out
}
