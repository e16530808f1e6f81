//! The reader and the writer of one message of NLS Plus, with the rules of the proved library asked in its order, but with every load and store
//! unchecked once the length is known. How far the library is from it is what its checks, its calls and its copying still cost. For the
//! bench alone.
#![deny(unsafe_op_in_unsafe_fn, clippy::undocumented_unsafe_blocks)]

mod rules;

use rules::{kept, lawful};

/// A record's bytes, and where each field stands in them.
pub type Record = [u8; 80];
const LETTER: usize = 0;
const TIME: usize = 1;
const EVENT: usize = 5;
const CENTRE: usize = 6;
const SYMBOL: usize = 7;
const CLASS: usize = 15;
const OLD_SALE: usize = 16;
const NEW_SALE: usize = 38;
const HIGH: usize = 60;
const LOW: usize = 64;
const CLOSE: usize = 68;
const CONSOLIDATED: usize = 72;

// Where a message has its time, its letter, and what stands behind the letter.
const M_TIME: usize = 0;
const M_LETTER: usize = 4;
const M_BODY: usize = 5;

const DONE: u8 = 0;
const NO_TYPE: u8 = 4;
const FIELD_BROKEN: u8 = 5;
const NO_SPACE: u8 = 18;

// The length of a type's messages; 0 for what is no type.
fn length_of(letter: u8) -> usize {
    match letter {
        b'S' => 6,
        b'T' | b'X' => 45,
        b'C' => 67,
        b'J' => 34,
        _ => 0,
    }
}

/// Copies `N` bytes.
///
/// # Safety
/// `N` bytes from each place on belong to the caller, and the two runs do not overlap.
unsafe fn copy<const N: usize>(to: *mut u8, at: usize, from: *const u8, place: usize) {
    // SAFETY: both runs are the caller's, and an array of bytes may stand anywhere.
    unsafe {
        let bytes = from.add(place).cast::<[u8; N]>().read_unaligned();
        to.add(at).cast::<[u8; N]>().write_unaligned(bytes);
    }
}

/// Puts the fields of a message over zeros.
///
/// # Safety
/// The message is as long as the type of this letter.
unsafe fn unpack(record: &mut Record, message: &[u8], letter: u8) {
    let (b, m) = (record.as_mut_ptr(), message.as_ptr());
    // SAFETY: the last byte that a type's copies read is the last of its length, and none stores past the eighty; a record that is
    // written through and a message that is read do not overlap.
    unsafe {
        copy::<1>(b, LETTER, m, M_LETTER);
        copy::<4>(b, TIME, m, M_TIME);
        match letter {
            b'S' => copy::<1>(b, EVENT, m, M_BODY),
            b'J' => {
                copy::<9>(b, SYMBOL, m, M_BODY);
                copy::<20>(b, HIGH, m, 14);
            }
            b'C' => {
                copy::<54>(b, CENTRE, m, M_BODY);
                copy::<8>(b, CONSOLIDATED, m, 59);
            }
            _ => {
                copy::<32>(b, CENTRE, m, M_BODY);
                copy::<8>(b, CONSOLIDATED, m, 37);
            }
        }
    }
}

/// Stores the message of a record.
///
/// # Safety
/// The space is at least as long as the type of this letter.
unsafe fn store(out: &mut [u8], record: &Record, letter: u8) {
    let (o, b) = (out.as_mut_ptr(), record.as_ptr());
    // SAFETY: the last byte that a type's copies store is the last of its length, and none reads past the eighty; a space that is
    // written and a record that is read do not overlap.
    unsafe {
        copy::<4>(o, M_TIME, b, TIME);
        copy::<1>(o, M_LETTER, b, LETTER);
        match letter {
            b'S' => copy::<1>(o, M_BODY, b, EVENT),
            b'J' => {
                copy::<9>(o, M_BODY, b, SYMBOL);
                copy::<20>(o, 14, b, HIGH);
            }
            b'C' => {
                copy::<54>(o, M_BODY, b, CENTRE);
                copy::<8>(o, 59, b, CONSOLIDATED);
            }
            _ => {
                copy::<32>(o, M_BODY, b, CENTRE);
                copy::<8>(o, 37, b, CONSOLIDATED);
            }
        }
    }
}

/// As `sorundappa_read`: 0; or 4 or 5, and every byte of the record is 0. Called, never inlined, as the library is.
#[inline(never)]
pub fn read(message: &[u8], record: &mut Record) -> u8 {
    *record = [0; 80];
    let letter = message.get(M_LETTER).map_or(0, |letter| *letter);
    let need = length_of(letter);
    if need == 0 || message.len() != need {
        return NO_TYPE;
    }
    // SAFETY: the length was just asked.
    unsafe { unpack(record, message, letter) };
    if kept(record, letter) {
        return DONE;
    }
    *record = [0; 80];
    FIELD_BROKEN
}

/// As `sorundappa_write`: 0, and the bytes past the message stay; or 5, or else 18, and all of `out` stays.
#[inline(never)]
pub fn write(record: &Record, out: &mut [u8]) -> u8 {
    let letter = record[LETTER];
    if !lawful(record, letter) {
        return FIELD_BROKEN;
    }
    if out.len() < length_of(letter) {
        return NO_SPACE;
    }
    // SAFETY: the length was just asked.
    unsafe { store(out, record, letter) };
    DONE
}
