//! One message, read and written by its edition.

use crate::answer::Answer;
use crate::edition::Edition;
use crate::nls_plus::NlsPlus;
use crate::pls::Pls;
use crate::record::{Record, Rules};

/// The layouts of an edition.
pub(crate) trait Feed: Rules {
    /// Where a message has its type's letter.
    const LETTER_AT: usize;
    /// How long a message of a type is.
    fn length_of(letter: u8) -> Option<usize>;
    /// The fields of a message that has its type's length, as they stand there; none if one of them spells no number.
    fn fields(message: &[u8]) -> Option<Record>;
    /// Puts a lawful record's message into just as many bytes as it has.
    fn put_fields(out: &mut [u8], record: &Record);
}

/// Reads one message; a refused one gives a record of zeros.
pub fn read(edition: Edition, message: &[u8]) -> (Answer, Record) {
    match parse(edition, message) {
        Ok(record) => (Answer::Done, record),
        Err(answer) => (answer, Record::default()),
    }
}

/// The record of a message, or answer 4 or 5.
#[inline]
pub(crate) fn parse(edition: Edition, message: &[u8]) -> Result<Record, Answer> {
    match edition {
        Edition::NlsPlus => parse_by::<NlsPlus>(message),
        Edition::Pls => parse_by::<Pls>(message),
    }
}

#[inline]
fn parse_by<F: Feed>(message: &[u8]) -> Result<Record, Answer> {
    let letter = *message.get(F::LETTER_AT).ok_or(Answer::NoType)?;
    if F::length_of(letter) != Some(message.len()) {
        return Err(Answer::NoType);
    }
    match F::fields(message) {
        Some(record) if record.keeps_rules::<F>() => Ok(record),
        _ => Err(Answer::FieldBroken),
    }
}

/// Writes the record's message at the start of `out`; bytes past it stay as they are.
pub fn write(edition: Edition, record: &Record, out: &mut [u8]) -> Answer {
    match edition {
        Edition::NlsPlus => write_by::<NlsPlus>(record, out),
        Edition::Pls => write_by::<Pls>(record, out),
    }
}

fn write_by<F: Feed>(record: &Record, out: &mut [u8]) -> Answer {
    let Some(length) = F::length_of(record.letter) else {
        return Answer::FieldBroken;
    };
    if record.own_fields::<F>() != *record || !record.keeps_rules::<F>() {
        return Answer::FieldBroken;
    }
    let Some(out) = out.get_mut(..length) else {
        return Answer::NoSpace;
    };
    F::put_fields(out, record);
    Answer::Done
}
