//! Records written: lawful ones, ones with a field or more that breaks its rule, and any eighty bytes.
use crate::both::{bytes_of, read, record_of, write};
use crate::runs::{maker, number_by, Run};
use crate::tally::Tally;
use chance::{Dice, Edition};
use plain::Record;

/// Records that keep the rules, break one, are any bytes, or are any bytes behind a lawful front, into spaces of every length, by every
/// edition.
pub fn written(dice: &mut Dice, tally: &mut Tally) -> Run {
    for length in 0..=88 {
        for at in 0..200 {
            let edition = Edition::ALL[at % 2];
            let record = some_record_of(dice, edition)?;
            tally.count(write(number_by(dice, edition), &record, &dice.bytes(length)))?;
        }
    }
    Ok(())
}

/// A record of one of the four kinds, of either edition.
pub fn some_record(dice: &mut Dice) -> Result<Record, String> {
    let edition = dice.pick(&Edition::ALL);
    some_record_of(dice, edition)
}

fn some_record_of(dice: &mut Dice, edition: Edition) -> Result<Record, String> {
    let letter = dice.pick(maker(edition).letters());
    match dice.index(4) {
        0 => lawful_record(dice, edition, letter),
        1 => lawful_record(dice, edition, letter).map(|record| one_field_off(dice, record)),
        2 => Ok(arbitrary(dice, letter)),
        _ => lawful_front(dice, edition, letter),
    }
}

fn lawful_record(dice: &mut Dice, edition: Edition, letter: u8) -> Result<Record, String> {
    let message = maker(edition).some_of(dice, letter);
    read(edition.number(), &message).map(|(_, record)| record)
}

// Eighty bytes, every other time behind a letter of the five.
fn arbitrary(dice: &mut Dice, letter: u8) -> Record {
    let mut bytes: [u8; 80] = dice.bytes(80).try_into().expect("eighty bytes");
    if dice.chance(2) {
        bytes[0] = letter;
    }
    record_of(&bytes)
}

// A lawful record up to some byte, any bytes from there on; often only the volume's, of which any are lawful.
fn lawful_front(dice: &mut Dice, edition: Edition, letter: u8) -> Result<Record, String> {
    let mut bytes = bytes_of(&lawful_record(dice, edition, letter)?);
    let front = if dice.chance(3) { 72 + dice.index(8) } else { 1 + dice.index(79) };
    bytes[front..].copy_from_slice(&dice.bytes(80 - front));
    Ok(record_of(&bytes))
}

// One field of a record, its letter among them, given some other value.
fn one_field_off(dice: &mut Dice, mut r: Record) -> Record {
    let value = dice.roll();
    match dice.index(18) {
        0 => r.letter = value as u8,
        1 => r.time = dice.pick(&[86_399_999, 86_400_000, u32::MAX]),
        2 => r.event = value as u8,
        3 => r.centre = value as u8,
        4 => r.symbol[dice.index(8)] = value as u8,
        5 => r.class = value as u8,
        6 => r.sale.control[dice.index(10)] = value as u8,
        7 => r.sale.price = some_price(dice),
        8 => r.sale.size = some_size(dice),
        9 => r.sale.condition[dice.index(4)] = value as u8,
        10 => r.new.control[dice.index(10)] = value as u8,
        11 => r.new.price = some_price(dice),
        12 => r.new.size = some_size(dice),
        13 => r.new.condition[dice.index(4)] = value as u8,
        14 => r.high = some_price(dice),
        15 => r.low = some_price(dice),
        16 => r.close = some_price(dice),
        _ => r.consolidated = dice.pick(&[0, 1, value]),
    }
    r
}

fn some_price(dice: &mut Dice) -> u32 {
    dice.pick(&[0, 1, 2_000_000_000, 2_000_000_001, u32::MAX])
}

fn some_size(dice: &mut Dice) -> u32 {
    dice.pick(&[0, 1, 999_999_999, 1_000_000_000, u32::MAX])
}
