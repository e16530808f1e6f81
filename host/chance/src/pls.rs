//! PLS 1.1: a message from its fields, other spellings of its numbers, and spellings that are none.

use crate::dice::Dice;
use crate::maker::{New, Trade};

/// S, of 10 bytes.
pub fn event(time: u32, event: u8) -> Vec<u8> {
    format!("{time:8}S{}", char::from(event)).into_bytes()
}

/// T or X, of 52 bytes. It has no consolidated volume.
pub fn trade(letter: u8, trade: &Trade) -> Vec<u8> {
    let mut out = format!("{:8}", trade.time).into_bytes();
    out.extend([letter, trade.centre]);
    out.extend(trade.symbol);
    out.push(trade.class);
    out.extend(trade.control);
    out.extend(sale(trade.price, trade.size));
    out.extend(trade.condition);
    out
}

/// C, of 85 bytes.
pub fn correction(original: &Trade, new: &New) -> Vec<u8> {
    let mut out = trade(b'C', original);
    out.extend(new.control);
    out.extend(sale(new.price, new.size));
    out.extend(new.condition);
    out
}

// A price has six places before its point and four behind. Of a size that is too great the last nine digits are left.
fn sale(price: u32, size: u32) -> Vec<u8> {
    format!("{:>10}{:9}", format!("{price:04}"), size % 1_000_000_000).into_bytes()
}

/// A message's number fields: offset, width, and the digits that each has at least.
const NUMBERS: [(usize, usize, usize); 5] =
    [(0, 8, 1), (29, 10, 4), (39, 9, 1), (62, 10, 4), (72, 9, 1)];

fn numbers(message: &[u8]) -> impl Iterator<Item = &'static (usize, usize, usize)> {
    let length = message.len();
    NUMBERS.iter().filter(move |(at, width, _)| at + width <= length)
}

/// The message with zeros in the place of spaces before some of its numbers, which are the same numbers still.
pub fn respelled(dice: &mut Dice, message: &[u8]) -> Vec<u8> {
    let mut out = message.to_vec();
    for (at, width, _) in numbers(message) {
        let field = &mut out[*at..at + width];
        let spaces = field.iter().take_while(|byte| **byte == b' ').count();
        if dice.chance(2) {
            field[dice.index(spaces + 1)..spaces].fill(b'0');
        }
    }
    out
}

/// The message with one of its numbers spelled in a way that is none, or outside its range, or just inside.
pub fn misspelled(dice: &mut Dice, message: &[u8]) -> Vec<u8> {
    let fields: Vec<_> = numbers(message).collect();
    let mut out = message.to_vec();
    if fields.is_empty() {
        return out;
    }
    let (at, width, least) = *dice.pick(&fields);
    let field = &mut out[at..at + width];
    match dice.below(8) {
        0 => field.fill(b' '),
        1 => field.fill(b'0'),
        2 => field[dice.index(width)] = b' ',
        3 => field[dice.index(width)] = dice.pick(b"+-.,/:\0aA\xff"),
        // A digit too few for a price, and none for the others.
        4 => field[..=width - least].fill(b' '),
        5 => field.rotate_left(1),
        6 => spell(field, dice.pick(&EDGES)),
        _ => spell(field, 4_294_967_296 + dice.below(2_000_000_001)),
    }
    out
}

/// Numbers about the bounds of a time, a size and a price, and past 32 bits.
const EDGES: [u64; 12] = [
    0,
    1,
    86_399_999,
    86_400_000,
    99_999_999,
    999_999_999,
    1_999_999_999,
    2_000_000_000,
    2_000_000_001,
    4_294_967_295,
    4_294_967_297,
    9_999_999_999,
];

// The last digits of a number behind zeros, as many as the field has.
fn spell(field: &mut [u8], number: u64) {
    let digits = format!("{number:010}").into_bytes();
    field.copy_from_slice(&digits[digits.len() - field.len()..]);
}

#[cfg(test)]
mod tests {
    use super::*;
    use plain::{read, Answer, Edition};

    const TRADE: &[u8] = b"       5TXABCD    Q1               0001        1@   ";

    #[test]
    fn another_spelling_is_the_same_record() {
        let mut dice = Dice::new(71);
        let (answer, record) = read(Edition::Pls, TRADE);
        assert_eq!(answer, Answer::Done);
        let mut seen = [0; 3];
        for _ in 0..1_000 {
            let other = respelled(&mut dice, TRADE);
            assert_eq!(read(Edition::Pls, &other), (Answer::Done, record));
            for (seen, (at, width, _)) in seen.iter_mut().zip(numbers(TRADE)) {
                *seen += usize::from(other[*at..at + width] != TRADE[*at..at + width]);
            }
        }
        assert!(seen.iter().all(|times| (300..600).contains(times)), "{seen:?}");
    }

    #[test]
    fn misspelled_ones_are_mostly_refused() {
        let mut dice = Dice::new(72);
        let mut seen = [0; 6];
        for _ in 0..4_000 {
            let other = misspelled(&mut dice, TRADE);
            assert_eq!(other.len(), TRADE.len());
            seen[usize::from(read(Edition::Pls, &other).0.number())] += 1;
        }
        assert!(seen[5] > 2_000 && seen[0] > 400 && seen[4] == 0, "{seen:?}");
        assert_eq!(misspelled(&mut dice, b"       "), b"       ");
    }
}
