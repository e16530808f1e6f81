//! Contents of lent room: what a book may find there before it writes.

use crate::dice::Dice;
use crate::maker::{Maker, LEVELS, SYMBOLS};

/// Bytes of a row's cell.
pub const ROW: usize = 30;
/// Bytes of a line's cell.
pub const LINE: usize = 40;
/// Near-real lines draw from so few controls, so that keys meet.
const CONTROLS: u64 = 12;

/// What fills a room.
#[derive(Clone, Copy, Debug, PartialEq, Eq)]
pub enum Kind {
    Zeros,
    Random,
    /// Cells of rows that are almost what a book leaves.
    Rows,
    /// Cells of lines that are almost what a book leaves.
    Lines,
}

/// A room of a kind and of a length in bytes; a last cell may be cut off.
pub fn contents(dice: &mut Dice, kind: Kind, length: usize) -> Vec<u8> {
    let mut out = Vec::with_capacity(length + LINE);
    while out.len() < length {
        match kind {
            Kind::Zeros => out.resize(length, 0),
            Kind::Random => out.extend(dice.bytes(length)),
            Kind::Rows => out.extend(row(dice)),
            Kind::Lines => out.extend(line(dice)),
        }
    }
    out.truncate(length);
    out
}

/// Mostly yes, sometimes no, now and then a byte that is neither.
fn mark(dice: &mut Dice) -> u8 {
    dice.pick(&[1, 1, 1, 1, 0, 0, 2, 255])
}

/// Mostly a symbol of the pool, now and then bytes that no rule allows.
fn symbol(dice: &mut Dice) -> [u8; 8] {
    if dice.chance(20) {
        dice.roll().to_be_bytes()
    } else {
        dice.pick(&SYMBOLS)
    }
}

/// Mostly a lawful price, now and then 0 or more than a price may be.
fn price(dice: &mut Dice) -> u32 {
    if dice.chance(8) {
        dice.pick(&[0, 2_000_000_001, u32::MAX])
    } else {
        Maker::some_price(dice)
    }
}

fn row(dice: &mut Dice) -> Vec<u8> {
    let mut out = symbol(dice).to_vec();
    out.extend(price(dice).to_be_bytes());
    out.push(mark(dice));
    out.extend(price(dice).to_be_bytes());
    out.extend(price(dice).to_be_bytes());
    out.push(mark(dice));
    out.extend(Maker::some_volume(dice).to_be_bytes());
    out
}

fn line(dice: &mut Dice) -> Vec<u8> {
    let maker = Maker::new(CONTROLS);
    let mut condition = Maker::some_condition(dice);
    if dice.chance(8) {
        // A code off its level's row, though another level may have it.
        let level = dice.index(4);
        condition[level] = dice.pick(&[b'?', b'J', 0, 255, LEVELS[(level + 1) % 4][1]]);
    }
    // X most often: every edition has it.
    let mut out = vec![if dice.chance(20) { dice.roll() as u8 } else { dice.pick(b"QLBXXX") }];
    out.extend(maker.some_control(dice));
    out.extend(symbol(dice));
    out.extend(price(dice).to_be_bytes());
    out.extend(if dice.chance(20) { 0 } else { maker.some_size(dice) }.to_be_bytes());
    out.extend(condition);
    // Few places, so that the greatest is often shared.
    let place = dice.pick(&[0, 1, 2, 3, 3, 4, 4, u32::MAX]);
    out.extend(place.to_be_bytes());
    out.extend(Maker::some_time(dice).to_be_bytes());
    out.push(mark(dice));
    out
}

#[cfg(test)]
mod tests {
    use super::*;
    use plain::{fresh, row as read_row, Counters, Edition};

    #[test]
    fn any_length_of_any_kind() {
        let mut dice = Dice::new(31);
        for kind in [Kind::Zeros, Kind::Random, Kind::Rows, Kind::Lines] {
            for length in 0..130 {
                assert_eq!(contents(&mut dice, kind, length).len(), length);
            }
        }
        assert_eq!(contents(&mut dice, Kind::Zeros, 99), [0; 99]);
        let random = contents(&mut dice, Kind::Random, 4_000);
        assert!((0..=255u8).all(|byte| random.contains(&byte)));
    }

    #[test]
    fn cells_have_their_sizes() {
        let mut dice = Dice::new(32);
        for _ in 0..100 {
            assert_eq!((row(&mut dice).len(), line(&mut dice).len()), (ROW, LINE));
        }
    }

    /// How many cells of a room bear the byte at an offset.
    fn bearing(room: &[u8], cell: usize, at: usize, byte: u8) -> usize {
        room.chunks_exact(cell).filter(|bytes| bytes[at] == byte).count()
    }

    #[test]
    fn near_real_cells_bear_all_marks() {
        let mut dice = Dice::new(33);
        let rows = contents(&mut dice, Kind::Rows, 1_000 * ROW);
        let lines = contents(&mut dice, Kind::Lines, 1_000 * LINE);
        for (room, cell, at) in [(&rows, ROW, 12), (&rows, ROW, 21), (&lines, LINE, 39)] {
            let counts = [1, 0, 2, 255].map(|mark| bearing(room, cell, at, mark));
            assert!(counts[0] > 400 && counts[1..].iter().all(|n| *n > 50), "{counts:?}");
            assert_eq!(counts.iter().sum::<usize>(), 1_000);
        }
    }

    #[test]
    fn near_real_rows_read_with_figures() {
        let mut dice = Dice::new(34);
        let rows = contents(&mut dice, Kind::Rows, 20 * ROW);
        let lines = contents(&mut dice, Kind::Lines, 200 * LINE);
        let counters = Counters { rows: 20, lines: 200, ..fresh(Edition::NlsPlus) };
        let found: Vec<_> = SYMBOLS
            .into_iter()
            .map(|symbol| read_row(&counters, &rows, &lines, symbol))
            .filter(|(answer, _)| answer.number() == 0)
            .collect();
        assert!(found.len() > 4);
        assert!(found.iter().all(|(_, row)| row.count > 4 && row.last.is_some()));
    }

    #[test]
    fn near_real_lines_share_keys_and_stray_from_the_sheet() {
        let mut dice = Dice::new(35);
        let lines = contents(&mut dice, Kind::Lines, 400 * LINE);
        let keys: Vec<&[u8]> = lines.chunks_exact(LINE).map(|cell| &cell[..11]).collect();
        let mut different = keys.clone();
        different.sort_unstable();
        different.dedup();
        assert!(different.len() > 30 && different.len() < 100, "{}", different.len());
        let off = |cell: &&[u8]| (0..4).any(|i| !LEVELS[i].contains(&cell[27 + i]));
        let strays = lines.chunks_exact(LINE).filter(off).count();
        assert!(strays > 20 && strays < 100, "{strays}");
    }
}
