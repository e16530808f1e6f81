//! The runs at the edges of a room: both caps, and nothing lent at all.
use crate::both::{read_nothing, write_nothing, Both};
use crate::records::some_record;
use crate::runs::{lines_room, maker, near_line, rows_room, some_number, some_symbol, Run};
use crate::tally::Tally;
use chance::{
    contents, odd_counters, Counts, Dice, Edition, Kind, Maker, Summary, Trade, LINE, ROW,
};

const MOST_ROWS: u64 = 256;

/// Books at their caps, with more room than the caps allow: 256 rows and 65,536 lines.
pub fn full_books(dice: &mut Dice, tally: &mut Tally) -> Run {
    let mut sheet = Both::fresh(dice.below(2), &dice.bytes(260 * ROW), &[])?;
    for i in 0..260 {
        tally.count(sheet.list(name(i.into()), i))?;
    }
    let rows = contents(dice, Kind::Rows, 2 * ROW);
    let lines = contents(dice, Kind::Lines, 65_538 * LINE);
    let symbol: [u8; 8] = rows[..8].try_into().expect("eight bytes");
    for (at, used) in [65_534, 65_535, 65_536, 65_537].into_iter().enumerate() {
        let edition = Edition::ALL[at % 2];
        let c = counts(edition, 9, 2, 1, used);
        let mut book = Both::new(c, &rows, &lines);
        for i in 0..4 {
            let control = *b"NEW0      ";
            let mut trade = Trade { symbol, control, ..maker(edition).some_trade(dice) };
            trade.control[3] += i;
            tally.count(book.deliver(book.counters().wanted, &maker(edition).trade(&trade)))?;
        }
        tally.count(book.row(symbol))?;
    }
    Ok(())
}

// Counters with three messages taken, or none where the first is wanted.
fn counts(edition: Edition, wanted: u64, phase: u64, rows: u64, lines: u64) -> Counts {
    let taken = if wanted == 1 { 0 } else { 3 };
    Counts { wanted, phase, rows, lines, taken, edition: edition.number() }
}

// A symbol of its own for each row.
fn name(i: u64) -> [u8; 8] {
    format!("R{i:<7}").as_bytes().try_into().expect("eight bytes")
}

/// Rooms about the cap on rows, under counters that claim about as many.
pub fn full_sheets(dice: &mut Dice, tally: &mut Tally) -> Run {
    for room in [255, 256, 257, 260] {
        let mut rows = contents(dice, Kind::Rows, room * ROW);
        for (i, cell) in (0..).zip(rows.chunks_exact_mut(ROW)) {
            cell[..8].copy_from_slice(&name(i));
        }
        for used in 254..=258 {
            about_cap(dice, tally, &rows, used)?;
        }
    }
    Ok(())
}

// A listing, a reading and two deliveries for rows within, at and past what is used; unsound exactly if more is claimed than the limit.
fn about_cap(dice: &mut Dice, tally: &mut Tally, rows: &[u8], used: u64) -> Run {
    let limit = MOST_ROWS.min((rows.len() / ROW) as u64);
    let edition = dice.pick(&Edition::ALL);
    let early = counts(edition, 1, 0, used, 0);
    let later = counts(edition, 9, 2, used, 0);
    let lines = lines_room(dice, 2 * LINE);
    for i in [0, used - 1, used, used + 1, 255, 256, 999] {
        let trade = Trade { symbol: name(i), ..maker(edition).some_trade(dice) };
        let trade = maker(edition).trade(&trade);
        let summary = Summary { symbol: name(i), ..Maker::some_summary(dice) };
        let summary = Maker::summary(&summary);
        for told in [
            Both::new(early, rows, &lines).list(name(i), 5)?,
            Both::new(later, rows, &lines).row(name(i))?,
            Both::new(later, rows, &lines).deliver(9, &trade)?,
            Both::new(later, rows, &lines).deliver(9, &summary)?,
        ] {
            tally.count(Ok(told))?;
            if (told == 17) != (used > limit) {
                return Err(format!("{used} rows used of {limit}, and the answer is {told}"));
            }
        }
    }
    Ok(())
}

/// Rooms, messages and spaces without a byte, lent as Rust's own empty slice.
pub fn nothing_lent(dice: &mut Dice, tally: &mut Tally) -> Run {
    for _ in 0..1_500 {
        let (rows, lines) = dice.pick(&[(0, 0), (0, 3), (3, 0), (3, 3)]);
        let c = odd_counters(dice, rows as u64, lines as u64);
        let (rows, lines) = (rows_room(dice, rows * ROW), lines_room(dice, lines * LINE));
        let symbol = some_symbol(dice, &rows, c);
        tally.count(Both::bare(c, &rows, &lines).list(symbol, 5))?;
        tally.count(Both::bare(c, &rows, &lines).row(symbol))?;
        tally.count(Both::bare(c, &rows, &lines).deliver(c.wanted, &[]))?;
        let (number, message) = (some_number(dice, c.wanted), near_line(dice, c.edition, &lines));
        tally.count(Both::bare(c, &rows, &lines).deliver(number, &message))?;
        tally.count(read_nothing(c.edition))?;
        tally.count(write_nothing(c.edition, &some_record(dice)?))?;
    }
    Ok(())
}
