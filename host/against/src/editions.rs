//! The runs of two editions: one day told in both, and numbers that are no edition's.
use crate::both::{read, write, Both};
use crate::records::some_record;
use crate::runs::{lines_room, maker, near_line, rows_room, some_symbol, Run, STRANGE};
use crate::tally::Tally;
use chance::{day, odd_counters, Dice, Edition, LINE, ROW, SYMBOLS};

/// A day of PLS, and the same day told in NLS Plus: the same answers, the same lines and the same rows, but for what is reported.
pub fn told_twice(dice: &mut Dice, tally: &mut Tally) -> Run {
    for _ in 0..60 {
        let day = day(dice, Edition::Pls, 150);
        let (rows, lines) = (vec![0; ROW * 9], vec![0; LINE * (20 + dice.index(90))]);
        let mut pls = Both::fresh(Edition::Pls.number(), &rows, &lines)?;
        let mut plus = Both::fresh(Edition::NlsPlus.number(), &rows, &lines)?;
        for (symbol, close) in &day.listings {
            tally.count(pls.list(*symbol, *close))?;
            tally.count(plus.list(*symbol, *close))?;
        }
        for (number, message) in (1..).zip(&day.messages) {
            let told = pls.deliver(number, message)?;
            tally.count(Ok(told))?;
            let again = plus.deliver(number, &in_nls_plus(dice, message))?;
            tally.count(Ok(again))?;
            if told != again {
                return Err(format!("number {number}: PLS is answered {told}, NLS Plus {again}"));
            }
            alike(dice.pick(&SYMBOLS), &mut pls, &mut plus, tally)?;
        }
        SYMBOLS.into_iter().try_for_each(|symbol| alike(symbol, &mut pls, &mut plus, tally))?;
    }
    Ok(())
}

// A message of PLS as NLS Plus has it, with some consolidated volume; one that is refused alone as one that is refused alike.
fn in_nls_plus(dice: &mut Dice, message: &[u8]) -> Vec<u8> {
    let (answer, mut record) = plain::read(plain::Edition::Pls, message);
    match answer {
        plain::Answer::Done => {
            if record.letter != b'S' {
                record.consolidated = dice.roll();
            }
            let mut out = vec![0; 67];
            plain::write(plain::Edition::NlsPlus, &record, &mut out);
            out.truncate(match record.letter {
                b'S' => 6,
                b'C' => 67,
                _ => 45,
            });
            out
        }
        plain::Answer::FieldBroken => b"\0\0\0\0S?".to_vec(),
        _ => Vec::new(),
    }
}

// The two books have the same lines, and the same row of a symbol but for the two words of what is reported; PLS reports nothing.
fn alike(symbol: [u8; 8], pls: &mut Both, plus: &mut Both, tally: &mut Tally) -> Run {
    let ((told, row), (again, other)) = (pls.figures(symbol)?, plus.figures(symbol)?);
    tally.count(Ok(told))?;
    tally.count(Ok(again))?;
    if (told, &row[..13]) != (again, &other[..13]) || pls.lines() != plus.lines() {
        return Err(format!("the row of {symbol:?}: PLS has {row:?}, NLS Plus {other:?}"));
    }
    if row[13..] != [0, 0] {
        return Err(format!("the row of {symbol:?}: PLS reports {:?}", &row[13..]));
    }
    Ok(())
}

/// Numbers that are no edition's: books started by them, words that bear them, messages and records alone.
pub fn strange_numbers(dice: &mut Dice, tally: &mut Tally) -> Run {
    for at in 0..2_000 {
        let edition =
            if at % 3 == 0 { 2 + dice.roll() % (u64::MAX - 1) } else { dice.pick(&STRANGE) };
        let (rows, lines) = (rows_room(dice, 3 * ROW), lines_room(dice, 4 * LINE));
        let mut book = Both::fresh(edition, &rows, &lines)?;
        let mut c = odd_counters(dice, 3, 4);
        c.edition = edition;
        let symbol = some_symbol(dice, &rows, c);
        let message = near_line(dice, edition, &lines);
        let mut worn = Both::new(c, &rows, &lines);
        for told in [
            book.list(symbol, 5)?,
            book.deliver(1, &message)?,
            book.row(symbol)?,
            worn.list(symbol, 5)?,
            worn.deliver(c.wanted, &message)?,
            worn.row(symbol)?,
        ] {
            tally.count(Ok(told))?;
            if told != 17 {
                return Err(format!("words of edition {edition} are answered {told}"));
            }
        }
        let lawful = maker(dice.pick(&Edition::ALL)).some_message(dice);
        let record = some_record(dice)?;
        for (told, wanted) in
            [(read(edition, &lawful)?.0, 4), (write(edition, &record, &dice.bytes(85))?, 5)]
        {
            tally.count(Ok(told))?;
            if told != wanted {
                return Err(format!("alone, by edition {edition}: {told}, not {wanted}"));
            }
        }
    }
    Ok(())
}
