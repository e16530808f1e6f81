//! The runs: each makes calls of one kind from the dice and stops at the first difference.
use crate::both::{read, write, Both};
use crate::tally::Tally;
use chance::{
    arrivals, contents, cut, day, flip, odd_counters, reach, retype, sound_counters, Counts, Day,
    Dice, Edition, Kind, Maker, Trouble, LINE, ROW, SYMBOLS,
};

/// What a run comes to: nothing, or a difference in words.
pub type Run = Result<(), String>;

/// Few controls, so that keys meet.
const CONTROLS: u64 = 12;
/// Numbers that are no edition's, though parts of some are.
pub const STRANGE: [u64; 5] = [2, 256, 1 << 32, (1 << 32) + 1, u64::MAX];

/// The maker of an edition.
pub fn maker(edition: Edition) -> Maker {
    Maker::of(edition, CONTROLS)
}

/// Mostly the maker of a number's edition, now and then the other's; of a number that is none's, either.
pub fn maker_for(dice: &mut Dice, edition: u64) -> Maker {
    let known = Edition::ALL.into_iter().find(|known| known.number() == edition);
    match known {
        Some(edition) if !dice.chance(10) => maker(edition),
        _ => maker(dice.pick(&Edition::ALL)),
    }
}

/// Mostly an edition's number, now and then another's or none's.
pub fn number_by(dice: &mut Dice, edition: Edition) -> u64 {
    match dice.below(12) {
        0 => dice.below(2),
        1 => dice.pick(&STRANGE),
        _ => edition.number(),
    }
}

pub fn rows_room(dice: &mut Dice, length: usize) -> Vec<u8> {
    let kind = dice.pick(&[Kind::Zeros, Kind::Random, Kind::Rows, Kind::Rows]);
    contents(dice, kind, length)
}

pub fn lines_room(dice: &mut Dice, length: usize) -> Vec<u8> {
    let kind = dice.pick(&[Kind::Zeros, Kind::Random, Kind::Lines, Kind::Lines]);
    contents(dice, kind, length)
}

// A fresh book with room to spare or a little too small, in any contents, and the day's sheet on it.
fn opened(dice: &mut Dice, tally: &mut Tally, edition: Edition, day: &Day) -> Result<Both, String> {
    let (rows, lines) = (
        ROW * dice.index(14) + dice.index(2),
        LINE * dice.index(day.messages.len()) + dice.index(2),
    );
    let (rows, lines) = (rows_room(dice, rows), lines_room(dice, lines));
    let mut book = Both::fresh(edition.number(), &rows, &lines)?;
    for (symbol, close) in &day.listings {
        tally.count(book.list(*symbol, *close))?;
    }
    Ok(book)
}

fn all_rows(book: &mut Both, tally: &mut Tally) -> Run {
    SYMBOLS.iter().try_for_each(|symbol| tally.count(book.row(*symbol)))
}

/// A day in order, a row read after each number and all at the end.
pub fn sound_days(dice: &mut Dice, tally: &mut Tally) -> Run {
    for at in 0..200 {
        let edition = Edition::ALL[at % 2];
        let day = day(dice, edition, 250);
        let mut book = opened(dice, tally, edition, &day)?;
        for (number, message) in (1..).zip(&day.messages) {
            tally.count(book.deliver(number, message))?;
            tally.count(book.row(dice.pick(&SYMBOLS)))?;
        }
        all_rows(&mut book, tally)?;
    }
    Ok(())
}

/// Copies lost, repeated and out of order; what is used is 1 to n of demand 3.
pub fn bad_lines(dice: &mut Dice, tally: &mut Tally) -> Run {
    for at in 0..150 {
        let edition = Edition::ALL[at % 2];
        let day = day(dice, edition, 120);
        let mut book = opened(dice, tally, edition, &day)?;
        let trouble = Trouble {
            lost: dice.pick(&[0, 40, 8]),
            repeated: dice.pick(&[0, 6]),
            late: dice.pick(&[0, 9]),
            rounds: 1 + dice.index(3),
        };
        let line = arrivals(dice, day.messages.len(), trouble);
        for number in &line {
            tally.count(book.deliver(*number as u64, &day.messages[number - 1]))?;
        }
        all_rows(&mut book, tally)?;
        let (used, n) = (book.counters().wanted - 1, reach(&line) as u64);
        if used != n {
            return Err(format!(
                "{used} numbers were used, and the arrivals have 1 to {n} in that order"
            ));
        }
    }
    Ok(())
}

// A book that is well into its day, over near-real contents.
fn under_way(dice: &mut Dice, rows: usize, lines: usize) -> (Counts, Vec<u8>, Vec<u8>) {
    let c = sound_counters(dice, rows as u64, lines as u64);
    (c, contents(dice, Kind::Rows, rows * ROW), contents(dice, Kind::Lines, lines * LINE))
}

// A message read alone, its record written back, and the message delivered as the wanted one; each by its edition, by the other, or by a
// number that is none's.
fn tried(dice: &mut Dice, tally: &mut Tally, edition: Edition, message: &[u8]) -> Run {
    let (told, record) = read(number_by(dice, edition), message)?;
    tally.count(Ok(told))?;
    let length = 60 + dice.index(40);
    let space = dice.bytes(length);
    tally.count(write(number_by(dice, edition), &record, &space))?;
    let (mut c, rows, lines) = under_way(dice, 4, 6);
    c.edition = number_by(dice, edition);
    tally.count(Both::new(c, &rows, &lines).deliver(c.wanted, message))
}

/// Each byte of each type damaged, several times.
pub fn damaged_bytes(dice: &mut Dice, tally: &mut Tally) -> Run {
    for edition in Edition::ALL {
        let maker = maker(edition);
        for letter in maker.letters() {
            let length = maker.some_of(dice, *letter).len();
            for at in 0..length {
                for _ in 0..30 {
                    let message = maker.some_of(dice, *letter);
                    let message = flip(&message, at, dice);
                    tried(dice, tally, edition, &message)?;
                }
            }
        }
    }
    Ok(())
}

/// Every length from 0 to 100, cut, lengthened, of random bytes, and with another type's letter.
pub fn lengths(dice: &mut Dice, tally: &mut Tally) -> Run {
    for edition in Edition::ALL {
        let maker = maker(edition);
        let at = maker.letter_at();
        for length in 0..=100 {
            for letter in maker.letters() {
                for _ in 0..10 {
                    let message = maker.some_of(dice, *letter);
                    let message = cut(&message, length, dice);
                    tried(dice, tally, edition, &message)?;
                }
            }
            for _ in 0..10 {
                let mut message = dice.bytes(length);
                tried(dice, tally, edition, &message)?;
                if length > at {
                    message[at] = dice.pick(b"STXCJstRL ");
                    tried(dice, tally, edition, &message)?;
                }
                let other = maker.some_of(dice, b'T');
                let other = retype(&other, at, dice.pick(b"STXCJ?"));
                tried(dice, tally, edition, &other)?;
            }
        }
    }
    Ok(())
}

/// Numbers in digits: every spelling, and spellings that are none or outside their range.
pub fn spellings(dice: &mut Dice, tally: &mut Tally) -> Run {
    let maker = maker(Edition::Pls);
    for _ in 0..8_000 {
        let message = maker.some_message(dice);
        tried(dice, tally, Edition::Pls, &message)?;
        let message = maker.broken(dice, &message);
        tried(dice, tally, Edition::Pls, &message)?;
    }
    Ok(())
}

// One call of each kind on a book of its own.
fn one_each(dice: &mut Dice, tally: &mut Tally, c: Counts, rows: &[u8], lines: &[u8]) -> Run {
    let symbol = some_symbol(dice, rows, c);
    let close = dice.pick(&[0, 1, 2_000_000_000, 2_000_000_001, u32::MAX]);
    tally.count(Both::new(c, rows, lines).list(symbol, close))?;
    tally.count(Both::new(c, rows, lines).row(symbol))?;
    let number = some_number(dice, c.wanted);
    let message = near_line(dice, c.edition, lines);
    tally.count(Both::new(c, rows, lines).deliver(number, &message))
}

// Mostly a symbol that stands in the room or in the pool.
pub fn some_symbol(dice: &mut Dice, rows: &[u8], c: Counts) -> [u8; 8] {
    let at = dice.index(c.rows.clamp(1, 8) as usize) * ROW;
    match rows.get(at..at + 8) {
        Some(symbol) if dice.chance(2) => symbol.try_into().expect("eight bytes"),
        _ if dice.chance(8) => dice.roll().to_be_bytes(),
        _ => dice.pick(&SYMBOLS),
    }
}

// Mostly the wanted number; otherwise one at a bound.
pub fn some_number(dice: &mut Dice, wanted: u64) -> u64 {
    let beside = [
        wanted.wrapping_sub(1),
        wanted.wrapping_add(1),
        0,
        1,
        u64::from(u32::MAX),
        1 << 32,
        u64::MAX,
    ];
    if dice.chance(4) {
        dice.pick(&beside)
    } else {
        wanted
    }
}

// A message of a book's edition, often one that names a line of the room rightly or all but rightly.
pub fn near_line(dice: &mut Dice, edition: u64, lines: &[u8]) -> Vec<u8> {
    let maker = maker_for(dice, edition);
    let letter = match dice.pick(b"STTXXXCCCJ") {
        b'J' if !maker.letters().contains(&b'J') => b'T',
        letter => letter,
    };
    let cells = lines.len() / LINE;
    if cells == 0 || b"SJ".contains(&letter) || dice.chance(4) {
        return maker.some_of(dice, letter);
    }
    let cell = &lines[dice.index(cells) * LINE..][..LINE];
    let message = maker.of_line(dice, letter, cell);
    if dice.chance(3) {
        return maker.broken(dice, &message);
    }
    message
}

/// Counters at and around every bound.
pub fn odd_books(dice: &mut Dice, tally: &mut Tally) -> Run {
    for _ in 0..20_000 {
        let (rows, lines) = (dice.index(5), dice.index(7));
        let c = odd_counters(dice, rows as u64, lines as u64);
        let (rows, lines) = (rows_room(dice, rows * ROW), lines_room(dice, lines * LINE));
        one_each(dice, tally, c, &rows, &lines)?;
    }
    Ok(())
}

/// Rooms of every length from none to two cells and one byte more.
pub fn small_rooms(dice: &mut Dice, tally: &mut Tally) -> Run {
    for rows in 0..=2 * ROW + 1 {
        for lines in 0..=2 * LINE + 1 {
            let c = sound_counters(dice, (rows / ROW) as u64, (lines / LINE) as u64);
            let (rows, lines) = (rows_room(dice, rows), lines_room(dice, lines));
            one_each(dice, tally, c, &rows, &lines)?;
        }
    }
    Ok(())
}

/// Random and near-real contents under sound counters.
pub fn other_contents(dice: &mut Dice, tally: &mut Tally) -> Run {
    for _ in 0..25_000 {
        let (rows, lines) = (1 + dice.index(6), 1 + dice.index(20));
        let c = sound_counters(dice, rows as u64, lines as u64);
        let (rows, lines) = (rows_room(dice, rows * ROW), lines_room(dice, lines * LINE));
        one_each(dice, tally, c, &rows, &lines)?;
    }
    Ok(())
}

/// Numbers at every bound against wanted numbers at every bound.
pub fn numbers(dice: &mut Dice, tally: &mut Tally) -> Run {
    let bounds =
        [0, 1, 2, u64::from(u32::MAX) - 1, u64::from(u32::MAX), 1 << 32, (1 << 32) + 1, u64::MAX];
    for wanted in bounds {
        for number in bounds {
            for _ in 0..20 {
                let (mut c, rows, lines) = under_way(dice, 3, 5);
                c.wanted = wanted;
                c.taken = c.taken.min(wanted.saturating_sub(1));
                let message = near_line(dice, c.edition, &lines);
                tally.count(Both::new(c, &rows, &lines).deliver(number, &message))?;
            }
        }
    }
    Ok(())
}
