//! The book: counters, listing, delivering and reading a row.

use crate::answer::Answer;
use crate::cells::{LineCell, RowCell, LINE, ROW};
use crate::edition::Edition;
use crate::message::parse;
use crate::record::{is_text, marks, phase_of, Record, SETS_LAST, SETS_RANGE, TOP_PRICE};

/// The greatest number a message can bear.
const LAST_NUMBER: u64 = 4_294_967_295;
const MOST_ROWS: usize = 256;
const MOST_LINES: usize = 65_536;
/// The phase after the day's last event.
const CLOSED: u64 = 6;

/// The edition that a book was started for, which stays, and what it counts. Phase 0 is none, 1 to 6 are the events O S Q M E C.
#[derive(Clone, Copy, Debug, PartialEq, Eq)]
pub struct Counters {
    pub edition: Edition,
    pub wanted: u64,
    pub phase: u64,
    pub rows: u64,
    pub lines: u64,
    pub taken: u64,
}

/// A row as it reads.
#[derive(Clone, Copy, Debug, Default, PartialEq, Eq)]
pub struct Row {
    pub symbol: [u8; 8],
    pub close: u32,
    pub last: Option<u32>,
    pub high: Option<u32>,
    pub low: Option<u32>,
    pub net: Option<i64>,
    pub volume: u64,
    pub count: u64,
    pub agrees: bool,
    pub reported: Option<u64>,
}

/// The counters of an edition's book at the day's start.
pub fn fresh(edition: Edition) -> Counters {
    Counters { edition, wanted: 1, phase: 0, rows: 0, lines: 0, taken: 0 }
}

fn row_limit(rows: &[u8]) -> u64 {
    MOST_ROWS.min(rows.len() / ROW) as u64
}

fn line_limit(lines: &[u8]) -> u64 {
    MOST_LINES.min(lines.len() / LINE) as u64
}

/// Once this holds, the used cells lie inside the lent bytes and no counter can overflow.
fn is_sound(counters: &Counters, rows: &[u8], lines: &[u8]) -> bool {
    (1..=LAST_NUMBER + 1).contains(&counters.wanted)
        && counters.phase <= CLOSED
        && counters.rows <= row_limit(rows)
        && counters.lines <= line_limit(lines)
        && counters.taken < counters.wanted
}

/// The bytes of the used rows of a sound book.
fn used_rows<'a>(counters: &Counters, rows: &'a [u8]) -> &'a [u8] {
    &rows[..counters.rows as usize * ROW]
}

/// The bytes of the used lines of a sound book.
fn used_lines<'a>(counters: &Counters, lines: &'a [u8]) -> &'a [u8] {
    &lines[..counters.lines as usize * LINE]
}

/// Where the first row of a symbol starts.
fn find_row(used: &[u8], symbol: &[u8; 8]) -> Option<usize> {
    used.chunks_exact(ROW).position(|cell| RowCell::has_symbol(cell, symbol)).map(|at| at * ROW)
}

/// Where the first line of a key starts, dead or live.
fn find_line(used: &[u8], centre: u8, control: &[u8; 10]) -> Option<usize> {
    let mut key = [centre; 11];
    key[1..].copy_from_slice(control);
    used.chunks_exact(LINE).position(|cell| LineCell::has_key(cell, &key)).map(|at| at * LINE)
}

/// Puts a symbol on the day sheet. The lines are lent only to judge whether the book is sound.
pub fn list(
    counters: &mut Counters,
    rows: &mut [u8],
    lines: &[u8],
    symbol: [u8; 8],
    close: u32,
) -> Answer {
    if !is_sound(counters, rows, lines) {
        return Answer::Unsound;
    }
    if !is_text(&symbol) || close > TOP_PRICE {
        return Answer::ListingBroken;
    }
    if counters.wanted != 1 {
        return Answer::ListingLate;
    }
    let used = used_rows(counters, rows);
    let end = used.len();
    if find_row(used, &symbol).is_some() {
        return Answer::ListedAlready;
    }
    if counters.rows == row_limit(rows) {
        return Answer::RowsFull;
    }
    RowCell::put_new(&mut rows[end..end + ROW], symbol, close);
    counters.rows += 1;
    Answer::Done
}

/// Delivers a numbered message; taken or refused, it uses up the wanted number.
pub fn deliver(
    counters: &mut Counters,
    rows: &mut [u8],
    lines: &mut [u8],
    number: u64,
    message: &[u8],
) -> Answer {
    if !is_sound(counters, rows, lines) {
        return Answer::Unsound;
    }
    if number == 0 || number > LAST_NUMBER {
        return Answer::NumberOutside;
    }
    if number < counters.wanted {
        return Answer::NumberBelow;
    }
    if number > counters.wanted {
        return Answer::NumberAbove;
    }
    let taken = take(counters, rows, lines, message);
    counters.wanted += 1;
    match taken {
        Ok(()) => {
            counters.taken += 1;
            Answer::Done
        }
        Err(answer) => answer,
    }
}

/// Takes the wanted message or says why not. Every refusal comes before the first change.
fn take(
    counters: &mut Counters,
    rows: &mut [u8],
    lines: &mut [u8],
    message: &[u8],
) -> Result<(), Answer> {
    let record = parse(counters.edition, message)?;
    if record.letter == b'S' {
        return take_event(counters, record.event);
    }
    if counters.phase == 0 || counters.phase == CLOSED {
        return Err(Answer::NotDue);
    }
    let at = find_row(used_rows(counters, rows), &record.symbol).ok_or(Answer::NotListed)?;
    let cell = &mut rows[at..at + ROW];
    match record.letter {
        b'T' => take_trade(counters, lines, &record)?,
        b'X' => take_cancel(counters, lines, &record)?,
        b'C' => take_correction(counters, lines, &record)?,
        _ => RowCell::set_summary(cell, record.high, record.low),
    }
    if counters.edition.reports() {
        RowCell::set_reported(cell, record.consolidated);
    }
    Ok(())
}

fn take_event(counters: &mut Counters, event: u8) -> Result<(), Answer> {
    let phase = phase_of(event).ok_or(Answer::FieldBroken)?;
    if phase <= counters.phase {
        return Err(Answer::NotDue);
    }
    counters.phase = phase;
    Ok(())
}

fn take_trade(counters: &mut Counters, lines: &mut [u8], record: &Record) -> Result<(), Answer> {
    let line = LineCell {
        centre: record.centre,
        symbol: record.symbol,
        sale: record.sale,
        // The number in hand is the wanted one and at most LAST_NUMBER.
        place: counters.wanted as u32,
        time: record.time,
        live: true,
    };
    may_add(counters, lines, &line)?;
    add(counters, lines, &line);
    Ok(())
}

fn take_cancel(counters: &Counters, lines: &mut [u8], record: &Record) -> Result<(), Answer> {
    let at = named_line(used_lines(counters, lines), record)?;
    LineCell::kill(&mut lines[at..at + LINE]);
    Ok(())
}

fn take_correction(
    counters: &mut Counters,
    lines: &mut [u8],
    record: &Record,
) -> Result<(), Answer> {
    let at = named_line(used_lines(counters, lines), record)?;
    // Place and time stay the old line's, so that an old fix cannot become the last.
    let line = LineCell { sale: record.new, ..LineCell::get(&lines[at..at + LINE]) };
    may_add(counters, lines, &line)?;
    LineCell::kill(&mut lines[at..at + LINE]);
    add(counters, lines, &line);
    Ok(())
}

/// Where the line starts that X or C names, if it is live and says what the message says.
fn named_line(used: &[u8], record: &Record) -> Result<usize, Answer> {
    let at = find_line(used, record.centre, &record.sale.control).ok_or(Answer::NoLine)?;
    let line = LineCell::get(&used[at..at + LINE]);
    if !line.live {
        return Err(Answer::LineDead);
    }
    if line.symbol != record.symbol || line.sale != record.sale {
        return Err(Answer::LineDiffers);
    }
    Ok(at)
}

/// A new line needs a key that no line bears and a cell that was never used.
fn may_add(counters: &Counters, lines: &[u8], line: &LineCell) -> Result<(), Answer> {
    let used = used_lines(counters, lines);
    if find_line(used, line.centre, &line.sale.control).is_some() {
        return Err(Answer::KeyUsed);
    }
    if counters.lines == line_limit(lines) {
        return Err(Answer::LinesFull);
    }
    Ok(())
}

fn add(counters: &mut Counters, lines: &mut [u8], line: &LineCell) {
    let end = used_lines(counters, lines).len();
    line.put(&mut lines[end..end + LINE]);
    counters.lines += 1;
}

/// Reads a symbol's row; a refused one is a row of zeros and absent figures.
pub fn row(counters: &Counters, rows: &[u8], lines: &[u8], symbol: [u8; 8]) -> (Answer, Row) {
    if !is_sound(counters, rows, lines) {
        return (Answer::Unsound, Row::default());
    }
    let Some(at) = find_row(used_rows(counters, rows), &symbol) else {
        return (Answer::NotListed, Row::default());
    };
    let cell = RowCell::get(&rows[at..at + ROW]);
    (Answer::Done, work_out(&cell, used_lines(counters, lines)))
}

/// Works a row's figures out from the live lines of its symbol.
fn work_out(cell: &RowCell, used: &[u8]) -> Row {
    let mut row =
        Row { symbol: cell.symbol, close: cell.close, reported: cell.reported, ..Row::default() };
    // Place and price of the line that gives the last.
    let mut last: Option<(u32, u32)> = None;
    for bytes in used.chunks_exact(LINE) {
        if !LineCell::is_live_of(bytes, &cell.symbol) {
            continue;
        }
        let line = LineCell::get(bytes);
        let price = line.sale.price;
        let marks = marks(line.sale.condition);
        row.volume += u64::from(line.sale.size);
        row.count += 1;
        if marks & SETS_RANGE != 0 {
            row.high = Some(row.high.map_or(price, |high| high.max(price)));
            row.low = Some(row.low.map_or(price, |low| low.min(price)));
        }
        // Of equal places the earlier line stays.
        if marks & SETS_LAST != 0 && last.is_none_or(|(place, _)| line.place > place) {
            last = Some((line.place, price));
        }
    }
    row.last = last.map(|(_, price)| price);
    row.net = net(row.last, cell.close);
    let range = (row.high.unwrap_or(0), row.low.unwrap_or(0));
    row.agrees = cell.summary == Some(range);
    row
}

/// Last less close, absent while either is unknown.
fn net(last: Option<u32>, close: u32) -> Option<i64> {
    match (last, close) {
        (None, _) | (_, 0) => None,
        (Some(last), close) => Some(i64::from(last) - i64::from(close)),
    }
}
