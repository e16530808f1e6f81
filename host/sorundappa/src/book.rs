//! The book of one day, over room that is lent to it.
use crate::answer::{DeliverError, ListError, RowError};
use crate::edition::Edition;
use crate::raw;

/// A row as it reads. Prices are in ten-thousandths; last, high, low, volume and count are over live lines only.
#[derive(Clone, Copy, Debug, Default, PartialEq, Eq)]
pub struct Row {
    pub symbol: [u8; 8],
    /// The adjusted previous close; 0 is unknown.
    pub close: u32,
    pub last: Option<u32>,
    pub high: Option<u32>,
    pub low: Option<u32>,
    /// Last less close, where both are known.
    pub net: Option<i64>,
    /// Shares of the trades still live.
    pub volume: u64,
    /// How many trades are still live.
    pub count: u64,
    /// Whether a J was taken and the latest one's high and low are this row's, an absent one counting as 0.
    pub agrees: bool,
    /// The consolidated volume that a taken T, X, C or J reported last. Messages of PLS report none.
    pub reported: Option<u64>,
}

impl Row {
    /// The row that a row's words are.
    pub fn of(w: &raw::Figures) -> Row {
        Row {
            symbol: w[0].to_be_bytes(),
            close: w[1] as u32,
            last: there(w[2], w[3] as u32),
            high: there(w[4], w[5] as u32),
            low: there(w[6], w[7] as u32),
            net: there(w[8], w[9] as i64),
            volume: w[10],
            count: w[11],
            agrees: w[12] == 1,
            reported: there(w[13], w[14]),
        }
    }
}

fn there<T>(mark: u64, figure: T) -> Option<T> {
    (mark == 1).then_some(figure)
}

/// How far the day is. All but the edition, which stays, move together, and only [`Book::list`] and [`Book::deliver`] move them.
#[derive(Clone, Copy, Debug, PartialEq, Eq)]
pub struct Counters {
    /// The edition that the book was started for.
    pub edition: Edition,
    /// The next number that can be used.
    pub wanted: u64,
    /// 0 before any event was taken, then 1 to 6 for `O S Q M E C`.
    pub phase: u64,
    pub rows: u64,
    pub lines: u64,
    pub taken: u64,
}

impl Counters {
    fn words(self) -> raw::Counters {
        [self.wanted, self.phase, self.rows, self.lines, self.taken, self.edition.number()]
    }

    // A book of this crate is started for an edition, and its word stays.
    fn of(w: raw::Counters) -> Counters {
        let edition = Edition::of(w[5]).expect("an edition's number");
        Counters { edition, wanted: w[0], phase: w[1], rows: w[2], lines: w[3], taken: w[4] }
    }
}

/// The bytes that so many rows need.
pub const fn room_for_rows(rows: usize) -> usize {
    rows * 30
}

/// The bytes that so many lines need.
pub const fn room_for_lines(lines: usize) -> usize {
    lines * 40
}

/// The book. It keeps its rows and lines in bytes that the caller lends, and allocates nothing.
///
/// ```
/// use sorundappa::{room_for_lines, room_for_rows, Book, DeliverError, Edition};
///
/// let (mut rows, mut lines) = ([0; room_for_rows(4)], [0; room_for_lines(16)]);
/// let mut book = Book::start(Edition::NlsPlus, &mut rows, &mut lines);
/// book.list(*b"ABCD    ", 250_000)?;
///
/// book.deliver(1, b"\x00\x00\x03\xe8SO")?;
/// let trade = b"\x00\x00\x07\xd0TQABCD    Q1         \x00\x03\xd4\x78\x00\x00\x00\x64@   \x00\x00\x00\x00\x00\x00\x00\x64";
/// book.deliver(2, trade)?;
///
/// let row = book.row(*b"ABCD    ")?;
/// assert_eq!((row.last, row.net, row.volume), (Some(251_000), Some(1_000), 100));
///
/// // A number that was used is not used again.
/// assert_eq!(book.deliver(2, trade), Err(DeliverError::NumberBelow));
/// # Ok::<(), Box<dyn std::error::Error>>(())
/// ```
pub struct Book<'room> {
    counters: raw::Counters,
    rows: &'room mut [u8],
    lines: &'room mut [u8],
}

impl<'room> Book<'room> {
    /// A fresh book of an edition, which reads its messages by that edition and no other. Starting one cannot be refused and writes no
    /// lent byte.
    ///
    /// ```
    /// use sorundappa::{Book, DeliverError, Edition};
    /// let mut book = Book::start(Edition::Pls, &mut [], &mut []);
    /// assert_eq!(book.deliver(1, b"\x00\x00\x03\xe8SO"), Err(DeliverError::NoType));
    /// assert_eq!(book.deliver(2, b"    1000SO"), Ok(()));
    /// assert_eq!(book.counters().edition, Edition::Pls);
    /// ```
    pub fn start(edition: Edition, rows: &'room mut [u8], lines: &'room mut [u8]) -> Book<'room> {
        let mut counters = [0; 6];
        raw::start(&mut counters, edition.number());
        Book { counters, rows, lines }
    }

    /// A book taken up again: its counters, and the room as it was left. Whatever is handed over is safe; counters that
    /// cannot be are answered as an unsound book.
    ///
    /// ```
    /// use sorundappa::{Book, Counters, Edition, ListError};
    /// let off = Counters { edition: Edition::NlsPlus, wanted: 0, phase: 0, rows: 0, lines: 0, taken: 0 };
    /// let mut book = Book::resume(off, &mut [], &mut []);
    /// assert_eq!(book.list(*b"ABCD    ", 0), Err(ListError::Unsound));
    /// ```
    pub fn resume(
        counters: Counters,
        rows: &'room mut [u8],
        lines: &'room mut [u8],
    ) -> Book<'room> {
        Book { counters: counters.words(), rows, lines }
    }

    /// Lists a symbol with its adjusted previous close, before any number is used. A symbol is one or more bytes 33 to 126, then
    /// spaces to the end; a close is at most 2,000,000,000, and an unknown one is given as 0. The row is added at the end, no J
    /// taken and nothing reported.
    ///
    /// ```
    /// use sorundappa::{room_for_rows, Book, Edition, ListError, Row};
    /// let mut rows = [0; room_for_rows(1)];
    /// let mut book = Book::start(Edition::NlsPlus, &mut rows, &mut []);
    /// assert_eq!(book.list(*b"ABCD\0\0\0\0", 250_000), Err(ListError::ListingBroken));
    /// assert_eq!(book.list(*b"ABCD    ", 2_000_000_001), Err(ListError::ListingBroken));
    /// assert_eq!(book.list(*b"ABCD    ", 0), Ok(()));
    /// assert_eq!(book.row(*b"ABCD    "), Ok(Row { symbol: *b"ABCD    ", ..Row::default() }));
    /// ```
    pub fn list(&mut self, symbol: [u8; 8], close: u32) -> Result<(), ListError> {
        ListError::told(raw::list(&mut self.counters, self.rows, self.lines, &symbol, close))
    }

    /// Delivers a message under its number. Whether a refusal used up the number, [`DeliverError::used_up`] says.
    pub fn deliver(&mut self, number: u64, message: &[u8]) -> Result<(), DeliverError> {
        DeliverError::told(raw::deliver(&mut self.counters, self.rows, self.lines, number, message))
    }

    /// Reads the row of a symbol, which is searched for byte for byte.
    pub fn row(&self, symbol: [u8; 8]) -> Result<Row, RowError> {
        let mut figures = [0; 15];
        RowError::told(raw::row(&self.counters, self.rows, self.lines, &symbol, &mut figures))
            .map(|()| Row::of(&figures))
    }

    /// How far the day is.
    pub fn counters(&self) -> Counters {
        Counters::of(self.counters)
    }
}
