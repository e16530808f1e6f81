//! One book kept twice, by the linked library and by `plain`. Every call goes to both, and what it says back, the counters, both
//! rooms and the strips around them have to be as they must. A number that is no edition's the library alone can be given: then what
//! the paper says is held against it.
use crate::guard::Guarded;
use chance::Counts;
use plain::{Answer, Counters, Edition};
use sorundappa::raw;

/// A difference, in words.
pub type Held = Result<u8, String>;

/// The book, twice.
pub struct Both {
    counters: Guarded<u64>,
    rows: Guarded<u8>,
    lines: Guarded<u8>,
    plain: Counters,
    // The edition's word, where it is no edition's number: every call is then answered 17, and nothing changes.
    strange: Option<u64>,
    plain_rows: Vec<u8>,
    plain_lines: Vec<u8>,
    // How a run of bytes is lent.
    lend: fn(&[u8], u8) -> Guarded<u8>,
    /// How many calls were made so far.
    pub calls: u64,
}

fn words(c: &Counters, strange: Option<u64>) -> [u64; 6] {
    let edition = strange.unwrap_or(c.edition.number());
    [c.wanted, c.phase, c.rows, c.lines, c.taken, edition]
}

fn same<T: PartialEq + std::fmt::Debug>(what: &str, linked: T, plain: T) -> Result<(), String> {
    if linked == plain {
        return Ok(());
    }
    Err(format!("{what}: the library has {linked:?}, plain has {plain:?}"))
}

fn first_difference(what: &str, linked: &[u8], plain: &[u8]) -> Result<(), String> {
    match linked.iter().zip(plain).position(|(a, b)| a != b) {
        None => same(&format!("{what}, length"), linked.len(), plain.len()),
        Some(at) => Err(format!(
            "{what}, byte {at}: the library has {}, plain has {}",
            linked[at], plain[at]
        )),
    }
}

fn unmoved(what: &str, before: &[u8], after: &Guarded<u8>) -> Result<(), String> {
    first_difference(&format!("{what}, which is only read"), after.seen(), before)?;
    strips(what, after.whole())
}

fn strips(what: &str, whole: bool) -> Result<(), String> {
    if whole {
        return Ok(());
    }
    Err(format!("{what}: the library wrote beside what it was lent"))
}

impl Both {
    /// A book with the given counters, over rooms of the given contents.
    pub fn new(counts: Counts, rows: &[u8], lines: &[u8]) -> Both {
        Both::lent(counts, rows, lines, Guarded::new)
    }

    /// The same, but a room or a message without bytes is lent as Rust's own empty slice.
    pub fn bare(counts: Counts, rows: &[u8], lines: &[u8]) -> Both {
        Both::lent(counts, rows, lines, Guarded::bare)
    }

    fn lent(counts: Counts, rows: &[u8], lines: &[u8], lend: fn(&[u8], u8) -> Guarded<u8>) -> Both {
        let known = Edition::of(counts.edition);
        let strange = known.is_none().then_some(counts.edition);
        let plain = Counters {
            edition: known.unwrap_or(Edition::NlsPlus),
            wanted: counts.wanted,
            phase: counts.phase,
            rows: counts.rows,
            lines: counts.lines,
            taken: counts.taken,
        };
        Both {
            counters: Guarded::new(&words(&plain, strange), 0xA5A5_A5A5_A5A5_A5A5),
            rows: lend(rows, 0x5A),
            lines: lend(lines, 0xC3),
            plain,
            strange,
            plain_rows: rows.to_vec(),
            plain_lines: lines.to_vec(),
            lend,
            calls: 0,
        }
    }

    /// A fresh book, started by both by the number of an edition, or of none, over rooms of the given contents.
    pub fn fresh(edition: u64, rows: &[u8], lines: &[u8]) -> Result<Both, String> {
        let any = Counts { wanted: 77, phase: 88, rows: 99, lines: 111, taken: 222, edition };
        let mut both = Both::new(any, rows, lines);
        raw::start(both.counters.array(), edition);
        both.plain = plain::fresh(both.plain.edition);
        both.held("start")?;
        Ok(both)
    }

    /// The counters, as `plain` has them.
    pub fn counters(&self) -> Counters {
        self.plain
    }

    // The counters and both rooms are the same on both sides, and the strips are whole.
    fn held(&mut self, call: &str) -> Result<(), String> {
        self.calls += 1;
        let words = words(&self.plain, self.strange);
        same(&format!("{call}: counters"), self.counters.seen(), &words[..])?;
        first_difference(&format!("{call}: rows"), self.rows.seen(), &self.plain_rows)?;
        first_difference(&format!("{call}: lines"), self.lines.seen(), &self.plain_lines)?;
        strips(call, self.counters.whole() && self.rows.whole() && self.lines.whole())
    }

    /// Lists a symbol on both.
    pub fn list(&mut self, symbol: [u8; 8], close: u32) -> Held {
        let name = Guarded::new(&symbol, 0x11);
        let told = raw::list(
            self.counters.array(),
            self.rows.lent(),
            self.lines.seen(),
            name.seen().try_into().expect("eight bytes"),
            close,
        );
        let plain = match self.strange {
            Some(_) => Answer::Unsound,
            None => {
                plain::list(&mut self.plain, &mut self.plain_rows, &self.plain_lines, symbol, close)
            }
        };
        same("list: answer", told, plain.number())?;
        unmoved("list: symbol", &symbol, &name)?;
        self.held("list")?;
        Ok(told)
    }

    /// Delivers a message to both.
    pub fn deliver(&mut self, number: u64, message: &[u8]) -> Held {
        let lent = (self.lend)(message, 0x54);
        let told = raw::deliver(
            self.counters.array(),
            self.rows.lent(),
            self.lines.lent(),
            number,
            lent.seen(),
        );
        let plain = match self.strange {
            Some(_) => Answer::Unsound,
            None => plain::deliver(
                &mut self.plain,
                &mut self.plain_rows,
                &mut self.plain_lines,
                number,
                message,
            ),
        };
        same("deliver: answer", told, plain.number())?;
        unmoved("deliver: message", message, &lent)?;
        self.held("deliver")?;
        Ok(told)
    }

    /// Reads a row of both.
    pub fn row(&mut self, symbol: [u8; 8]) -> Held {
        self.figures(symbol).map(|(told, _)| told)
    }

    /// Reads a row of both: the answer, and the words.
    pub fn figures(&mut self, symbol: [u8; 8]) -> Result<(u8, [u64; 15]), String> {
        let mut figures = Guarded::new(&[u64::MAX; 15], 0x1234_5678_9ABC_DEF0);
        let name = Guarded::new(&symbol, 0x22);
        let counters = self.counters.seen().try_into().expect("six words");
        let lent = name.seen().try_into().expect("eight bytes");
        let told = raw::row(counters, self.rows.seen(), self.lines.seen(), lent, figures.array());
        let (answer, row) = match self.strange {
            Some(_) => (Answer::Unsound, plain::Row::default()),
            None => plain::row(&self.plain, &self.plain_rows, &self.plain_lines, symbol),
        };
        same("row: answer", told, answer.number())?;
        same("row: words", figures.seen(), &row_words(&row)[..])?;
        unmoved("row: symbol", &symbol, &name)?;
        strips("row", figures.whole())?;
        self.held("row")?;
        Ok((told, row_words(&row)))
    }

    /// The room for lines, as both have it.
    pub fn lines(&self) -> &[u8] {
        &self.plain_lines
    }
}

// A row as the words that the library hands back, from plain's row.
fn row_words(row: &plain::Row) -> [u64; 15] {
    let [last, high, low] =
        [row.last, row.high, row.low].map(|p| p.map_or((0, 0), |x| (1, u64::from(x))));
    let net = row.net.map_or((0, 0), |x| (1, x as u64));
    let reported = row.reported.map_or((0, 0), |x| (1, x));
    let symbol = u64::from_be_bytes(row.symbol);
    let agrees = u64::from(row.agrees);
    [
        symbol,
        row.close.into(),
        last.0,
        last.1,
        high.0,
        high.1,
        low.0,
        low.1,
        net.0,
        net.1,
        row.volume,
        row.count,
        agrees,
        reported.0,
        reported.1,
    ]
}

/// A record as the bytes that cross, from plain's record.
pub fn bytes_of(r: &plain::Record) -> [u8; 80] {
    let sale = |s: &plain::Sale| {
        [&s.control[..], &s.price.to_be_bytes(), &s.size.to_be_bytes(), &s.condition].concat()
    };
    let all = [
        &[r.letter][..],
        &r.time.to_be_bytes(),
        &[r.event, r.centre],
        &r.symbol,
        &[r.class],
        &sale(&r.sale),
        &sale(&r.new),
        &r.high.to_be_bytes(),
        &r.low.to_be_bytes(),
        &r.close.to_be_bytes(),
        &r.consolidated.to_be_bytes(),
    ]
    .concat();
    all.try_into().expect("eighty bytes")
}

/// Plain's record of any eighty bytes: each of them is in a field.
pub fn record_of(bytes: &[u8; 80]) -> plain::Record {
    plain::Record {
        letter: bytes[0],
        time: u32::from_be_bytes(part(bytes, 1)),
        event: bytes[5],
        centre: bytes[6],
        symbol: part(bytes, 7),
        class: bytes[15],
        sale: sale_at(bytes, 16),
        new: sale_at(bytes, 38),
        high: u32::from_be_bytes(part(bytes, 60)),
        low: u32::from_be_bytes(part(bytes, 64)),
        close: u32::from_be_bytes(part(bytes, 68)),
        consolidated: u64::from_be_bytes(part(bytes, 72)),
    }
}

fn sale_at(bytes: &[u8; 80], at: usize) -> plain::Sale {
    plain::Sale {
        control: part(bytes, at),
        price: u32::from_be_bytes(part(bytes, at + 10)),
        size: u32::from_be_bytes(part(bytes, at + 14)),
        condition: part(bytes, at + 18),
    }
}

fn part<const N: usize>(bytes: &[u8; 80], at: usize) -> [u8; N] {
    bytes[at..at + N].try_into().expect("as many bytes as the field has")
}

/// Reads a message alone on both by the number of an edition, or of none; the record, if there is one.
pub fn read(edition: u64, message: &[u8]) -> Result<(u8, plain::Record), String> {
    read_lent(edition, message, Guarded::new(message, 0x42))
}

/// Reads Rust's own empty slice on both.
pub fn read_nothing(edition: u64) -> Held {
    read_lent(edition, &[], Guarded::bare(&[], 0x42)).map(|(told, _)| told)
}

fn read_lent(
    edition: u64,
    message: &[u8],
    lent: Guarded<u8>,
) -> Result<(u8, plain::Record), String> {
    let mut record = Guarded::new(&[0xEE; 80], 0x99);
    let told = raw::read(edition, lent.seen(), record.array());
    let (answer, found) = match Edition::of(edition) {
        Some(edition) => plain::read(edition, message),
        None => (Answer::NoType, plain::Record::default()),
    };
    same("read: answer", told, answer.number())?;
    first_difference("read: record", record.seen(), &bytes_of(&found))?;
    unmoved("read: message", message, &lent)?;
    strips("read: record", record.whole())?;
    Ok((told, found))
}

/// Writes a record on both by the number of an edition, or of none, into spaces of the given contents.
pub fn write(edition: u64, record: &plain::Record, space: &[u8]) -> Held {
    write_lent(edition, record, space, Guarded::new(space, 0x77))
}

/// Writes a record on both, into Rust's own empty slice.
pub fn write_nothing(edition: u64, record: &plain::Record) -> Held {
    write_lent(edition, record, &[], Guarded::bare(&[], 0x77))
}

fn write_lent(edition: u64, record: &plain::Record, space: &[u8], mut out: Guarded<u8>) -> Held {
    let bytes = Guarded::new(&bytes_of(record), 0x66);
    let mut plain_out = space.to_vec();
    let told = raw::write(edition, bytes.seen().try_into().expect("eighty bytes"), out.lent());
    let plain = match Edition::of(edition) {
        Some(edition) => plain::write(edition, record, &mut plain_out),
        None => Answer::FieldBroken,
    };
    same("write: answer", told, plain.number())?;
    first_difference("write: space", out.seen(), &plain_out)?;
    unmoved("write: record", &bytes_of(record), &bytes)?;
    strips("write: space", out.whole())?;
    Ok(told)
}

#[cfg(test)]
mod tests {
    use super::{bytes_of, record_of};

    #[test]
    fn every_byte_is_in_a_field() {
        for at in 0..80 {
            let mut bytes = [0; 80];
            bytes[at] = 0xA7;
            assert_eq!(bytes_of(&record_of(&bytes)), bytes, "byte {at}");
        }
    }
}
