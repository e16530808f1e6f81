//! The day that is measured: trades over some symbols, one message in fifty behind them a cancel.
use sorundappa::{Edition, Record, Sale};

fn padded<const N: usize>(text: &str) -> [u8; N] {
    let mut out = [b' '; N];
    out[..text.len()].copy_from_slice(text.as_bytes());
    out
}

/// The symbol of a row: it differs from the others within its first four bytes.
pub fn symbol(i: usize) -> [u8; 8] {
    padded(&format!("S{i:03}"))
}

/// The symbol of a row of which the last three bytes alone differ from the others'.
pub fn late_symbol(i: usize) -> [u8; 8] {
    padded(&format!("AAAAA{i:03}"))
}

fn sale(i: usize) -> Sale {
    Sale {
        control: padded(&(i + 1).to_string()),
        price: 250_000 + (i as u32 * 7919) % 10_000,
        size: 100 + i as u32 % 900,
        condition: *b"@   ",
    }
}

fn trade(letter: u8, i: usize, symbols: usize) -> Record {
    Record {
        letter,
        time: i as u32,
        centre: b"QLBX"[i % 4],
        symbol: symbol(i * 31 % symbols),
        class: b'Q',
        sale: sale(i),
        consolidated: i as u64,
        ..Record::default()
    }
}

fn bytes_by(edition: Edition, record: Record) -> Vec<u8> {
    let mut out = vec![0; 85];
    let n = record.write(edition, &mut out).expect("a lawful record");
    out.truncate(n);
    out
}

fn bytes(record: Record) -> Vec<u8> {
    bytes_by(Edition::NlsPlus, record)
}

/// A message that is read and written by its edition.
pub struct Sample {
    pub edition: Edition,
    pub letter: char,
    pub bytes: Vec<u8>,
}

/// How the table names an edition's messages.
pub fn name(edition: Edition) -> &'static str {
    match edition {
        Edition::NlsPlus => "",
        Edition::Pls => "PLS",
    }
}

/// One message of each type of NLS Plus, and the same but J of PLS.
pub fn samples() -> Vec<Sample> {
    let event = Record { letter: b'S', time: 34_200_000, event: b'Q', ..Record::default() };
    let t = trade(b'T', 1234, 200);
    let summary = Record {
        letter: b'J',
        symbol: symbol(3),
        class: b'N',
        high: 260_000,
        low: 240_000,
        close: 250_000,
        ..Record::default()
    };
    let c = Record { letter: b'C', new: sale(77), ..t };
    let plus = [event, t, Record { letter: b'X', ..t }, c, summary].map(|r| (Edition::NlsPlus, r));
    // PLS has one centre and no consolidated volume; the time is one of the day, of eight digits.
    let told = |r: Record| Record { time: 34_200_000, centre: b'X', consolidated: 0, ..r };
    let pls =
        [event, told(t), told(Record { letter: b'X', ..t }), told(c)].map(|r| (Edition::Pls, r));
    plus.into_iter()
        .chain(pls)
        .map(|(edition, record)| Sample {
            edition,
            letter: char::from(record.letter),
            bytes: bytes_by(edition, record),
        })
        .collect()
}

/// An event, then so many trades over so many symbols, behind each fiftieth a cancel of one that is still live.
pub fn messages(trades: usize, symbols: usize) -> Vec<Vec<u8>> {
    let mut all = vec![bytes(Record { letter: b'S', event: b'Q', ..Record::default() })];
    for i in 0..trades {
        all.push(bytes(trade(b'T', i, symbols)));
        if i % 50 == 49 {
            all.push(bytes(trade(b'X', i - i % 37, symbols)));
        }
    }
    all
}

/// More trades behind so many, all of the last of the symbols.
pub fn of_last_row(behind: usize, more: usize, symbols: usize) -> Vec<Vec<u8>> {
    (behind..behind + more)
        .map(|i| bytes(Record { symbol: symbol(symbols - 1), ..trade(b'T', i, symbols) }))
        .collect()
}

/// An event, then so many trades of the first symbol, all of the centre Q.
pub fn of_one_centre(trades: usize) -> Vec<Vec<u8>> {
    let event = Record { letter: b'S', event: b'Q', ..Record::default() };
    let all = (0..trades).map(|i| Record { centre: b'Q', ..trade(b'T', i, 1) });
    std::iter::once(event).chain(all).map(bytes).collect()
}

/// A cancel of the first symbol that names no trade of these: it has another centre, which is a key's first byte.
pub fn of_another_centre() -> Vec<u8> {
    bytes(Record { centre: b'L', ..trade(b'X', 0, 1) })
}
