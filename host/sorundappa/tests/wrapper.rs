//! The wrapper on document 01's days: what crosses to the library and back arrives as it is named.
use sorundappa::raw::{self, Size};
use sorundappa::{
    room_for_lines, room_for_rows, Answer, Book, Counters, DeliverError, Edition, ListError,
    ReadError, Record, Row, RowError, Sale, WriteError,
};

use Edition::{NlsPlus, Pls};

const ABCD: [u8; 8] = *b"ABCD    ";

fn sale(control: &str, price: u32, size: u32, condition: &[u8; 4]) -> Sale {
    let mut bytes = [b' '; 10];
    bytes[..control.len()].copy_from_slice(control.as_bytes());
    Sale { control: bytes, price, size, condition: *condition }
}

fn written_by(edition: Edition, record: Record) -> Vec<u8> {
    let mut out = [0; 85];
    let n = record.write(edition, &mut out).expect("a lawful record is written");
    out[..n].to_vec()
}

fn written(record: Record) -> Vec<u8> {
    written_by(NlsPlus, record)
}

fn trade(letter: u8, time: u32, centre: u8, sale: Sale, consolidated: u64) -> Record {
    Record {
        letter,
        time,
        centre,
        symbol: ABCD,
        class: b'Q',
        sale,
        consolidated,
        ..Record::default()
    }
}

// Document 01's day W: numbers 1 to 6.
fn day_w() -> Vec<Vec<u8>> {
    let first = sale("1", 251_000, 100, b"@   ");
    let second = sale("2", 260_000, 300, b"@   ");
    vec![
        written(Record { letter: b'S', time: 1_000, event: b'O', ..Record::default() }),
        written(trade(b'T', 2_000, b'Q', first, 100)),
        written(trade(b'T', 3_000, b'Q', second, 400)),
        written(trade(b'T', 4_000, b'L', sale("1", 249_000, 50, b"@  I"), 450)),
        written(trade(b'X', 5_000, b'Q', second, 500)),
        written(Record {
            new: sale("9", 252_500, 120, b"@   "),
            ..trade(b'C', 6_000, b'Q', first, 600)
        }),
    ]
}

#[test]
fn day_w_number_by_number() {
    let (mut rows, mut lines) = (vec![0xAA; room_for_rows(2)], vec![0x55; room_for_lines(4)]);
    let mut book = Book::start(NlsPlus, &mut rows, &mut lines);
    assert_eq!(book.list(ABCD, 250_000), Ok(()));
    // last, high, low, net, volume, count, reported after each number
    let after = [
        (None, None, None, None, 0, 0, None),
        (Some(251_000), Some(251_000), Some(251_000), Some(1_000), 100, 1, Some(100)),
        (Some(260_000), Some(260_000), Some(251_000), Some(10_000), 400, 2, Some(400)),
        (Some(260_000), Some(260_000), Some(251_000), Some(10_000), 450, 3, Some(450)),
        (Some(251_000), Some(251_000), Some(251_000), Some(1_000), 150, 2, Some(500)),
        (Some(252_500), Some(252_500), Some(252_500), Some(2_500), 170, 2, Some(600)),
    ];
    for (i, message) in day_w().iter().enumerate() {
        assert_eq!(book.deliver(i as u64 + 1, message), Ok(()));
        let (last, high, low, net, volume, count, reported) = after[i];
        let row = Row {
            symbol: ABCD,
            close: 250_000,
            last,
            high,
            low,
            net,
            volume,
            count,
            agrees: false,
            reported,
        };
        assert_eq!(book.row(ABCD), Ok(row), "after number {}", i + 1);
    }
    assert_eq!(
        book.counters(),
        Counters { edition: NlsPlus, wanted: 7, phase: 1, rows: 1, lines: 4, taken: 6 }
    );
    let again = &day_w()[4];
    assert_eq!(book.deliver(7, again), Err(DeliverError::LineDead));
    assert_eq!(book.counters().wanted, 8);
}

#[test]
fn a_net_below_zero() {
    let (mut rows, mut lines) = (vec![0; room_for_rows(1)], vec![0; room_for_lines(1)]);
    let mut book = Book::start(NlsPlus, &mut rows, &mut lines);
    book.list(ABCD, 2_000_000_000).unwrap();
    book.deliver(1, &day_w()[0]).unwrap();
    book.deliver(2, &written(trade(b'T', 0, b'B', sale("1", 1, 1, b"@   "), 0))).unwrap();
    assert_eq!(book.row(ABCD).unwrap().net, Some(-1_999_999_999));
}

#[test]
fn a_summary_agrees() {
    let (mut rows, mut lines) = (vec![0; room_for_rows(1)], vec![0; room_for_lines(2)]);
    let mut book = Book::start(NlsPlus, &mut rows, &mut lines);
    book.list(ABCD, 0).unwrap();
    for (number, message) in (1..).zip(&day_w()[..3]) {
        book.deliver(number, message).unwrap();
    }
    let summary = Record {
        letter: b'J',
        symbol: ABCD,
        class: b'Q',
        high: 260_000,
        low: 251_000,
        close: 1,
        ..Record::default()
    };
    book.deliver(4, &written(summary)).unwrap();
    let row = book.row(ABCD).unwrap();
    assert!(row.agrees);
    assert_eq!((row.net, row.reported), (None, Some(0)));
    book.deliver(5, &written(Record { low: 251_001, ..summary })).unwrap();
    assert!(!book.row(ABCD).unwrap().agrees);
}

#[test]
fn refusals_by_name() {
    let (mut rows, mut lines) = (vec![0; room_for_rows(1)], vec![]);
    let mut book = Book::start(NlsPlus, &mut rows, &mut lines);
    assert_eq!(book.row(ABCD), Err(RowError::NotListed));
    assert_eq!(book.list(*b" ABCD   ", 1), Err(ListError::ListingBroken));
    assert_eq!(book.list(ABCD, 1), Ok(()));
    assert_eq!(book.list(ABCD, 1), Err(ListError::ListedAlready));
    assert_eq!(book.list(*b"B       ", 1), Err(ListError::RowsFull));
    let day = day_w();
    assert_eq!(book.deliver(0, &day[0]), Err(DeliverError::NumberOutside));
    assert_eq!(book.deliver(2, &day[0]), Err(DeliverError::NumberAbove));
    assert_eq!(book.deliver(1, &day[1]), Err(DeliverError::NotDue));
    assert_eq!(book.deliver(1, &day[0]), Err(DeliverError::NumberBelow));
    assert_eq!(book.list(*b"B       ", 1), Err(ListError::ListingLate));
    assert_eq!(book.deliver(2, &day[0]), Ok(()));
    // document 01's day 14: without room for lines
    assert_eq!(book.deliver(3, &day[1]), Err(DeliverError::LinesFull));
    assert_eq!(book.deliver(4, &day[4]), Err(DeliverError::NoLine));
    assert_eq!(book.deliver(5, b""), Err(DeliverError::NoType));
    assert_eq!(
        book.counters(),
        Counters { edition: NlsPlus, wanted: 6, phase: 1, rows: 1, lines: 0, taken: 1 }
    );
}

#[test]
fn an_unsound_book() {
    let off = Counters { edition: NlsPlus, wanted: 3, phase: 7, rows: 0, lines: 0, taken: 0 };
    let mut book = Book::resume(off, &mut [], &mut []);
    assert_eq!(book.list(ABCD, 1), Err(ListError::Unsound));
    assert_eq!(book.deliver(3, &[]), Err(DeliverError::Unsound));
    assert_eq!(book.row(ABCD), Err(RowError::Unsound));
    assert_eq!(book.counters(), off);
}

#[test]
fn records_there_and_back() {
    for message in day_w() {
        let record = Record::read(NlsPlus, &message).unwrap();
        assert_eq!(written(record), message);
        assert_eq!(Record::of(&record.bytes()), record);
    }
    let correction = Record::read(NlsPlus, &day_w()[5]).unwrap();
    assert_eq!(correction.new, sale("9", 252_500, 120, b"@   "));
    assert_eq!(Record::read(NlsPlus, &[0; 45]), Err(ReadError::NoType));
    let mut out = [3; 66];
    assert_eq!(correction.write(NlsPlus, &mut out), Err(WriteError::NoSpace));
    assert_eq!(
        Record { event: 1, ..correction }.write(NlsPlus, &mut out),
        Err(WriteError::FieldBroken)
    );
    assert_eq!(out, [3; 66]);
}

// Each byte of the eighty has a field of its own, and each field the bytes that the library gives it.
#[test]
fn every_field_from_its_own_bytes() {
    let event = Record { letter: b'S', time: 0x0102_0304, event: b'M', ..Record::default() };
    assert_eq!(Record::read(NlsPlus, b"\x01\x02\x03\x04SM"), Ok(event));
    let summary = Record {
        letter: b'J',
        time: 0x0102_0304,
        symbol: ABCD,
        class: b'N',
        high: 0x3132_3334,
        low: 0x4142_4344,
        close: 0x5152_5354,
        consolidated: 0x6162_6364_6566_6768,
        ..Record::default()
    };
    let message = b"\x01\x02\x03\x04JABCD    N1234ABCDQRSTabcdefgh";
    assert_eq!(Record::read(NlsPlus, message), Ok(summary));
    assert_eq!(written(summary), message);
    for at in 0..80 {
        let mut bytes = [0; 80];
        bytes[at] = 0xA7;
        assert_eq!(Record::of(&bytes).bytes(), bytes, "byte {at}");
    }
}

#[test]
fn figures_that_are_absent() {
    let (mut rows, mut lines) = (vec![0; room_for_rows(1)], vec![0; room_for_lines(1)]);
    let mut book = Book::start(NlsPlus, &mut rows, &mut lines);
    book.list(ABCD, 250_000).unwrap();
    let listed = Row { symbol: ABCD, close: 250_000, ..Row::default() };
    assert_eq!(book.row(ABCD), Ok(listed));
    book.deliver(1, &day_w()[0]).unwrap();
    let nothing = Record { letter: b'J', symbol: ABCD, class: b'Q', ..Record::default() };
    book.deliver(2, &written(nothing)).unwrap();
    assert_eq!(book.row(ABCD), Ok(Row { agrees: true, reported: Some(0), ..listed }));
    // `4` sets high and low only
    book.deliver(3, &written(trade(b'T', 0, b'B', sale("1", 7, 9, b"@4  "), 5))).unwrap();
    let row = Row { high: Some(7), low: Some(7), volume: 9, count: 1, reported: Some(5), ..listed };
    assert_eq!(book.row(ABCD), Ok(row));
}

#[test]
fn sizes_are_those_of_the_linked_library() {
    assert_eq!(raw::size(Size::RowBytes), room_for_rows(1) as u64);
    assert_eq!(raw::size(Size::LineBytes), room_for_lines(1) as u64);
    assert_eq!((raw::size(Size::MostRows), raw::size(Size::MostLines)), (256, 65_536));
    assert_eq!(raw::size(Size::LongestMessage), raw::size(Size::PlsC));
    assert_eq!(raw::size(Size::Record), Record::default().bytes().len() as u64);
}

#[test]
fn words_are_those_of_the_linked_library() {
    assert_eq!(raw::size(Size::Counters), raw::Counters::default().len() as u64);
    assert_eq!(raw::size(Size::Figures), raw::Figures::default().len() as u64);
}

// What `write` says of a message's length is what the library stores and what it tells.
#[test]
fn lengths_are_those_of_the_linked_library() {
    let sale = sale("1", 1, 1, b"@   ");
    let traded = trade(b'T', 0, b'X', sale, 0);
    let cancelled = Record { letter: b'X', ..traded };
    let corrected = Record { letter: b'C', new: sale, ..traded };
    let event = Record { letter: b'S', event: b'O', ..Record::default() };
    let summary = Record { letter: b'J', symbol: ABCD, class: b'Q', ..Record::default() };
    for (edition, record, size) in [
        (NlsPlus, event, Size::MessageS),
        (NlsPlus, traded, Size::MessageT),
        (NlsPlus, cancelled, Size::MessageX),
        (NlsPlus, corrected, Size::MessageC),
        (NlsPlus, summary, Size::MessageJ),
        (Pls, event, Size::PlsS),
        (Pls, traded, Size::PlsT),
        (Pls, cancelled, Size::PlsX),
        (Pls, corrected, Size::PlsC),
    ] {
        let message = written_by(edition, record);
        assert_eq!(Record::read(edition, &message), Ok(record));
        assert_eq!(raw::size(size), message.len() as u64, "{size:?}");
        let short = record.write(edition, &mut vec![0; message.len() - 1]);
        assert_eq!(short, Err(WriteError::NoSpace));
    }
    assert_eq!(summary.write(Pls, &mut [0; 99]), Err(WriteError::FieldBroken));
}

// A day of PLS: NLS Plus's messages are refused, leading zeros are read, and nothing is reported.
#[test]
fn a_day_of_pls() {
    let (mut rows, mut lines) = (vec![0; room_for_rows(1)], vec![0; room_for_lines(4)]);
    let mut book = Book::start(Pls, &mut rows, &mut lines);
    book.list(ABCD, 250_000).unwrap();
    assert_eq!(book.deliver(1, &day_w()[0]), Err(DeliverError::NoType));
    assert_eq!(book.deliver(2, b"       0SO"), Ok(()));
    let traded = b"34200000TXABCD    Q1             251000      100@   ";
    let cancel = b"34200001XXABCD    Q1         0000251000000000100@   ";
    assert_eq!(book.deliver(3, traded), Ok(()));
    let row = book.row(ABCD).unwrap();
    assert_eq!((row.last, row.net, row.volume), (Some(251_000), Some(1_000), 100));
    assert_eq!((row.count, row.agrees, row.reported), (1, false, None));
    assert_eq!(book.deliver(4, cancel), Ok(()));
    let counters = Counters { edition: Pls, wanted: 5, phase: 1, rows: 1, lines: 1, taken: 3 };
    assert_eq!(book.counters(), counters);
    let record = Record::read(Pls, cancel).unwrap();
    assert_eq!(written_by(Pls, record), b"34200001XXABCD    Q1             251000      100@   ");
}

#[test]
fn numbers_that_are_no_editions() {
    assert_eq!(Edition::ALL.map(Edition::number), [0, 1]);
    for strange in [2, 256, 1 << 32, u64::MAX] {
        assert_eq!(Edition::of(strange), None);
        let mut counters = [9; 6];
        raw::start(&mut counters, strange);
        assert_eq!(counters, [1, 0, 0, 0, 0, strange]);
        let (mut rows, mut lines, mut figures) = ([7; 30], [8; 40], [3; 15]);
        assert_eq!(raw::list(&mut counters, &mut rows, &lines, &ABCD, 1), 17);
        assert_eq!(raw::deliver(&mut counters, &mut rows, &mut lines, 1, &day_w()[0]), 17);
        assert_eq!(raw::row(&counters, &rows, &lines, &ABCD, &mut figures), 17);
        assert_eq!((rows, lines, figures), ([7; 30], [8; 40], [0; 15]));
        assert_eq!(counters, [1, 0, 0, 0, 0, strange]);
        let mut record = [5; 80];
        assert_eq!(raw::read(strange, &day_w()[0], &mut record), 4);
        assert_eq!(record, [0; 80]);
        let event = Record { letter: b'S', event: b'O', ..Record::default() };
        let mut out = [5; 10];
        assert_eq!((raw::write(strange, &event.bytes(), &mut out), out), (5, [5; 10]));
    }
}

#[test]
fn answers_in_words() {
    for (number, answer) in (0..).zip(Answer::ALL) {
        assert_eq!(answer.number(), number);
        assert_eq!(Answer::of(number), Some(answer));
        assert!(answer.to_string().starts_with(&format!("{number}: ")));
    }
    assert_eq!(Answer::of(19), None);
    assert_eq!(DeliverError::LineDead.to_string(), "9: the original's line is dead");
    assert_eq!(
        DeliverError::LineDiffers.to_string(),
        "10: symbol, price, size or condition differs from the original's line"
    );
    assert_eq!(Answer::from(ListError::RowsFull), Answer::RowsFull);
    assert!(DeliverError::NoType.used_up() && DeliverError::LinesFull.used_up());
    assert!(!DeliverError::NumberAbove.used_up() && !DeliverError::Unsound.used_up());
}
