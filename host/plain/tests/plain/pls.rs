//! PLS 1.1: the reader and the writer, and a book of that edition.

use crate::desk::*;
use plain::{Answer, Edition, Record, Sale};

/// The trade P18: ABCD at 25.1000, 100 shares.
const P18: &[u8; 52] = b"34200000TXABCD    Q1             251000      100@   ";
/// Its cancel, and its correction P39 to 25.2500 and 120 shares.
const X: &[u8; 52] = b"34200000XXABCD    Q1             251000      100@   ";
const P39: &[u8; 85] =
    b"34200000CXABCD    Q1             251000      100@   9             252500      120@   ";
const EVENT: &[u8; 10] = b"       0SO";

fn read(message: &[u8]) -> (u8, Record) {
    let (answer, record) = plain::read(Edition::Pls, message);
    if answer != Answer::Done {
        assert_eq!(record, Record::default());
    }
    (answer.number(), record)
}

/// The answer, and the bytes where something was written.
fn write(record: &Record, space: usize) -> (u8, Vec<u8>) {
    let mut out = vec![0xEE; space];
    let answer = plain::write(Edition::Pls, record, &mut out);
    if answer != Answer::Done {
        assert_eq!(out, vec![0xEE; space]);
    }
    (answer.number(), out)
}

/// The answer. A message that is read is written as one of the same length that is read as the same record; it is the same bytes
/// where and only where each number is spelled as it is written.
fn says(message: &[u8]) -> u8 {
    let (answer, record) = read(message);
    if answer != 0 {
        return answer;
    }
    let (written, again) = write(&record, message.len());
    assert_eq!((written, read(&again)), (0, (0, record)));
    let canonical = numbers(message.len()).iter().all(|(at, width, least)| {
        let text = std::str::from_utf8(&message[*at..at + width]).unwrap();
        let value: u64 = text.trim_start().parse().unwrap();
        text == format!("{:>width$}", format!("{value:0least$}"))
    });
    assert_eq!(again == message, canonical);
    let outside =
        |at: &usize| numbers(message.len()).iter().all(|(n, w, _)| *at < *n || n + w <= *at);
    assert!((0..message.len()).filter(outside).all(|at| again[at] == message[at]));
    0
}

/// The number fields of a message of a length: offset, width, least digits.
fn numbers(length: usize) -> &'static [(usize, usize, usize)] {
    let all = &[(0, 8, 1), (29, 10, 4), (39, 9, 1), (62, 10, 4), (72, 9, 1)];
    match length {
        10 => &all[..1],
        52 => &all[..3],
        _ => all,
    }
}

fn with(message: &[u8], at: usize, bytes: &[u8]) -> Vec<u8> {
    let mut out = message.to_vec();
    out[at..at + bytes.len()].copy_from_slice(bytes);
    out
}

fn four() -> [&'static [u8]; 4] {
    [EVENT, P18, X, P39]
}

const SALE: Sale = Sale { control: *b"1         ", price: 251_000, size: 100, condition: *b"@   " };
const TRADED: Record = Record {
    letter: b'T',
    time: 34_200_000,
    event: 0,
    centre: b'X',
    symbol: *b"ABCD    ",
    class: b'Q',
    sale: SALE,
    new: Sale { control: [0; 10], price: 0, size: 0, condition: [0; 4] },
    high: 0,
    low: 0,
    close: 0,
    consolidated: 0,
};

#[test]
fn editions_by_number() {
    assert_eq!(Edition::ALL.map(Edition::number), [0, 1]);
    assert_eq!(Edition::of(0), Some(Edition::NlsPlus));
    assert_eq!(Edition::of(1), Some(Edition::Pls));
    assert_eq!([2, 256, 1 << 32, u64::MAX].map(Edition::of), [None; 4]);
}

#[test]
fn p1_to_p5_events() {
    let event = |time, event| Record { letter: b'S', time, event, ..Record::default() };
    assert_eq!(read(b"       0SO"), (0, event(0, b'O')));
    assert_eq!(read(b"00000000SO"), (0, event(0, b'O')));
    assert_eq!(write(&event(0, b'O'), 10), (0, b"       0SO".to_vec()));
    assert_eq!(says(b"        SO"), 5);
    assert_eq!(read(b"86399999SC"), (0, event(86_399_999, b'C')));
    assert_eq!(says(b"86400000SC"), 5);
    assert_eq!(says(b"       0S0"), 5);
}

#[test]
fn p18_to_p39_trades() {
    assert_eq!(read(P18), (0, TRADED));
    assert_eq!(read(X), (0, Record { letter: b'X', ..TRADED }));
    let new = Sale { control: *b"9         ", price: 252_500, size: 120, condition: *b"@   " };
    assert_eq!(read(P39), (0, Record { letter: b'C', new, ..TRADED }));
    for (price, value) in [
        (b"      0001", 1),
        (b"0000000001", 1),
        (b"   0000001", 1),
        (b"     10000", 10_000),
        (b"2000000000", 2_000_000_000),
    ] {
        assert_eq!(says(&with(P18, 29, price)), 0);
        assert_eq!(read(&with(P18, 29, price)).1.sale.price, value);
        assert_eq!(read(&with(P39, 62, price)).1.new.price, value);
    }
    for price in
        [b"       001", b"      001 ", b"      0000", b"2000000001", b"4294967297", b"9999999999"]
    {
        assert_eq!((says(&with(P18, 29, price)), says(&with(P39, 62, price))), (5, 5));
    }
    for (size, value) in [(b"        1", 1), (b"000000001", 1), (b"999999999", 999_999_999)] {
        assert_eq!(says(&with(P18, 39, size)), 0);
        assert_eq!(read(&with(P18, 39, size)).1.sale.size, value);
    }
    assert_eq!(says(&with(P18, 39, b"        0")), 5);
}

#[test]
fn p44_and_p45_the_other_types() {
    let mut summary = b"34200000J".to_vec();
    summary.resize(34, b' ');
    assert_eq!(says(&summary), 4);
    assert_eq!(says(&trade(&Trade { centre: b'X', ..TRADE })), 4);
}

#[test]
fn no_message_is_of_both_editions() {
    for message in four() {
        assert_eq!(plain::read(Edition::NlsPlus, message).0.number(), 4);
    }
    let plus = [
        event(1, b'O'),
        trade(&TRADE),
        cancel(&TRADE),
        correction(&TRADE, &NEW),
        summary("ABCD", 3, 2, 1, 4),
    ];
    for message in plus {
        assert_eq!(says(&message), 4);
    }
}

#[test]
fn every_length_and_every_letter() {
    for message in four() {
        let mut long = message.to_vec();
        long.resize(100, b' ');
        for length in 0..100 {
            assert_eq!(says(&long[..length]), if length == message.len() { 0 } else { 4 });
        }
        for letter in 0..=255u8 {
            let same = letter == message[8] || (message.len() == 52 && b"TX".contains(&letter));
            assert_eq!(says(&with(message, 8, &[letter])), if same { 0 } else { 4 });
        }
    }
    assert_eq!(says(&with(&P18[..51], 0, b"        ")), 4);
}

/// Tries all 256 bytes at an offset and wants exactly the given ones read.
fn only(message: &[u8], at: usize, good: &[u8]) {
    for byte in 0..=255u8 {
        let answer = says(&with(message, at, &[byte]));
        assert_eq!(answer, if good.contains(&byte) { 0 } else { 5 }, "{byte} at {at}");
    }
}

#[test]
fn events_centres_classes_and_conditions() {
    only(EVENT, 9, b"OSQMEC");
    for message in [P18, X, &P39[..]] {
        only(message, 9, b"X");
        only(message, 18, b"QNAPZ");
        for (level, codes) in
            [&b"@CNR"[..], b" FO5647", b" LZTU", b" ABDKSXYHIVW"].iter().enumerate()
        {
            only(message, 48 + level, codes);
        }
    }
    only(P39, 81, b"@CNR");
    only(P39, 84, b" ABDKSXYHIVW");
}

#[test]
fn texts() {
    for (at, length) in [(10, 8), (19, 10), (52, 10)] {
        let spaces = vec![b' '; length];
        assert_eq!(says(&with(P39, at, &spaces)), 5);
        assert_eq!(says(&with(P39, at, &vec![b'~'; length])), 0);
        for byte in [0, 31, 32, 127, 128] {
            assert_eq!(says(&with(&with(P39, at, b"ABC"), at, &[byte])), 5);
        }
    }
}

/// Every byte at every place of every number field: a digit anywhere behind the first digit, spaces only before it.
#[test]
fn every_byte_of_a_number() {
    for (at, width, least) in numbers(85) {
        for spaces in 0..=*width {
            let text: Vec<u8> = (0..*width).map(|i| if i < spaces { b' ' } else { b'1' }).collect();
            for spot in 0..*width {
                for byte in 0..=255u8 {
                    let mut text = text.clone();
                    text[spot] = byte;
                    let first = text.iter().position(|b| *b != b' ').unwrap_or(*width);
                    let spelled =
                        width - first >= *least && text[first..].iter().all(u8::is_ascii_digit);
                    let value = text[first..].iter().fold(0, |n, b| n * 10 + u64::from(b & 15));
                    let range = match width {
                        8 => 0..=86_399_999,
                        9 => 1..=999_999_999,
                        _ => 1..=2_000_000_000,
                    };
                    let answer = if spelled && range.contains(&value) { 0 } else { 5 };
                    assert_eq!(says(&with(P39, *at, &text)), answer, "{text:?} at {at}");
                }
            }
        }
    }
}

#[test]
fn p50_to_p57_written() {
    let record = Record { time: 0, sale: Sale { price: 1, size: 1, ..SALE }, ..TRADED };
    let p50 = b"       0TXABCD    Q1               0001        1@   ";
    assert_eq!(write(&record, 52), (0, p50.to_vec()));
    let ten = Record { sale: Sale { price: 10_000, ..record.sale }, ..record };
    let p51 =
        b"       0TXABCD    Q1              10000        1@   \xee\xee\xee\xee\xee\xee\xee\xee";
    assert_eq!(write(&ten, 60), (0, p51.to_vec()));
    let p54 = Record { sale: Sale { size: 1_000_000_000, ..record.sale }, ..record };
    assert_eq!(write(&p54, 52).0, 5);
    assert_eq!(write(&Record { consolidated: 1, ..record }, 52).0, 5);
    assert_eq!(write(&record, 51).0, 18);
    // 5 goes before 18.
    assert_eq!(write(&p54, 51).0, 5);
}

#[test]
fn what_is_not_written() {
    let [s, t, x, c] = four().map(|message| read(message).1);
    for record in [s, t, x, c] {
        assert_eq!(write(&record, 85).0, 0);
        for letter in *b"\0JHstxcj" {
            assert_eq!(write(&Record { letter, ..record }, 85).0, 5);
        }
        for lacking in [
            Record { high: 1, ..record },
            Record { low: 1, ..record },
            Record { close: 1, ..record },
            Record { consolidated: 1, ..record },
            Record { time: 86_400_000, ..record },
        ] {
            assert_eq!(write(&lacking, 85).0, 5);
        }
    }
    for record in [t, x, c] {
        for other in [
            Record { centre: b'Q', ..record },
            Record { class: b'B', ..record },
            Record { event: b'O', ..record },
            Record { sale: Sale { price: 0, ..SALE }, ..record },
            Record { sale: Sale { price: 2_000_000_001, ..SALE }, ..record },
            Record { sale: Sale { size: 0, ..SALE }, ..record },
            Record { sale: Sale { size: u32::MAX, ..SALE }, ..record },
        ] {
            assert_eq!(write(&other, 85).0, 5);
        }
    }
    assert_eq!(write(&Record { new: SALE, ..t }, 85).0, 5);
    assert_eq!(write(&Record { new: Sale { size: 1_000_000_000, ..SALE }, ..c }, 85).0, 5);
    for (record, length) in [(s, 10), (t, 52), (x, 52), (c, 85)] {
        assert_eq!((write(&record, length - 1).0, write(&record, length).0), (18, 0));
    }
    // A J of NLS Plus has no layout here.
    let (_, summary) = crate::desk::read(&summary("ABCD", 3, 2, 1, 4));
    assert_eq!(write(&summary, 85).0, 5);
}

fn opened() -> Desk {
    let mut desk = Desk::of(Edition::Pls, 2, 8);
    assert_eq!(desk.list("ABCD", 250_000), 0);
    desk
}

#[test]
fn a_day_of_pls() {
    let mut desk = opened();
    assert_eq!(desk.say(1, &event(1_000, b'O')), 4);
    assert_eq!(desk.say(2, EVENT), 0);
    assert_eq!(desk.say(3, P18), 0);
    let row = desk.row("ABCD");
    assert_eq!((row.last, row.net, row.volume, row.count), (Some(251_000), Some(1_000), 100, 1));
    assert_eq!((row.agrees, row.reported), (false, None));
    assert_eq!((desk.counters.wanted, desk.counters.taken), (4, 2));
}

#[test]
fn a_cancel_spelled_with_zeros_names_its_trade() {
    let mut desk = opened();
    assert_eq!((desk.next(EVENT), desk.next(P18)), (0, 0));
    assert_eq!(desk.next(&with(X, 29, b"0000251001")), 10);
    assert_eq!(desk.next(&with(&with(X, 29, b"0000251000"), 39, b"  0000100")), 0);
    assert_eq!(desk.row("ABCD").count, 0);
    assert_eq!(desk.next(X), 9);
}

#[test]
fn what_is_reported_stays() {
    let mut desk = opened();
    assert_eq!(desk.next(EVENT), 0);
    // A row as a book of the other edition may have left it.
    desk.rows[12..30].fill(0xAB);
    desk.rows[21] = 1;
    let rows = desk.rows.clone();
    for message in [&P18[..], P39] {
        assert_eq!(desk.next(message), 0);
        assert_eq!(desk.rows, rows);
    }
    let renamed = with(&with(&with(X, 19, b"9"), 29, b"    252500"), 39, b"      120");
    assert_eq!(desk.next(&renamed), 0);
    assert_eq!(desk.rows, rows);
    assert_eq!(desk.row("ABCD").reported, Some(0xABAB_ABAB_ABAB_ABAB));
}

/// The same day told by both editions leaves the same row, but for what is reported.
#[test]
fn the_same_day_in_both_editions() {
    let t = Trade { time: 34_200_000, centre: b'X', ..TRADE };
    let mut plus = Desk::new(2, 8);
    assert_eq!(plus.list("ABCD", 250_000), 0);
    let mut pls = opened();
    for (one, other) in [
        (event(0, b'O'), EVENT.to_vec()),
        (trade(&t), P18.to_vec()),
        (correction(&t, &NEW), P39.to_vec()),
        (cancel(&t), X.to_vec()),
    ] {
        assert_eq!(plus.next(&one), pls.next(&other));
        assert_eq!(plus.lines, pls.lines);
        let (one, other) = (plus.row("ABCD"), pls.row("ABCD"));
        assert_eq!(plain::Row { reported: None, ..one }, other);
    }
}
