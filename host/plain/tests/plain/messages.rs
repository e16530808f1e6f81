//! The reader and the writer: layouts, bounds of each field, round trips.

use crate::desk::*;
use plain::{Answer, Record, Sale};

const SHEET: [&[u8]; 4] = [b"@CNR", b" FO5647", b" LZTU", b" ABDKSXYHIVW"];

fn five() -> [Vec<u8>; 5] {
    [
        event(1, b'O'),
        trade(&TRADE),
        cancel(&TRADE),
        correction(&TRADE, &NEW),
        summary("ABCD", 3, 2, 1, 4),
    ]
}

/// The answer; a message read must come back from the writer byte for byte.
fn says(message: &[u8]) -> u8 {
    let (answer, record) = read(message);
    let mut out = [0xEE; 80];
    if answer == Answer::Done {
        assert_eq!(write(&record, &mut out), Answer::Done);
        assert_eq!(out[..message.len()], *message);
        assert_eq!(out[message.len()..], [0xEE; 80][message.len()..]);
    } else {
        assert_eq!(record, Record::default());
    }
    answer.number()
}

fn with(message: &[u8], at: usize, bytes: &[u8]) -> Vec<u8> {
    let mut out = message.to_vec();
    out[at..at + bytes.len()].copy_from_slice(bytes);
    out
}

/// The record in a message's own words, written: 5 where a rule is broken.
fn writes(record: Record) -> u8 {
    let mut out = [0xEE; 67];
    let answer = write(&record, &mut out);
    if answer != Answer::Done {
        assert_eq!(out, [0xEE; 67]);
    }
    answer.number()
}

#[test]
fn every_field_of_t_x_and_c() {
    let sale = Sale {
        control: *b"1234567890",
        price: 0x0102_0304,
        size: 0xF5F6_F7F8,
        condition: *b"NOTV",
    };
    let t = Trade {
        time: 0x0405_0607,
        centre: b'X',
        symbol: "ABCDEFGH",
        class: b'Z',
        control: "1234567890",
        price: 0x0102_0304,
        size: 0xF5F6_F7F8,
        condition: "NOTV",
        consolidated: 0xF1F2_F3F4_F5F6_F7F8,
    };
    let record = Record {
        letter: b'T',
        time: 0x0405_0607,
        centre: b'X',
        symbol: *b"ABCDEFGH",
        class: b'Z',
        sale,
        consolidated: 0xF1F2_F3F4_F5F6_F7F8,
        ..Record::default()
    };
    assert_eq!(read(&trade(&t)), (Answer::Done, record));
    assert_eq!(read(&cancel(&t)), (Answer::Done, Record { letter: b'X', ..record }));
    let new = Sale { control: *b"9         ", price: 252_500, size: 120, condition: *b"@   " };
    assert_eq!(read(&correction(&t, &NEW)), (Answer::Done, Record { letter: b'C', new, ..record }));
}

#[test]
fn a_correction_written_out() {
    let message = b"\x00\x00\x17\x70CQABCD    Q1         \x00\x03\xd4\x78\x00\x00\x00\x64@   \
        9         \x00\x03\xda\x54\x00\x00\x00\x78@   \x00\x00\x00\x00\x00\x00\x02\x58";
    let t = Trade { time: 6_000, consolidated: 600, ..TRADE };
    assert_eq!(correction(&t, &NEW), message);
    assert_eq!(read(message).1.consolidated, 600);
}

#[test]
fn every_field_of_s_and_j() {
    let record = Record { letter: b'S', time: 7, event: b'M', ..Record::default() };
    assert_eq!(read(b"\0\0\0\x07SM"), (Answer::Done, record));
    let message = b"\0\0\0\x08JEFGH    P\0\0\0\x01\0\0\0\x02\0\0\0\x03\0\0\0\0\0\0\0\x04";
    let record = Record {
        letter: b'J',
        time: 8,
        symbol: *b"EFGH    ",
        class: b'P',
        high: 1,
        low: 2,
        close: 3,
        consolidated: 4,
        ..Record::default()
    };
    assert_eq!(read(message), (Answer::Done, record));
    assert_eq!(says(message), 0);
}

#[test]
fn every_length_and_every_letter() {
    for message in &five() {
        let right = message.len();
        let mut long = message.clone();
        long.resize(100, b' ');
        for length in 0..100 {
            let kept = &long[..length];
            assert_eq!(says(kept), if length == right { 0 } else { 4 });
        }
        for letter in 0..=255u8 {
            let answer = says(&with(message, 4, &[letter]));
            let same = letter == message[4] || (right == 45 && b"TX".contains(&letter));
            assert_eq!(answer, if same { 0 } else { 4 });
        }
    }
}

#[test]
fn four_before_five_in_one_message() {
    let broken = trade(&Trade { time: 86_400_000, price: 0, ..TRADE });
    assert_eq!((says(&broken), says(&broken[..44])), (5, 4));
    assert_eq!(says(&with(&broken, 4, b"H")), 4);
}

/// Tries all 256 bytes at an offset and wants exactly the given ones read.
fn only(message: &[u8], at: usize, good: &[u8]) {
    for byte in 0..=255u8 {
        let answer = says(&with(message, at, &[byte]));
        assert_eq!(answer, if good.contains(&byte) { 0 } else { 5 }, "{byte} at {at}");
    }
}

#[test]
fn events_centres_and_classes() {
    let [s, t, x, c, j] = five();
    only(&s, 5, b"OSQMEC");
    for message in [&t, &x, &c] {
        only(message, 5, b"QLBX");
        only(message, 14, b"QNAPZB");
    }
    only(&j, 13, b"QNAPZB");
}

#[test]
fn condition_codes_by_level() {
    let [_, t, x, c, _] = five();
    for (message, at) in [(&t, 33), (&x, 33), (&c, 33), (&c, 55)] {
        for (level, codes) in SHEET.iter().enumerate() {
            only(message, at + level, codes);
        }
    }
}

#[test]
fn times() {
    for message in &five() {
        for (time, answer) in [(0u32, 0), (86_399_999, 0), (86_400_000, 5), (u32::MAX, 5)] {
            assert_eq!(says(&with(message, 0, &time.to_be_bytes())), answer);
        }
    }
}

#[test]
fn prices_and_sizes() {
    let [_, t, x, c, j] = five();
    let top = 2_000_000_000u32;
    for (message, at) in [(&t, 25), (&x, 25), (&c, 25), (&c, 47)] {
        for (price, answer) in [(0, 5), (1, 0), (top, 0), (top + 1, 5), (u32::MAX, 5)] {
            assert_eq!(says(&with(message, at, &price.to_be_bytes())), answer);
        }
        for (size, answer) in [(0u32, 5), (1, 0), (u32::MAX, 0)] {
            assert_eq!(says(&with(message, at + 4, &size.to_be_bytes())), answer);
        }
    }
    for at in [14, 18, 22] {
        for (price, answer) in [(0, 0), (1, 0), (top, 0), (top + 1, 5), (u32::MAX, 5)] {
            assert_eq!(says(&with(&j, at, &price.to_be_bytes())), answer);
        }
    }
}

#[test]
fn any_consolidated_volume() {
    let [_, t, x, c, j] = five();
    for (message, at) in [(&t, 37), (&x, 37), (&c, 59), (&j, 26)] {
        for volume in [0, 1, u64::MAX] {
            let message = with(message, at, &u64::to_be_bytes(volume));
            assert_eq!(says(&message), 0);
            assert_eq!(read(&message).1.consolidated, volume);
        }
    }
}

#[test]
fn texts() {
    let [_, t, x, c, j] = five();
    let places = [
        (&t, 6, 8),
        (&t, 15, 10),
        (&x, 6, 8),
        (&x, 15, 10),
        (&c, 6, 8),
        (&c, 15, 10),
        (&c, 37, 10),
        (&j, 5, 8),
    ];
    for (message, at, length) in places {
        for used in 0..=length {
            let mut text = vec![b'!'; used];
            text.resize(length, b' ');
            let message = with(message, at, &text);
            assert_eq!(says(&message), if used == 0 { 5 } else { 0 });
            for spot in 0..length {
                for byte in [0, 9, 31, 32, 33, 126, 127, 128, 255] {
                    let visible = (33..=126).contains(&byte);
                    // Good: within the text or just after it; a space where no text follows.
                    let good = if visible { spot <= used } else { byte == 32 && spot + 1 >= used };
                    let empty = byte == 32 && (used == 0 || (used == 1 && spot == 0));
                    let answer = if good && !empty { 0 } else { 5 };
                    assert_eq!(says(&with(&message, at + spot, &[byte])), answer);
                }
            }
        }
    }
}

#[test]
fn a_written_record_keeps_the_rules() {
    let [s, t, x, c, j] = five().map(|message| read(&message).1);
    for record in [s, t, x, c, j] {
        assert_eq!(writes(record), 0);
        assert_eq!(writes(Record { time: 86_399_999, ..record }), 0);
        assert_eq!(writes(Record { time: 86_400_000, ..record }), 5);
        for letter in *b"\0HsAtxcj\xff" {
            assert_eq!(writes(Record { letter, ..record }), 5);
        }
    }
    assert_eq!(writes(Record { event: b'X', ..s }), 5);
    assert_eq!(writes(Record { event: 0, ..s }), 5);
    for record in [t, x, c] {
        assert_eq!(writes(Record { centre: b'A', ..record }), 5);
        assert_eq!(writes(Record { centre: 0, ..record }), 5);
        for sale in bad_sales(record.sale) {
            assert_eq!(writes(Record { sale, ..record }), 5);
        }
    }
    for record in [t, x, c, j] {
        assert_eq!(writes(Record { class: b'S', ..record }), 5);
        assert_eq!(writes(Record { symbol: *b"A C     ", ..record }), 5);
        assert_eq!(writes(Record { symbol: [b' '; 8], ..record }), 5);
        assert_eq!(writes(Record { symbol: [0; 8], ..record }), 5);
        assert_eq!(writes(Record { consolidated: u64::MAX, ..record }), 0);
    }
    for new in bad_sales(c.new) {
        assert_eq!(writes(Record { new, ..c }), 5);
    }
}

fn bad_sales(sale: Sale) -> [Sale; 9] {
    [
        Sale { control: [b' '; 10], ..sale },
        Sale { control: *b"1\0        ", ..sale },
        Sale { price: 0, ..sale },
        Sale { price: 2_000_000_001, ..sale },
        Sale { size: 0, ..sale },
        Sale { condition: *b"    ", ..sale },
        Sale { condition: *b"@@  ", ..sale },
        Sale { condition: *b"@  Z", ..sale },
        Sale::default(),
    ]
}

#[test]
fn a_written_record_at_its_bounds() {
    let [_, t, x, c, j] = five().map(|message| read(&message).1);
    let sales = [
        Sale { price: 1, ..t.sale },
        Sale { price: 2_000_000_000, ..t.sale },
        Sale { size: 1, ..t.sale },
        Sale { size: u32::MAX, ..t.sale },
    ];
    for sale in sales {
        for record in [t, x, c] {
            assert_eq!(writes(Record { sale, ..record }), 0);
        }
        assert_eq!(writes(Record { new: sale, ..c }), 0);
    }
    for (price, answer) in [(0, 0), (2_000_000_000, 0), (2_000_000_001, 5)] {
        assert_eq!(writes(Record { high: price, ..j }), answer);
        assert_eq!(writes(Record { low: price, ..j }), answer);
        assert_eq!(writes(Record { close: price, ..j }), answer);
    }
}

/// Each field in turn set to something lawful for a type that has it.
fn filled(record: Record) -> [Record; 17] {
    let (sale, new) = (record.sale, record.new);
    [
        Record { event: b'O', ..record },
        Record { centre: b'Q', ..record },
        Record { symbol: *b"ABCD    ", ..record },
        Record { class: b'Q', ..record },
        Record { sale: Sale { control: *b"1         ", ..sale }, ..record },
        Record { sale: Sale { price: 1, ..sale }, ..record },
        Record { sale: Sale { size: 1, ..sale }, ..record },
        Record { sale: Sale { condition: *b"@   ", ..sale }, ..record },
        Record { new: Sale { control: *b"1         ", ..new }, ..record },
        Record { new: Sale { price: 1, ..new }, ..record },
        Record { new: Sale { size: 1, ..new }, ..record },
        Record { new: Sale { condition: *b"@   ", ..new }, ..record },
        Record { high: 1, ..record },
        Record { low: 1, ..record },
        Record { close: 1, ..record },
        Record { consolidated: 1, ..record },
        Record { time: 1, ..record },
    ]
}

#[test]
fn a_field_that_the_type_lacks_is_not_written() {
    // Y where the type has the field, in the order of `filled`.
    let has = [
        "Y--------------- Y",
        "-YYYYYYY-------Y Y",
        "-YYYYYYY-------Y Y",
        "-YYYYYYYYYYY---Y Y",
        "--YY--------YYYY Y",
    ];
    for (message, has) in five().iter().zip(has) {
        let record = read(message).1;
        let has = has.bytes().filter(|byte| *byte != b' ');
        for (changed, has) in filled(record).into_iter().zip(has) {
            assert_eq!(writes(changed), if has == b'Y' { 0 } else { 5 }, "{changed:?}");
        }
    }
}

#[test]
fn answer_18_and_what_goes_before_it() {
    for message in &five() {
        let (_, record) = read(message);
        for length in 0..100 {
            let mut out = vec![0xEE; length];
            let answer = write(&record, &mut out).number();
            if length < message.len() {
                assert_eq!((answer, out), (18, vec![0xEE; length]));
            } else {
                assert_eq!(answer, 0);
                assert_eq!(out[..message.len()], **message);
                assert!(out[message.len()..].iter().all(|byte| *byte == 0xEE));
            }
            let broken = Record { time: 86_400_000, ..record };
            let mut out = vec![0xEE; length];
            assert_eq!((write(&broken, &mut out).number(), out), (5, vec![0xEE; length]));
        }
    }
}
