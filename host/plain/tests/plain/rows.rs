//! How a row reads: the sheet's marks, summaries, and contents that no lawful day leaves.

use crate::desk::*;

const BOTH: [&str; 4] = ["@", " FO56", " ", " ABDKSXY"];
const RANGE: [&str; 4] = ["", "4", "LZ", ""];
const NONE: [&str; 4] = ["CNR", "7", "TU", "HIVW"];

/// A line's cell as bytes.
fn cell(symbol: &str, price: u32, condition: &[u8; 4], place: u32, live: u8) -> Vec<u8> {
    let mut out = b"Q1         ".to_vec();
    out.extend(pad::<8>(symbol));
    out.extend(price.to_be_bytes());
    out.extend(10u32.to_be_bytes());
    out.extend(condition);
    out.extend(place.to_be_bytes());
    out.extend(0u32.to_be_bytes());
    out.push(live);
    out
}

/// A book whose used lines are the given cells.
fn book(cells: &[Vec<u8>]) -> Desk {
    let mut desk = Desk::open(2, cells.len());
    desk.counters.lines = cells.len() as u64;
    desk.lines = cells.concat();
    desk
}

/// The two marks of a condition, seen in a row with that trade alone.
fn marks(condition: [u8; 4]) -> (bool, bool) {
    let row = book(&[cell("ABCD", 5, &condition, 2, 1)]).row("ABCD");
    assert_eq!((row.volume, row.count), (10, 1));
    assert_eq!(row.high, row.low);
    (row.high == Some(5), row.last == Some(5))
}

#[test]
fn marks_of_each_code_alone() {
    for level in 0..4 {
        for code in 0..=255u8 {
            let mut condition = *b"@   ";
            condition[level] = code;
            let on = |sheet: [&str; 4]| sheet[level].as_bytes().contains(&code);
            let first = on(BOTH) || on(RANGE);
            assert_eq!(marks(condition), (first, on(BOTH)), "{condition:?}");
        }
    }
}

#[test]
fn marks_of_every_condition_on_the_sheet() {
    let codes = |level: usize| [BOTH[level], RANGE[level], NONE[level]].concat().into_bytes();
    for a in codes(0) {
        for b in codes(1) {
            for c in codes(2) {
                for d in codes(3) {
                    let all = [a, b, c, d];
                    let in_both = |i: usize| BOTH[i].as_bytes().contains(&all[i]);
                    let in_range = |i: usize| RANGE[i].as_bytes().contains(&all[i]);
                    let first = (0..4).all(|i| in_both(i) || in_range(i));
                    assert_eq!(marks(all), (first, (0..4).all(in_both)));
                }
            }
        }
    }
}

#[test]
fn every_lawful_condition_is_taken() {
    let mut desk = Desk::open(1, 4);
    for (number, condition) in ["C7UW", "@4LV", "N ZI", "RO T"].iter().enumerate() {
        let control = ["1", "2", "3", "4"][number];
        let answer = desk.next(&trade(&Trade { control, condition, ..TRADE }));
        // T is a code of level 3, not of level 4.
        assert_eq!(answer, if number == 3 { 5 } else { 0 });
    }
    let row = desk.row("ABCD");
    assert_eq!((row.volume, row.count, row.last, row.high, row.low), (300, 3, None, None, None));
    assert_eq!(row.net, None);
}

#[test]
fn range_without_last() {
    let mut desk = Desk::open(1, 4);
    assert_eq!(desk.next(&trade(&TRADE)), 0);
    let wide = Trade { control: "2", price: 300_000, condition: "@4Z ", ..TRADE };
    assert_eq!(desk.next(&trade(&wide)), 0);
    let row = desk.row("ABCD");
    assert_eq!((row.last, row.high, row.low), (Some(251_000), Some(300_000), Some(251_000)));
}

#[test]
fn close_unknown_gives_no_net() {
    let mut desk = Desk::new(1, 1);
    assert_eq!(desk.list("ABCD", 0), 0);
    assert_eq!(desk.next(&event(0, b'S')), 0);
    assert_eq!(desk.next(&trade(&TRADE)), 0);
    assert_eq!((desk.row("ABCD").last, desk.row("ABCD").net), (Some(251_000), None));
}

#[test]
fn net_at_zero_and_at_its_ends() {
    for (close, price, net) in [
        (250_000, 250_000, 0),
        (1, 2_000_000_000, 1_999_999_999),
        (2_000_000_000, 1, -1_999_999_999),
        (1, u32::MAX, 4_294_967_294),
        (u32::MAX, 0, -4_294_967_295),
    ] {
        let mut desk = book(&[cell("ABCD", price, b"@   ", 2, 1)]);
        desk.rows[8..12].copy_from_slice(&u32::to_be_bytes(close));
        assert_eq!(desk.row("ABCD").net, Some(net));
    }
}

#[test]
fn summaries_agree_with_the_row_or_not() {
    let mut desk = Desk::open(1, 1);
    assert!(!desk.row("ABCD").agrees);
    assert_eq!(desk.next(&summary("ABCD", 0, 0, 7, 9)), 0);
    assert_eq!((desk.row("ABCD").agrees, desk.row("ABCD").reported), (true, Some(9)));
    assert_eq!(desk.next(&trade(&TRADE)), 0);
    assert!(!desk.row("ABCD").agrees);
    for (high, low, agrees) in [
        (251_000, 251_000, true),
        (251_000, 250_999, false),
        (251_001, 251_000, false),
        (0, 0, false),
    ] {
        assert_eq!(desk.next(&summary("ABCD", high, low, 0, 0)), 0);
        assert_eq!(desk.row("ABCD").agrees, agrees);
    }
    assert_eq!(desk.next(&cancel(&TRADE)), 0);
    assert!(desk.row("ABCD").agrees);
}

#[test]
fn the_latest_report_stands_even_if_lower() {
    let mut desk = Desk::open(1, 1);
    assert_eq!(desk.row("ABCD").reported, None);
    assert_eq!(desk.next(&trade(&Trade { consolidated: u64::MAX, ..TRADE })), 0);
    assert_eq!(desk.row("ABCD").reported, Some(u64::MAX));
    assert_eq!(desk.next(&trade(&Trade { control: "2", consolidated: 5, ..TRADE })), 12);
    assert_eq!(desk.next(&event(0, b'M')), 0);
    assert_eq!(desk.row("ABCD").reported, Some(u64::MAX));
    assert_eq!(desk.next(&cancel(&Trade { consolidated: 0, ..TRADE })), 0);
    assert_eq!(desk.row("ABCD").reported, Some(0));
}

#[test]
fn only_the_mark_1_is_live() {
    for mark in 0..=255 {
        let mut desk = book(&[cell("ABCD", 251_000, b"@   ", 2, mark)]);
        assert_eq!(desk.row("ABCD").count, u64::from(mark == 1));
        let named = Trade { size: 10, ..TRADE };
        assert_eq!(desk.next(&cancel(&named)), if mark == 1 { 0 } else { 9 });
        assert_eq!(desk.lines[39], if mark == 1 { 0 } else { mark });
    }
}

#[test]
fn only_the_mark_1_is_taken_or_set() {
    let mut desk = Desk::open(1, 0);
    assert_eq!(desk.next(&summary("ABCD", 0, 0, 0, 6)), 0);
    for mark in 0..=255 {
        desk.rows[12] = mark;
        desk.rows[21] = 1;
        assert_eq!((desk.row("ABCD").agrees, desk.row("ABCD").reported), (mark == 1, Some(6)));
        desk.rows[12] = 1;
        desk.rows[21] = mark;
        assert!(desk.row("ABCD").agrees);
        assert_eq!(desk.row("ABCD").reported, (mark == 1).then_some(6));
    }
}

#[test]
fn of_equal_places_the_first_line_is_the_last() {
    let tie = book(&[
        cell("ABCD", 1, b"@   ", 4, 1),
        cell("EFGH", 2, b"@   ", 9, 1),
        cell("ABCD", 3, b"@   ", 7, 0),
        cell("ABCD", 4, b"@4  ", 8, 1),
        cell("ABCD", 5, b"@   ", 5, 1),
        cell("ABCD", 6, b"@   ", 5, 1),
        cell("ABCD", 7, b"@ ? ", 9, 1),
    ]);
    let row = tie.row("ABCD");
    assert_eq!((row.last, row.high, row.low), (Some(5), Some(6), Some(1)));
    assert_eq!((row.volume, row.count), (50, 5));
    let zero = book(&[cell("ABCD", 8, b"@   ", 0, 1), cell("ABCD", 9, b"@   ", 0, 1)]);
    assert_eq!(zero.row("ABCD").last, Some(8));
}

#[test]
fn the_fullest_book_adds_up() {
    let mut one = cell("ABCD", 0, b"@   ", 0, 1);
    one[23..27].copy_from_slice(&[255; 4]);
    let row = book(&vec![one; 65_536]).row("ABCD");
    assert_eq!((row.volume, row.count), (65_536 * 4_294_967_295, 65_536));
    assert_eq!((row.last, row.high, row.low, row.net), (Some(0), Some(0), Some(0), Some(-250_000)));
}

#[test]
fn of_two_lines_with_one_key_the_first_decides() {
    let (dead, live) = (cell("ABCD", 251_000, b"@   ", 2, 0), cell("ABCD", 251_000, b"@   ", 2, 1));
    let named = Trade { size: 10, ..TRADE };
    assert_eq!(book(&[dead.clone(), live.clone()]).next(&cancel(&named)), 9);
    let mut desk = book(&[live.clone(), live.clone()]);
    assert_eq!(desk.next(&cancel(&named)), 0);
    assert_eq!(desk.lines, [dead.clone(), live.clone()].concat());
    assert_eq!(desk.next(&cancel(&named)), 9);
    let other = cell("ABCD", 251_001, b"@   ", 2, 1);
    assert_eq!(book(&[other, live]).next(&cancel(&named)), 10);
}

#[test]
fn of_two_equal_rows_the_first_is_found() {
    let mut desk = Desk::open(2, 1);
    desk.rows.copy_within(..ROW, ROW);
    desk.rows[ROW + 11] += 1;
    desk.counters.rows = 2;
    let second = desk.rows[ROW..].to_vec();
    assert_eq!(desk.row("ABCD").close, 250_000);
    assert_eq!(desk.next(&trade(&TRADE)), 0);
    assert_eq!(desk.row("ABCD").reported, Some(100));
    assert_eq!(desk.rows[ROW..], second);
}

#[test]
fn a_row_found_need_not_be_lawful() {
    let mut desk = Desk::open(1, 1);
    desk.rows.fill(0xFF);
    assert_eq!(desk.asked([0xFF; 8]), 0);
    let (_, row) = plain::row(&desk.counters, &desk.rows, &desk.lines, [0xFF; 8]);
    assert_eq!(
        (row.symbol, row.close, row.agrees, row.reported),
        ([0xFF; 8], u32::MAX, false, None)
    );
}

#[test]
fn lines_past_the_used_ones_are_not_read() {
    let mut desk = book(&[cell("ABCD", 251_000, b"@   ", 2, 1), cell("ABCD", 9, b"@   ", 3, 1)]);
    desk.counters.lines = 1;
    assert_eq!(desk.row("ABCD").last, Some(251_000));
    desk.counters.lines = 0;
    assert_eq!(desk.row("ABCD").count, 0);
    assert_eq!(desk.next(&cancel(&Trade { size: 10, ..TRADE })), 8);
    assert_eq!(desk.next(&trade(&TRADE)), 0);
}
