//! The lent bytes, one by one.

use crate::days::{w, w_after};
use crate::desk::*;
use plain::{fresh, Edition};

const ROW_NEW: &[u8; 30] = b"ABCD    \x00\x03\xd0\x90\0\0\0\0\0\0\0\0\0\0\0\0\0\0\0\0\0\0";
const Q1: &[u8; 39] =
    b"Q1         ABCD    \x00\x03\xd4\x78\x00\x00\x00\x64@   \x00\x00\x00\x02\x00\x00\x07\xd0";
const Q2: &[u8; 39] =
    b"Q2         ABCD    \x00\x03\xf7\xa0\x00\x00\x01\x2c@   \x00\x00\x00\x03\x00\x00\x0b\xb8";
const L1: &[u8; 39] =
    b"L1         ABCD    \x00\x03\xcc\xa8\x00\x00\x00\x32@  I\x00\x00\x00\x04\x00\x00\x0f\xa0";
const Q9: &[u8; 39] =
    b"Q9         ABCD    \x00\x03\xda\x54\x00\x00\x00\x78@   \x00\x00\x00\x02\x00\x00\x07\xd0";

/// The line room: the given lines with their live marks, then what was there before.
fn lines(used: &[(&[u8; 39], u8)]) -> Vec<u8> {
    let mut out: Vec<u8> =
        used.iter().flat_map(|(line, live)| [&line[..], &[*live]].concat()).collect();
    out.resize(8 * LINE, 0x5A);
    out
}

/// The row room: the new row with the reported volume set, then what was there before.
fn rows(reported: Option<u64>) -> Vec<u8> {
    let mut out = ROW_NEW.to_vec();
    if let Some(volume) = reported {
        out[21] = 1;
        out[22..].copy_from_slice(&volume.to_be_bytes());
    }
    out.resize(2 * ROW, 0xA5);
    out
}

#[test]
fn a_fresh_book() {
    for edition in Edition::ALL {
        let c = fresh(edition);
        assert_eq!((c.wanted, c.phase, c.rows, c.lines, c.taken), (1, 0, 0, 0, 0));
        assert_eq!(c.edition, edition);
    }
}

#[test]
fn w_byte_by_byte() {
    let steps: [(Option<u64>, Vec<u8>); 7] = [
        (None, lines(&[])),
        (None, lines(&[])),
        (Some(100), lines(&[(Q1, 1)])),
        (Some(400), lines(&[(Q1, 1), (Q2, 1)])),
        (Some(450), lines(&[(Q1, 1), (Q2, 1), (L1, 1)])),
        (Some(500), lines(&[(Q1, 1), (Q2, 0), (L1, 1)])),
        (Some(600), lines(&[(Q1, 0), (Q2, 0), (L1, 1), (Q9, 1)])),
    ];
    for (number, (reported, lines)) in steps.into_iter().enumerate() {
        let desk = w_after(number);
        assert_eq!(desk.rows, rows(reported), "after {number}");
        assert_eq!(desk.lines, lines, "after {number}");
    }
}

#[test]
fn a_summary_in_its_row() {
    let mut desk = w_after(6);
    assert_eq!(desk.next(&summary("ABCD", 0x0102_0304, 0x0506_0708, 9, 0xF1F2)), 0);
    let mut expected = rows(Some(0xF1F2));
    expected[12..21].copy_from_slice(&[1, 1, 2, 3, 4, 5, 6, 7, 8]);
    assert_eq!(desk.rows, expected);
    assert_eq!(desk.lines, w_after(6).lines);
    assert_eq!(desk.next(&summary("ABCD", 0, 1, 9, 0)), 0);
    expected = rows(Some(0));
    expected[12..21].copy_from_slice(&[1, 0, 0, 0, 0, 0, 0, 0, 1]);
    assert_eq!(desk.rows, expected);
}

#[test]
fn a_second_row_stands_after_the_first() {
    let mut desk = Desk::new(2, 0);
    assert_eq!(desk.list("ABCD", 250_000), 0);
    assert_eq!(desk.list("~", 2_000_000_000), 0);
    assert_eq!(desk.rows[..ROW], *ROW_NEW);
    assert_eq!(desk.rows[ROW..ROW + 12], *b"~       \x77\x35\x94\x00");
    assert_eq!(desk.rows[ROW + 12..], [0; 18]);
    assert_eq!(desk.counters.rows, 2);
}

#[test]
fn lossy_lines_that_reach_the_same_number_leave_equal_books() {
    let day = w();
    for arrivals in [
        vec![1, 2, 3, 4, 5, 6],
        vec![6, 1, 1, 5, 2, 4, 3, 4, 2, 5, 6, 3],
        vec![2, 3, 1, 3, 2, 6, 3, 5, 4, 4, 5, 1, 6, 6],
    ] {
        let mut desk = w_after(0);
        for number in arrivals {
            desk.say(number as u64, &day[number - 1]);
        }
        assert_eq!(desk, w_after(6));
    }
}
