//! The fourteen days to try by hand, and the three wrong books.

use crate::desk::*;
use plain::{Answer, Row};

const Q1: Trade = TRADE;
const Q2: Trade =
    Trade { time: 3_000, control: "2", price: 260_000, size: 300, consolidated: 400, ..TRADE };
const L1: Trade = Trade {
    time: 4_000,
    centre: b'L',
    price: 249_000,
    size: 50,
    condition: "@  I",
    consolidated: 450,
    ..TRADE
};

/// The day W.
pub fn w() -> [Vec<u8>; 6] {
    [
        event(1_000, b'O'),
        trade(&Q1),
        trade(&Q2),
        trade(&L1),
        cancel(&Trade { time: 5_000, consolidated: 500, ..Q2 }),
        correction(&Trade { time: 6_000, consolidated: 600, ..Q1 }, &NEW),
    ]
}

/// W delivered up to and with a number, every message taken.
pub fn w_after(number: usize) -> Desk {
    let mut desk = Desk::new(2, 8);
    assert_eq!(desk.list("ABCD", 250_000), 0);
    for (at, message) in w().iter().take(number).enumerate() {
        assert_eq!(desk.say(at as u64 + 1, message), 0);
    }
    desk
}

fn abcd(last: u32, range: (u32, u32), net: i64, volume: u64, count: u64, reported: u64) -> Row {
    Row {
        symbol: *b"ABCD    ",
        close: 250_000,
        last: Some(last),
        high: Some(range.0),
        low: Some(range.1),
        net: Some(net),
        volume,
        count,
        agrees: false,
        reported: Some(reported),
    }
}

#[test]
fn day_1_two_trades() {
    let row = w_after(3).row("ABCD");
    assert_eq!(row, abcd(260_000, (260_000, 251_000), 10_000, 400, 2, 400));
}

#[test]
fn day_2_a_trade_without_marks() {
    let row = w_after(4).row("ABCD");
    assert_eq!(row, abcd(260_000, (260_000, 251_000), 10_000, 450, 3, 450));
}

#[test]
fn day_3_the_highest_is_cancelled() {
    let row = w_after(5).row("ABCD");
    assert_eq!(row, abcd(251_000, (251_000, 251_000), 1_000, 150, 2, 500));
}

#[test]
fn day_4_the_whole_of_w() {
    let desk = w_after(6);
    assert_eq!(desk.row("ABCD"), abcd(252_500, (252_500, 252_500), 2_500, 170, 2, 600));
    let c = desk.counters;
    assert_eq!((c.wanted, c.phase, c.rows, c.lines, c.taken), (7, 1, 1, 4, 6));
}

#[test]
fn day_5_cancelled_twice() {
    for number in [5, 6] {
        let mut desk = w_after(number);
        let before = desk.row("ABCD");
        assert_eq!(desk.next(&cancel(&Trade { consolidated: 777, ..Q2 })), 9);
        assert_eq!(desk.row("ABCD"), before);
    }
}

#[test]
fn day_6_a_cancel_with_another_size() {
    let mut desk = w_after(4);
    assert_eq!(desk.next(&cancel(&Trade { size: 299, ..Q2 })), 10);
    assert_eq!(desk.row("ABCD").volume, 450);
}

#[test]
fn day_7_a_correction_to_its_own_control() {
    let mut desk = w_after(5);
    assert_eq!(desk.next(&correction(&Q1, &New { control: "1", ..NEW })), 11);
    assert_eq!(desk.row("ABCD"), w_after(5).row("ABCD"));
}

#[test]
fn day_8_arrivals_1_3_2_3() {
    let mut desk = w_after(0);
    let answers = [1, 3, 2, 3].map(|number: usize| desk.say(number as u64, &w()[number - 1]));
    assert_eq!(answers, [0, 3, 0, 0]);
    assert_eq!(desk, w_after(3));
}

#[test]
fn day_9_an_empty_message() {
    let mut desk = w_after(2);
    assert_eq!(desk.say(3, &[]), 4);
    assert_eq!((desk.counters.wanted, desk.counters.taken), (4, 2));
    assert_eq!(desk.say(4, &trade(&Q2)), 0);
}

#[test]
fn day_10_the_bounds_of_a_price() {
    let (answer, record) = read(&trade(&Trade { price: 2_000_000_000, ..TRADE }));
    assert_eq!((answer, record.sale.price), (Answer::Done, 2_000_000_000));
    for price in [2_000_000_001, 0] {
        let message = trade(&Trade { price, ..TRADE });
        assert_eq!(read(&message).0.number(), 5);
        assert_eq!(w_after(1).next(&message), 5);
    }
}

#[test]
fn day_11_lengths_and_times() {
    let mut message = trade(&TRADE);
    assert_eq!(read(&message[..44]).0.number(), 4);
    message.push(0);
    assert_eq!(read(&message).0.number(), 4);
    let late = trade(&Trade { time: 86_399_999, ..TRADE });
    assert_eq!((read(&late).0.number(), read(&late).1.time), (0, 86_399_999));
    assert_eq!(read(&trade(&Trade { time: 86_400_000, ..TRADE })).0.number(), 5);
}

#[test]
fn day_12_the_deepest_fall() {
    let mut desk = Desk::new(1, 1);
    assert_eq!(desk.list("ABCD", 2_000_000_000), 0);
    assert_eq!(desk.next(&event(0, b'Q')), 0);
    assert_eq!(desk.next(&trade(&Trade { price: 1, ..TRADE })), 0);
    assert_eq!(desk.row("ABCD").net, Some(-1_999_999_999));
}

#[test]
fn day_13_number_0_and_an_event_late() {
    let mut desk = Desk::new(0, 0);
    assert_eq!(desk.say(0, &event(1, b'Q')), 1);
    assert_eq!(desk.say(1, &event(1, b'Q')), 0);
    assert_eq!(desk.say(2, &event(1, b'S')), 6);
}

#[test]
fn day_14_no_room_for_lines() {
    let mut desk = Desk::open(1, 0);
    assert_eq!(desk.next(&trade(&TRADE)), 12);
    assert_eq!(desk.next(&cancel(&TRADE)), 8);
    assert_eq!(desk.next(&correction(&TRADE, &NEW)), 8);
}

#[test]
fn an_old_fix_does_not_move_the_last() {
    let mut desk = w_after(4);
    assert_eq!(desk.next(&correction(&Q1, &NEW)), 0);
    assert_eq!(desk.row("ABCD").last, Some(260_000));
    // Nor does a fix of the fix: place 2 goes on down the chain.
    let fixed = Trade { control: "9", price: 252_500, size: 120, ..Q1 };
    assert_eq!(desk.next(&correction(&fixed, &New { control: "10", ..NEW })), 0);
    assert_eq!(desk.row("ABCD").last, Some(260_000));
}

#[test]
fn a_high_goes_with_its_trade() {
    assert_eq!(w_after(4).row("ABCD").high, Some(260_000));
    assert_eq!(w_after(5).row("ABCD").high, Some(251_000));
}

#[test]
fn one_control_at_two_centres() {
    let mut desk = w_after(3);
    assert_eq!(desk.next(&trade(&L1)), 0);
    assert_eq!(desk.next(&trade(&L1)), 11);
}
