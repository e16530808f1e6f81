//! Each answer of the table, and which of two goes first.

use crate::desk::*;
use plain::{fresh, Answer, Counters, Edition};

const NAMES: [Answer; 19] = [
    Answer::Done,
    Answer::NumberOutside,
    Answer::NumberBelow,
    Answer::NumberAbove,
    Answer::NoType,
    Answer::FieldBroken,
    Answer::NotDue,
    Answer::NotListed,
    Answer::NoLine,
    Answer::LineDead,
    Answer::LineDiffers,
    Answer::KeyUsed,
    Answer::LinesFull,
    Answer::ListingBroken,
    Answer::ListingLate,
    Answer::ListedAlready,
    Answer::RowsFull,
    Answer::Unsound,
    Answer::NoSpace,
];

const OTHER: Trade = Trade { control: "2", ..TRADE };

/// A book with one live line, TRADE, and room for `lines`.
fn one_line(lines: usize) -> Desk {
    let mut desk = Desk::open(2, lines);
    assert_eq!(desk.next(&trade(&TRADE)), 0);
    desk
}

/// A book whose one line, TRADE, is dead.
fn one_dead(lines: usize) -> Desk {
    let mut desk = one_line(lines);
    assert_eq!(desk.next(&cancel(&TRADE)), 0);
    desk
}

#[test]
fn numbers_of_answers() {
    for (number, answer) in NAMES.iter().enumerate() {
        assert_eq!(usize::from(answer.number()), number);
    }
}

#[test]
fn answer_0_each_kind() {
    let mut desk = Desk::new(1, 2);
    assert_eq!(desk.list("ABCD", 0), 0);
    for message in [
        event(0, b'M'),
        trade(&TRADE),
        correction(&TRADE, &NEW),
        cancel(&Trade { control: "9", price: 252_500, size: 120, ..TRADE }),
        summary("ABCD", 5, 4, 3, 2),
        event(0, b'C'),
    ] {
        assert_eq!(desk.next(&message), 0);
    }
    let c = desk.counters;
    assert_eq!((c.wanted, c.phase, c.rows, c.lines, c.taken), (7, 6, 1, 2, 6));
}

#[test]
fn answer_1_number_0_or_too_great() {
    for number in [0, 4_294_967_296, u64::MAX] {
        assert_eq!(Desk::open(1, 1).say(number, &trade(&TRADE)), 1);
    }
}

#[test]
fn answer_2_and_3_around_the_wanted_number() {
    let mut desk = one_line(2);
    for (number, answer) in [(1, 2), (2, 2), (4, 3), (5, 3), (4_294_967_295, 3), (3, 0)] {
        assert_eq!(desk.say(number, &trade(&OTHER)), answer, "{number}");
    }
}

#[test]
fn the_last_number_and_after_it() {
    let mut desk = Desk::open(1, 1);
    desk.counters.wanted = 4_294_967_295;
    assert_eq!(desk.say(4_294_967_295, &trade(&TRADE)), 0);
    assert_eq!(desk.counters.wanted, 4_294_967_296);
    assert_eq!(desk.lines[31..35], [255; 4]);
    for (number, answer) in [
        (0, 1),
        (1, 2),
        (4_294_967_294, 2),
        (4_294_967_295, 2),
        (4_294_967_296, 1),
        (4_294_967_297, 1),
    ] {
        assert_eq!(desk.say(number, &trade(&OTHER)), answer, "{number}");
    }
    assert_eq!(desk.row("ABCD").volume, 100);
    assert_eq!(desk.list("NEW", 0), 14);
}

#[test]
fn answer_4_no_type_or_no_length() {
    let mut desk = Desk::open(1, 1);
    let mut unknown = trade(&TRADE);
    unknown[4] = b'H';
    assert_eq!(desk.next(&unknown), 4);
    assert_eq!(desk.next(&trade(&TRADE)[..44]), 4);
    assert_eq!(desk.next(&[0; 4]), 4);
}

#[test]
fn answer_5_in_every_type() {
    let mut desk = one_line(3);
    assert_eq!(desk.next(&event(0, b'X')), 5);
    assert_eq!(desk.next(&trade(&Trade { size: 0, ..OTHER })), 5);
    assert_eq!(desk.next(&cancel(&Trade { class: b'X', ..TRADE })), 5);
    assert_eq!(desk.next(&correction(&TRADE, &New { price: 0, ..NEW })), 5);
    assert_eq!(desk.next(&summary("ABCD", 2_000_000_001, 0, 0, 0)), 5);
}

#[test]
fn answer_6_events_go_strictly_forward() {
    for (at, first) in b"OSQMEC".iter().enumerate() {
        for (then, second) in b"OSQMEC".iter().enumerate() {
            let mut desk = Desk::new(0, 0);
            assert_eq!(desk.next(&event(9, *first)), 0);
            assert_eq!(desk.counters.phase, at as u64 + 1);
            assert_eq!(desk.next(&event(3, *second)), if then > at { 0 } else { 6 });
        }
    }
}

#[test]
fn answer_6_messages_between_the_first_event_and_c() {
    let messages =
        [trade(&OTHER), cancel(&TRADE), correction(&TRADE, &NEW), summary("ABCD", 0, 0, 0, 0)];
    for message in &messages {
        for phase in 0..=6 {
            let mut desk = one_line(3);
            desk.counters.phase = phase;
            assert_eq!(desk.next(message), if phase == 0 || phase == 6 { 6 } else { 0 });
        }
    }
}

#[test]
fn answer_7_in_every_message_with_a_symbol() {
    let mut desk = one_line(3);
    let off = Trade { symbol: "ABC", ..TRADE };
    assert_eq!(desk.next(&trade(&off)), 7);
    assert_eq!(desk.next(&cancel(&off)), 7);
    assert_eq!(desk.next(&correction(&off, &NEW)), 7);
    assert_eq!(desk.next(&summary("ABCDE", 0, 0, 0, 0)), 7);
}

#[test]
fn answer_7_of_a_reading() {
    let desk = one_line(2);
    assert_eq!(desk.asked(*b"ABCD    "), 0);
    assert_eq!(desk.asked(*b"ABCDE   "), 7);
    // The second cell was lent but is not used.
    assert_eq!(desk.asked([0xA5; 8]), 7);
}

#[test]
fn answer_8_by_centre_and_by_control() {
    let mut desk = one_line(3);
    for t in [Trade { centre: b'L', ..TRADE }, OTHER] {
        assert_eq!(desk.next(&cancel(&t)), 8);
        assert_eq!(desk.next(&correction(&t, &NEW)), 8);
    }
}

#[test]
fn answer_9_after_a_cancel_and_after_a_correction() {
    let mut corrected = one_line(3);
    assert_eq!(corrected.next(&correction(&TRADE, &NEW)), 0);
    for mut desk in [one_dead(3), corrected] {
        assert_eq!(desk.next(&cancel(&TRADE)), 9);
        assert_eq!(desk.next(&correction(&TRADE, &New { control: "3", ..NEW })), 9);
    }
}

#[test]
fn answer_10_for_each_field_compared() {
    let mut desk = Desk::new(2, 3);
    assert_eq!(desk.list("ABCD", 0), 0);
    assert_eq!(desk.list("EFGH", 0), 0);
    assert_eq!(desk.next(&event(0, b'O')), 0);
    assert_eq!(desk.next(&trade(&TRADE)), 0);
    for t in [
        Trade { symbol: "EFGH", ..TRADE },
        Trade { price: 251_001, ..TRADE },
        Trade { size: 101, ..TRADE },
        Trade { condition: "@  I", ..TRADE },
    ] {
        assert_eq!(desk.next(&cancel(&t)), 10);
        assert_eq!(desk.next(&correction(&t, &NEW)), 10);
    }
    // Time, class and consolidated volume are not compared.
    let free = Trade { time: 0, class: b'Z', consolidated: 0, ..TRADE };
    assert_eq!(desk.clone().next(&cancel(&free)), 0);
    assert_eq!(desk.next(&correction(&free, &NEW)), 0);
}

#[test]
fn answer_11_against_live_and_dead_lines() {
    for mut desk in [one_line(4), one_dead(4)] {
        assert_eq!(desk.next(&trade(&TRADE)), 11);
        assert_eq!(desk.next(&trade(&OTHER)), 0);
        assert_eq!(desk.next(&correction(&OTHER, &New { control: "1", ..NEW })), 11);
        assert_eq!(desk.next(&correction(&OTHER, &New { control: "2", ..NEW })), 11);
    }
}

#[test]
fn answer_12_dead_lines_make_no_room() {
    let mut desk = one_dead(1);
    assert_eq!(desk.next(&trade(&OTHER)), 12);
    let mut desk = one_line(1);
    assert_eq!(desk.next(&trade(&OTHER)), 12);
    assert_eq!(desk.next(&correction(&TRADE, &NEW)), 12);
    assert_eq!(desk.row("ABCD").volume, 100);
    assert_eq!(desk.next(&cancel(&TRADE)), 0);
}

#[test]
fn answer_13_symbol_and_close() {
    let mut desk = Desk::new(4, 0);
    for symbol in [*b"        ", *b" ABC    ", *b"A B     ", *b"ABC\x7f    ", *b"ABC\0    ", [0; 8]]
    {
        assert_eq!(desk.list_bytes(symbol, 1), 13);
    }
    assert_eq!(desk.list("ABCD", 2_000_000_001), 13);
    assert_eq!(desk.list("ABCD", u32::MAX), 13);
    assert_eq!(desk.list("ABCD", 2_000_000_000), 0);
    assert_eq!(desk.list_bytes(*b"!~!~!~!~", 0), 0);
}

#[test]
fn answer_14_after_a_taken_and_after_a_refused_number() {
    for message in [event(0, b'O'), vec![]] {
        let mut desk = Desk::new(2, 0);
        desk.next(&message);
        assert_eq!(desk.list("ABCD", 0), 14);
    }
    // Answers 1 and 3 use up nothing, so the sheet is still open.
    let mut desk = Desk::new(2, 0);
    assert_eq!((desk.say(0, &[]), desk.say(2, &[])), (1, 3));
    assert_eq!(desk.list("ABCD", 0), 0);
}

#[test]
fn answer_15_whatever_the_close() {
    let mut desk = Desk::new(3, 0);
    assert_eq!(desk.list("ABCD", 1), 0);
    assert_eq!(desk.list("EFGH", 1), 0);
    assert_eq!(desk.list("ABCD", 2), 15);
    assert_eq!(desk.list("EFGH", 1), 15);
}

#[test]
fn answer_16_by_room_and_by_the_cap() {
    assert_eq!(Desk::new(0, 0).list("ABCD", 0), 16);
    let mut desk = Desk::new(300, 0);
    for n in 0..256 {
        assert_eq!(desk.list(&format!("N{n}"), 0), 0);
    }
    assert_eq!(desk.list("N256", 0), 16);
    // Past the cap nothing was written.
    assert_eq!(desk.rows[256 * ROW..], [0xA5; 44 * ROW]);
    assert_eq!(desk.row("N255").symbol, *b"N255    ");
}

#[test]
fn answer_12_by_the_cap() {
    let mut desk = Desk::open(1, 65_537);
    desk.lines.fill(0);
    desk.counters.lines = 65_535;
    assert_eq!(desk.next(&trade(&TRADE)), 0);
    assert_eq!(desk.next(&trade(&OTHER)), 12);
    assert_eq!(desk.row("ABCD").count, 1);
    desk.counters.lines = 65_537;
    assert_eq!(desk.next(&trade(&OTHER)), 17);
}

/// Asks every call of the book and wants the one answer from each.
fn all_say_17(counters: Counters) {
    let mut desk = Desk { counters, ..Desk::new(2, 3) };
    for number in [0, 1, counters.wanted, u64::MAX] {
        assert_eq!(desk.say(number, &event(0, b'O')), 17, "{counters:?}");
        assert_eq!(desk.say(number, &[]), 17);
    }
    assert_eq!(desk.list("ABCD", 0), 17);
    assert_eq!(desk.list("", u32::MAX), 17);
    assert_eq!(desk.asked(*b"ABCD    "), 17);
}

#[test]
fn answer_17_just_past_each_bound() {
    let start = fresh(Edition::NlsPlus);
    let sound = Counters { wanted: 9, phase: 6, rows: 2, lines: 3, taken: 8, ..start };
    let desk = Desk { counters: sound, ..Desk::new(2, 3) };
    assert_eq!(desk.asked(*b"ABCD    "), 7);
    for wanted in [0, 4_294_967_297, u64::MAX] {
        all_say_17(Counters { wanted, taken: 0, ..sound });
    }
    for past in [1, u64::MAX - 8] {
        all_say_17(Counters { phase: 6 + past, ..sound });
        all_say_17(Counters { rows: 2 + past, ..sound });
        all_say_17(Counters { lines: 3 + past, ..sound });
        all_say_17(Counters { taken: 8 + past, ..sound });
    }
}

#[test]
fn sound_at_each_bound() {
    for (wanted, taken) in [(1, 0), (2, 0), (2, 1), (4_294_967_296, 4_294_967_295)] {
        for phase in 0..=6 {
            let counters =
                Counters { wanted, phase, rows: 2, lines: 3, taken, ..fresh(Edition::Pls) };
            let desk = Desk { counters, ..Desk::new(2, 3) };
            assert_eq!(desk.asked(*b"ABCD    "), 7);
        }
    }
}

#[test]
fn a_broken_cell_is_no_room() {
    let mut desk = Desk::open(1, 1);
    desk.rows.extend([7; 29]);
    desk.lines.extend([7; 39]);
    assert_eq!(desk.next(&trade(&TRADE)), 0);
    assert_eq!(desk.next(&trade(&OTHER)), 12);
    assert_eq!((&desk.rows[30..], &desk.lines[40..]), (&[7; 29][..], &[7; 39][..]));
    desk.counters.rows = 2;
    assert_eq!(desk.next(&[]), 17);
}

#[test]
fn numbers_go_before_what_the_message_says() {
    let mut desk = Desk::open(1, 1);
    for message in [&[][..], &trade(&Trade { price: 0, ..TRADE }), &event(0, b'O')] {
        assert_eq!([0, 1, 3].map(|number| desk.say(number, message)), [1, 2, 3]);
    }
}

#[test]
fn four_before_five_before_six_before_seven() {
    let mut desk = Desk::new(0, 0);
    let bad = Trade { price: 0, ..TRADE };
    assert_eq!(desk.next(&trade(&bad)[..44]), 4);
    assert_eq!(desk.next(&trade(&bad)), 5);
    assert_eq!(desk.next(&trade(&TRADE)), 6);
    assert_eq!(desk.next(&event(0, b'E')), 0);
    assert_eq!(desk.next(&event(0, b'?')), 5);
    assert_eq!(desk.next(&trade(&TRADE)), 7);
    assert_eq!(desk.next(&cancel(&TRADE)), 7);
}

#[test]
fn seven_before_eight_to_twelve() {
    let off = Trade { symbol: "OFF", ..TRADE };
    let mut desk = one_dead(1);
    assert_eq!(desk.next(&cancel(&Trade { control: "8", ..off })), 7);
    assert_eq!(desk.next(&cancel(&off)), 7);
    assert_eq!(desk.next(&trade(&off)), 7);
    assert_eq!(desk.next(&trade(&Trade { control: "8", ..off })), 7);
}

#[test]
fn eight_to_twelve_in_their_order() {
    // 8 before 11 and 12: no original, the new key used, no room.
    let own = New { control: "1", ..NEW };
    assert_eq!(one_line(1).next(&correction(&OTHER, &own)), 8);
    // 9 before 10, 11 and 12.
    let differs = Trade { size: 1, ..TRADE };
    assert_eq!(one_dead(1).next(&correction(&differs, &own)), 9);
    assert_eq!(one_dead(1).next(&cancel(&differs)), 9);
    // 10 before 11 and 12.
    assert_eq!(one_line(1).next(&correction(&differs, &own)), 10);
    assert_eq!(one_line(1).next(&correction(&differs, &NEW)), 10);
    // 11 before 12, for C and for T.
    assert_eq!(one_line(1).next(&correction(&TRADE, &own)), 11);
    assert_eq!(one_line(1).next(&trade(&TRADE)), 11);
}

#[test]
fn a_listing_s_faults_in_their_order() {
    let mut desk = Desk::new(1, 0);
    assert_eq!(desk.list("ABCD", 1), 0);
    // 15 before 16.
    assert_eq!(desk.list("ABCD", 1), 15);
    assert_eq!(desk.list("EFGH", 1), 16);
    // 14 before 15 and 16, 13 before all of them.
    desk.next(&[]);
    assert_eq!(desk.list("ABCD", 1), 14);
    assert_eq!(desk.list("EFGH", 1), 14);
    assert_eq!(desk.list("ABCD", 2_000_000_001), 13);
    assert_eq!(desk.list("", 1), 13);
}
