//! The plain book under random input: every call answers, and a refusal changes what it may.

use chance::{contents, odd_counters, Counts, Dice, Kind, Maker, LINE, ROW, SYMBOLS};
use plain::{deliver, list, read, row, write, Answer, Counters, Edition, Record, Row};

/// A book over lent room.
#[derive(Clone, PartialEq, Debug)]
struct Desk {
    counters: Counters,
    rows: Vec<u8>,
    lines: Vec<u8>,
}

fn some_desk(dice: &mut Dice) -> Desk {
    let (rows, lines) = (dice.index(6 * ROW), dice.index(30 * LINE));
    let limits = ((rows / ROW) as u64, (lines / LINE) as u64);
    let Counts { wanted, phase, rows: used, lines: trades, taken, edition } =
        odd_counters(dice, limits.0, limits.1);
    let edition = Edition::of(edition).unwrap_or(Edition::NlsPlus);
    let kind = dice.pick(&[Kind::Zeros, Kind::Random, Kind::Rows, Kind::Rows, Kind::Rows]);
    let rows = contents(dice, kind, rows);
    let kind = dice.pick(&[Kind::Zeros, Kind::Random, Kind::Lines, Kind::Lines, Kind::Lines]);
    let lines = contents(dice, kind, lines);
    let counters = Counters { edition, wanted, phase, rows: used, lines: trades, taken };
    Desk { counters, rows, lines }
}

fn maker(edition: Edition) -> Maker {
    Maker::of(chance::Edition::ALL[edition.number() as usize], 12)
}

/// Mostly a lawful message of the book's edition, often about a line of the room.
fn some_message(dice: &mut Dice, desk: &Desk) -> Vec<u8> {
    let maker = maker(desk.counters.edition);
    let mut message = maker.some_message(dice);
    if desk.lines.len() >= LINE && message.len() > 40 && dice.chance(2) {
        let lines = desk.lines.len() / LINE;
        let at = dice.index(lines) * LINE;
        let letter = message[maker.letter_at()];
        message = maker.of_line(dice, letter, &desk.lines[at..at + LINE]);
    }
    if dice.chance(8) {
        message = maker.broken(dice, &message);
    }
    message
}

fn some_number(dice: &mut Dice, wanted: u64) -> u64 {
    let near = [wanted.wrapping_sub(1), wanted.wrapping_add(1), 0, 1, 4_294_967_296, u64::MAX];
    if dice.chance(6) {
        dice.pick(&near)
    } else {
        wanted
    }
}

#[test]
fn deliver_answers_and_a_refusal_uses_up_at_most_the_number() {
    let mut dice = Dice::new(51);
    let mut seen = [0; 19];
    for _ in 0..100_000 {
        let before = some_desk(&mut dice);
        let mut desk = before.clone();
        let message = some_message(&mut dice, &desk);
        let number = some_number(&mut dice, desk.counters.wanted);
        let answer = deliver(&mut desk.counters, &mut desk.rows, &mut desk.lines, number, &message);
        seen[usize::from(answer.number())] += 1;
        let used_up = answer.number() <= 12 && ![1, 2, 3].contains(&answer.number());
        assert_eq!(desk.counters.wanted, before.counters.wanted.wrapping_add(used_up.into()));
        if answer != Answer::Done {
            desk.counters.wanted = before.counters.wanted;
            assert_eq!(desk, before);
        } else {
            let told = read(before.counters.edition, &message).0;
            assert_eq!((number, told), (before.counters.wanted, Answer::Done));
            assert_only_used_cells_changed(&before, &desk);
        }
    }
    let message_answers = (0..=12).chain([17]);
    assert!(message_answers.clone().all(|answer| seen[answer] > 20), "{seen:?}");
    assert_eq!(message_answers.map(|answer| seen[answer]).sum::<usize>(), 100_000);
}

/// Bytes past the used cells are as they were, and so is all of a used line but its live mark.
fn assert_only_used_cells_changed(before: &Desk, after: &Desk) {
    let (rows, lines) = (after.counters.rows as usize * ROW, after.counters.lines as usize * LINE);
    assert_eq!(after.rows[rows..], before.rows[rows..]);
    assert_eq!(after.lines[lines..], before.lines[lines..]);
    let old = before.counters.lines as usize * LINE;
    let changed: Vec<usize> = (0..old).filter(|at| before.lines[*at] != after.lines[*at]).collect();
    assert!(changed.len() <= 1);
    for at in changed {
        assert_eq!((at % LINE, before.lines[at], after.lines[at]), (39, 1, 0));
    }
}

#[test]
fn list_answers_and_a_refusal_changes_nothing() {
    let mut dice = Dice::new(52);
    let mut seen = [0; 19];
    for _ in 0..100_000 {
        let mut before = some_desk(&mut dice);
        if dice.chance(2) {
            (before.counters.wanted, before.counters.taken) = (1, 0);
        }
        let mut desk = before.clone();
        let symbol = if dice.chance(9) { dice.roll().to_be_bytes() } else { dice.pick(&SYMBOLS) };
        let close = dice.pick(&[0, 1, 250_000, 2_000_000_000, 2_000_000_001]);
        let answer = list(&mut desk.counters, &mut desk.rows, &desk.lines, symbol, close);
        seen[usize::from(answer.number())] += 1;
        if answer == Answer::Done {
            let at = before.counters.rows as usize * ROW;
            before.rows[at..at + 8].copy_from_slice(&symbol);
            before.rows[at + 8..at + 12].copy_from_slice(&close.to_be_bytes());
            before.rows[at + 12..at + ROW].fill(0);
            before.counters.rows += 1;
        }
        assert_eq!(desk, before);
    }
    let listing_answers = [0, 13, 14, 15, 16, 17];
    assert!(listing_answers.iter().all(|answer| seen[*answer] > 100), "{seen:?}");
    assert_eq!(listing_answers.iter().map(|answer| seen[*answer]).sum::<usize>(), 100_000);
}

#[test]
fn row_answers_0_7_or_17() {
    let mut dice = Dice::new(53);
    let mut seen = [0; 19];
    for _ in 0..50_000 {
        let desk = some_desk(&mut dice);
        let symbol = dice.pick(&SYMBOLS);
        let (answer, row) = row(&desk.counters, &desk.rows, &desk.lines, symbol);
        seen[usize::from(answer.number())] += 1;
        if answer == Answer::Done {
            assert_eq!(row.symbol, symbol);
            assert!(row.low <= row.high && row.count <= desk.counters.lines);
        } else {
            assert_eq!(row, Row::default());
        }
    }
    assert!([0, 7, 17].iter().all(|answer| seen[*answer] > 1_000), "{seen:?}");
    assert_eq!(seen[0] + seen[7] + seen[17], 50_000);
}

#[test]
fn what_is_read_is_written_back() {
    let mut dice = Dice::new(54);
    for edition in Edition::ALL {
        let mut seen = [0; 19];
        for _ in 0..100_000 {
            let maker = maker(edition);
            let good = maker.some_message(&mut dice);
            let message = if dice.chance(2) { maker.broken(&mut dice, &good) } else { good };
            let (answer, record) = read(edition, &message);
            seen[usize::from(answer.number())] += 1;
            if answer != Answer::Done {
                assert_eq!(record, Record::default());
                continue;
            }
            let before = dice.bytes(90);
            let mut out = before.clone();
            assert_eq!(write(edition, &record, &mut out), Answer::Done);
            let (front, behind) = out.split_at(message.len());
            assert_eq!(
                (read(edition, front), behind),
                ((answer, record), &before[message.len()..])
            );
            // The bytes come back too, but for numbers that may be spelled in more than one way.
            assert!(front == message || edition == Edition::Pls);
            let mut short = out[..dice.index(message.len())].to_vec();
            let kept = short.clone();
            assert_eq!((write(edition, &record, &mut short), short), (Answer::NoSpace, kept));
        }
        assert!([0, 4, 5].iter().all(|answer| seen[*answer] > 10_000), "{seen:?}");
    }
}
