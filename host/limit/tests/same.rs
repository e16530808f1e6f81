//! The limit against the linked library: same answer, same bytes, and nothing beside what was lent. It has NLS Plus alone.
use chance::{flip, Dice, Maker};
use sorundappa::{raw, Edition};

const TRIES: usize = 20_000;
// What stands before and behind a lent space, and must stay.
const STRIP: usize = 16;

// A message read by both into bytes of other contents: the answer and the record.
fn read(message: &[u8]) -> (u8, [u8; 80]) {
    let (mut record, mut other) = ([0xEE; 80], [0x11; 80]);
    let told = raw::read(Edition::NlsPlus.number(), message, &mut record);
    assert_eq!(limit::read(message, &mut other), told, "{message:?}");
    assert_eq!(other, record, "{message:?}");
    (told, record)
}

// A record written by both into a space of random bytes: the answer.
fn write(dice: &mut Dice, record: &[u8; 80]) -> u8 {
    let length = if dice.chance(2) { 67 } else { dice.index(71) };
    let before = dice.bytes(STRIP + length + STRIP);
    let (mut space, mut other) = (before.clone(), before.clone());
    let told = raw::write(Edition::NlsPlus.number(), record, &mut space[STRIP..STRIP + length]);
    assert_eq!(limit::write(record, &mut other[STRIP..STRIP + length]), told, "{record:?}");
    assert_eq!(other, space, "{record:?}");
    assert!(told == 0 || other == before, "{told} and the space moved: {record:?}");
    told
}

// One of the numbers that end inside, set to a value at or beside a bound.
fn at_bound(dice: &mut Dice, bytes: &mut [u8], places: &[usize]) {
    let value: u32 =
        dice.pick(&[0, 1, 86_399_999, 86_400_000, 2_000_000_000, 2_000_000_001, u32::MAX]);
    let at = dice.pick(places);
    if let Some(number) = bytes.get_mut(at..at + 4) {
        number.copy_from_slice(&value.to_be_bytes());
    }
}

// A message broken in one of the ways of `chance`, or with a number at a bound.
fn broken_message(dice: &mut Dice, lawful: &[u8]) -> Vec<u8> {
    if dice.chance(2) {
        return Maker::new(0).broken(dice, lawful);
    }
    let mut message = lawful.to_vec();
    at_bound(dice, &mut message, &[0, 14, 18, 22, 25, 29, 47, 51]);
    message
}

// A lawful record with a number at a bound, with a byte changed, with any bytes from some place on, or of any bytes behind its letter.
fn broken_record(dice: &mut Dice, lawful: &[u8; 80]) -> [u8; 80] {
    let mut record = *lawful;
    match dice.index(4) {
        0 => at_bound(dice, &mut record, &[1, 26, 30, 48, 52, 60, 64, 68]),
        1 => record.copy_from_slice(&flip(lawful, dice.index(80), dice)),
        2 => {
            let front = 1 + dice.index(79);
            record[front..].copy_from_slice(&dice.bytes(80 - front));
        }
        _ => record[1..].copy_from_slice(&dice.bytes(79)),
    }
    record
}

// How often each answer was given: a test that never meets one has not tried it.
fn all_met(seen: &[usize; 19], answers: &[usize]) {
    assert!(answers.iter().all(|answer| seen[*answer] > TRIES / 100), "{seen:?}");
}

#[test]
fn messages_are_read_alike() {
    let (mut dice, maker) = (Dice::new(61), Maker::new(12));
    let mut seen = [0; 19];
    for _ in 0..TRIES {
        let message = maker.some_message(&mut dice);
        assert_eq!(read(&message).0, 0, "{message:?}");
        let broken = broken_message(&mut dice, &message);
        seen[usize::from(read(&broken).0)] += 1;
    }
    all_met(&seen, &[0, 4, 5]);
}

#[test]
fn records_are_written_alike() {
    let (mut dice, maker) = (Dice::new(62), Maker::new(12));
    let mut seen = [0; 19];
    for _ in 0..TRIES {
        let (_, record) = read(&maker.some_message(&mut dice));
        seen[usize::from(write(&mut dice, &record))] += 1;
        let broken = broken_record(&mut dice, &record);
        seen[usize::from(write(&mut dice, &broken))] += 1;
    }
    all_met(&seen, &[0, 5, 18]);
}
