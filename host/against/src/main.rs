//! The linked library against `plain`, call by call and byte by byte: `cargo run --release -p against`, or with a seed behind `--`
//! to have a run again. Every lent slice has a strip before and behind it that must stay as it was; but for Rust's own empty ones.
mod both;
mod edges;
mod editions;
mod guard;
mod records;
mod runs;
mod tally;

use chance::Dice;
use std::process::ExitCode;
use std::time::{SystemTime, UNIX_EPOCH};
use tally::Tally;

const AT_LEAST: u64 = 500_000;

type Kind = (&'static str, fn(&mut Dice, &mut Tally) -> Result<(), String>);

const KINDS: [Kind; 15] = [
    ("sound days", runs::sound_days),
    ("lost, repeated and late copies", runs::bad_lines),
    ("a damaged byte at every offset", runs::damaged_bytes),
    ("every length from 0 to 100", runs::lengths),
    ("numbers in digits", runs::spellings),
    ("one day in both editions", editions::told_twice),
    ("numbers that are no edition's", editions::strange_numbers),
    ("counters at every bound", runs::odd_books),
    ("rooms of up to two cells and a byte", runs::small_rooms),
    ("rooms of other contents", runs::other_contents),
    ("numbers at every bound", runs::numbers),
    ("records written", records::written),
    ("books at their caps", edges::full_books),
    ("rooms and counters about the cap on rows", edges::full_sheets),
    ("nothing lent", edges::nothing_lent),
];

// The seed that was asked for, or one of the clock's.
fn seed() -> Result<u64, String> {
    match std::env::args().nth(1) {
        Some(word) => word.parse().map_err(|_| format!("not a seed: {word}")),
        None => Ok(SystemTime::now().duration_since(UNIX_EPOCH).map_or(1, |t| t.as_nanos() as u64)),
    }
}

fn run() -> Result<(), String> {
    let seed = seed()?;
    println!("against: seed {seed}");
    let mut dice = Dice::new(seed);
    let mut tally = Tally::default();
    for (name, kind) in KINDS {
        let before = tally.calls;
        kind(&mut dice, &mut tally).map_err(|difference| {
            format!("{name}, seed {seed}, after {} calls: {difference}", tally.calls)
        })?;
        println!("against: {name}: {} calls", tally.calls - before);
    }
    let told: Vec<String> = tally
        .answers
        .iter()
        .enumerate()
        .map(|(number, times)| format!("{number}: {times}"))
        .collect();
    println!("against: answers {}", told.join(", "));
    if !tally.missing().is_empty() {
        return Err(format!("no call was answered {:?}", tally.missing()));
    }
    if tally.calls < AT_LEAST {
        return Err(format!("only {} calls, not {AT_LEAST}", tally.calls));
    }
    println!("against: {} calls, every answer and every byte alike", tally.calls);
    Ok(())
}

fn main() -> ExitCode {
    match run() {
        Ok(()) => ExitCode::SUCCESS,
        Err(why) => {
            println!("against: {why}");
            ExitCode::FAILURE
        }
    }
}
