//! The proved library beside `plain`, the same book in ordinary Rust: by the clock, both in one run, or by instructions counted.
mod count;
mod day;
mod messages;
mod report;
mod sides;
mod timed;
mod work;

use day::Sample;
use messages::{Messages, Wrapped};
use report::{compare, head, line};
use sides::{Plain, Proved, Side};
use std::process::ExitCode;

const USAGE: &str = "\
usage: bench                          nanoseconds of a message, a day and a wall on both sides
       bench --sizes                  how the cost of a message and of a row grows
       bench --count [CALL..]         instructions of these calls, or of all of them, on each side, as valgrind counts them
       bench --work CALL SIDE [N]     a call's work alone, for valgrind to count: SIDE is library, plain or limit; N, of a CALL that has
                                      passed or walked in its name, is how many rows (to 255) or lines (to 60000) it passes over; prints
                                      how many calls it was
status 0 all was measured; 1 it could not be; 2 bad usage";

// The best of alternating rounds, in nanoseconds a piece, of two pieces of work that do so many pieces each.
fn best(
    rounds: usize,
    pieces: usize,
    mut one: impl FnMut() -> u64,
    mut other: impl FnMut() -> u64,
) -> (f64, f64) {
    let mut least = (u64::MAX, u64::MAX);
    for _ in 0..rounds {
        least.0 = least.0.min(one());
        least.1 = least.1.min(other());
    }
    (least.0 as f64 / pieces as f64, least.1 as f64 / pieces as f64)
}

// A line for each type: the proved side's work, the plain side's.
fn each_type(what: &str, one: fn(&Sample, usize) -> u64, other: fn(&Sample, usize) -> u64) {
    const TIMES: usize = 200_000;
    for sample in day::samples() {
        let (proved, plain) = best(40, TIMES, || one(&sample, TIMES), || other(&sample, TIMES));
        let words = [what, day::name(sample.edition), &sample.letter.to_string()].join(" ");
        compare(&words.replace("  ", " "), proved, plain);
    }
}

fn messages_alone() {
    each_type("read", Proved::reads, Plain::reads);
    each_type("write", Proved::writes, Plain::writes);
}

fn through_wrapper() {
    println!("\nthrough the wrapper, which makes a Record of the eighty bytes and eighty bytes of a Record:");
    each_type("read", Wrapped::reads, Plain::reads);
    each_type("write", Wrapped::writes, Plain::writes);
}

fn whole_day() {
    const TRADES: usize = 60_000;
    let messages = day::messages(TRADES, 200);
    let (mut proved, mut plain) = (Proved::new(256, 65_536), Plain::new(256, 65_536));
    let (a, b) = best(3, messages.len(), || proved.day(&messages), || plain.day(&messages));
    compare("a message of the day", a, b);
    let (a, b) = best(30, 256, || proved.wall(), || plain.wall());
    compare("a row of a wall of 256", a, b);
    assert!(proved.same_as(&plain), "the two books differ after the day");
}

fn beside_plain() {
    head();
    line("", "proved ns", "plain ns", "ratio");
    messages_alone();
    whole_day();
    through_wrapper();
}

// One day after another of growing size, by the proved library alone.
fn sizes() {
    head();
    println!("lines used   ns a trade there   ns a row");
    for lines in [0, 1_024, 4_096, 16_384, 32_768, 60_000] {
        let (trade, row) = Proved::grown(lines, 1);
        println!("{lines:>10} {trade:>18.0} {row:>10.0}");
    }
    println!("rows used    ns a trade of the last row, 1,024 lines used");
    for rows in [1, 16, 64, 256] {
        let (trade, _) = Proved::grown(1_024, rows);
        println!("{rows:>9} {trade:>14.0}");
    }
}

fn refused(status: u8, why: &str) -> ExitCode {
    eprintln!("bench: {why}");
    ExitCode::from(status)
}

fn counted(calls: &[String]) -> ExitCode {
    let known = work::calls();
    if let Some(strange) = calls.iter().find(|call| !known.contains(&call.as_str())) {
        return refused(2, &format!("no such call: {strange}; there are {}", known.join(" ")));
    }
    match count::count(calls) {
        Ok(()) => ExitCode::SUCCESS,
        Err(why) => refused(1, &why),
    }
}

// `passed` is asked of a call that counts rows or lines passed over, and of no other.
fn worked(call: &str, side: &str, passed: Option<&str>) -> ExitCode {
    let many = match (work::passed(call), passed) {
        (None, None) => Some(0),
        (Some(_), Some(many)) => many.parse().ok(),
        _ => None,
    };
    match many.and_then(|many| work::work(call, side, many)) {
        Some(calls) => println!("{calls}"),
        None => {
            let words = format!("{call} {side} {}", passed.unwrap_or(""));
            return refused(2, &format!("no such work: {}", words.trim_end()));
        }
    }
    ExitCode::SUCCESS
}

fn main() -> ExitCode {
    let words: Vec<String> = std::env::args().skip(1).collect();
    let spelt: Vec<&str> = words.iter().map(String::as_str).collect();
    match spelt[..] {
        [] => beside_plain(),
        ["--sizes"] => sizes(),
        ["--count", ..] => return counted(&words[1..]),
        ["--work", call, side] => return worked(call, side, None),
        ["--work", call, side, passed] => return worked(call, side, Some(passed)),
        ["-h" | "--help"] => println!("{USAGE}"),
        _ => return refused(
            2,
            "usage: bench [--sizes | --count [CALL..] | --work CALL SIDE [N]]; --help says more",
        ),
    }
    ExitCode::SUCCESS
}
