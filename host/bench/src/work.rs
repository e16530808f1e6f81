//! One call's work, done so many times on one side, so that its instructions can be counted: the same at every run.
use crate::day;
use crate::messages::{Limit, Messages, Wrapped};
use crate::sides::{Plain, Proved, Side};

const TIMES: usize = 1_000;
/// How often a call is made that passes over hundreds of rows or lines.
const LONG_TIMES: usize = 100;
const TRADES: usize = 2_000;
const ROWS: usize = 256;
/// The most lines that a work can have passed over.
const MOST_LINES: usize = 60_000;

/// The calls, in the order of the table. `tools/count` reads the same file.
pub fn calls() -> Vec<&'static str> {
    include_str!("../calls.txt").split_whitespace().collect()
}

/// Whether a call's work can be done by `limit` too, which has NLS Plus alone.
pub fn has_limit(call: &str) -> bool {
    (call.starts_with("read-") || call.starts_with("write-")) && !call.contains("-PLS-")
}

/// Where not a call is counted but a row or a line that it passes over: how many the shorter and the longer of two works pass over.
pub fn passed(call: &str) -> Option<[usize; 2]> {
    match call {
        "row-passed-early" | "row-passed-late" => Some([0, 200]),
        "line-passed" | "line-walked" => Some([1_000, 2_000]),
        _ => None,
    }
}

/// Does a call's work on a side and says how many calls that was; none if there is no such work.
pub fn work(call: &str, side: &str, passed: usize) -> Option<usize> {
    let parts: Vec<&str> = call.split('-').collect();
    match (&parts[..], side) {
        (["wrapped", way, of @ ..], "library") => messages::<Wrapped>(way, of),
        (["wrapped", way, of @ ..], "plain") => messages::<Plain>(way, of),
        ([way @ ("read" | "write"), of @ ..], "library") => messages::<Proved>(way, of),
        ([way @ ("read" | "write"), of @ ..], "plain") => messages::<Plain>(way, of),
        ([way @ ("read" | "write"), letter], "limit") => messages::<Limit>(way, &[letter]),
        (_, "library") => book::<Proved>(call, passed),
        (_, "plain") => book::<Plain>(call, passed),
        _ => None,
    }
}

// Of an edition and a letter; of a letter alone the edition is NLS Plus.
fn messages<M: Messages>(way: &str, of: &[&str]) -> Option<usize> {
    let (edition, letter) = match of {
        [letter] => ("", letter),
        [edition, letter] if !edition.is_empty() => (*edition, letter),
        _ => return None,
    };
    let sample = day::samples()
        .into_iter()
        .find(|s| day::name(s.edition) == edition && s.letter.to_string() == **letter)?;
    match way {
        "read" => M::reads(&sample, TIMES),
        "write" => M::writes(&sample, TIMES),
        _ => return None,
    };
    Some(TIMES)
}

fn book<S: Side>(call: &str, passed: usize) -> Option<usize> {
    if passed > MOST_LINES {
        return None;
    }
    let mut side = S::new(ROWS, 65_536);
    match call {
        "listing" => {
            side.sheet();
            Some(ROWS)
        }
        "delivery" => {
            let messages = day::messages(TRADES, 200);
            side.day(&messages);
            Some(messages.len())
        }
        "row" => {
            side.play(&day::messages(TRADES, 200));
            side.wall();
            Some(ROWS)
        }
        "row-passed-early" => rows_passed(&mut side, day::symbol, passed),
        "row-passed-late" => rows_passed(&mut side, day::late_symbol, passed),
        "line-passed" => {
            side.play(&day::of_one_centre(passed));
            side.unnamed(&day::of_another_centre(), LONG_TIMES as u64);
            Some(LONG_TIMES)
        }
        "line-walked" => {
            side.play(&day::of_one_centre(passed));
            side.rows(&[day::symbol(1); LONG_TIMES]);
            Some(LONG_TIMES)
        }
        _ => None,
    }
}

// A row read that so many others stand before, in a book without lines.
fn rows_passed<S: Side>(
    side: &mut S,
    symbol: fn(usize) -> [u8; 8],
    passed: usize,
) -> Option<usize> {
    let symbols: Vec<[u8; 8]> = (0..ROWS).map(symbol).collect();
    side.clear();
    side.list(&symbols);
    side.rows(&[*symbols.get(passed)?; LONG_TIMES]);
    Some(LONG_TIMES)
}

#[cfg(test)]
mod tests {
    use super::{calls, has_limit, passed, work};

    #[test]
    fn every_call_has_its_work_on_every_side() {
        for call in calls() {
            for many in passed(call).unwrap_or_default() {
                assert!(work(call, "library", many).is_some(), "{call}");
                assert!(work(call, "plain", many).is_some(), "{call}");
                assert_eq!(work(call, "limit", many).is_some(), has_limit(call), "{call}");
            }
        }
    }

    #[test]
    fn nothing_else_has() {
        for call in [
            "",
            "read",
            "read-",
            "read-Q",
            "read--T",
            "read-PLS-J",
            "read-NLS-T",
            "row-",
            "wrapped-row",
            "wrapped-read",
            "strange",
        ] {
            assert_eq!(work(call, "library", 0), None, "{call}");
        }
        assert_eq!(work("read-S", "strange", 0), None);
        assert_eq!(work("read-PLS-T", "limit", 0), None);
        assert_eq!(work("row-passed-early", "library", 256), None);
        assert_eq!(work("line-walked", "plain", 60_001), None);
    }
}
