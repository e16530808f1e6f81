//! A day's messages, and how a bad line delivers them.

use crate::dice::Dice;
use crate::maker::{control, Edition, Maker, New, Trade, EVENTS, PRICES, SYMBOLS};

/// A day sheet and one message for each number from 1 on.
#[derive(Clone, Debug, PartialEq, Eq)]
pub struct Day {
    pub listings: Vec<([u8; 8], u32)>,
    pub messages: Vec<Vec<u8>>,
}

/// What the day's maker remembers: every trade it made, and whether it still thinks it live.
struct Memory {
    known: Vec<(Trade, bool)>,
    symbols: Vec<[u8; 8]>,
    next_control: u64,
    maker: Maker,
}

/// A plausible day of `n` messages of an edition, with its share of faults of every kind.
pub fn day(dice: &mut Dice, edition: Edition, n: usize) -> Day {
    let listings = listings(dice);
    let symbols = listings.iter().map(|(symbol, _)| *symbol).collect();
    let maker = Maker::of(edition, n as u64 / 2 + 2);
    let mut memory = Memory { known: Vec::new(), symbols, next_control: 0, maker };
    let messages = (0..n)
        .map(|at| match event_at(at, n) {
            Some(event) => maker.event(Maker::some_time(dice), event),
            None => memory.message(dice),
        })
        .collect();
    Day { listings, messages }
}

/// Some of the pool, each once, and now and then a listing that is refused.
fn listings(dice: &mut Dice) -> Vec<([u8; 8], u32)> {
    let mut out = Vec::new();
    let skip = dice.index(SYMBOLS.len());
    for (at, symbol) in SYMBOLS.into_iter().enumerate() {
        let close = if dice.chance(4) { 0 } else { dice.pick(&PRICES) };
        if at != skip && !dice.chance(5) {
            out.push((symbol, close));
        }
        if dice.chance(12) {
            out.push((symbol, 2_000_000_001));
        }
        if dice.chance(12) {
            out.push((dice.pick(&SYMBOLS), 1));
        }
    }
    out
}

/// The events at fixed parts of the day: O first, C near the end with a few messages after it.
fn event_at(at: usize, n: usize) -> Option<u8> {
    let parts = [0, 5, 10, 85, 92, 97];
    (0..6).find(|event| parts[*event] * n / 100 == at).map(|event| EVENTS[event])
}

impl Memory {
    fn message(&mut self, dice: &mut Dice) -> Vec<u8> {
        let message = match dice.below(100) {
            0..=49 => self.trade(dice),
            50..=66 => self.cancel(dice),
            67..=83 => self.correction(dice),
            84..=93 => self.other(dice),
            94 | 95 => self.event(dice),
            _ => {
                let good = match dice.pick(self.maker.letters()) {
                    b'S' => self.event(dice),
                    letter => self.maker.some_of(dice, letter),
                };
                self.maker.broken(dice, &good)
            }
        };
        // A good one spoiled: what was remembered of it is then not in the book.
        if dice.chance(40) {
            self.maker.broken(dice, &message)
        } else {
            message
        }
    }

    /// An event out of its turn; never C, which would end the day.
    fn event(&self, dice: &mut Dice) -> Vec<u8> {
        self.maker.event(Maker::some_time(dice), dice.pick(&EVENTS[..5]))
    }

    /// Mostly a symbol of the sheet.
    fn symbol(&self, dice: &mut Dice) -> [u8; 8] {
        if self.symbols.is_empty() || dice.chance(12) {
            dice.pick(&SYMBOLS)
        } else {
            dice.pick(&self.symbols)
        }
    }

    /// Mostly a control that was not seen yet.
    fn control(&mut self, dice: &mut Dice) -> [u8; 10] {
        if dice.chance(8) {
            return self.maker.some_control(dice);
        }
        self.next_control += 1;
        control(self.next_control)
    }

    fn trade(&mut self, dice: &mut Dice) -> Vec<u8> {
        let drawn = self.maker.some_trade(dice);
        let trade = Trade { symbol: self.symbol(dice), control: self.control(dice), ..drawn };
        self.known.push((trade, true));
        self.maker.spelled(dice, self.maker.trade(&trade))
    }

    /// Where a known trade is to be found; a live one where three draws meet one.
    fn some_known(&self, dice: &mut Dice) -> Option<usize> {
        if self.known.is_empty() {
            return None;
        }
        let mut at = dice.index(self.known.len());
        for _ in 0..3 {
            if self.known[at].1 {
                break;
            }
            at = dice.index(self.known.len());
        }
        Some(at)
    }

    /// The original that a cancel or correction names, and its place where it is named rightly.
    fn original(&self, dice: &mut Dice) -> (Trade, Option<usize>) {
        let Some(at) = self.some_known(dice) else {
            return (self.maker.some_trade(dice), None);
        };
        let again = Trade {
            time: Maker::some_time(dice),
            consolidated: Maker::some_volume(dice),
            ..self.known[at].0
        };
        if dice.chance(6) {
            (self.maker.one_off(dice, &again), None)
        } else {
            (again, Some(at))
        }
    }

    fn cancel(&mut self, dice: &mut Dice) -> Vec<u8> {
        let (original, at) = self.original(dice);
        if let Some(at) = at {
            self.known[at].1 = false;
        }
        self.maker.spelled(dice, self.maker.cancel(&original))
    }

    fn correction(&mut self, dice: &mut Dice) -> Vec<u8> {
        let (original, at) = self.original(dice);
        let mut new = New { control: self.control(dice), ..self.maker.some_new(dice) };
        if dice.chance(12) {
            new.control = original.control;
        }
        if let Some(at) = at {
            let New { control, price, size, condition } = new;
            let added = Trade { control, price, size, condition, ..original };
            let live = self.known[at].1 && control != original.control;
            self.known[at].1 = self.known[at].1 && !live;
            if live {
                self.known.push((added, true));
            }
        }
        self.maker.spelled(dice, self.maker.correction(&original, &new))
    }

    // A summary; in a day of PLS, which has none, a message of NLS Plus or one more trade.
    fn other(&mut self, dice: &mut Dice) -> Vec<u8> {
        if self.maker.edition == Edition::Pls {
            return match dice.below(2) {
                0 => Maker::new(self.maker.controls).some_message(dice),
                _ => self.trade(dice),
            };
        }
        let mut summary = Maker::some_summary(dice);
        summary.symbol = self.symbol(dice);
        Maker::summary(&summary)
    }
}

/// How bad a line is; each fault happens once in so many copies, 0 meaning never.
#[derive(Clone, Copy, Debug)]
pub struct Trouble {
    /// A copy never comes.
    pub lost: u64,
    /// A number comes once more, at once or later; up to three times.
    pub repeated: u64,
    /// A copy is overtaken by some of those after it.
    pub late: u64,
    /// How often the whole day is sent.
    pub rounds: usize,
}

/// The numbers 1 to `n` as a line delivers them.
pub fn arrivals(dice: &mut Dice, n: usize, trouble: Trouble) -> Vec<usize> {
    // Each copy has the moment at which it comes; a late one is moved behind others.
    let mut copies: Vec<(usize, usize)> = Vec::new();
    for at in 0..trouble.rounds * n {
        let number = at % n + 1;
        if !dice.chance(trouble.lost) {
            let wait = if dice.chance(trouble.late) { 2 + dice.index(20) } else { 0 };
            copies.push((at + wait, number));
        }
        for _ in 0..3 {
            if dice.chance(trouble.repeated) {
                copies.push((at + dice.index(20), number));
            }
        }
    }
    copies.sort_by_key(|(moment, _)| *moment);
    copies.into_iter().map(|(_, number)| number).collect()
}

/// How many numbers are used up by a book that only ever uses the next one.
pub fn reach(arrivals: &[usize]) -> usize {
    arrivals.iter().fold(0, |reached, number| reached + usize::from(*number == reached + 1))
}

#[cfg(test)]
mod tests {
    use super::*;
    use crate::maker::TIMES;
    use plain::{deliver, fresh, list, Counters};

    const QUIET: Trouble = Trouble { lost: 0, repeated: 0, late: 0, rounds: 1 };

    fn started(edition: Edition) -> Counters {
        fresh(plain::Edition::of(edition.number()).unwrap())
    }

    /// Plays a day into a book with so much room and counts each answer.
    fn play(edition: Edition, day: &Day, rows: usize, lines: usize) -> ([usize; 19], Counters) {
        let mut counters = started(edition);
        let (mut rows, mut lines) = (vec![0; rows * 30], vec![0; lines * 40]);
        let mut seen = [0; 19];
        for (symbol, close) in &day.listings {
            let answer = list(&mut counters, &mut rows, &lines, *symbol, *close);
            seen[usize::from(answer.number())] += 1;
        }
        for (number, message) in (1..).zip(&day.messages) {
            let answer = deliver(&mut counters, &mut rows, &mut lines, number, message);
            seen[usize::from(answer.number())] += 1;
        }
        (seen, counters)
    }

    #[test]
    fn days_meet_every_answer_that_a_true_line_can_give() {
        let mut dice = Dice::new(21);
        for edition in Edition::ALL {
            let mut all = [0; 19];
            for _ in 0..20 {
                let day = day(&mut dice, edition, 400);
                assert_eq!(day.messages.len(), 400);
                let (seen, counters) = play(edition, &day, 6, 150);
                assert_eq!((counters.wanted, counters.phase), (401, 6));
                assert!(counters.taken > 100 && counters.taken < 390, "{counters:?}");
                for (all, seen) in all.iter_mut().zip(seen) {
                    *all += seen;
                }
            }
            for answer in [0, 4, 5, 6, 7, 8, 9, 10, 11, 12, 13, 15, 16] {
                assert!(all[answer] > 3, "{answer} in {all:?}");
            }
            for answer in [1, 2, 3, 14, 17, 18] {
                assert_eq!(all[answer], 0);
            }
        }
    }

    #[test]
    fn most_cancels_and_corrections_find_a_live_line() {
        let mut dice = Dice::new(22);
        for edition in Edition::ALL {
            let day = day(&mut dice, edition, 2_000);
            let (seen, counters) = play(edition, &day, 8, 2_000);
            let at = Maker::of(edition, 0).letter_at();
            let trades = day.messages.iter().filter(|m| m.len() > 40 && m[at] == b'T').count();
            assert!(seen[8] + seen[9] + seen[10] < 400, "{seen:?}");
            assert!(counters.lines > trades as u64 * 3 / 4);
        }
    }

    #[test]
    fn days_of_pls_have_leading_zeros_and_messages_of_nls_plus() {
        let day = day(&mut Dice::new(29), Edition::Pls, 1_000);
        let with = |test: &dyn Fn(&[u8]) -> bool| day.messages.iter().filter(|m| test(m)).count();
        assert!(with(&|m| m.len() == 52 && m[29..39].starts_with(b"0")) > 20);
        assert!(with(&|m| m.len() == 52 && m[29..39].starts_with(b" 0")) > 5);
        let plus = plain::Edition::NlsPlus;
        assert!(with(&|m| plain::read(plus, m).0 == plain::Answer::Done) > 20);
    }

    #[test]
    fn short_days_and_equal_seeds() {
        for edition in Edition::ALL {
            let drawn = |seed: u64, n: usize| day(&mut Dice::new(seed), edition, n);
            assert!((0..20).all(|n| drawn(23, n).messages.len() == n));
            assert_eq!(drawn(24, 99), drawn(24, 99));
            assert_ne!(drawn(24, 99), drawn(25, 99));
        }
    }

    #[test]
    fn events_come_in_order() {
        let events: Vec<u8> = (0..200).filter_map(|at| event_at(at, 200)).collect();
        assert_eq!(events, EVENTS);
        assert_eq!(event_at(0, 1), Some(b'O'));
        assert!(TIMES.iter().all(|time| *time < 86_400_000));
    }

    #[test]
    fn a_quiet_line_brings_each_number_once() {
        let mut dice = Dice::new(26);
        let all: Vec<usize> = (1..=50).collect();
        assert_eq!(arrivals(&mut dice, 50, QUIET), all);
        let twice = arrivals(&mut dice, 50, Trouble { rounds: 2, ..QUIET });
        assert_eq!(twice, [all.clone(), all].concat());
        assert!(arrivals(&mut dice, 0, QUIET).is_empty());
    }

    #[test]
    fn each_trouble_shows() {
        let mut dice = Dice::new(27);
        let lost = arrivals(&mut dice, 1_000, Trouble { lost: 10, ..QUIET });
        assert!(lost.len() < 950 && lost.len() > 850);
        assert!(lost.windows(2).all(|pair| pair[0] < pair[1]));
        let repeated = arrivals(&mut dice, 1_000, Trouble { repeated: 10, ..QUIET });
        assert!((1_200..1_400).contains(&repeated.len()));
        assert_eq!(arrivals(&mut dice, 9, Trouble { repeated: 1, ..QUIET }).len(), 36);
        assert_eq!(reach(&repeated), 1_000);
        let late = arrivals(&mut dice, 1_000, Trouble { late: 10, ..QUIET });
        assert_eq!(late.len(), 1_000);
        assert!(late.windows(2).filter(|pair| pair[0] > pair[1]).count() > 40);
        let mut sorted = late;
        sorted.sort_unstable();
        assert_eq!(sorted, (1..=1_000).collect::<Vec<_>>());
    }

    #[test]
    fn reach_is_the_longest_run_in_order() {
        assert_eq!(reach(&[]), 0);
        assert_eq!(reach(&[2, 3]), 0);
        assert_eq!(reach(&[1, 3, 2, 3]), 3);
        assert_eq!(reach(&[3, 2, 1, 1, 4, 2]), 2);
    }

    #[test]
    fn the_book_s_wanted_number_is_reach_and_one() {
        let mut dice = Dice::new(28);
        for _ in 0..30 {
            let edition = dice.pick(&Edition::ALL);
            let day = day(&mut dice, edition, 60);
            let trouble = Trouble { lost: 30, repeated: 5, late: 6, rounds: 2 };
            let line = arrivals(&mut dice, 60, trouble);
            let mut counters = started(edition);
            for number in &line {
                deliver(&mut counters, &mut [], &mut [], *number as u64, &day.messages[number - 1]);
            }
            assert_eq!(counters.wanted, reach(&line) as u64 + 1);
        }
    }
}
