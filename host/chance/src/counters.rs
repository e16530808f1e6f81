//! Counters of a book, sound ones and those at and around each bound.

use crate::dice::Dice;

/// The five counters, in the order in which a book is described, and behind them the number of its edition.
#[derive(Clone, Copy, Debug, PartialEq, Eq)]
pub struct Counts {
    pub wanted: u64,
    pub phase: u64,
    pub rows: u64,
    pub lines: u64,
    pub taken: u64,
    pub edition: u64,
}

const WANTED: [u64; 7] = [0, 1, 2, 4_294_967_295, 4_294_967_296, 4_294_967_297, u64::MAX];
const PHASES: [u64; 4] = [0, 6, 7, u64::MAX];
/// Numbers that are no edition's, though parts of some are.
const STRANGE: [u64; 5] = [2, 256, 1 << 32, (1 << 32) + 1, u64::MAX];

/// Sound counters for these limits, often in a phase in which messages are due.
pub fn sound_counters(dice: &mut Dice, rows_limit: u64, lines_limit: u64) -> Counts {
    let wanted = match dice.below(3) {
        0 => dice.pick(&WANTED[1..5]),
        1 => 1 + dice.below(1_000),
        _ => 1 + dice.below(4_294_967_296),
    };
    let phase = if dice.chance(4) { dice.below(7) } else { 1 + dice.below(5) };
    Counts {
        wanted,
        phase,
        rows: up_to(dice, rows_limit),
        lines: up_to(dice, lines_limit),
        taken: up_to(dice, wanted - 1),
        edition: dice.below(2),
    }
}

/// 0 to the limit, often just the limit.
fn up_to(dice: &mut Dice, limit: u64) -> u64 {
    if dice.chance(3) {
        limit
    } else {
        dice.below(limit + 1)
    }
}

/// A value next to a limit, or the greatest there is.
fn around(dice: &mut Dice, limit: u64) -> u64 {
    dice.pick(&[limit.wrapping_sub(1), limit, limit.wrapping_add(1), u64::MAX])
}

/// Half the time sound; otherwise one counter, or several, at or around a bound of its own.
pub fn odd_counters(dice: &mut Dice, rows_limit: u64, lines_limit: u64) -> Counts {
    let mut counts = sound_counters(dice, rows_limit, lines_limit);
    if dice.chance(2) {
        return counts;
    }
    let several = dice.chance(3);
    let one = dice.below(6);
    let touch = |counter: u64, dice: &mut Dice| one == counter || (several && dice.chance(2));
    if touch(0, dice) {
        counts.wanted = dice.pick(&WANTED);
        counts.taken = counts.taken.min(counts.wanted.saturating_sub(1));
    }
    if touch(1, dice) {
        counts.phase = dice.pick(&PHASES);
    }
    if touch(2, dice) {
        counts.rows = around(dice, rows_limit);
    }
    if touch(3, dice) {
        counts.lines = around(dice, lines_limit);
    }
    if touch(4, dice) {
        counts.taken = around(dice, counts.wanted.wrapping_sub(1));
    }
    if touch(5, dice) {
        counts.edition = dice.pick(&STRANGE);
    }
    counts
}

#[cfg(test)]
mod tests {
    use super::*;

    fn is_sound(c: &Counts) -> bool {
        let (rows, lines) = (vec![0; 3 * 30], vec![0; 5 * 40]);
        let Counts { wanted, phase, rows: used, lines: trades, taken, edition } = *c;
        let Some(edition) = plain::Edition::of(edition) else {
            return false;
        };
        let counters = plain::Counters { edition, wanted, phase, rows: used, lines: trades, taken };
        plain::row(&counters, &rows, &lines, [1; 8]).0 != plain::Answer::Unsound
    }

    #[test]
    fn sound_ones_are_sound_and_reach_their_ends() {
        let mut dice = Dice::new(41);
        let all: Vec<Counts> = (0..2_000).map(|_| sound_counters(&mut dice, 3, 5)).collect();
        assert!(all.iter().all(is_sound));
        assert!((0..=6).all(|phase| all.iter().any(|c| c.phase == phase)));
        assert!((0..=3).all(|rows| all.iter().any(|c| c.rows == rows)));
        assert!((0..=5).all(|lines| all.iter().any(|c| c.lines == lines)));
        assert!((0..=1).all(|edition| all.iter().any(|c| c.edition == edition)));
        assert!(all.iter().any(|c| c.wanted == 4_294_967_296 && c.taken == 4_294_967_295));
        assert!(all.iter().any(|c| c.wanted == 1));
    }

    #[test]
    fn odd_ones_stand_on_both_sides_of_each_bound() {
        let mut dice = Dice::new(42);
        let all: Vec<Counts> = (0..20_000).map(|_| odd_counters(&mut dice, 3, 5)).collect();
        let has = |test: &dyn Fn(&Counts) -> bool| all.iter().any(test);
        assert!(WANTED.iter().all(|wanted| has(&|c| c.wanted == *wanted)));
        assert!(PHASES.iter().all(|phase| has(&|c| c.phase == *phase)));
        assert!(STRANGE.iter().all(|edition| has(&|c| c.edition == *edition)));
        assert!([2, 3, 4, u64::MAX].iter().all(|rows| has(&|c| c.rows == *rows)));
        assert!([4, 5, 6, u64::MAX].iter().all(|lines| has(&|c| c.lines == *lines)));
        for back in 0..3 {
            assert!(has(&|c| c.wanted > 2 && c.taken == c.wanted - back));
        }
        assert!(has(&|c| c.taken == u64::MAX && c.wanted == 2));
        let sound = all.iter().filter(|c| is_sound(c)).count();
        assert!((10_000..17_000).contains(&sound), "{sound}");
    }

    #[test]
    fn every_counter_is_sometimes_the_only_fault() {
        let mut dice = Dice::new(43);
        let mut alone = [0; 6];
        for _ in 0..20_000 {
            let c = odd_counters(&mut dice, 3, 5);
            let faults = [
                c.wanted == 0 || c.wanted > 4_294_967_296,
                c.phase > 6,
                c.rows > 3,
                c.lines > 5,
                c.taken >= c.wanted && c.wanted != 0,
                c.edition > 1,
            ];
            if faults.iter().filter(|fault| **fault).count() == 1 {
                alone[faults.iter().position(|fault| *fault).unwrap()] += 1;
            }
        }
        assert!(alone.iter().all(|times| *times > 300), "{alone:?}");
    }

    #[test]
    fn no_room_at_all() {
        let mut dice = Dice::new(44);
        for _ in 0..1_000 {
            odd_counters(&mut dice, 0, 0);
            assert_eq!(sound_counters(&mut dice, 0, 0).rows, 0);
        }
    }
}
