//! Numbers that look random and come again from the same seed.

/// A splitmix generator: one word of state, any seed is good.
#[derive(Clone, Debug)]
pub struct Dice {
    state: u64,
}

impl Dice {
    /// Dice that roll the same for the same seed.
    pub fn new(seed: u64) -> Dice {
        Dice { state: seed }
    }

    /// Any 64 bits.
    pub fn roll(&mut self) -> u64 {
        self.state = self.state.wrapping_add(0x9E37_79B9_7F4A_7C15);
        let mut mix = self.state;
        mix = (mix ^ (mix >> 30)).wrapping_mul(0xBF58_476D_1CE4_E5B9);
        mix = (mix ^ (mix >> 27)).wrapping_mul(0x94D0_49BB_1331_11EB);
        mix ^ (mix >> 31)
    }

    /// 0 to `n` less one; 0 where `n` is 0. The slight lean to low values does not matter here.
    pub fn below(&mut self, n: u64) -> u64 {
        self.roll().checked_rem(n).unwrap_or(0)
    }

    /// The same for places in a slice or a length.
    pub fn index(&mut self, n: usize) -> usize {
        self.below(n as u64) as usize
    }

    /// One of the given; there must be one.
    pub fn pick<T: Copy>(&mut self, from: &[T]) -> T {
        from[self.index(from.len())]
    }

    /// `n` random bytes.
    pub fn bytes(&mut self, n: usize) -> Vec<u8> {
        (0..n).map(|_| self.roll() as u8).collect()
    }

    /// True once in `n`; never where `n` is 0.
    pub fn chance(&mut self, n: u64) -> bool {
        n != 0 && self.below(n) == 0
    }
}

#[cfg(test)]
mod tests {
    use super::Dice;

    #[test]
    fn the_published_first_rolls() {
        let mut dice = Dice::new(1_234_567);
        assert_eq!(dice.roll(), 6_457_827_717_110_365_317);
        assert_eq!(dice.roll(), 3_203_168_211_198_807_973);
        assert_eq!(dice.roll(), 9_817_491_932_198_370_423);
    }

    #[test]
    fn below_reaches_all_and_no_more() {
        let mut dice = Dice::new(1);
        let mut seen = [0; 7];
        for _ in 0..7_000 {
            seen[dice.index(7)] += 1;
        }
        assert!(seen.iter().all(|times| (800..1_200).contains(times)), "{seen:?}");
        assert_eq!((dice.below(0), dice.below(1)), (0, 0));
    }

    #[test]
    fn chance_is_one_in_n() {
        let mut dice = Dice::new(2);
        let mut count = |n| (0..10_000).filter(|_| dice.chance(n)).count();
        assert_eq!((count(0), count(1)), (0, 10_000));
        assert!((800..1_200).contains(&count(10)));
    }

    #[test]
    fn bytes_and_pick() {
        let mut dice = Dice::new(3);
        let bytes = dice.bytes(5_000);
        assert_eq!(bytes.len(), 5_000);
        assert!((0..=255u8).all(|byte| bytes.contains(&byte)));
        let picked: Vec<u8> = (0..100).map(|_| dice.pick(b"ab")).collect();
        assert!(picked.contains(&b'a') && picked.contains(&b'b'));
        assert_ne!(Dice::new(4).bytes(16), Dice::new(5).bytes(16));
        assert_eq!(Dice::new(4).bytes(16), Dice::new(4).bytes(16));
    }
}
