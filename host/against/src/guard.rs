//! Lent memory with a strip before and behind it, so that a write outside what was lent is seen; or nothing at all.

const STRIP: usize = 24;

/// A run of items that is lent, between two strips.
pub struct Guarded<T> {
    all: Vec<T>,
    strip: T,
    wide: usize,
}

impl<T: Copy + PartialEq> Guarded<T> {
    /// The items between two strips of a value.
    pub fn new(items: &[T], strip: T) -> Guarded<T> {
        let mut all = vec![strip; STRIP];
        all.extend_from_slice(items);
        all.extend_from_slice(&[strip; STRIP]);
        Guarded { all, strip, wide: STRIP }
    }

    /// The same; but where there are no items, Rust's own empty slice, whose pointer points nowhere, and so no strips.
    pub fn bare(items: &[T], strip: T) -> Guarded<T> {
        if items.is_empty() {
            return Guarded { all: Vec::new(), strip, wide: 0 };
        }
        Guarded::new(items, strip)
    }

    /// What is lent.
    pub fn lent(&mut self) -> &mut [T] {
        let end = self.all.len() - self.wide;
        &mut self.all[self.wide..end]
    }

    /// What is lent, to be looked at.
    pub fn seen(&self) -> &[T] {
        &self.all[self.wide..self.all.len() - self.wide]
    }

    /// What is lent, as an array.
    pub fn array<const N: usize>(&mut self) -> &mut [T; N] {
        self.lent().try_into().expect("the array has as many items as are lent")
    }

    /// Whether both strips are as they were.
    pub fn whole(&self) -> bool {
        let end = self.all.len() - self.wide;
        self.all[..self.wide].iter().chain(&self.all[end..]).all(|item| *item == self.strip)
    }
}

#[cfg(test)]
mod tests {
    use super::Guarded;

    #[test]
    fn a_write_on_either_side_is_seen() {
        for at in [super::STRIP - 1, super::STRIP + 2] {
            let mut guarded = Guarded::new(&[1, 2], 7);
            assert!(guarded.whole() && guarded.seen() == [1, 2]);
            guarded.all[at] = 8;
            assert!(!guarded.whole());
        }
    }

    #[test]
    fn nothing_bare_points_nowhere() {
        let mut nothing = Guarded::bare(&[], 7_u8);
        assert_eq!(nothing.seen(), []);
        assert_eq!(nothing.seen().as_ptr() as usize, 1);
        assert_eq!(nothing.lent().as_mut_ptr() as usize, 1);
        assert_eq!(Guarded::bare(&[3], 7_u8).seen(), [3]);
    }
}
