//! The editions of the feed.

/// Which layouts a message has; a book is started for one of them.
#[derive(Clone, Copy, Debug, PartialEq, Eq, Hash)]
#[repr(u64)]
pub enum Edition {
    /// 0: NLS Plus 2.0, in binary.
    NlsPlus = 0,
    /// 1: PLS 1.1, in ASCII.
    Pls = 1,
}

impl Edition {
    /// Every edition, by its number.
    pub const ALL: [Edition; 2] = [Edition::NlsPlus, Edition::Pls];

    /// The edition's number.
    pub const fn number(self) -> u64 {
        self as u64
    }

    /// The edition of a number; none above 1.
    pub fn of(number: u64) -> Option<Edition> {
        Edition::ALL.into_iter().find(|edition| edition.number() == number)
    }

    /// Do its trades, cancels and corrections report a consolidated volume?
    pub const fn reports(self) -> bool {
        matches!(self, Edition::NlsPlus)
    }
}
