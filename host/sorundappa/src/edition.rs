//! The editions of the feed.
use std::fmt;

/// Which layouts messages have. A book is started for one edition and reads its messages by no other.
#[derive(Clone, Copy, Debug, PartialEq, Eq, Hash)]
#[repr(u64)]
pub enum Edition {
    /// NLS Plus 2.0, in binary: S, T, X, C and J.
    NlsPlus = 0,
    /// PLS 1.1, in ASCII: S, T, X and C, without a consolidated volume.
    Pls = 1,
}

impl fmt::Display for Edition {
    fn fmt(&self, out: &mut fmt::Formatter<'_>) -> fmt::Result {
        out.pad(match self {
            Edition::NlsPlus => "NLS Plus 2.0",
            Edition::Pls => "PLS 1.1",
        })
    }
}

impl Edition {
    /// Every edition, by its number.
    pub const ALL: [Edition; 2] = [Edition::NlsPlus, Edition::Pls];

    /// The number that the library knows the edition by.
    pub fn number(self) -> u64 {
        self as u64
    }

    /// The edition of a number; none above 1.
    ///
    /// ```
    /// use sorundappa::Edition;
    /// assert_eq!(Edition::of(1), Some(Edition::Pls));
    /// assert_eq!(Edition::of(2), None);
    /// assert_eq!(Edition::Pls.to_string(), "PLS 1.1");
    /// ```
    pub fn of(number: u64) -> Option<Edition> {
        Edition::ALL.into_iter().find(|edition| edition.number() == number)
    }

    // The length of a type's messages.
    pub(crate) fn length(self, letter: u8) -> usize {
        match (self, letter) {
            (Edition::NlsPlus, b'S') => 6,
            (Edition::NlsPlus, b'T' | b'X') => 45,
            (Edition::NlsPlus, b'C') => 67,
            (Edition::NlsPlus, b'J') => 34,
            (Edition::Pls, b'S') => 10,
            (Edition::Pls, b'T' | b'X') => 52,
            (Edition::Pls, b'C') => 85,
            _ => 0,
        }
    }
}
