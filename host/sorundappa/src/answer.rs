//! What a call says back, in document 01's numbers and in words; and for each call the refusals that it can give.
use std::error::Error;
use std::fmt;

macro_rules! answers {
    ($($(#[$doc:meta])* $name:ident = $number:literal $words:literal;)*) => {
        /// An answer of the table.
        #[derive(Clone, Copy, Debug, PartialEq, Eq, Hash, PartialOrd, Ord)]
        #[repr(u8)]
        pub enum Answer {
            $($(#[$doc])* #[doc = $words] $name = $number,)*
        }

        impl Answer {
            /// Every answer, by its number.
            pub const ALL: [Answer; 19] = [$(Answer::$name,)*];

            fn words(self) -> &'static str {
                match self {
                    $(Answer::$name => $words,)*
                }
            }
        }
    };
}

answers! {
    Done = 0 "done";
    NumberOutside = 1 "the number is 0 or above 4,294,967,295";
    NumberBelow = 2 "the number is below the wanted one";
    NumberAbove = 3 "the number is above the wanted one";
    NoType = 4 "the edition has no such type, or the length is not its type's";
    FieldBroken = 5 "a field breaks its rule";
    NotDue = 6 "the event or message is not due in this phase";
    NotListed = 7 "the symbol is not listed";
    NoLine = 8 "no line bears the original's key";
    LineDead = 9 "the original's line is dead";
    LineDiffers = 10 "symbol, price, size or condition differs from the original's line";
    KeyUsed = 11 "the new key is on a line already";
    LinesFull = 12 "every line is used";
    ListingBroken = 13 "the listing's symbol or close breaks its rule";
    ListingLate = 14 "a number was used up already, so the sheet is closed";
    ListedAlready = 15 "the symbol is listed already";
    RowsFull = 16 "every row is used";
    Unsound = 17 "the book is unsound";
    NoSpace = 18 "the lent space is shorter than the message";
}

impl Answer {
    /// The answer's number in the table.
    pub fn number(self) -> u8 {
        self as u8
    }

    /// The answer of a number; none above 18.
    pub fn of(number: u8) -> Option<Answer> {
        Answer::ALL.get(usize::from(number)).copied()
    }
}

/// The words, behind the number: `9: the original's line is dead`.
impl fmt::Display for Answer {
    fn fmt(&self, f: &mut fmt::Formatter) -> fmt::Result {
        write!(f, "{}: {}", self.number(), self.words())
    }
}

macro_rules! refusals {
    ($(#[$doc:meta])* $kind:ident { $($name:ident),* $(,)? }) => {
        $(#[$doc])*
        #[derive(Clone, Copy, Debug, PartialEq, Eq, Hash)]
        pub enum $kind {
            $($name,)*
        }

        impl $kind {
            /// The answer of the table that this refusal is.
            pub fn answer(self) -> Answer {
                match self {
                    $($kind::$name => Answer::$name,)*
                }
            }

            // What a number means as this call's answer. The library's promise leaves no other number.
            pub(crate) fn told(number: u8) -> Result<(), $kind> {
                match Answer::of(number) {
                    Some(Answer::Done) => Ok(()),
                    $(Some(Answer::$name) => Err($kind::$name),)*
                    _ => unreachable!("the linked library answered {number}, which is not on this call's list"),
                }
            }
        }

        impl fmt::Display for $kind {
            fn fmt(&self, f: &mut fmt::Formatter) -> fmt::Result {
                self.answer().fmt(f)
            }
        }

        impl Error for $kind {}

        impl From<$kind> for Answer {
            fn from(refused: $kind) -> Answer {
                refused.answer()
            }
        }
    };
}

refusals! {
    /// Why a listing was refused. Nothing changed.
    ListError { ListingBroken, ListingLate, ListedAlready, RowsFull, Unsound }
}

refusals! {
    /// Why a message was refused. For the first three and an unsound book nothing changed; any other used up the number.
    DeliverError {
        NumberOutside, NumberBelow, NumberAbove, NoType, FieldBroken, NotDue, NotListed, NoLine, LineDead, LineDiffers, KeyUsed,
        LinesFull, Unsound,
    }
}

refusals! {
    /// Why a row was not read.
    RowError { NotListed, Unsound }
}

refusals! {
    /// Why a message was not read.
    ReadError { NoType, FieldBroken }
}

refusals! {
    /// Why a record was not written. The space is as it was.
    WriteError { FieldBroken, NoSpace }
}

impl DeliverError {
    /// Whether the refusal used up the number.
    ///
    /// ```
    /// use sorundappa::DeliverError;
    /// assert!(DeliverError::LineDead.used_up());
    /// assert!(!DeliverError::NumberAbove.used_up());
    /// ```
    pub fn used_up(self) -> bool {
        (4..=12).contains(&self.answer().number())
    }
}
