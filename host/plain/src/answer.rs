//! What a call says back.

/// One answer of the list; the cases stand in the order of their numbers.
#[derive(Clone, Copy, Debug, PartialEq, Eq, Hash)]
#[repr(u8)]
pub enum Answer {
    /// 0: done.
    Done = 0,
    /// 1: the number cannot be a message's number.
    NumberOutside = 1,
    /// 2: the number was used up before.
    NumberBelow = 2,
    /// 3: a number before this one is still missing.
    NumberAbove = 3,
    /// 4: not one of the five types, or a wrong length for its type.
    NoType = 4,
    /// 5: some field breaks its rule.
    FieldBroken = 5,
    /// 6: the phase does not allow this event or message.
    NotDue = 6,
    /// 7: no row has the symbol.
    NotListed = 7,
    /// 8: the original's key is on no line.
    NoLine = 8,
    /// 9: the original's line is dead.
    LineDead = 9,
    /// 10: the original's line says something else than the message.
    LineDiffers = 10,
    /// 11: some line has the new key, dead ones included.
    KeyUsed = 11,
    /// 12: no line is left for a new trade.
    LinesFull = 12,
    /// 13: the listing's symbol or close breaks its rule.
    ListingBroken = 13,
    /// 14: the listing comes after a number was used up.
    ListingLate = 14,
    /// 15: a row has the listing's symbol.
    ListedAlready = 15,
    /// 16: no row is left for the listing.
    RowsFull = 16,
    /// 17: the counters contradict themselves or the lent room.
    Unsound = 17,
    /// 18: the message does not fit into the lent space.
    NoSpace = 18,
}

impl Answer {
    /// The answer's number, 0 to 18.
    pub const fn number(self) -> u8 {
        self as u8
    }
}
