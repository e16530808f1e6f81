//! A message taken apart, and the rules of its fields in each edition.

/// The part of a message that describes one trade.
#[derive(Clone, Copy, Debug, Default, PartialEq, Eq)]
pub struct Sale {
    pub control: [u8; 10],
    pub price: u32,
    pub size: u32,
    pub condition: [u8; 4],
}

/// A message taken apart. Whatever its type does not have in its edition is zero.
#[derive(Clone, Copy, Debug, Default, PartialEq, Eq)]
pub struct Record {
    /// The type: one of `S T X C J`.
    pub letter: u8,
    pub time: u32,
    pub event: u8,
    pub centre: u8,
    pub symbol: [u8; 8],
    pub class: u8,
    /// T's trade, and the original that X and C name.
    pub sale: Sale,
    /// What C puts in the original's place.
    pub new: Sale,
    pub high: u32,
    pub low: u32,
    pub close: u32,
    pub consolidated: u64,
}

/// The six events in the order of the day; an event's phase is its place here, from 1.
const EVENTS: &[u8; 6] = b"OSQMEC";
/// Milliseconds in a day; a time stays below it.
const DAY: u32 = 86_400_000;
/// The greatest price, in ten-thousandths.
pub(crate) const TOP_PRICE: u32 = 2_000_000_000;

/// Bits of a code: it is on its level's row; may set high and low; may be the last.
const ON_SHEET: u8 = 1;
pub(crate) const SETS_RANGE: u8 = 2;
pub(crate) const SETS_LAST: u8 = 4;

/// The sale condition sheet: per level the codes with both marks, with the first only, with none.
const SHEET: [[&[u8]; 3]; 4] = [
    [b"@", b"", b"CNR"],
    [b" FO56", b"4", b"7"],
    [b" ", b"LZ", b"TU"],
    [b" ABDKSXY", b"", b"HIVW"],
];
const COLUMNS: [u8; 3] = [ON_SHEET | SETS_RANGE | SETS_LAST, ON_SHEET | SETS_RANGE, ON_SHEET];

/// The sheet spread out: level and code to the code's bits, none for a code off the sheet.
static BITS: [[u8; 256]; 4] = spread();

const fn spread() -> [[u8; 256]; 4] {
    let mut bits = [[0; 256]; 4];
    let mut level = 0;
    while level < 4 {
        let mut column = 0;
        while column < 3 {
            let codes = SHEET[level][column];
            let mut at = 0;
            while at < codes.len() {
                bits[level][codes[at] as usize] = COLUMNS[column];
                at += 1;
            }
            column += 1;
        }
        level += 1;
    }
    bits
}

/// The bits that all four codes have.
#[inline]
pub(crate) fn marks(condition: [u8; 4]) -> u8 {
    let [one, two, three, four] = condition.map(usize::from);
    BITS[0][one] & BITS[1][two] & BITS[2][three] & BITS[3][four]
}

/// The phase that an event brings, 1 to 6.
pub(crate) fn phase_of(event: u8) -> Option<u64> {
    (1..).zip(EVENTS).find(|(_, e)| **e == event).map(|(phase, _)| phase)
}

/// What the editions rule differently.
pub(crate) trait Rules {
    const CENTRES: &'static [u8];
    const CLASSES: &'static [u8];
    const TOP_SIZE: u32;
    /// Do trades, cancels and corrections report a consolidated volume?
    const REPORTS: bool;
}

impl Record {
    /// Do the fields that the record's type has keep the edition's rules? The caller knows that the edition has the type.
    #[inline]
    pub(crate) fn keeps_rules<R: Rules>(&self) -> bool {
        self.time < DAY
            && match self.letter {
                b'S' => EVENTS.contains(&self.event),
                b'J' => {
                    is_text(&self.symbol)
                        && R::CLASSES.contains(&self.class)
                        && self.high <= TOP_PRICE
                        && self.low <= TOP_PRICE
                        && self.close <= TOP_PRICE
                }
                b'C' => self.names_a_trade::<R>() && self.new.keeps_rules::<R>(),
                _ => self.names_a_trade::<R>(),
            }
    }

    #[inline]
    fn names_a_trade<R: Rules>(&self) -> bool {
        R::CENTRES.contains(&self.centre)
            && is_text(&self.symbol)
            && R::CLASSES.contains(&self.class)
            && self.sale.keeps_rules::<R>()
    }

    /// The record with every field cleared that its type lacks in the edition.
    pub(crate) fn own_fields<R: Rules>(&self) -> Record {
        let none = Sale::default();
        let consolidated = if R::REPORTS { self.consolidated } else { 0 };
        let common = Record { event: 0, high: 0, low: 0, close: 0, consolidated, ..*self };
        match self.letter {
            b'S' => Record {
                letter: self.letter,
                time: self.time,
                event: self.event,
                ..Record::default()
            },
            b'J' => Record { event: 0, centre: 0, sale: none, new: none, ..*self },
            b'C' => common,
            _ => Record { new: none, ..common },
        }
    }
}

impl Sale {
    #[inline]
    fn keeps_rules<R: Rules>(&self) -> bool {
        is_text(&self.control)
            && (1..=TOP_PRICE).contains(&self.price)
            && (1..=R::TOP_SIZE).contains(&self.size)
            && marks(self.condition) & ON_SHEET != 0
    }
}

/// Visible bytes, at least one, and after them nothing but spaces.
pub(crate) fn is_text(text: &[u8]) -> bool {
    let visible = text.iter().take_while(|byte| byte.is_ascii_graphic()).count();
    visible != 0 && text[visible..].iter().all(|byte| *byte == b' ')
}
