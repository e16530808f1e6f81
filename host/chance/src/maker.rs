//! Messages from fields, random fields that obey the rules, and ways to break a message.

use crate::dice::Dice;
use crate::{nls_plus, pls};

/// Whose layouts and rules a message has.
#[derive(Clone, Copy, Debug, PartialEq, Eq)]
pub enum Edition {
    NlsPlus,
    Pls,
}

impl Edition {
    /// Both, by their numbers.
    pub const ALL: [Edition; 2] = [Edition::NlsPlus, Edition::Pls];

    /// The edition's number.
    pub fn number(self) -> u64 {
        self as u64
    }
}

/// Symbols that days and near-real rooms share: short ones, full ones, and near namesakes.
pub const SYMBOLS: [[u8; 8]; 8] = [
    *b"ABCD    ",
    *b"ABC     ",
    *b"ABCDE   ",
    *b"Z       ",
    *b"BRK.A   ",
    *b"LONGNAME",
    *b"!~!~!~!~",
    *b"LONGNAMF",
];
/// Prices that meet often, with both ends of what a trade may cost.
pub const PRICES: [u32; 8] = [1, 2, 9_999, 250_000, 251_000, 260_000, 1_999_999_999, 2_000_000_000];
/// Sizes that meet often; the ends are each edition's own.
const SIZES: [u32; 4] = [1, 50, 100, 300];
/// Times at both ends and between.
pub const TIMES: [u32; 5] = [0, 1, 34_200_000, 57_600_000, 86_399_999];
/// The events in the order of the day.
pub const EVENTS: [u8; 6] = *b"OSQMEC";
/// The codes of the sale condition sheet, level by level, those with both marks first.
pub const LEVELS: [&[u8]; 4] = [b"@CNR", b" FO5647", b" LZTU", b" ABDKSXYHIVW"];

/// The fields of a trade, and of the original that a cancel or a correction names.
#[derive(Clone, Copy, Debug, PartialEq, Eq)]
pub struct Trade {
    pub time: u32,
    pub centre: u8,
    pub symbol: [u8; 8],
    pub class: u8,
    pub control: [u8; 10],
    pub price: u32,
    pub size: u32,
    pub condition: [u8; 4],
    pub consolidated: u64,
}

/// What a correction puts in the original's place.
#[derive(Clone, Copy, Debug, PartialEq, Eq)]
pub struct New {
    pub control: [u8; 10],
    pub price: u32,
    pub size: u32,
    pub condition: [u8; 4],
}

/// The fields of an end of day summary.
#[derive(Clone, Copy, Debug, PartialEq, Eq)]
pub struct Summary {
    pub time: u32,
    pub symbol: [u8; 8],
    pub class: u8,
    pub high: u32,
    pub low: u32,
    pub close: u32,
    pub consolidated: u64,
}

/// Builds an edition's messages and draws fields; the fewer its controls, the more often two keys meet.
#[derive(Clone, Copy, Debug)]
pub struct Maker {
    pub edition: Edition,
    /// How many different controls it draws from.
    pub controls: u64,
}

/// A number as a control: its digits and then spaces.
pub fn control(number: u64) -> [u8; 10] {
    let mut out = [b' '; 10];
    let digits = (number % 10_000_000_000).to_string();
    out[..digits.len()].copy_from_slice(digits.as_bytes());
    out
}

impl Maker {
    /// A maker of NLS Plus that draws from so many controls.
    pub fn new(controls: u64) -> Maker {
        Maker::of(Edition::NlsPlus, controls)
    }

    /// A maker of an edition.
    pub fn of(edition: Edition, controls: u64) -> Maker {
        Maker { edition, controls }
    }

    /// S.
    pub fn event(&self, time: u32, event: u8) -> Vec<u8> {
        match self.edition {
            Edition::NlsPlus => nls_plus::event(time, event),
            Edition::Pls => pls::event(time, event),
        }
    }

    /// T.
    pub fn trade(&self, trade: &Trade) -> Vec<u8> {
        self.about(b'T', trade)
    }

    /// X.
    pub fn cancel(&self, original: &Trade) -> Vec<u8> {
        self.about(b'X', original)
    }

    fn about(&self, letter: u8, trade: &Trade) -> Vec<u8> {
        match self.edition {
            Edition::NlsPlus => nls_plus::trade(letter, trade),
            Edition::Pls => pls::trade(letter, trade),
        }
    }

    /// C.
    pub fn correction(&self, original: &Trade, new: &New) -> Vec<u8> {
        match self.edition {
            Edition::NlsPlus => nls_plus::correction(original, new),
            Edition::Pls => pls::correction(original, new),
        }
    }

    /// J, which NLS Plus alone has.
    pub fn summary(summary: &Summary) -> Vec<u8> {
        nls_plus::summary(summary)
    }

    /// The market centres.
    pub fn centres(&self) -> &'static [u8] {
        match self.edition {
            Edition::NlsPlus => b"QLBX",
            Edition::Pls => b"X",
        }
    }

    /// The issue classes.
    pub fn classes(&self) -> &'static [u8] {
        match self.edition {
            Edition::NlsPlus => b"QNAPZB",
            Edition::Pls => b"QNAPZ",
        }
    }

    /// The greatest size.
    pub fn top_size(&self) -> u32 {
        match self.edition {
            Edition::NlsPlus => u32::MAX,
            Edition::Pls => 999_999_999,
        }
    }

    /// The types' letters.
    pub fn letters(&self) -> &'static [u8] {
        match self.edition {
            Edition::NlsPlus => b"STXCJ",
            Edition::Pls => b"STXC",
        }
    }

    /// Where a message bears its type's letter.
    pub fn letter_at(&self) -> usize {
        match self.edition {
            Edition::NlsPlus => 4,
            Edition::Pls => 8,
        }
    }

    /// A lawful time.
    pub fn some_time(dice: &mut Dice) -> u32 {
        if dice.chance(2) {
            dice.pick(&TIMES)
        } else {
            dice.below(86_400_000) as u32
        }
    }

    /// A lawful trade price, mostly of the pool.
    pub fn some_price(dice: &mut Dice) -> u32 {
        if dice.chance(4) {
            1 + dice.below(2_000_000_000) as u32
        } else {
            dice.pick(&PRICES)
        }
    }

    /// A lawful size, mostly of the pool, often next to the greatest.
    pub fn some_size(&self, dice: &mut Dice) -> u32 {
        let top = self.top_size();
        match dice.below(4) {
            0 => 1 + dice.below(top.into()) as u32,
            1 => top - dice.below(2) as u32,
            _ => dice.pick(&SIZES),
        }
    }

    /// Four codes of the sheet; two in three have both marks.
    pub fn some_condition(dice: &mut Dice) -> [u8; 4] {
        if dice.chance(3) {
            LEVELS.map(|codes| dice.pick(codes))
        } else {
            LEVELS.map(|codes| codes[0])
        }
    }

    /// Any consolidated volume, small ones as often as great ones.
    pub fn some_volume(dice: &mut Dice) -> u64 {
        let bits = dice.below(64);
        dice.roll() >> bits
    }

    /// A control of the pool.
    pub fn some_control(&self, dice: &mut Dice) -> [u8; 10] {
        control(dice.below(self.controls))
    }

    /// A lawful trade.
    pub fn some_trade(&self, dice: &mut Dice) -> Trade {
        Trade {
            time: Maker::some_time(dice),
            centre: dice.pick(self.centres()),
            symbol: dice.pick(&SYMBOLS),
            class: dice.pick(self.classes()),
            control: self.some_control(dice),
            price: Maker::some_price(dice),
            size: self.some_size(dice),
            condition: Maker::some_condition(dice),
            consolidated: Maker::some_volume(dice),
        }
    }

    /// Lawful new fields of a correction.
    pub fn some_new(&self, dice: &mut Dice) -> New {
        New {
            control: self.some_control(dice),
            price: Maker::some_price(dice),
            size: self.some_size(dice),
            condition: Maker::some_condition(dice),
        }
    }

    /// A lawful summary; its prices may be 0.
    pub fn some_summary(dice: &mut Dice) -> Summary {
        let mut price = || {
            if dice.chance(4) {
                0
            } else {
                Maker::some_price(dice)
            }
        };
        let (high, low, close) = (price(), price(), price());
        Summary {
            time: Maker::some_time(dice),
            symbol: dice.pick(&SYMBOLS),
            class: dice.pick(b"QNAPZB"),
            high,
            low,
            close,
            consolidated: Maker::some_volume(dice),
        }
    }

    /// Any lawful message of the edition's types, its numbers in any spelling.
    pub fn some_message(&self, dice: &mut Dice) -> Vec<u8> {
        let letter = dice.pick(match self.edition {
            Edition::NlsPlus => b"STTTXXCJ",
            Edition::Pls => b"STTTXXCC",
        });
        self.some_of(dice, letter)
    }

    /// A lawful message of a type.
    pub fn some_of(&self, dice: &mut Dice, letter: u8) -> Vec<u8> {
        let message = match letter {
            b'S' => self.event(Maker::some_time(dice), dice.pick(&EVENTS)),
            b'J' => Maker::summary(&Maker::some_summary(dice)),
            b'C' => self.correction(&self.some_trade(dice), &self.some_new(dice)),
            _ => self.about(letter, &self.some_trade(dice)),
        };
        self.spelled(dice, message)
    }

    /// A message about the trade of a line's cell, whatever that says; a correction to new fields that are lawful.
    pub fn of_line(&self, dice: &mut Dice, letter: u8, cell: &[u8]) -> Vec<u8> {
        let number = |at: usize| u32::from_be_bytes(cell[at..at + 4].try_into().expect("4 bytes"));
        let named = Trade {
            centre: cell[0],
            symbol: cell[11..19].try_into().expect("8 bytes"),
            control: cell[1..11].try_into().expect("10 bytes"),
            price: number(19),
            size: number(23),
            condition: cell[27..31].try_into().expect("4 bytes"),
            ..self.some_trade(dice)
        };
        let message = match letter {
            b'C' => self.correction(&named, &self.some_new(dice)),
            _ => self.about(letter, &named),
        };
        self.spelled(dice, message)
    }

    /// The message, its numbers in any spelling that they may have.
    pub fn spelled(&self, dice: &mut Dice, message: Vec<u8>) -> Vec<u8> {
        match self.edition {
            Edition::NlsPlus => message,
            Edition::Pls => pls::respelled(dice, &message),
        }
    }

    /// The original with one of the fields changed that name it, to another lawful value.
    pub fn one_off(&self, dice: &mut Dice, original: &Trade) -> Trade {
        let mut off = *original;
        let fields = if self.centres().len() > 1 { 6 } else { 5 };
        match dice.below(fields) {
            0 => off.symbol = other(original.symbol, || dice.pick(&SYMBOLS)),
            1 => off.price = other(original.price, || dice.pick(&PRICES)),
            2 => off.size = other(original.size, || dice.pick(&SIZES)),
            3 => off.condition = other(original.condition, || LEVELS.map(|codes| dice.pick(codes))),
            5 => off.centre = other(original.centre, || dice.pick(self.centres())),
            _ => off.control = other(original.control, || control(dice.below(self.controls + 2))),
        }
        off
    }

    /// Breaks a message in one of the three ways, or fills it with random bytes; one of PLS is also misspelled.
    pub fn broken(&self, dice: &mut Dice, message: &[u8]) -> Vec<u8> {
        if self.edition == Edition::Pls && dice.chance(2) {
            return pls::misspelled(dice, message);
        }
        match dice.below(8) {
            0 => {
                let length = dice.index(101);
                dice.bytes(length)
            }
            1 | 2 => {
                let length = dice.index(101);
                cut(message, length, dice)
            }
            3 => retype(message, self.letter_at(), dice.pick(b"STXCJHIAstxcj\0\xff")),
            _ => {
                let at = dice.index(message.len());
                flip(message, at, dice)
            }
        }
    }
}

/// Draws until the value is another one.
fn other<T: PartialEq>(than: T, mut draw: impl FnMut() -> T) -> T {
    loop {
        let drawn = draw();
        if drawn != than {
            return drawn;
        }
    }
}

/// The message with the byte at an offset changed to another; unchanged where it has no such byte.
pub fn flip(message: &[u8], at: usize, dice: &mut Dice) -> Vec<u8> {
    let mut out = message.to_vec();
    if let Some(byte) = out.get_mut(at) {
        *byte ^= 1 + dice.below(255) as u8;
    }
    out
}

/// The message cut, or lengthened by random bytes, to a length.
pub fn cut(message: &[u8], length: usize, dice: &mut Dice) -> Vec<u8> {
    let mut out = message[..message.len().min(length)].to_vec();
    out.extend(dice.bytes(length - out.len()));
    out
}

/// The message with another byte where its letter stands; unchanged where it has no such byte.
pub fn retype(message: &[u8], at: usize, letter: u8) -> Vec<u8> {
    let mut out = message.to_vec();
    if let Some(byte) = out.get_mut(at) {
        *byte = letter;
    }
    out
}

#[cfg(test)]
mod tests {
    use super::*;

    const ABCD: Trade = Trade {
        time: 2_000,
        centre: b'L',
        symbol: *b"ABCD    ",
        class: b'N',
        control: *b"77        ",
        price: 0x0102_0304,
        size: 0x0506_0708,
        condition: *b"@FT ",
        consolidated: 0x1112_1314_1516_1718,
    };

    const PLUS: Maker = Maker { edition: Edition::NlsPlus, controls: 5 };
    const PLS: Maker = Maker { edition: Edition::Pls, controls: 5 };

    fn read(maker: Maker, message: &[u8]) -> plain::Answer {
        plain::read(plain::Edition::of(maker.edition.number()).unwrap(), message).0
    }

    #[test]
    fn layouts_of_nls_plus_byte_by_byte() {
        assert_eq!(PLUS.event(9, b'M'), *b"\0\0\0\x09SM");
        let tail = b"LABCD    N77        \x01\x02\x03\x04\x05\x06\x07\x08@FT ";
        let volume = b"\x11\x12\x13\x14\x15\x16\x17\x18";
        assert_eq!(PLUS.trade(&ABCD), [b"\0\0\x07\xd0T", &tail[..], volume].concat());
        assert_eq!(PLUS.cancel(&ABCD), [b"\0\0\x07\xd0X", &tail[..], volume].concat());
        let new = New { control: *b"8         ", price: 1, size: 2, condition: *b"C   " };
        let middle = b"8         \0\0\0\x01\0\0\0\x02C   ";
        let expected = [b"\0\0\x07\xd0C", &tail[..], middle, volume].concat();
        assert_eq!((expected.len(), PLUS.correction(&ABCD, &new)), (67, expected));
        let day = Summary {
            time: 1,
            symbol: *b"Z       ",
            class: b'B',
            high: 3,
            low: 2,
            close: 4,
            consolidated: 5,
        };
        let expected = b"\0\0\0\x01JZ       B\0\0\0\x03\0\0\0\x02\0\0\0\x04\0\0\0\0\0\0\0\x05";
        assert_eq!((expected.len(), Maker::summary(&day)), (34, expected.to_vec()));
    }

    #[test]
    fn layouts_of_pls_byte_by_byte() {
        assert_eq!(PLS.event(9, b'M'), *b"       9SM");
        let abcd = Trade { centre: b'X', price: 12, size: 34_567, ..ABCD };
        let tail = b"XABCD    N77              0012    34567@FT ";
        assert_eq!(PLS.trade(&abcd), [b"    2000T", &tail[..]].concat());
        assert_eq!(PLS.cancel(&abcd), [b"    2000X", &tail[..]].concat());
        let new = New { control: *b"8         ", price: 10_000, size: 2, condition: *b"C   " };
        let middle = b"8              10000        2C   ";
        let expected = [b"    2000C", &tail[..], middle].concat();
        assert_eq!((expected.len(), PLS.correction(&abcd, &new)), (85, expected));
    }

    #[test]
    fn controls_are_digits_and_spaces() {
        assert_eq!(control(0), *b"0         ");
        assert_eq!(control(9_999_999_999), *b"9999999999");
        assert_eq!(control(10_000_000_000), *b"0         ");
    }

    #[test]
    fn drawn_messages_are_lawful_and_of_all_types() {
        let mut dice = Dice::new(11);
        for maker in [PLUS, PLS] {
            let mut seen = Vec::new();
            for _ in 0..5_000 {
                let message = maker.some_message(&mut dice);
                assert_eq!(read(maker, &message), plain::Answer::Done, "{message:?}");
                seen.push(message[maker.letter_at()]);
            }
            assert!(maker.letters().iter().all(|letter| seen.contains(letter)));
        }
    }

    #[test]
    fn drawn_fields_reach_every_code_and_both_ends() {
        let mut dice = Dice::new(12);
        for maker in [PLUS, PLS] {
            let trades: Vec<Trade> = (0..5_000).map(|_| maker.some_trade(&mut dice)).collect();
            let has = |test: &dyn Fn(&Trade) -> bool| trades.iter().any(test);
            for (level, codes) in LEVELS.iter().enumerate() {
                assert!(codes.iter().all(|code| has(&|t| t.condition[level] == *code)));
            }
            assert!(SYMBOLS.iter().all(|symbol| has(&|t| t.symbol == *symbol)));
            assert!(maker.centres().iter().all(|centre| has(&|t| t.centre == *centre)));
            assert!(maker.classes().iter().all(|class| has(&|t| t.class == *class)));
            assert!(has(&|t| t.price == 2_000_000_000));
            assert!(has(&|t| t.size == maker.top_size()));
            assert!(has(&|t| t.time == 86_399_999));
            assert!(has(&|t| t.consolidated < 100));
            assert!(has(&|t| t.consolidated > u64::MAX / 2));
            assert_eq!(trades.iter().map(|t| t.control).max(), Some(*b"4         "));
        }
    }

    #[test]
    fn one_off_is_lawful_and_one_field_away() {
        let mut dice = Dice::new(13);
        let mut changed = [0; 6];
        for _ in 0..600 {
            let off = PLUS.one_off(&mut dice, &ABCD);
            assert_eq!(read(PLUS, &PLUS.cancel(&off)).number(), 0);
            let differs = [
                off.symbol != ABCD.symbol,
                off.price != ABCD.price,
                off.size != ABCD.size,
                off.condition != ABCD.condition,
                off.centre != ABCD.centre,
                off.control != ABCD.control,
            ];
            assert_eq!(differs.iter().filter(|differs| **differs).count(), 1);
            changed[differs.iter().position(|differs| *differs).unwrap()] += 1;
        }
        assert!(changed.iter().all(|times| *times > 50), "{changed:?}");
    }

    #[test]
    fn flip_changes_one_byte() {
        let mut dice = Dice::new(14);
        let message = PLUS.trade(&ABCD);
        for at in 0..45 {
            let flipped = flip(&message, at, &mut dice);
            let away: Vec<usize> = (0..45).filter(|i| flipped[*i] != message[*i]).collect();
            assert_eq!((flipped.len(), away), (45, vec![at]));
        }
        assert_eq!(flip(&message, 45, &mut dice), message);
    }

    #[test]
    fn cut_and_retype() {
        let mut dice = Dice::new(15);
        let message = PLUS.trade(&ABCD);
        for length in 0..=100 {
            let out = cut(&message, length, &mut dice);
            let kept = length.min(45);
            assert_eq!((out.len(), &out[..kept]), (length, &message[..kept]));
        }
        assert_eq!(retype(&message, 4, b'X'), PLUS.cancel(&ABCD));
        assert_eq!(retype(b"abcd", 4, b'X'), b"abcd");
    }

    #[test]
    fn broken_ones_are_refused_in_both_ways_and_sometimes_read() {
        let mut dice = Dice::new(16);
        for maker in [PLUS, PLS] {
            let mut seen = [0; 6];
            for _ in 0..2_000 {
                let good = maker.some_of(&mut dice, b'T');
                let message = maker.broken(&mut dice, &good);
                assert!(message.len() <= 100);
                seen[usize::from(read(maker, &message).number())] += 1;
            }
            assert!(seen[0] > 100 && seen[4] > 300 && seen[5] > 300, "{seen:?}");
        }
    }
}
