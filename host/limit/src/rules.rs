//! The rules of a record's fields, each asked as the library asks it: what shows of a text byte by byte and its spaces four at a time, the
//! sheet by its words of bits, and every rule of a record whatever the one before it said.
use crate::{
    Record, CENTRE, CLASS, CLOSE, EVENT, HIGH, LETTER, LOW, NEW_SALE, OLD_SALE, SYMBOL, TIME,
};

const LAST_TIME: u32 = 86_399_999;
const TOP_PRICE: u32 = 2_000_000_000;

// Where a trade has its price, its size and its condition, from its first byte on.
const PRICE: usize = 10;
const SIZE: usize = 14;
const CONDITION: usize = 18;

// A level's table from its words 2 to 5: no code stands in another.
const fn level(words: [u64; 4]) -> [u64; 16] {
    let [a, b, c, d] = words;
    [0, 0, a, b, c, d, 0, 0, 0, 0, 0, 0, 0, 0, 0, 0]
}

// The sheet as `crates/conditions` has it: the code c is the digit c % 16 of the word c / 16, and odd if it is on the sheet.
static SHEET: [[u64; 16]; 4] = [
    level([0, 0, 0x0100_0000_0000_1007, 0x0000_0000_0000_0100]),
    level([0x0000_0000_0000_0007, 0x0000_0000_1773_0000, 0x7000_0000_0700_0000, 0]),
    level([0x0000_0000_0000_0007, 0, 0x0003_0000_0000_0000, 0x0000_0300_0011_0000]),
    level([0x0000_0000_0000_0007, 0, 0x0000_7011_0007_0770, 0x0000_0077_1100_7000]),
];

// N bytes of a record.
fn part<const AT: usize, const N: usize>(b: &Record) -> &[u8; N] {
    const { assert!(AT + N <= 80) };
    // SAFETY: they end inside the eighty, which is asked when this is compiled; bytes may stand anywhere.
    unsafe { &*b.as_ptr().add(AT).cast() }
}

// The number in four bytes of a record, the first the highest.
fn four<const AT: usize>(b: &Record) -> u32 {
    const { assert!(AT + 4 <= 80) };
    // SAFETY: they end inside the eighty, which is asked when this is compiled.
    u32::from_be(unsafe { b.as_ptr().add(AT).cast::<u32>().read_unaligned() })
}

/// Four bytes of a text as one number.
///
/// # Safety
/// They end inside the text.
unsafe fn word<const N: usize>(s: &[u8; N], at: usize) -> u32 {
    // SAFETY: they end inside, and a number may be loaded from anywhere.
    unsafe { s.as_ptr().add(at).cast::<u32>().read_unaligned() }
}

// One or more bytes that show, then spaces to the end.
fn text<const N: usize>(s: &[u8; N]) -> bool {
    const SPACES: u32 = u32::from_ne_bytes(*b"    ");
    let mut i = 0;
    while i < N && matches!(s[i], 33..=126) {
        i += 1;
    }
    if i == 0 {
        return false;
    }
    if (4..=8).contains(&(N - i)) {
        // SAFETY: four bytes or more are left from i on.
        return unsafe { (word(s, i) == SPACES) & (word(s, N - 4) == SPACES) };
    }
    while i < N {
        if s[i] != b' ' {
            return false;
        }
        i += 1;
    }
    true
}

fn on_sheet(level: usize, code: u8) -> bool {
    SHEET[level][usize::from(code / 16)] >> (code % 16 * 4) & 1 != 0
}

fn condition(codes: &[u8; 4]) -> bool {
    on_sheet(0, codes[0]) & on_sheet(1, codes[1]) & on_sheet(2, codes[2]) & on_sheet(3, codes[3])
}

fn centre(c: u8) -> bool {
    (c == b'Q') | (c == b'L') | (c == b'B') | (c == b'X')
}

fn class(c: u8) -> bool {
    (c == b'Q') | (c == b'N') | (c == b'A') | (c == b'P') | (c == b'Z') | (c == b'B')
}

// The trade at a place: its control, price, size and condition.
fn sale(control: &[u8; 10], price: u32, size: u32, codes: &[u8; 4]) -> bool {
    text(control) & (1..=TOP_PRICE).contains(&price) & (size != 0) & condition(codes)
}

fn old_sale(b: &Record) -> bool {
    const AT: usize = OLD_SALE;
    sale(
        part::<AT, 10>(b),
        four::<{ AT + PRICE }>(b),
        four::<{ AT + SIZE }>(b),
        part::<{ AT + CONDITION }, 4>(b),
    )
}

fn new_sale(b: &Record) -> bool {
    const AT: usize = NEW_SALE;
    sale(
        part::<AT, 10>(b),
        four::<{ AT + PRICE }>(b),
        four::<{ AT + SIZE }>(b),
        part::<{ AT + CONDITION }, 4>(b),
    )
}

// The fields that T, X and C have in common, with the letter.
fn trade(b: &Record, letter: u8) -> bool {
    (four::<TIME>(b) <= LAST_TIME)
        & (b[LETTER] == letter)
        & centre(b[CENTRE])
        & text(part::<SYMBOL, 8>(b))
        & class(b[CLASS])
        & old_sale(b)
}

fn event(b: &Record) -> bool {
    (four::<TIME>(b) <= LAST_TIME)
        & (b[LETTER] == b'S')
        & matches!(b[EVENT], b'O' | b'S' | b'Q' | b'M' | b'E' | b'C')
}

fn summary(b: &Record) -> bool {
    (four::<TIME>(b) <= LAST_TIME)
        & (b[LETTER] == b'J')
        & text(part::<SYMBOL, 8>(b))
        & class(b[CLASS])
        & (four::<HIGH>(b) <= TOP_PRICE)
        & (four::<LOW>(b) <= TOP_PRICE)
        & (four::<CLOSE>(b) <= TOP_PRICE)
}

/// Whether a record keeps the rules of the fields that its type has.
pub fn kept(b: &Record, letter: u8) -> bool {
    match letter {
        b'S' => event(b),
        b'T' | b'X' => trade(b, letter),
        b'C' => trade(b, b'C') & new_sale(b),
        b'J' => summary(b),
        _ => false,
    }
}

// Whether N bytes are all zero, every one of them looked at.
fn none<const N: usize>(s: &[u8; N]) -> bool {
    s.iter().fold(true, |clear, byte| clear & (*byte == 0))
}

/// The same, and that the fields which its type lacks are zero.
pub fn lawful(b: &Record, letter: u8) -> bool {
    match letter {
        b'S' => event(b) & none(part::<CENTRE, 74>(b)),
        b'T' | b'X' => trade(b, letter) & none(part::<EVENT, 1>(b)) & none(part::<NEW_SALE, 34>(b)),
        b'C' => {
            trade(b, b'C') & new_sale(b) & none(part::<EVENT, 1>(b)) & none(part::<HIGH, 12>(b))
        }
        b'J' => summary(b) & none(part::<EVENT, 2>(b)) & none(part::<OLD_SALE, 44>(b)),
        _ => false,
    }
}
