//! The library as it is linked: words and bytes, and the numbers of the answer table. Safe all the same: the library reads and
//! writes only what it is lent, whatever that is (`docs/PROMISES.md`), and what it demands of a pointer holds of every reference:
//! good for its length, never null, and what is written overlaps nothing else. That these declarations are the library's own is tested.

/// A book's counters: wanted number, phase, rows used, lines used, messages taken, and the number of the edition that it was started for.
pub type Counters = [u64; 6];

/// A row: symbol, close, then last, high, low, net each behind its mark, volume, count, agrees, and reported behind its mark.
pub type Figures = [u64; 15];

/// A record's bytes, every field of every type at an offset of its own.
pub type RecordBytes = [u8; 80];

/// What [`size`] can be asked. The last: words of [`Counters`] and of [`Figures`], and the bytes of a message of each type, of NLS Plus
/// and then of PLS.
#[derive(Clone, Copy, Debug, PartialEq, Eq)]
#[repr(u64)]
pub enum Size {
    RowBytes = 0,
    MostRows = 1,
    LineBytes = 2,
    MostLines = 3,
    LongestMessage = 4,
    Record = 5,
    Counters = 6,
    Figures = 7,
    MessageS = 8,
    MessageT = 9,
    MessageX = 10,
    MessageC = 11,
    MessageJ = 12,
    PlsS = 13,
    PlsT = 14,
    PlsX = 15,
    PlsC = 16,
}

mod linked {
    // A slice crosses as its pointer and its length; a reference to an array as its pointer.
    extern "C" {
        pub fn sorundappa_start(counters: *mut u64, edition: u64);
        pub fn sorundappa_list(
            counters: *mut u64,
            rows: *mut u8,
            rows_bytes: usize,
            lines: *const u8,
            lines_bytes: usize,
            symbol: *const u8,
            close: u32,
        ) -> u8;
        pub fn sorundappa_deliver(
            counters: *mut u64,
            rows: *mut u8,
            rows_bytes: usize,
            lines: *mut u8,
            lines_bytes: usize,
            number: u64,
            message: *const u8,
            message_bytes: usize,
        ) -> u8;
        pub fn sorundappa_row(
            counters: *const u64,
            rows: *const u8,
            rows_bytes: usize,
            lines: *const u8,
            lines_bytes: usize,
            symbol: *const u8,
            row: *mut u64,
        ) -> u8;
        pub fn sorundappa_read(
            edition: u64,
            message: *const u8,
            message_bytes: usize,
            record: *mut u8,
        ) -> u8;
        pub fn sorundappa_write(
            edition: u64,
            record: *const u8,
            out: *mut u8,
            out_bytes: usize,
        ) -> u8;
        pub fn sorundappa_size(which: u64) -> u64;
    }
}

/// Makes the counters those of a fresh book of an edition. Of a number that is no edition's they are no book's, and every call on them
/// answers 17.
pub fn start(counters: &mut Counters, edition: u64) {
    // SAFETY: six words that nobody else holds; the call writes these and nothing else.
    unsafe { linked::sorundappa_start(counters.as_mut_ptr(), edition) }
}

/// Lists a symbol with its close: 0, and a row was added; or 13 to 17, and nothing changed.
pub fn list(
    counters: &mut Counters,
    rows: &mut [u8],
    lines: &[u8],
    symbol: &[u8; 8],
    close: u32,
) -> u8 {
    // SAFETY: every pointer comes from a reference and is good for the length beside it; what is written is lent alone.
    unsafe {
        linked::sorundappa_list(
            counters.as_mut_ptr(),
            rows.as_mut_ptr(),
            rows.len(),
            lines.as_ptr(),
            lines.len(),
            symbol.as_ptr(),
            close,
        )
    }
}

/// Delivers a message under its number: 0, and it was taken; 1, 2, 3 or 17, and nothing changed; or 4 to 12, and the number was used
/// up.
pub fn deliver(
    counters: &mut Counters,
    rows: &mut [u8],
    lines: &mut [u8],
    number: u64,
    message: &[u8],
) -> u8 {
    // SAFETY: as for `list`.
    unsafe {
        linked::sorundappa_deliver(
            counters.as_mut_ptr(),
            rows.as_mut_ptr(),
            rows.len(),
            lines.as_mut_ptr(),
            lines.len(),
            number,
            message.as_ptr(),
            message.len(),
        )
    }
}

/// Reads the row of a symbol: 0; or 7 or 17, and every word is 0.
pub fn row(
    counters: &Counters,
    rows: &[u8],
    lines: &[u8],
    symbol: &[u8; 8],
    figures: &mut Figures,
) -> u8 {
    // SAFETY: as for `list`.
    unsafe {
        linked::sorundappa_row(
            counters.as_ptr(),
            rows.as_ptr(),
            rows.len(),
            lines.as_ptr(),
            lines.len(),
            symbol.as_ptr(),
            figures.as_mut_ptr(),
        )
    }
}

/// Reads a message alone by an edition: 0; or 4 or 5, and every byte of the record is 0. A number that is no edition's is answered 4.
pub fn read(edition: u64, message: &[u8], record: &mut RecordBytes) -> u8 {
    // SAFETY: as for `list`.
    unsafe {
        linked::sorundappa_read(edition, message.as_ptr(), message.len(), record.as_mut_ptr())
    }
}

/// Writes a record's message by an edition to the front of `out`: 0, and the bytes past it stay; or 5, or else 18, and all of `out`
/// stays. A number that is no edition's is answered 5.
pub fn write(edition: u64, record: &RecordBytes, out: &mut [u8]) -> u8 {
    // SAFETY: as for `list`.
    unsafe { linked::sorundappa_write(edition, record.as_ptr(), out.as_mut_ptr(), out.len()) }
}

/// A size of the linked library.
pub fn size(which: Size) -> u64 {
    // SAFETY: a number in and a number out.
    unsafe { linked::sorundappa_size(which as u64) }
}
