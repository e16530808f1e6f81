//! One message of the feed as a record, read from bytes and written to bytes.
use crate::answer::{ReadError, WriteError};
use crate::edition::Edition;
use crate::raw;

/// What a message says of one trade.
#[derive(Clone, Copy, Debug, Default, PartialEq, Eq)]
pub struct Sale {
    pub control: [u8; 10],
    /// In ten-thousandths.
    pub price: u32,
    pub size: u32,
    pub condition: [u8; 4],
}

/// A message. A field that its type lacks in its edition is zero, and a record with another value there is not written.
#[derive(Clone, Copy, Debug, Default, PartialEq, Eq)]
pub struct Record {
    /// The type's letter: `S T X C J`, of which PLS has no `J`.
    pub letter: u8,
    /// Milliseconds past midnight.
    pub time: u32,
    pub event: u8,
    pub centre: u8,
    pub symbol: [u8; 8],
    pub class: u8,
    /// T's trade; in X and C what names the original.
    pub sale: Sale,
    /// C's new trade.
    pub new: Sale,
    pub high: u32,
    pub low: u32,
    pub close: u32,
    pub consolidated: u64,
}

impl Record {
    /// Reads a message of an edition.
    ///
    /// ```
    /// use sorundappa::{Edition, ReadError, Record};
    /// let event = Record::read(Edition::NlsPlus, b"\x00\x00\x03\xe8SO").unwrap();
    /// assert_eq!((event.letter, event.time, event.event), (b'S', 1000, b'O'));
    /// assert_eq!(Record::read(Edition::NlsPlus, b"\x00\x00\x03\xe8SZ"), Err(ReadError::FieldBroken));
    /// assert_eq!(Record::read(Edition::Pls, b"    1000SO"), Ok(event));
    /// assert_eq!(Record::read(Edition::Pls, b"\x00\x00\x03\xe8SO"), Err(ReadError::NoType));
    ///
    /// // time, letter, centre, symbol, class, control, price in ten-thousandths, size, condition
    /// let message = b"34200000TXABCD    QA1            251000      100@   ";
    /// let trade = Record::read(Edition::Pls, message).unwrap();
    /// assert_eq!((&trade.symbol, trade.sale.price, trade.sale.size), (b"ABCD    ", 251_000, 100));
    /// ```
    pub fn read(edition: Edition, message: &[u8]) -> Result<Record, ReadError> {
        let mut bytes = [0; 80];
        let told = raw::read(edition.number(), message, &mut bytes);
        ReadError::told(told).map(|()| Record::of(&bytes))
    }

    /// Writes the message of an edition to the front of `out`, the bytes behind it as they were, and says how long it is.
    ///
    /// ```
    /// use sorundappa::{Edition, Record, WriteError};
    /// let event = Record { letter: b'S', time: 1000, event: b'O', ..Record::default() };
    /// let mut out = [7; 12];
    /// assert_eq!(event.write(Edition::Pls, &mut out), Ok(10));
    /// assert_eq!(&out, b"    1000SO\x07\x07");
    /// assert_eq!(event.write(Edition::NlsPlus, &mut out[..5]), Err(WriteError::NoSpace));
    /// let classed = Record { class: b'Q', ..event };
    /// assert_eq!(classed.write(Edition::NlsPlus, &mut out), Err(WriteError::FieldBroken));
    /// ```
    pub fn write(&self, edition: Edition, out: &mut [u8]) -> Result<usize, WriteError> {
        WriteError::told(raw::write(edition.number(), &self.bytes(), out))
            .map(|()| edition.length(self.letter))
    }

    /// The record in the form that crosses to the library.
    pub fn bytes(&self) -> raw::RecordBytes {
        let mut out = [0; 80];
        out[0] = self.letter;
        out[1..5].copy_from_slice(&self.time.to_be_bytes());
        out[5] = self.event;
        out[6] = self.centre;
        out[7..15].copy_from_slice(&self.symbol);
        out[15] = self.class;
        self.sale.put(&mut out[16..38]);
        self.new.put(&mut out[38..60]);
        out[60..64].copy_from_slice(&self.high.to_be_bytes());
        out[64..68].copy_from_slice(&self.low.to_be_bytes());
        out[68..72].copy_from_slice(&self.close.to_be_bytes());
        out[72..80].copy_from_slice(&self.consolidated.to_be_bytes());
        out
    }

    /// The record of that form.
    pub fn of(bytes: &raw::RecordBytes) -> Record {
        Record {
            letter: bytes[0],
            time: u32::from_be_bytes(part(bytes, 1)),
            event: bytes[5],
            centre: bytes[6],
            symbol: part(bytes, 7),
            class: bytes[15],
            sale: Sale::at(bytes, 16),
            new: Sale::at(bytes, 38),
            high: u32::from_be_bytes(part(bytes, 60)),
            low: u32::from_be_bytes(part(bytes, 64)),
            close: u32::from_be_bytes(part(bytes, 68)),
            consolidated: u64::from_be_bytes(part(bytes, 72)),
        }
    }
}

impl Sale {
    fn put(&self, out: &mut [u8]) {
        out[..10].copy_from_slice(&self.control);
        out[10..14].copy_from_slice(&self.price.to_be_bytes());
        out[14..18].copy_from_slice(&self.size.to_be_bytes());
        out[18..22].copy_from_slice(&self.condition);
    }

    fn at(bytes: &raw::RecordBytes, at: usize) -> Sale {
        Sale {
            control: part(bytes, at),
            price: u32::from_be_bytes(part(bytes, at + 10)),
            size: u32::from_be_bytes(part(bytes, at + 14)),
            condition: part(bytes, at + 18),
        }
    }
}

fn part<const N: usize>(bytes: &raw::RecordBytes, at: usize) -> [u8; N] {
    let mut out = [0; N];
    out.copy_from_slice(&bytes[at..at + N]);
    out
}
