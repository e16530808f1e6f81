//! The cells that the lent bytes are cut into: 30 bytes for a row, 40 for a line. Document 01 leaves their layout and the marks' values
//! open; both are the proved book's, so that the rooms of the two can be compared byte by byte.

use crate::bytes::{field, put};
use crate::record::Sale;

/// Bytes of a row's cell: symbol 0/8, close 8/4, J mark 12, high 13/4, low 17/4,
/// reported mark 21, reported volume 22/8.
pub(crate) const ROW: usize = 30;
/// Bytes of a line's cell: centre 0, control 1/10, symbol 11/8, price 19/4, size 23/4,
/// condition 27/4, place 31/4, time 35/4, live mark 39.
pub(crate) const LINE: usize = 40;

/// A mark that says yes; every other byte says no.
const YES: u8 = 1;
const NO: u8 = 0;

/// What a row's cell holds.
#[derive(Clone, Copy)]
pub(crate) struct RowCell {
    pub symbol: [u8; 8],
    pub close: u32,
    /// High and low of the latest J taken.
    pub summary: Option<(u32, u32)>,
    pub reported: Option<u64>,
}

impl RowCell {
    pub fn get(cell: &[u8]) -> RowCell {
        let high = u32::from_be_bytes(field(cell, 13));
        let low = u32::from_be_bytes(field(cell, 17));
        RowCell {
            symbol: field(cell, 0),
            close: u32::from_be_bytes(field(cell, 8)),
            summary: (cell[12] == YES).then_some((high, low)),
            reported: (cell[21] == YES).then_some(u64::from_be_bytes(field(cell, 22))),
        }
    }

    /// A row as it is listed: no J, nothing reported.
    pub fn put_new(cell: &mut [u8], symbol: [u8; 8], close: u32) {
        put(cell, 0, symbol);
        put(cell, 8, close.to_be_bytes());
        put(cell, 12, [NO; ROW - 12]);
    }

    pub fn set_summary(cell: &mut [u8], high: u32, low: u32) {
        cell[12] = YES;
        put(cell, 13, high.to_be_bytes());
        put(cell, 17, low.to_be_bytes());
    }

    pub fn set_reported(cell: &mut [u8], volume: u64) {
        cell[21] = YES;
        put(cell, 22, volume.to_be_bytes());
    }

    #[inline]
    pub fn has_symbol(cell: &[u8], symbol: &[u8; 8]) -> bool {
        cell[..8] == symbol[..]
    }
}

/// What a line's cell holds.
#[derive(Clone, Copy)]
pub(crate) struct LineCell {
    pub centre: u8,
    pub symbol: [u8; 8],
    pub sale: Sale,
    pub place: u32,
    pub time: u32,
    pub live: bool,
}

impl LineCell {
    #[inline]
    pub fn get(cell: &[u8]) -> LineCell {
        LineCell {
            centre: cell[0],
            symbol: field(cell, 11),
            sale: Sale {
                control: field(cell, 1),
                price: u32::from_be_bytes(field(cell, 19)),
                size: u32::from_be_bytes(field(cell, 23)),
                condition: field(cell, 27),
            },
            place: u32::from_be_bytes(field(cell, 31)),
            time: u32::from_be_bytes(field(cell, 35)),
            live: cell[39] == YES,
        }
    }

    pub fn put(&self, cell: &mut [u8]) {
        cell[0] = self.centre;
        put(cell, 1, self.sale.control);
        put(cell, 11, self.symbol);
        put(cell, 19, self.sale.price.to_be_bytes());
        put(cell, 23, self.sale.size.to_be_bytes());
        put(cell, 27, self.sale.condition);
        put(cell, 31, self.place.to_be_bytes());
        put(cell, 35, self.time.to_be_bytes());
        cell[39] = if self.live { YES } else { NO };
    }

    /// Makes the line dead and leaves the rest of it.
    pub fn kill(cell: &mut [u8]) {
        cell[39] = NO;
    }

    /// Centre and control stand together at the cell's start, so a key is one comparison.
    #[inline]
    pub fn has_key(cell: &[u8], key: &[u8; 11]) -> bool {
        cell[..11] == key[..]
    }

    #[inline]
    pub fn is_live_of(cell: &[u8], symbol: &[u8; 8]) -> bool {
        cell[39] == YES && cell[11..19] == symbol[..]
    }
}
