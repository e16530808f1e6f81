//! NLS Plus 2.0: a message from its fields.

use crate::maker::{New, Summary, Trade};

fn head(time: u32, letter: u8) -> Vec<u8> {
    let mut out = time.to_be_bytes().to_vec();
    out.push(letter);
    out
}

/// Time to condition, as the three messages about a trade share them.
fn about(letter: u8, trade: &Trade) -> Vec<u8> {
    let mut out = head(trade.time, letter);
    out.push(trade.centre);
    out.extend(trade.symbol);
    out.push(trade.class);
    out.extend(trade.control);
    out.extend(trade.price.to_be_bytes());
    out.extend(trade.size.to_be_bytes());
    out.extend(trade.condition);
    out
}

/// S, of 6 bytes.
pub fn event(time: u32, event: u8) -> Vec<u8> {
    let mut out = head(time, b'S');
    out.push(event);
    out
}

/// T or X, of 45 bytes.
pub fn trade(letter: u8, trade: &Trade) -> Vec<u8> {
    let mut out = about(letter, trade);
    out.extend(trade.consolidated.to_be_bytes());
    out
}

/// C, of 67 bytes.
pub fn correction(original: &Trade, new: &New) -> Vec<u8> {
    let mut out = about(b'C', original);
    out.extend(new.control);
    out.extend(new.price.to_be_bytes());
    out.extend(new.size.to_be_bytes());
    out.extend(new.condition);
    out.extend(original.consolidated.to_be_bytes());
    out
}

/// J, of 34 bytes.
pub fn summary(summary: &Summary) -> Vec<u8> {
    let mut out = head(summary.time, b'J');
    out.extend(summary.symbol);
    out.push(summary.class);
    out.extend(summary.high.to_be_bytes());
    out.extend(summary.low.to_be_bytes());
    out.extend(summary.close.to_be_bytes());
    out.extend(summary.consolidated.to_be_bytes());
    out
}
