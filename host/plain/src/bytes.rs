//! Fields of a fixed length, taken from bytes and put into them.

/// The `N` bytes at an offset. The caller knows that they are there.
#[inline]
pub(crate) fn field<const N: usize>(bytes: &[u8], at: usize) -> [u8; N] {
    bytes[at..at + N].try_into().expect("N bytes")
}

/// Puts `N` bytes at an offset. The caller knows that there is room.
#[inline]
pub(crate) fn put<const N: usize>(bytes: &mut [u8], at: usize, value: [u8; N]) {
    bytes[at..at + N].copy_from_slice(&value);
}
