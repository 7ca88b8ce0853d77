//! Sets of completion codes, one bit for each.

pub const ZERO: u32 = 1;
pub const ONE: u32 = 2;

/// An exit's code, as a set.
pub fn code_of(depth: u16) -> u32 {
    1 << (depth + 2)
}

/// A trap: 0 and 2 become 0, 1 stays 1, above 2 one less.
pub fn down(codes: u32) -> u32 {
    codes & (ZERO | ONE) | codes >> 2 & ZERO | codes >> 1 & !(ZERO | ONE)
}

/// The larger of two codes, one of each set, for every such pair: what is in either set from the larger of the two least codes on. This is the
/// library's own method: another one on this side would make the race one of maxima.
pub fn maxima(a: u32, b: u32) -> u32 {
    let either = u64::from(a | b);
    let above = either >> a.trailing_zeros() << a.trailing_zeros();
    (above >> b.trailing_zeros() << b.trailing_zeros()) as u32
}
