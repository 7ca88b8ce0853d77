//! Exit depths and completion codes, kept apart; sets of codes have one bit for each code.

/// The traps an exit passes over before its own.
#[derive(Clone, Copy, PartialEq, Eq, Debug)]
pub struct Depth(pub u16);

/// The only way from a depth to a code.
pub fn exit_code(depth: Depth) -> u32 {
    depth.0 as u32 + 2
}

/// What a trap does to a code: 0 and 2 become 0, 1 stays, above 2 one less.
pub fn down(code: u32) -> u32 {
    match code {
        0 | 2 => 0,
        1 => 1,
        above => above - 1,
    }
}

/// The codes of a set in rising order.
pub fn members(codes: u32) -> Vec<u32> {
    (0..32).filter(|code| codes >> code & 1 == 1).collect()
}

pub fn down_all(codes: u32) -> u32 {
    members(codes).iter().fold(0, |all, &code| all | 1 << down(code))
}

/// Every maximum of one code from each side; an empty side gives an empty set.
pub fn maxima(one: u32, other: u32) -> u32 {
    pairwise(one, other, |a, b| a.max(b))
}

pub fn pairwise(one: u32, other: u32, choose: fn(u32, u32) -> u32) -> u32 {
    let mut all = 0;
    for &a in &members(one) {
        for &b in &members(other) {
            all |= 1 << choose(a, b);
        }
    }
    all
}
