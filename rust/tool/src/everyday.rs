//! Blocks of edition 2, which has halt, sustain, await and abort besides: whether one is good, by the library's converter, what it has, and its conversion.

use crate::layout::{edition, BLOCK_MOST, EVERYDAY};
use crate::walk::walk;
use foldheron::{check, convert, Refusal, Summary};

/// A good block of edition 2: what it has itself, the bytes of its conversion, and what that has.
pub struct Everyday {
    pub own: Summary,
    pub bytes: Vec<u8>,
    pub converted: Summary,
}

/// Converts a block; one that is refused as it stands, or whose conversion passes a limit, is none.
pub fn read(block: &[u8]) -> Result<Everyday, Refusal> {
    let mut into = [0; BLOCK_MOST];
    let bytes = convert(block, &mut into)?.to_vec();
    let converted = check(&bytes).expect("a conversion is good");
    let walk = walk(block, block.len());
    let own = Summary { statements: walk.statements.len() as u16, pauses: walk.around.pauses as u16, ..converted };
    Ok(Everyday { own, bytes, converted })
}

/// What a good block of either edition has.
pub fn summary(block: &[u8]) -> Result<Summary, Refusal> {
    match edition(block) {
        EVERYDAY => read(block).map(|good| good.own),
        _ => check(block),
    }
}

/// Whether the bytes are a good block of either edition.
pub fn is_good(block: &[u8]) -> bool {
    summary(block).is_ok()
}
