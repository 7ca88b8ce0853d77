//! Blocks as text. What is read and written is the library's; what is told besides is found here: what may stand where a text is at fault, which statement stands where, and
//! the maker's names.

pub mod fault;
mod hint;
pub mod place;
pub mod refused;
pub mod source;
pub mod token;
pub mod written;

use crate::layout::BLOCK_MOST;
use foldheron::{Refusal, TEXT_MOST};

/// The number of a text that is outside the grammar, or has a name undeclared or declared again.
pub const TEXT: u16 = 15;

/// The block that a text stands for.
pub fn read(text: &[u8]) -> Result<Vec<u8>, Refusal> {
    let mut block = [0; BLOCK_MOST];
    foldheron::read_text(text, &mut block).map(|block| block.to_vec())
}

/// The text of a block, as the library writes it.
pub fn write(block: &[u8]) -> Result<Vec<u8>, Refusal> {
    let mut text = vec![0; TEXT_MOST];
    foldheron::write_text(block, &mut text).map(|text| text.to_vec())
}
