//! Records in house form: their bytes and shapes, and the header's tests.

use super::table::Table;

/// A number and a place.
pub type Refused = (u16, usize);

/// A statement's record, of the right form.
pub struct Record {
    pub kind: u16,
    pub operand: u16,
    pub length: usize,
    pub children: u16,
}

pub fn word(bytes: &[u8], at: usize) -> u16 {
    u16::from_le_bytes([bytes[at], bytes[at + 1]])
}

/// Fewer than 4 bytes from a place on, or a length below 4 or above what is left.
fn is_broken(bytes: &[u8], at: usize) -> bool {
    let left = bytes.len() - at;
    left < 4 || word(bytes, at) < 4 || usize::from(word(bytes, at)) > left
}

/// A kind's record length and number of children.
fn shape(kind: u16) -> Option<(usize, u16)> {
    match kind {
        16 | 17 => Some((4, 0)),
        22 | 24 => Some((4, 1)),
        21 | 23 => Some((4, 2)),
        18 | 25 => Some((6, 0)),
        20 | 26 => Some((6, 1)),
        19 => Some((6, 2)),
        _ => None,
    }
}

/// What the header declares, tested for 1 to 4.
pub fn header(bytes: &[u8], table: &mut Table) -> Result<(), Refused> {
    if is_broken(bytes, 0) {
        return Err((1, 0));
    }
    if word(bytes, 0) != 14 || word(bytes, 2) != 1 {
        return Err((2, 0));
    }
    if word(bytes, 4) != 1 {
        return Err((3, 0));
    }
    let (inputs, outputs, locals) = (word(bytes, 8), word(bytes, 10), word(bytes, 12));
    if u32::from(inputs) + u32::from(outputs) + u32::from(locals) > 64 {
        return Err((4, 0));
    }
    (table.version, table.inputs, table.outputs, table.locals) = (word(bytes, 6), inputs, outputs, locals);
    Ok(())
}

/// The record of a statement that is due, tested for 7, 1 and 2.
pub fn record(bytes: &[u8], at: usize) -> Result<Record, Refused> {
    if at == bytes.len() {
        return Err((7, at));
    }
    if is_broken(bytes, at) {
        return Err((1, at));
    }
    let (length, kind) = (usize::from(word(bytes, at)), word(bytes, at + 2));
    match shape(kind) {
        Some((due, children)) if due == length => {
            let operand = if length == 6 { word(bytes, at + 4) } else { 0 };
            Ok(Record { kind, operand, length, children })
        }
        _ => Err((2, at)),
    }
}

/// The place of statement n: after the header and the records before it.
pub fn place(table: &Table, n: usize) -> usize {
    let lengths = table.rows[..n].iter().filter_map(|row| shape(row.kind)).map(|(length, _)| length);
    14 + lengths.sum::<usize>()
}
