//! Reading a block into a table, with the refusals 1 to 8.

use super::loops::lowest_endless;
use super::records::{header, place, record, Record, Refused};
use super::table::{Row, Table, ROWS};

/// What stands around a statement; `path` counts the statement itself.
#[derive(Clone, Copy)]
struct Around {
    path: u16,
    traps: u16,
    nested: u16,
    scope: u64,
}

struct Reader<'a> {
    bytes: &'a [u8],
    at: usize,
    declared: u16,
    table: &'a mut Table,
}

/// Fills an empty table with a good block.
pub fn read(bytes: &[u8], table: &mut Table) -> Result<(), Refused> {
    if bytes.len() > 3086 {
        return Err((4, 0));
    }
    header(bytes, table)?;
    let mut reader = Reader { bytes, at: 14, declared: 0, table };
    reader.statement(Around { path: 1, traps: 0, nested: 0, scope: 0 })?;
    if reader.at != bytes.len() || reader.declared != reader.table.locals {
        return Err((7, reader.at));
    }
    match lowest_endless(table) {
        Some(n) => Err((8, place(table, n))),
        None => Ok(()),
    }
}

impl Reader<'_> {
    /// One of the limits is passed.
    fn is_over(&self, kind: u16, around: Around) -> bool {
        self.table.statements >= ROWS
            || around.path > 64
            || kind == 17 && self.table.pauses >= 128
            || kind == 24 && around.traps >= 16
            || kind == 26 && around.nested >= 6
    }

    /// The signal may not stand here.
    fn is_wrong_signal(&self, kind: u16, s: u16, around: Around) -> bool {
        let (inputs, others) = (self.table.inputs, self.table.inputs + self.table.outputs);
        let is_here = s < others || s < 64 && around.scope >> s & 1 == 1;
        match kind {
            18 => s < inputs || !is_here,
            19 | 20 => !is_here,
            26 => self.declared >= self.table.locals || s != others + self.declared,
            _ => false,
        }
    }

    /// A statement, and directly after it its children.
    fn statement(&mut self, around: Around) -> Result<(), Refused> {
        let Record { kind, operand, length, children } = record(self.bytes, self.at)?;
        if self.is_over(kind, around) {
            return Err((4, self.at));
        }
        if self.is_wrong_signal(kind, operand, around) {
            return Err((5, self.at));
        }
        if kind == 25 && operand >= around.traps {
            return Err((6, self.at));
        }
        let n = self.table.statements;
        let operand_kept = if kind == 17 { self.table.pauses } else { operand };
        self.table.rows[n] = Row { kind, operand: operand_kept, size: 0, active: false };
        self.at += length;
        self.table.statements += 1;
        self.table.pauses += u16::from(kind == 17);
        self.declared += u16::from(kind == 26);
        let below = Around {
            path: around.path + 1,
            traps: around.traps + u16::from(kind == 24),
            nested: around.nested + u16::from(kind == 26),
            scope: if kind == 26 { around.scope | 1 << operand } else { around.scope },
        };
        for _ in 0..children {
            self.statement(below)?;
        }
        self.table.rows[n].size = (self.table.statements - n) as u16;
        Ok(())
    }
}
