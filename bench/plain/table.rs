//! A block as a table: its statements in preorder.

use super::values::Event;

pub const ROWS: usize = 512;

/// One statement in 8 bytes, so that a visit reads one place in memory.
#[derive(Clone, Copy)]
pub struct Row {
    pub kind: u16,
    /// A signal, an exit's depth, or a pause's number.
    pub operand: u16,
    /// How many statements: itself and all below it.
    pub size: u16,
    /// It holds an active pause.
    pub active: bool,
}

pub struct Table {
    pub version: u16,
    pub inputs: u16,
    pub outputs: u16,
    pub locals: u16,
    pub statements: usize,
    pub pauses: u16,
    pub rows: [Row; ROWS],
}

impl Table {
    pub fn empty() -> Table {
        let row = Row { kind: 0, operand: 0, size: 0, active: false };
        Table { version: 0, inputs: 0, outputs: 0, locals: 0, statements: 0, pauses: 0, rows: [row; ROWS] }
    }

    /// The second child's number; the first child's is the next one.
    pub fn second(&self, at: usize) -> usize {
        at + 1 + usize::from(self.rows[at + 1].size)
    }

    /// Notes which statements hold an active pause, from the last to the first, so that children come before their parent.
    pub fn activate(&mut self, pauses: u128) {
        for at in (0..self.statements).rev() {
            let row = self.rows[at];
            self.rows[at].active = match row.kind {
                17 => pauses >> row.operand & 1 == 1,
                16 | 18 | 25 => false,
                19 | 21 | 23 => self.rows[at + 1].active || self.rows[self.second(at)].active,
                _ => self.rows[at + 1].active,
            };
        }
    }

    /// The branch of a present that counts: the active one when resumed, else the one that a known status chooses.
    pub fn branch(&self, at: usize, resumed: bool, e: Event) -> Option<usize> {
        let s = self.rows[at].operand;
        if if resumed { self.rows[at + 1].active } else { e.is_present(s) } {
            Some(at + 1)
        } else if resumed || e.is_absent(s) {
            Some(self.second(at))
        } else {
            None
        }
    }
}
