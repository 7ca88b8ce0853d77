//! What a block that is written from another would have, the doubled one or the conversion, counted over the tree of the block: to say which limit it passes and by how much.
//! Whether it passes one is the library's to say.

use crate::layout::{PATH, PAUSES, SIGNALS, STATEMENTS, TRAPS};
use crate::walk::{grouped, walk, Statement};

/// Counts of a statement as it would be written.
#[derive(Clone, Copy, Default, PartialEq, Eq, Debug)]
struct Size {
    statements: u64,
    pauses: u64,
    locals: u64,
    /// The most that stand on one path, and the most traps inside each other.
    path: u64,
    traps: u64,
}

/// A statement with nothing below it that is no pause; a pause; and what a trap adds to its body.
const PLAIN: Size = Size { statements: 1, pauses: 0, locals: 0, path: 1, traps: 0 };
const PAUSE: Size = Size { pauses: 1, ..PLAIN };
const TRAP: Size = Size { traps: 1, ..PLAIN };

impl Size {
    fn beside(self, other: Size) -> Size {
        Size {
            statements: self.statements.saturating_add(other.statements),
            pauses: self.pauses.saturating_add(other.pauses),
            locals: self.locals.saturating_add(other.locals),
            path: self.path.max(other.path),
            traps: self.traps.max(other.traps),
        }
    }

    fn under(self, one: Size) -> Size {
        let (path, traps) = (self.path + one.path, self.traps + one.traps);
        Size { path, traps, ..self.beside(one) }
    }
}

pub struct Grown {
    pub loops: u64,
    size: Size,
    declared: u64,
}

impl Grown {
    /// The block with each loop's body twice.
    pub fn doubled(block: &[u8]) -> Grown {
        Grown::of(block, doubled)
    }

    /// The conversion of a block of edition 2.
    pub fn converted(block: &[u8]) -> Grown {
        Grown::of(block, converted)
    }

    /// The size of a block of which a statement over the size of its parts is written in this way.
    fn of(block: &[u8], written: fn(&Statement, Size) -> Size) -> Grown {
        let walk = walk(block, block.len());
        let loops = walk.statements.iter().filter(|s| s.kind.name == "loop").count() as u64;
        let declared = walk.header.map_or(0, |header| u64::from(header.inputs) + u64::from(header.outputs));
        // From the last statement to the first: the size of each that has no statement above it yet.
        let mut sizes: Vec<Size> = Vec::new();
        for statement in walk.statements.iter().rev() {
            let at = sizes.len().saturating_sub(statement.kind.parts.len());
            let inside = sizes.drain(at..).fold(Size::default(), Size::beside);
            sizes.push(written(statement, inside));
        }
        Grown { loops, size: sizes.pop().unwrap_or_default(), declared }
    }

    /// The limits that are passed, each in words.
    pub fn passed(&self) -> Vec<String> {
        let size = self.size;
        let counts = [
            (size.locals.saturating_add(self.declared), "signals", SIGNALS),
            (size.statements, "statements", STATEMENTS),
            (size.pauses, "pauses", PAUSES),
            (size.path, "statements on a path", PATH),
            (size.traps, "traps inside each other", TRAPS),
        ];
        let over = counts.iter().filter(|(count, _, most)| *count > *most as u64);
        over.map(|(count, what, most)| format!("{} {}, and {} are the most{}", told(*count), what, most, too_many(*count, *most as u64))).collect()
    }
}

/// Above this a number is only said to be large.
const LARGE: u64 = 1_000_000;

/// A number, or that it is large.
fn told(count: u64) -> String {
    if count > LARGE {
        "over a million".to_string()
    } else {
        grouped(count)
    }
}

/// By how many a limit is passed, where the number is told.
fn too_many(count: u64, most: u64) -> String {
    Some(count - most).filter(|_| count <= LARGE).map_or(String::new(), |more| format!(" ({} too many)", grouped(more)))
}

/// A statement that is written as it stands.
fn kept(statement: &Statement, inside: Size) -> Size {
    match statement.kind.name {
        "pause" => PAUSE,
        "trap" => inside.under(TRAP),
        "local" => inside.under(Size { locals: 1, ..PLAIN }),
        _ => inside.under(PLAIN),
    }
}

/// A loop has its body twice, under a sequence.
fn doubled(statement: &Statement, inside: Size) -> Size {
    match statement.kind.name {
        "loop" => inside.beside(inside).under(PLAIN).under(PLAIN),
        _ => kept(statement, inside),
    }
}

/// loop (pause; present s then exit 0 else nothing)
fn watch() -> Size {
    let test = PLAIN.beside(PLAIN).under(PLAIN);
    PAUSE.beside(test).under(PLAIN).under(PLAIN)
}

/// The four of edition 2 as the forms that stand for them.
fn converted(statement: &Statement, inside: Size) -> Size {
    match statement.kind.name {
        "halt" => PAUSE.under(PLAIN),
        "sustain" => PLAIN.beside(PAUSE).under(PLAIN).under(PLAIN),
        "await" => watch().under(TRAP),
        "abort" => inside.under(PLAIN).beside(PLAIN).under(PLAIN).beside(watch()).under(PLAIN).under(TRAP),
        _ => kept(statement, inside),
    }
}

#[cfg(test)]
mod tests {
    use super::*;

    /// Loops inside each other around a pause.
    fn nested(loops: usize) -> Vec<u8> {
        let mut block = vec![14, 0, 1, 0, 1, 0, 7, 0, 0, 0, 0, 0, 0, 0];
        (0..loops).for_each(|_| block.extend([4, 0, 22, 0]));
        block.extend([4, 0, 17, 0]);
        block
    }

    #[test]
    fn loops_inside_each_other() {
        let size = |loops| Grown::doubled(&nested(loops)).size;
        assert_eq!(size(0), PAUSE);
        assert_eq!(size(1), Size { statements: 4, pauses: 2, path: 3, ..PLAIN });
        assert_eq!(size(2), Size { statements: 10, pauses: 4, path: 5, ..PLAIN });
        assert_eq!(size(63).path, 127);
    }

    #[test]
    fn limits() {
        assert!(Grown::doubled(&nested(7)).passed().is_empty());
        assert_eq!(Grown::doubled(&nested(8)).passed(), ["766 statements, and 512 are the most (254 too many)", "256 pauses, and 128 are the most (128 too many)"]);
        assert_eq!(Grown::doubled(&nested(63)).passed()[0], "over a million statements, and 512 are the most");
    }

    /// A block of edition 2 with one input and one output, of these records.
    fn everyday(records: &[&[u8]]) -> Vec<u8> {
        [vec![14, 0, 1, 0, 2, 0, 7, 0, 1, 0, 1, 0, 0, 0], records.concat()].concat()
    }

    const HALT: &[u8] = &[4, 0, 32, 0];
    const AWAIT: &[u8] = &[6, 0, 34, 0, 0, 0];
    const ABORT: &[u8] = &[6, 0, 35, 0, 0, 0];

    #[test]
    fn the_four_forms() {
        let size = |records: &[&[u8]]| Grown::converted(&everyday(records)).size;
        assert_eq!(size(&[HALT]), Size { statements: 2, pauses: 1, path: 2, ..PLAIN });
        assert_eq!(size(&[&[6, 0, 33, 0, 1, 0]]), Size { statements: 4, pauses: 1, path: 3, ..PLAIN });
        assert_eq!(size(&[AWAIT]), Size { statements: 7, pauses: 1, path: 5, traps: 1, ..PLAIN });
        assert_eq!(size(&[ABORT, HALT]), Size { statements: 13, pauses: 2, path: 6, traps: 1, ..PLAIN });
        assert_eq!(size(&[ABORT, ABORT, AWAIT]), Size { statements: 29, pauses: 3, path: 13, traps: 3, ..PLAIN });
    }

    #[test]
    fn aborts_inside_each_other() {
        let nested = |aborts| Grown::converted(&everyday(&[vec![ABORT; aborts], vec![HALT]].concat())).passed();
        assert!(nested(15).is_empty());
        assert_eq!(nested(16), ["66 statements on a path, and 64 are the most (2 too many)"]);
        assert_eq!(nested(17)[1], "17 traps inside each other, and 16 are the most (1 too many)");
    }
}
