//! The last test of a block: no loop body may complete with 0 when started.

use crate::block::{Form, Statement};
use crate::codes::{down_all, exit_code, maxima, Depth};
use crate::fault::Fault;

/// The offset of the lowest loop whose body may complete with 0.
pub fn loop_at_fault(root: &Statement, fault: Fault) -> Option<usize> {
    let mut found = Vec::new();
    collect(root, fault, &mut found);
    match fault {
        Fault::LoopUnchecked => None,
        Fault::LoopHighest => found.last().copied(),
        _ => found.first().copied(),
    }
}

/// Loops at fault in preorder, which is the order of their offsets; reached or not, each counts.
fn collect(p: &Statement, fault: Fault, found: &mut Vec<usize>) {
    if p.form == Form::Loop && codes(&p.parts[0], fault, 0) & 1 == 1 {
        found.push(p.offset);
    }
    p.parts.iter().for_each(|part| collect(part, fault, found));
}

/// The codes can gives a started statement while every signal, locals too, is held unknown.
fn codes(p: &Statement, fault: Fault, absent: u128) -> u32 {
    let part = |n: usize| codes(&p.parts[n], fault, absent);
    match p.form {
        Form::Nothing | Form::Emit => 1,
        Form::Pause | Form::Halt | Form::Sustain | Form::Await => 2,
        Form::Exit => 1 << exit_code(Depth(p.operand)),
        Form::Present if absent >> p.operand & 1 == 1 => part(1),
        Form::Present => part(0) | part(1),
        Form::Suspend | Form::Abort => part(0),
        Form::Sequence => match part(0) {
            first if first & 1 == 1 => first & !1 | part(1),
            first => first,
        },
        // A loop's own codes are its body's without 0.
        Form::Loop if fault == Fault::LoopOwnKeepsZero => part(0),
        Form::Loop => part(0) & !1,
        Form::Parallel => maxima(part(0), part(1)),
        Form::Trap => down_all(part(0)),
        Form::Local if fault == Fault::LoopLocalAbsent && !emits(p, p.operand) => {
            codes(&p.parts[0], fault, absent | 1 << p.operand)
        }
        Form::Local => part(0),
    }
}

fn emits(p: &Statement, signal: u16) -> bool {
    p.form == Form::Emit && p.operand == signal || p.parts.iter().any(|part| emits(part, signal))
}
