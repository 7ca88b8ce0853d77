//! Known blocks: the worked ones, and some by hand for rules that chance seldom meets.

use crate::block::Token;
use crate::text::read_statement;

/// Inputs, outputs and statement.
const KNOWN: [(u16, u16, &str); 19] = [
    (0, 1, "(present 0 (emit 0) nothing)"),
    (0, 1, "(present 0 (emit 0) (emit 0))"),
    (0, 1, "(seq (present 0 nothing nothing) (emit 0))"),
    (0, 1, "(trap (local 1 (seq (emit 1) (present 0 (seq (present 1 (exit 0) nothing) (emit 0)) nothing))))"),
    (0, 2, "(loop (local 2 (seq (present 2 (emit 0) (emit 1)) (seq pause (emit 2)))))"),
    (0, 1, "(seq (trap (par (exit 0) pause)) (emit 0))"),
    (1, 2, "(present 0 (present 2 (emit 1) nothing) (present 1 (emit 2) nothing))"),
    (0, 1, "(present 0 (local 1 (seq (local 2 (seq (emit 2) (present 2 nothing (emit 1)))) \
            (present 1 (emit 0) nothing))) nothing)"),
    (1, 1, "(suspend 0 (seq pause (emit 1)))"),
    (0, 0, "(local 0 (present 0 (emit 0) nothing))"),
    // A restart after an unknown suspend, under open.
    (0, 1, "(loop (seq (local 1 (seq (emit 1) (present 1 nothing (emit 0)))) (suspend 0 pause)))"),
    // The code 1 of a held body lets a parallel give the 2 that its other codes hide.
    (0, 1, "(trap (seq (trap (par (suspend 0 (seq pause (exit 1))) (seq pause (exit 0)))) (emit 0)))"),
    // An undecided local that keeps the mark plus for what stands beside it.
    (0, 1, "(local 1 (par (present 1 (emit 1) nothing) (local 2 (seq (emit 2) (present 2 nothing (emit 0))))))"),
    // The same under open.
    (0, 1, "(present 0 (local 1 (par (present 1 (emit 1) nothing) \
            (local 2 (seq (emit 2) (present 2 nothing (emit 0)))))) nothing)"),
    // Must finds a local absent only because the one inside it is known present.
    (0, 0, "(local 0 (local 1 (seq (emit 1) (present 1 (present 0 pause pause) (emit 0)))))"),
    // Under open, a local would be absent if the one inside it were taken as present, as under plus.
    (0, 1, "(present 0 nothing (local 1 (local 2 (seq (emit 2) (present 2 nothing (present 1 (emit 0) (emit 1)))))))"),
    // The same beside another output, which is then absent later, or not at all.
    (0, 2, "(present 0 nothing (local 2 (local 3 (seq (emit 3) (present 3 nothing (present 2 (emit 1) (emit 2)))))))"),
    (0, 2, "(present 1 (emit 1) (local 2 (local 3 (seq (emit 3) (present 3 nothing (present 2 (emit 0) (emit 2)))))))"),
    // A held body that keeps the mark open.
    (0, 1, "(suspend 0 (seq pause (local 1 (seq (emit 1) (present 1 pause (emit 0))))))"),
];

/// All of them, read.
pub fn known_blocks() -> Vec<(u16, u16, Vec<Token>)> {
    KNOWN.iter().map(|&(inputs, outputs, text)| (inputs, outputs, read_statement(text))).collect()
}
