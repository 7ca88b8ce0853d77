//! Two blocks by classes of states, beside the search by levels. And the calls that compare two blocks.

use std::collections::HashMap;

use crate::all::{All, Alphabet};
use crate::alike::{Found, Two, RUN};
use crate::block::{decode, encode_tokens, Block, Form, Header};
use crate::cases::{some_edge_block, spoil, with_version, Call, Case};
use crate::chance::Chance;
use crate::edge_calls::{bad_blocks, EdgeCall};
use crate::edges::{block_of, set};
use crate::fault::{Fault, ALIKE};
use crate::generate::{some_block, Wish};
use crate::mutate::{altered, some_mixed_block};
use crate::reaction::Phase;
use crate::row::header_of;
use crate::rules::Rules;
use crate::text::write_statement;

/// What an instant is compared by: its code if it has one, and then its outputs.
type Told = Option<(u32, u64)>;

/// Every state that runs from fresh lead to, with what each set tells there and the state after it.
struct Machine {
    steps: Vec<Vec<(Told, usize)>>,
}

impl Machine {
    /// None where there are more states than this.
    fn of(block: &Block, most: usize) -> Option<Machine> {
        let rules = Rules { fault: Fault::None };
        let mut states = vec![Phase::Fresh];
        let mut places: HashMap<Phase, usize> = HashMap::from([(Phase::Fresh, 0)]);
        let mut steps = Vec::new();
        while steps.len() < states.len() {
            let state = states[steps.len()];
            let mut row = Vec::new();
            for set in 0..1u64 << block.header.inputs {
                let told = rules.react(block, state, set);
                let new = states.len();
                let place = *places.entry(told.next).or_insert(new);
                if place == new {
                    states.push(told.next);
                }
                row.push((told.code.map(|code| (code, told.present)), place));
            }
            if states.len() > most {
                return None;
            }
            steps.push(row);
        }
        Some(Machine { steps })
    }
}

/// The first of the shortest runs that tell two machines apart: states are parted by what one more instant tells, again and again.
fn parted(one: &Machine, two: &Machine) -> Option<Vec<u8>> {
    let more = one.steps.len();
    let moved = two.steps.iter().map(|row| row.iter().map(|&(told, next)| (told, next + more)).collect());
    let steps: Vec<Vec<(Told, usize)>> = one.steps.iter().cloned().chain(moved).collect();
    // Of each number of instants the classes of states that no run of so many parts.
    let mut levels: Vec<Vec<usize>> = vec![vec![0; steps.len()]];
    while levels[levels.len() - 1][0] == levels[levels.len() - 1][more] {
        let last = &levels[levels.len() - 1];
        let mut names = HashMap::new();
        let classes: Vec<usize> = steps.iter().map(|row| {
            let seen: Vec<(Told, usize)> = row.iter().map(|&(told, next)| (told, last[next])).collect();
            let new = names.len();
            *names.entry(seen).or_insert(new)
        }).collect();
        if names.len() == 1 + last.iter().max().copied().unwrap_or(0) {
            return None;
        }
        levels.push(classes);
    }
    let (mut run, mut pair) = (Vec::new(), (0, more));
    for level in (0..levels.len() - 1).rev() {
        let differs = |&set: &usize| {
            let (a, b) = (steps[pair.0][set], steps[pair.1][set]);
            a.0 != b.0 || levels[level][a.1] != levels[level][b.1]
        };
        let set = (0..steps[0].len()).find(differs).expect("the classes differ by a set");
        run.push(set as u8);
        pair = (steps[pair.0][set].1, steps[pair.1][set].1);
    }
    Some(run)
}

struct Counts {
    fault: Fault,
    pairs: usize,
    alike: usize,
    shown: usize,
    longest: usize,
    failures: Vec<String>,
}

impl Counts {
    fn new(fault: Fault) -> Counts {
        Counts { fault, pairs: 0, alike: 0, shown: 0, longest: 0, failures: Vec::new() }
    }

    fn told_once(&self) -> bool {
        self.fault != Fault::None && !self.failures.is_empty()
    }

    /// The search beside the classes.
    fn compare(&mut self, one: (&Block, &Machine), two: (&Block, &Machine)) {
        if self.told_once() {
            return;
        }
        let found = Two { blocks: [one.0, two.0], fault: self.fault }.search();
        let wanted = parted(one.1, two.1).map_or(Found::Alike, Found::Shown);
        self.pairs += 1;
        match &wanted {
            Found::Shown(run) => {
                self.shown += 1;
                self.longest = self.longest.max(run.len());
            }
            _ => self.alike += 1,
        }
        if found != wanted {
            let [one, two] = [one.0, two.0].map(|block| write_statement(&block.root.tokens()));
            self.failures.push(format!("{one} beside {two}: {found:?}, not {wanted:?}"));
        }
    }

    /// Every two blocks up to this many statements with one input and one output.
    fn small(&mut self, most: usize) {
        const FORMS: [Form; 9] = [
            Form::Nothing, Form::Pause, Form::Emit, Form::Present, Form::Suspend, Form::Sequence, Form::Loop, Form::Parallel, Form::Trap,
        ];
        let mut all = All::new(Alphabet { forms: &FORMS, inputs: 1, outputs: 1, locals: 0, lean: true });
        let mut blocks: Vec<(Block, Machine)> = Vec::new();
        for size in 1..=most {
            all.each(size, &mut |tokens| {
                let block = decode(&encode_tokens(header_of(1, 1, tokens), tokens), Fault::None).ok();
                let both = block.and_then(|block| Machine::of(&block, 100).map(|machine| (block, machine)));
                blocks.extend(both);
            });
        }
        for (n, one) in blocks.iter().enumerate() {
            blocks[n..].iter().for_each(|two| self.compare((&one.0, &one.1), (&two.0, &two.1)));
        }
    }

    /// Random blocks beside changed ones, others with the same interface, and themselves; few of them have over 200 states.
    fn random(&mut self, count: usize, chance: &mut Chance) {
        for _ in 0..count {
            let one = if chance.percent(50) { some_mixed_block(chance, 3, 24).1 } else { some_long_block(chance).1 };
            let two = some_other(&one, chance);
            if let (Some(a), Some(b)) = (Machine::of(&one, 200), Machine::of(&two, 200)) {
                self.compare((&one, &a), (&two, &b));
            }
        }
    }
}

/// A block with many pauses one after the other, so that a difference shows late.
fn some_long_block(chance: &mut Chance) -> (Vec<u8>, Block) {
    let wish = Wish { weights: [3, 1, 12, 3, 3, 2, 1], pauses: 9, ..Wish::some(chance, 8, 30) };
    some_block(chance, wish)
}

/// A block with the same interface: with a few changes, or any.
fn some_other(block: &Block, chance: &mut Chance) -> Block {
    let Header { inputs, outputs, .. } = block.header;
    if chance.percent(20) {
        let wish = Wish { inputs, outputs, ..Wish::some(chance, 1, 16) };
        return some_block(chance, wish).1;
    }
    altered(block, chance)
}

/// All pairs of small blocks up to a size and so many random ones; false if the search comes to something else than the classes.
pub fn print_alike(most: usize, count: usize, seed: u64) -> bool {
    let mut counts = Counts::new(Fault::None);
    counts.small(most);
    counts.random(count, &mut Chance::new(seed));
    counts.failures.sort_by_key(|failure| failure.len());
    counts.failures.iter().take(20).for_each(|failure| println!("failed alike: {failure}"));
    let searched = [
        Fault::SetsFromTheTop, Fault::CodesNotCompared, Fault::PresentNotCompared, Fault::RoundsCompared, Fault::ReportCompared,
        Fault::RefusedAsSilent, Fault::RefusedNeverDiffers,
    ];
    let missed = ALIKE.iter().filter(|fault| searched.contains(fault)).filter(|&&fault| {
        let mut wrong = Counts::new(fault);
        wrong.small(2);
        wrong.random(count, &mut Chance::new(seed));
        wrong.failures.is_empty()
    });
    let missed = missed.inspect(|fault| println!("{fault:?}: not told apart by {count} pairs ({})", fault.says())).count();
    let Counts { pairs, alike, shown, longest, failures, .. } = counts;
    println!("{pairs} pairs of blocks, {alike} alike, {shown} told apart by runs of up to {longest} sets; {} failed", failures.len());
    println!("{} wrong searches told apart, {missed} not", searched.len() - missed);
    failures.is_empty() && missed == 0 && alike > 0 && shown > 0
}

/// A random call: mostly two blocks that are much alike.
pub fn some_alike_case(chance: &mut Chance) -> Case {
    let (mut bytes, block) = match chance.weighed(&[40, 40, 12, 8]) {
        0 => some_mixed_block(chance, 1, 20),
        1 => some_long_block(chance),
        2 => {
            let wish = Wish { inputs: 3 + chance.below(5) as u16, ..Wish::some(chance, 4, 20) };
            some_block(chance, wish)
        }
        _ => some_edge_block(chance),
    };
    let block = with_version(&mut bytes, block, chance);
    let other = match chance.weighed(&[15, 75, 10]) {
        0 => Some(block.clone()),
        1 => Some(some_other(&block, chance)),
        _ => None,
    };
    let (mut second, other) = match other {
        Some(other) => (encode_tokens(other.header, &other.root.tokens()), other),
        None => some_mixed_block(chance, 1, 12),
    };
    with_version(&mut second, other, chance);
    for bytes in [&mut bytes, &mut second] {
        if !bytes.is_empty() && chance.percent(4) {
            spoil(bytes, chance);
        }
    }
    let room = chance.pick(&[RUN, RUN, RUN, RUN, RUN, RUN, RUN + 1, RUN + 500, RUN - 1, 0]);
    Case { block: bytes, call: Call::Alike { second, room } }
}

/// Inputs, outputs, the two statements, and the answer: number, place, whether the second block, length, and the lent bytes.
const WORKED: [(u16, u16, &str, &str, &str); 22] = [
    (0, 1, "(emit 0)", "(emit 0)", "0 0 0 0 -+400"),
    (0, 1, "(emit 0)", "nothing", "0 0 0 1 00+3ff"),
    (0, 1, "pause", "nothing", "0 0 0 1 00+3ff"),
    (0, 1, "(seq pause (emit 0))", "pause", "0 0 0 2 0000+3fe"),
    (0, 1, "(seq (emit 0) pause)", "(seq pause (emit 0))", "0 0 0 1 00+3ff"),
    (1, 1, "(present 0 (emit 1) nothing)", "nothing", "0 0 0 1 01+3ff"),
    (1, 1, "(present 0 nothing (emit 1))", "nothing", "0 0 0 1 00+3ff"),
    (2, 1, "(seq pause (present 1 (emit 2) nothing))", "pause", "0 0 0 2 0002+3fe"),
    // Both are 13; what the 13 reports and the order of the table do not count.
    (0, 1, "(present 0 (emit 0) nothing)", "(present 0 nothing (emit 0))", "0 0 0 0 -+400"),
    (0, 2, "(present 0 (emit 0) nothing)", "(par (present 0 (emit 0) nothing) (present 1 (emit 1) nothing))", "0 0 0 0 -+400"),
    (1, 2, "(present 0 (par (present 1 nothing (emit 2)) (present 2 nothing (emit 1))) nothing)",
        "(present 0 (par (present 2 nothing (emit 1)) (present 1 nothing (emit 2))) nothing)", "0 0 0 0 -+400"),
    // One is 13.
    (0, 1, "(present 0 (emit 0) nothing)", "nothing", "0 0 0 1 00+3ff"),
    (0, 1, "(present 0 (emit 0) nothing)", "pause", "0 0 0 1 00+3ff"),
    (1, 1, "(present 0 (present 1 (emit 1) nothing) nothing)", "nothing", "0 0 0 1 01+3ff"),
    // A 13 keeps the state, and the run goes on from it.
    (1, 1, "(seq (present 0 (present 1 (emit 1) nothing) nothing) (emit 1))",
        "(seq (present 0 (present 1 nothing (emit 1)) nothing) pause)", "0 0 0 1 00+3ff"),
    // Rounds do not count.
    (0, 2, "(par (emit 0) (present 0 (emit 1) nothing))", "(par (emit 0) (emit 1))", "0 0 0 0 -+400"),
    // Finished is as nothing, for ever.
    (0, 1, "nothing", "(trap (exit 0))", "0 0 0 0 -+400"),
    (0, 1, "(loop pause)", "(seq pause (seq pause (seq pause (loop pause))))", "0 0 0 0 -+400"),
    (0, 1, "(loop pause)", "(seq pause (seq pause (seq pause pause)))", "0 0 0 5 0000000000+3fb"),
    // The arms swapped: alike, though a state of one is another's in the other.
    (0, 2, "(par (seq pause (emit 0)) (seq pause (seq pause (emit 1))))", "(par (seq pause (seq pause (emit 1))) (seq pause (emit 0)))",
        "0 0 0 0 -+400"),
    (6, 1, "(present 5 (emit 6) nothing)", "nothing", "0 0 0 1 20+3ff"),
    (6, 0, "pause", "pause", "0 0 0 0 -+400"),
];

/// A ring of so many pauses that emits a signal when it comes round.
fn ring(pauses: usize, signal: u16) -> String {
    format!("(loop {}(emit {signal}){})", "(seq pause ".repeat(pauses), ")".repeat(pauses))
}

/// Two rings that come round together, after as many instants as both lengths divide, with what is done then; after so many pauses.
fn rings(before: usize, lengths: (usize, usize), then: &str) -> String {
    let met = format!("(loop (seq (present 1 (present 2 {then} nothing) nothing) pause))");
    let all = format!("(local 1 (local 2 (par {} (par {} {met}))))", ring(lengths.0, 1), ring(lengths.1, 2));
    format!("{}{all}{}", "(seq pause ".repeat(before), ")".repeat(before))
}

/// Six inputs, each of whose last two statuses are kept: 64 pairs after one instant, 4,096 after two. Beside them, O where all
/// inputs are present in so many instants from the first on.
fn kept(instants: usize, then: &str) -> String {
    let one = |i: u16| {
        let again = format!("(seq pause (present {i} pause pause))");
        format!("(loop (present {i} {again} {again}))")
    };
    let all = |body: &str| format!("{}{body}{}", (0..6).map(|i| format!("(present {i} ")).collect::<String>(), " nothing)".repeat(6));
    let watch = (0..instants).fold(then.to_string(), |body, n| if n == 0 { all(&body) } else { all(&format!("(seq pause {body})")) });
    (0..6).fold(watch, |rest, i| format!("(par {} {rest})", one(i)))
}

/// The pairs at their limit, and runs of 1,023 and 1,024 sets.
fn counted_edges() -> Vec<(Case, &'static str)> {
    let lent = |first: Vec<u8>, second: Vec<u8>| Case { block: first, call: Call::Alike { second, room: RUN } };
    // The two come round after 1,023 and after 1,020 instants; the fresh states make one pair more.
    let rung = |before: usize, then: &str| block_of(0, 1, &rings(before, (31, 33), then));
    let short = |then: &str| block_of(0, 1, &rings(2, (20, 51), then));
    let held = |instants: usize, then: &str| block_of(6, 1, &kept(instants, then));
    vec![
        (lent(rung(0, "(emit 0)"), rung(0, "nothing")), "0 0 0 400"),
        (lent(rung(0, "nothing"), rung(0, "nothing")), "0 0 0 0"),
        (lent(rung(1, "(emit 0)"), rung(1, "nothing")), "19 0 0 0"),
        (lent(rung(1, "nothing"), rung(1, "nothing")), "19 0 0 0"),
        (lent(short("(emit 0)"), short("nothing")), "0 0 0 3ff"),
        // The level that shows the difference passes 1,024 pairs, and they do not count.
        (lent(held(2, "(emit 6)"), held(2, "nothing")), "0 0 0 2 3f3f+3fe"),
        (lent(held(1, "(emit 6)"), held(1, "nothing")), "0 0 0 1 3f+3ff"),
        (lent(held(3, "(emit 6)"), held(3, "nothing")), "19 0 0 0 -+400"),
        (lent(held(2, "nothing"), held(2, "nothing")), "19 0 0 0 -+400"),
    ]
}

/// The calls that compare two blocks, at their boundaries.
pub fn alike_edges() -> Vec<EdgeCall> {
    let lent = |first: &[u8], second: &[u8], room: usize| Case { block: first.to_vec(), call: Call::Alike { second: second.to_vec(), room } };
    let mut edges: Vec<EdgeCall> = WORKED.iter().map(|&(inputs, outputs, one, two, wanted)| {
        (lent(&block_of(inputs, outputs, one), &block_of(inputs, outputs, two), RUN), wanted)
    }).collect();
    let good = block_of(0, 1, "(emit 0)");
    let of = |inputs: u16, outputs: u16| block_of(inputs, outputs, "pause");
    for (bad, wanted) in bad_blocks() {
        edges.push((lent(&bad, &good, RUN), wanted));
        edges.push((lent(&bad, &good[..3], 0), wanted));
    }
    edges.push((lent(&good, &good[..3], RUN), "1 0 1 0 -+400"));
    edges.push((lent(&good, &block_of(7, 7, "(loop nothing)"), 0), "8 e 1 0 -+0"));
    edges.push((lent(&set(&good, 6, 1), &set(&good, 6, 65535), RUN), "0 0 0 0 -+400"));
    for (one, two, room, wanted) in [
        (of(0, 1), of(1, 1), RUN, "17 0 0 0 -+400"),
        (of(1, 1), of(1, 2), RUN, "17 0 0 0 -+400"),
        (of(1, 2), of(2, 1), RUN, "17 0 0 0 -+400"),
        (of(7, 1), of(8, 1), RUN, "17 0 0 0 -+400"),
        (of(7, 1), of(7, 2), 0, "17 0 0 0 -+0"),
        (of(7, 1), of(7, 1), RUN, "18 0 0 0 -+400"),
        (of(64, 0), of(64, 0), RUN, "18 0 0 0 -+400"),
        (of(7, 1), of(7, 1), 0, "18 0 0 0 -+0"),
        (of(6, 1), of(6, 1), RUN, "0 0 0 0 -+400"),
        (of(1, 1), of(1, 1), RUN - 1, "c 0 0 0 -+3ff"),
        (of(1, 1), of(1, 1), 0, "c 0 0 0 -+0"),
        (of(1, 1), of(1, 1), RUN + 1, "0 0 0 0 -+401"),
        (of(1, 1), block_of(1, 1, "nothing"), RUN - 1, "c 0 0 0 -+3ff"),
        (of(1, 1), block_of(1, 1, "nothing"), RUN + 7, "0 0 0 1 00+406"),
        (block_of(6, 1, &kept(3, "(emit 6)")), block_of(6, 1, &kept(3, "nothing")), RUN - 1, "c 0 0 0 -+3ff"),
    ] {
        edges.push((lent(&one, &two, room), wanted));
    }
    edges.extend(counted_edges());
    edges
}
