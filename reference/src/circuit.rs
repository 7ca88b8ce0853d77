//! The circuit of a block, statement by statement. Into each go GO (start), RES (resume), SUSP (hold) and KILL (drop the pauses);
//! out of it come SEL (holds an active pause), one wire K for each code, and its emits. A pause is a register.
//! A statement may be left and started again in one instant by a loop, which one circuit cannot tell: loop bodies have to be doubled.

use crate::block::{Block, Form, Statement};
use crate::net::{Net, Wire};
use crate::reaction::Phase;
use crate::reason::Reached;
use crate::values::{signal_bit, Heard};

#[derive(Clone, Copy)]
struct Ins {
    go: Wire,
    res: Wire,
    susp: Wire,
    kill: Wire,
}

/// SEL, and the wires of the codes from 0 on; a code past the last has none.
struct Outs {
    sel: Wire,
    codes: Vec<Wire>,
}

/// A register's output, and what it takes over at the end of the instant.
struct Register {
    now: Wire,
    next: Wire,
}

pub struct Circuit {
    net: Net,
    go: Wire,
    res: Wire,
    inputs: u16,
    outputs: u16,
    /// The wire of each signal; a local's is set when its body is put.
    signals: Vec<Wire>,
    /// By the number of their pauses.
    registers: Vec<Register>,
    codes: Vec<Wire>,
    /// By the number of their statements.
    probes: Vec<Probe>,
}

/// What is asked of a statement: whether it is started, or resumed, and whether its test is undecided.
struct Probe {
    go: Wire,
    res: Wire,
    sel: Wire,
    form: Form,
    operand: u16,
}

/// What an instant of a circuit comes to; a register that is not known leaves no next set.
#[derive(Clone, Copy, PartialEq, Eq, Debug)]
pub struct Settled {
    pub present: u64,
    pub absent: u64,
    /// The codes whose wire is 1, and those whose wire is not 0.
    pub must: u32,
    pub can: u32,
    pub next: Option<u128>,
}

impl Circuit {
    pub fn new(block: &Block) -> Circuit {
        let mut net = Net::default();
        let (go, res, susp, kill) = (net.given(), net.given(), net.zero(), net.zero());
        let (inputs, outputs) = (block.header.inputs, block.header.outputs);
        let all = inputs + outputs + block.header.locals;
        let signals = (0..all).map(|s| if s < inputs { net.given() } else { net.zero() }).collect();
        let mut circuit =
            Circuit { net, go, res, inputs, outputs, signals, registers: Vec::new(), codes: Vec::new(), probes: Vec::new() };
        circuit.codes = circuit.put(&block.root, Ins { go, res, susp, kill }).codes;
        circuit
    }

    /// Statements are put in preorder, so each finds its probe by its number.
    fn put(&mut self, p: &Statement, ins: Ins) -> Outs {
        let probe = Probe { go: ins.go, res: ins.res, sel: ins.res, form: p.form, operand: p.operand };
        self.probes.push(probe);
        let outs = self.put_form(p, ins);
        self.probes[p.number].sel = outs.sel;
        outs
    }

    fn put_form(&mut self, p: &Statement, ins: Ins) -> Outs {
        match p.form {
            Form::Nothing => self.leaf(0, ins.go),
            Form::Exit => self.leaf(p.operand as usize + 2, ins.go),
            Form::Emit => {
                self.net.feed(self.signals[p.operand as usize], ins.go);
                self.leaf(0, ins.go)
            }
            Form::Pause => self.pause(ins),
            Form::Present => self.present(p, ins),
            Form::Suspend => self.suspend(p, ins),
            Form::Sequence => self.sequence(p, ins),
            Form::Loop => self.restart(p, ins),
            Form::Parallel => self.parallel(p, ins),
            Form::Trap => self.trap(p, ins),
            // A local's wire is its own: the or of the emits in its body.
            Form::Local => self.put(&p.parts[0], ins),
            Form::Halt | Form::Sustain | Form::Await | Form::Abort => unreachable!("a statement of edition 2"),
        }
    }

    /// Nothing to hold, and GO passed on as one code.
    fn leaf(&mut self, code: usize, go: Wire) -> Outs {
        let sel = self.net.zero();
        let codes = (0..=code).map(|k| if k == code { go } else { sel }).collect();
        Outs { sel, codes }
    }

    /// Set by GO, kept by SUSP, unless killed; RES gives 0, GO gives 1.
    fn pause(&mut self, ins: Ins) -> Outs {
        let now = self.net.given();
        let resumed = self.net.and(&[now, ins.res]);
        let held = self.net.and(&[now, ins.susp]);
        let (set, spared) = (self.net.or(&[ins.go, held]), self.net.not(ins.kill));
        let next = self.net.and(&[set, spared]);
        self.registers.push(Register { now, next });
        Outs { sel: now, codes: vec![resumed, ins.go] }
    }

    /// The signal leads GO to one branch; all else goes to both.
    fn present(&mut self, p: &Statement, ins: Ins) -> Outs {
        let s = self.signals[p.operand as usize];
        let not = self.net.not(s);
        let (yes, no) = (self.net.and(&[ins.go, s]), self.net.and(&[ins.go, not]));
        let then = self.put(&p.parts[0], Ins { go: yes, ..ins });
        let other = self.put(&p.parts[1], Ins { go: no, ..ins });
        Outs { sel: self.net.or(&[then.sel, other.sel]), codes: self.either(&then.codes, &other.codes) }
    }

    /// The signal turns RES of a body that holds a pause into SUSP and the code 1.
    fn suspend(&mut self, p: &Statement, ins: Ins) -> Outs {
        let s = self.signals[p.operand as usize];
        let (not, sel) = (self.net.not(s), self.net.zero());
        let held = self.net.and(&[ins.res, sel, s]);
        let res = self.net.and(&[ins.res, sel, not]);
        let susp = self.net.or(&[ins.susp, held]);
        let body = self.put(&p.parts[0], Ins { res, susp, ..ins });
        self.net.feed(sel, body.sel);
        let zero = self.net.zero();
        Outs { sel, codes: self.either(&body.codes, &[zero, held]) }
    }

    /// 0 of the first starts the second.
    fn sequence(&mut self, p: &Statement, ins: Ins) -> Outs {
        let first = self.put(&p.parts[0], ins);
        let second = self.put(&p.parts[1], Ins { go: first.codes[0], ..ins });
        let codes = self.without_zero(first.codes);
        Outs { sel: self.net.or(&[first.sel, second.sel]), codes: self.either(&codes, &second.codes) }
    }

    /// A loop: 0 of the body starts it again.
    fn restart(&mut self, p: &Statement, ins: Ins) -> Outs {
        let go = self.net.or(&[ins.go]);
        let body = self.put(&p.parts[0], Ins { go, ..ins });
        self.net.feed(go, body.codes[0]);
        Outs { sel: body.sel, codes: self.without_zero(body.codes) }
    }

    /// The synchronizer: a code is given where one arm gives it and the other no greater one; an arm that is idle while the
    /// other is resumed gives 0.
    fn parallel(&mut self, p: &Statement, ins: Ins) -> Outs {
        let (left, right) = (self.put(&p.parts[0], ins), self.put(&p.parts[1], ins));
        let sel = self.net.or(&[left.sel, right.sel]);
        let (one, other) = (self.with_idle(&left, sel, ins.res), self.with_idle(&right, sel, ins.res));
        let either = self.either(&one, &other);
        let mut codes = Vec::new();
        for (k, &given) in either.iter().enumerate() {
            let upto = |all: &[Wire]| all.iter().take(k + 1).copied().collect::<Vec<Wire>>();
            let (a, b) = (self.net.or(&upto(&one)), self.net.or(&upto(&other)));
            codes.push(self.net.and(&[given, a, b]));
        }
        Outs { sel, codes }
    }

    fn with_idle(&mut self, arm: &Outs, sel: Wire, res: Wire) -> Vec<Wire> {
        let not = self.net.not(arm.sel);
        let idle = self.net.and(&[res, sel, not]);
        self.either(&arm.codes, &[idle])
    }

    /// 2 kills the body and becomes 0; the codes above fall by one.
    fn trap(&mut self, p: &Statement, ins: Ins) -> Outs {
        let kill = self.net.or(&[ins.kill]);
        let Outs { sel, mut codes } = self.put(&p.parts[0], Ins { kill, ..ins });
        if codes.len() > 2 {
            let exit = codes.remove(2);
            self.net.feed(kill, exit);
            codes[0] = self.net.or(&[codes[0], exit]);
        }
        Outs { sel, codes }
    }

    /// The or of two bundles, code by code.
    fn either(&mut self, one: &[Wire], other: &[Wire]) -> Vec<Wire> {
        let at = |k: usize| [one, other].iter().filter_map(|all| all.get(k).copied()).collect::<Vec<Wire>>();
        (0..one.len().max(other.len())).map(|k| self.net.or(&at(k))).collect()
    }

    fn without_zero(&mut self, codes: Vec<Wire>) -> Vec<Wire> {
        let mut codes = codes;
        codes[0] = self.net.zero();
        codes
    }

    /// An instant from fresh or running, by the registers and inputs alone, all of them heard.
    pub fn settle(&self, phase: Phase, inputs: u64) -> Settled {
        self.settle_heard(phase, Heard::all(inputs, self.inputs))
    }

    /// The same where the wire of an input that is in neither set is not known.
    pub fn settle_heard(&self, phase: Phase, heard: Heard) -> Settled {
        let values = self.values(phase, heard);
        let outputs = self.inputs..self.inputs + self.outputs;
        let signals = |value: bool| {
            let has = |s: &u16| values[self.signals[*s as usize]] == Some(value);
            outputs.clone().filter(has).fold(0, |all, s| all | signal_bit(s))
        };
        let codes = |is: fn(Option<bool>) -> bool| {
            let bits = self.codes.iter().enumerate().filter(|pair| is(values[*pair.1]));
            bits.fold(0, |all, (k, _)| all | 1 << k)
        };
        let next = self.registers.iter().enumerate();
        let next = next.map(|(n, register)| values[register.next].map(|on| (on as u128) << n));
        Settled {
            present: signals(true),
            absent: signals(false),
            must: codes(|value| value == Some(true)),
            can: codes(|value| value != Some(false)),
            next: next.sum::<Option<u128>>(),
        }
    }

    /// Every wire at the fixed point.
    fn values(&self, phase: Phase, heard: Heard) -> Vec<Option<bool>> {
        let active = if let Phase::Running(active) = phase { active } else { 0 };
        let mut given = vec![(self.go, phase == Phase::Fresh), (self.res, active != 0)];
        let known = (0..self.inputs).filter(|&s| (heard.present | heard.absent) & signal_bit(s) != 0);
        given.extend(known.map(|s| (self.signals[s as usize], heard.present & signal_bit(s) != 0)));
        given.extend(self.registers.iter().enumerate().map(|(n, register)| (register.now, active >> n & 1 == 1)));
        self.net.settle(&given)
    }

    /// The numbers of the statements that are surely started or resumed, and of the undecided tests among them.
    pub fn reached(&self, phase: Phase, heard: Heard) -> Reached {
        let values = self.values(phase, heard);
        let on = |wire: Wire| values[wire] == Some(true);
        let mut reached = Reached::default();
        for (n, probe) in self.probes.iter().enumerate() {
            let (started, resumed) = (on(probe.go), on(probe.res) && on(probe.sel));
            if started || resumed {
                reached.all.insert(n);
            }
            let tests = probe.form == Form::Present && started || probe.form == Form::Suspend && resumed;
            if tests && values[self.signals[probe.operand as usize]].is_none() {
                reached.undecided.insert(n);
            }
        }
        reached
    }
}
