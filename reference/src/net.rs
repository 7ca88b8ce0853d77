//! A net of gates in three-valued logic: a wire is 0, 1 or not known.

/// The number of the gate that drives it.
pub type Wire = usize;

#[derive(Clone, Debug)]
enum Gate {
    /// An input or a register: its value comes from outside.
    Given,
    /// 1 where there is no input.
    And(Vec<Wire>),
    /// 0 where there is no input.
    Or(Vec<Wire>),
    Not(Wire),
}

#[derive(Clone, Debug, Default)]
pub struct Net {
    gates: Vec<Gate>,
}

impl Net {
    fn put(&mut self, gate: Gate) -> Wire {
        self.gates.push(gate);
        self.gates.len() - 1
    }

    pub fn given(&mut self) -> Wire {
        self.put(Gate::Given)
    }

    pub fn and(&mut self, from: &[Wire]) -> Wire {
        self.put(Gate::And(from.to_vec()))
    }

    pub fn or(&mut self, from: &[Wire]) -> Wire {
        self.put(Gate::Or(from.to_vec()))
    }

    pub fn not(&mut self, from: Wire) -> Wire {
        self.put(Gate::Not(from))
    }

    pub fn zero(&mut self) -> Wire {
        self.or(&[])
    }

    /// One input more for an or that was put before what drives it.
    pub fn feed(&mut self, or: Wire, from: Wire) {
        match &mut self.gates[or] {
            Gate::Or(all) => all.push(from),
            _ => unreachable!("only an or is fed later"),
        }
    }

    /// From all unknown to the fixed point, with what is given; a wire that is not given stays unknown.
    pub fn settle(&self, given: &[(Wire, bool)]) -> Vec<Option<bool>> {
        let mut values = vec![None; self.gates.len()];
        given.iter().for_each(|&(wire, value)| values[wire] = Some(value));
        let mut settled = false;
        while !settled {
            settled = true;
            for (wire, gate) in self.gates.iter().enumerate() {
                let value = value_of(gate, &values);
                if values[wire].is_none() && value.is_some() {
                    values[wire] = value;
                    settled = false;
                }
            }
        }
        values
    }
}

/// One input decides where it can; else all have to be known.
fn value_of(gate: &Gate, values: &[Option<bool>]) -> Option<bool> {
    let decided = |all: &[Wire], by: bool| {
        if all.iter().any(|&wire| values[wire] == Some(by)) {
            return Some(by);
        }
        if all.iter().all(|&wire| values[wire].is_some()) { Some(!by) } else { None }
    };
    match gate {
        Gate::Given => None,
        Gate::And(all) => decided(all, false),
        Gate::Or(all) => decided(all, true),
        Gate::Not(wire) => values[*wire].map(|value| !value),
    }
}
