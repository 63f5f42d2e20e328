//! A reference planner with the exchange of document 01 (König): it shows that the harness
//! works, and is the exact builder of the evaluation. Its tables are judged like any other.

use crate::flows::{loads_fit, Plan};
use crate::text::plan_of;

/// Cells per frame by input and output, both from 0.
pub type Demand = Vec<Vec<u32>>;

/// One bit a slot, set while the port is free there.
struct Free(Vec<u64>);

impl Free {
    fn all(frame: usize) -> Free {
        let mut words = vec![u64::MAX; frame / 64];
        let rest = frame % 64;
        if rest > 0 {
            words.push((1 << rest) - 1);
        }
        Free(words)
    }

    fn at(&self, slot: usize) -> bool {
        self.0[slot / 64] >> (slot % 64) & 1 == 1
    }

    fn set(&mut self, slot: usize, free: bool) {
        let bit = 1 << (slot % 64);
        if free {
            self.0[slot / 64] |= bit;
        } else {
            self.0[slot / 64] &= !bit;
        }
    }

    fn first(&self) -> Option<usize> {
        self.first_with(self)
    }

    fn first_with(&self, other: &Free) -> Option<usize> {
        let both = self.0.iter().zip(&other.0).map(|(a, b)| a & b);
        let (place, word) = both.enumerate().find(|&(_, word)| word != 0)?;
        Some(place * 64 + word.trailing_zeros() as usize)
    }
}

/// One side of the switch: what each port is joined to in each slot, where it is not free.
struct Side {
    peer: Vec<Vec<usize>>,
    free: Vec<Free>,
}

impl Side {
    fn new(frame: usize, ports: usize) -> Side {
        Side {
            peer: vec![vec![0; frame]; ports],
            free: (0..ports).map(|_| Free::all(frame)).collect(),
        }
    }

    fn peer(&self, port: usize, slot: usize) -> Option<usize> {
        (!self.free[port].at(slot)).then(|| self.peer[port][slot])
    }

    fn join(&mut self, port: usize, slot: usize, peer: usize) {
        self.peer[port][slot] = peer;
        self.free[port].set(slot, false);
    }
}

/// A table in the making, by pairs of ports.
pub struct Schedule {
    inputs: Side,
    outputs: Side,
}

impl Schedule {
    /// The demand's loads must fit the frame.
    pub fn of(frame: usize, demand: &Demand) -> Schedule {
        let side = || Side::new(frame, demand.len());
        let mut schedule = Schedule { inputs: side(), outputs: side() };
        for (input, row) in demand.iter().enumerate() {
            for (output, &cells) in row.iter().enumerate() {
                for _ in 0..cells {
                    schedule.add(input, output);
                }
            }
        }
        schedule
    }

    /// The input that the output fetches from in the slot.
    pub fn input_at(&self, output: usize, slot: usize) -> Option<usize> {
        self.outputs.peer(output, slot)
    }

    fn join(&mut self, input: usize, output: usize, slot: usize) {
        self.inputs.join(input, slot, output);
        self.outputs.join(output, slot, input);
    }

    /// Both ends have a free slot, since their loads fit with this cell counted.
    fn add(&mut self, input: usize, output: usize) {
        let (at_input, at_output) = (&self.inputs.free[input], &self.outputs.free[output]);
        if let Some(slot) = at_input.first_with(at_output) {
            return self.join(input, output, slot);
        }
        let p = at_input.first().expect("the input's load fits");
        let q = at_output.first().expect("the output's load fits");
        self.exchange(output, p, q);
        self.join(input, output, p);
    }

    /// Frees `p` at an output that is free at `q`. The run enters inputs by `p`, so it never
    /// comes to an input that is free at `p`.
    fn exchange(&mut self, output: usize, p: usize, q: usize) {
        let run = self.run(output, p, q);
        for &(input, output, slot) in &run {
            self.inputs.free[input].set(slot, true);
            self.outputs.free[output].set(slot, true);
        }
        for (input, output, slot) in run {
            self.join(input, output, if slot == p { q } else { p });
        }
    }

    fn run(&self, mut output: usize, p: usize, q: usize) -> Vec<(usize, usize, usize)> {
        let mut run = Vec::new();
        while let Some(input) = self.outputs.peer(output, p) {
            run.push((input, output, p));
            match self.inputs.peer(input, q) {
                Some(next) => output = next,
                None => break,
            }
            run.push((input, output, q));
        }
        run
    }
}

fn demand_of(plan: &Plan) -> Demand {
    let mut demand = vec![vec![0; plan.ports as usize]; plan.ports as usize];
    for f in &plan.flows {
        demand[f.input as usize - 1][f.output as usize - 1] += f.cells;
    }
    demand
}

/// An accepted table for a plan whose loads fit: a pair's slots go to its flows in turn.
pub fn table_of(plan: &Plan) -> Vec<u8> {
    let (frame, ports) = (plan.frame as usize, plan.ports as usize);
    let schedule = Schedule::of(frame, &demand_of(plan));
    let mut left: Vec<u32> = plan.flows.iter().map(|f| f.cells).collect();
    let mut entry = |input: usize, output: usize| {
        let of_pair = |k: &usize| {
            let f = plan.flows[*k];
            (f.input as usize, f.output as usize) == (input + 1, output + 1) && left[*k] > 0
        };
        let flow = (0..left.len()).find(of_pair).expect("a pair has as many slots as cells");
        left[flow] -= 1;
        flow as u8 + 1
    };
    let places = (0..ports).flat_map(|output| (0..frame).map(move |slot| (output, slot)));
    places
        .map(|(output, slot)| schedule.input_at(output, slot).map_or(0, |i| entry(i, output)))
        .collect()
}

/// A done answer as the planner writes it.
pub fn table_shown(frame: usize, table: &[u8]) -> Vec<u8> {
    let mut output = String::from("answer=0,0\n");
    for row in table.chunks(frame) {
        let entries: Vec<String> = row.iter().map(|entry| entry.to_string()).collect();
        output += &format!("out={}\n", entries.join(","));
    }
    output.into_bytes()
}

/// The whole planner: a plan text in, its answer out.
pub fn reference(text: &[u8]) -> Vec<u8> {
    match plan_of(text).and_then(|plan| loads_fit(&plan).map(|()| plan)) {
        Ok(plan) => table_shown(plan.frame as usize, &table_of(&plan)),
        Err(refusal) => format!("answer={refusal}\n").into_bytes(),
    }
}

#[cfg(test)]
mod tests {
    use super::*;

    #[test]
    fn document_01_program_output() {
        let text = b"frame=1\nports=2\nflow=1,2,1\nflow=2,1,1\n";
        assert_eq!(reference(text), b"answer=0,0\nout=2\nout=1\n");
        assert_eq!(reference(b"frame=5"), b"answer=20,7\n");
        assert_eq!(reference(b"frame=2\nports=2\n"), b"answer=0,0\nout=0,0\nout=0,0\n");
    }

    /// First come, first placed would find no slot for the last cell.
    #[test]
    fn a_cell_without_a_common_free_slot_gets_one() {
        let demand = vec![vec![1, 1, 0], vec![1, 0, 1], vec![0, 1, 1]];
        let schedule = Schedule::of(2, &demand);
        for (input, row) in demand.iter().enumerate() {
            for (output, &cells) in row.iter().enumerate() {
                let slots = (0..2).filter(|&s| schedule.input_at(output, s) == Some(input));
                assert_eq!(slots.count(), cells as usize);
            }
        }
    }
}
