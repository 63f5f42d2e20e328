//! Random plans: feasible, full, just fitting at one port, one cell over, and wild ones.

use crate::flows::{flow, Flow, Plan};
use crate::random::Random;

#[derive(Clone, Copy, Debug)]
pub struct Size {
    pub frame: u32,
    pub ports: u32,
    pub flows: u32,
}

pub fn size(frame: u32, ports: u32, flows: u32) -> Size {
    Size { frame, ports, flows }
}

fn plan(size: Size, flows: Vec<Flow>) -> Plan {
    Plan { frame: size.frame, ports: size.ports, flows }
}

/// Whole numbers from 1 up with the given sum.
fn parts(random: &mut Random, sum: u32, count: u32) -> Vec<u32> {
    let mut cuts: Vec<u32> = (1..sum).collect();
    random.shuffle(&mut cuts);
    cuts.truncate(count as usize - 1);
    cuts.extend([0, sum]);
    cuts.sort_unstable();
    cuts.windows(2).map(|ends| ends[1] - ends[0]).collect()
}

fn permutation(random: &mut Random, ports: u32) -> Vec<u32> {
    let mut order: Vec<u32> = (1..=ports).collect();
    random.shuffle(&mut order);
    order
}

/// A port that has room, if any.
fn with_room(random: &mut Random, rooms: &[u32]) -> Option<usize> {
    let open: Vec<usize> = (0..rooms.len()).filter(|&port| rooms[port] > 0).collect();
    (!open.is_empty()).then(|| random.pick(&open))
}

/// No port over the frame; some may be full.
pub fn feasible(random: &mut Random, size: Size) -> Plan {
    let mut inputs = vec![size.frame; size.ports as usize];
    let mut outputs = inputs.clone();
    let fair = (2 * size.frame * size.ports / size.flows.max(1)).max(1);
    let mut flows = Vec::new();
    for _ in 0..size.flows {
        let Some(input) = with_room(random, &inputs) else {
            break;
        };
        let Some(output) = with_room(random, &outputs) else {
            break;
        };
        let most = inputs[input].min(outputs[output]).min(fair);
        let cells = random.between(1, most);
        inputs[input] -= cells;
        outputs[output] -= cells;
        flows.push(flow(input as u32 + 1, output as u32 + 1, cells));
    }
    plan(size, flows)
}

/// Every input and every output full: permutations, weighted so that the frame is their sum.
/// There must be at least as many flows as ports.
pub fn full(random: &mut Random, size: Size) -> Plan {
    let most = (size.flows / size.ports).min(size.frame);
    let count = random.between(1, most);
    let mut flows = Vec::new();
    for cells in parts(random, size.frame, count) {
        let outputs = permutation(random, size.ports);
        flows.extend((1..).zip(outputs).map(|(input, output)| flow(input, output, cells)));
    }
    split(random, &mut flows, size.flows as usize);
    random.shuffle(&mut flows);
    plan(size, flows)
}

/// Splits flows in two, so that pairs are shared, up to the wanted count of flows.
fn split(random: &mut Random, flows: &mut Vec<Flow>, wanted: usize) {
    for _ in flows.len()..wanted {
        let place = random.place(flows.len());
        let old = flows[place];
        if old.cells > 1 {
            let part = random.between(1, old.cells - 1);
            flows[place].cells = part;
            flows.push(Flow { cells: old.cells - part, ..old });
        }
    }
}

/// One output with exactly `load` cells (the frame, or one more), no input over.
/// With one port the input has them all too.
pub fn funnel(random: &mut Random, size: Size, load: u32) -> Plan {
    let output = random.between(1, size.ports);
    let inputs = permutation(random, size.ports);
    // A single flow cannot have more cells than the frame, so a load above it is shared.
    let least = 2.min(load);
    let count = random.between(least, size.ports.clamp(least, load));
    let cells = parts(random, load, count);
    let flows = cells.into_iter().zip(inputs.into_iter().cycle());
    plan(size, flows.map(|(cells, input)| flow(input, output, cells)).collect())
}

/// The same seen from the other side: what was an output is an input.
pub fn mirrored(mut plan: Plan) -> Plan {
    for f in &mut plan.flows {
        std::mem::swap(&mut f.input, &mut f.output);
    }
    plan
}

/// A full plan with one cell more on some flow that can take it.
pub fn one_over(random: &mut Random, size: Size) -> Plan {
    let mut plan = full(random, size);
    if let Some(f) = plan.flows.iter_mut().find(|f| f.cells < size.frame) {
        f.cells += 1;
    }
    plan
}

/// Flows in range with no regard to loads.
pub fn wild(random: &mut Random, size: Size) -> Plan {
    let fair = (3 * size.frame * size.ports / size.flows.max(1)).clamp(1, size.frame);
    let mut port = || random.between(1, size.ports);
    let pairs: Vec<(u32, u32)> = (0..size.flows).map(|_| (port(), port())).collect();
    let mut one = |(input, output)| flow(input, output, random.between(1, fair));
    plan(size, pairs.into_iter().map(&mut one).collect())
}

#[cfg(test)]
mod tests {
    use super::*;
    use crate::answer::no_at;
    use crate::flows::loads_fit;

    fn sizes(random: &mut Random) -> Size {
        let ports = random.between(1, 32);
        size(random.between(1, 40), ports, random.between(ports, 255))
    }

    #[test]
    fn feasible_and_full_plans_fit() {
        let mut random = Random::new(3);
        for _ in 0..300 {
            let size = sizes(&mut random);
            assert_eq!(loads_fit(&feasible(&mut random, size)), Ok(()));
            let plan = full(&mut random, size);
            assert_eq!(loads_fit(&plan), Ok(()));
            assert!(plan.flows.len() <= 255);
            let cells: u32 = plan.flows.iter().map(|f| f.cells).sum();
            assert_eq!(cells, size.frame * size.ports);
        }
    }

    #[test]
    fn a_funnel_fits_or_is_one_over_at_its_output() {
        let mut random = Random::new(4);
        for _ in 0..300 {
            let size = Size { ports: random.between(2, 32), ..sizes(&mut random) };
            assert_eq!(loads_fit(&funnel(&mut random, size, size.frame)), Ok(()));
            let over = funnel(&mut random, size, size.frame + 1);
            let (input, output) = (over.flows[0].input, over.flows[0].output);
            assert_eq!(loads_fit(&over), Err(no_at(6, output as usize)));
            assert_eq!(loads_fit(&mirrored(over)), Err(no_at(5, output as usize)));
            assert!(input <= size.ports);
        }
    }

    #[test]
    fn one_cell_over_a_full_plan_is_refused() {
        let mut random = Random::new(5);
        let plan = one_over(&mut random, size(10, 4, 12));
        assert_eq!(loads_fit(&plan).map_err(|refusal| refusal.number), Err(5));
    }
}
