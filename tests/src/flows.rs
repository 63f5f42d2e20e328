//! Flow lists: sizes, ranges and the load test (refusals 1 to 6).

use crate::answer::{no, no_at, refuse_if, Refusal};

pub const MOST_FRAME: u32 = 2_048;
pub const MOST_PORTS: u32 = 32;
pub const MOST_FLOWS: u32 = 255;

/// Wider than the list's 16 bits: a text may name 99999, which must not wrap into range.
#[derive(Clone, Copy, PartialEq, Eq, Debug)]
pub struct Flow {
    pub input: u32,
    pub output: u32,
    pub cells: u32,
}

#[derive(Clone, PartialEq, Eq, Debug)]
pub struct Plan {
    pub frame: u32,
    pub ports: u32,
    pub flows: Vec<Flow>,
}

pub fn flow(input: u32, output: u32, cells: u32) -> Flow {
    Flow { input, output, cells }
}

pub fn frame_fits(frame: u32) -> Result<(), Refusal> {
    refuse_if(!(1..=MOST_FRAME).contains(&frame), 1)
}

/// Refusals 1 and 2.
pub fn sizes_fit(frame: u32, ports: u32) -> Result<(), Refusal> {
    frame_fits(frame)?;
    refuse_if(!(1..=MOST_PORTS).contains(&ports), 2)
}

/// Refusal 3.
fn flows_of(list: &[u16]) -> Result<Vec<Flow>, Refusal> {
    let threes = list.chunks_exact(3);
    if !threes.remainder().is_empty() || threes.len() > MOST_FLOWS as usize {
        return Err(no(3));
    }
    let wide = |f: &[u16]| flow(f[0].into(), f[1].into(), f[2].into());
    Ok(threes.map(wide).collect())
}

/// Refusal 4.
pub fn ranges_fit(frame: u32, ports: u32, flows: &[Flow]) -> Result<(), Refusal> {
    let fits = |f: &Flow| {
        (1..=ports).contains(&f.input)
            && (1..=ports).contains(&f.output)
            && (1..=frame).contains(&f.cells)
    };
    match flows.iter().position(|f| !fits(f)) {
        Some(before) => Err(no_at(4, before + 1)),
        None => Ok(()),
    }
}

/// Refusals 1 to 4, which every call with a list gives first.
pub fn listed(frame: u32, ports: u32, list: &[u16]) -> Result<Vec<Flow>, Refusal> {
    sizes_fit(frame, ports)?;
    let flows = flows_of(list)?;
    ranges_fit(frame, ports, &flows)?;
    Ok(flows)
}

/// Refusals 5 and 6: every input is asked before any output.
pub fn loads_fit(plan: &Plan) -> Result<(), Refusal> {
    let load = |port: u32, end: fn(&Flow) -> u32| -> u32 {
        plan.flows.iter().filter(|f| end(f) == port).map(|f| f.cells).sum()
    };
    for (number, end) in [(5, (|f| f.input) as fn(&Flow) -> u32), (6, |f| f.output)] {
        if let Some(port) = (1..=plan.ports).find(|&port| load(port, end) > plan.frame) {
            return Err(no_at(number, port as usize));
        }
    }
    Ok(())
}

/// The list as the calls take it; for plans whose flows are in range.
pub fn list_of(flows: &[Flow]) -> Vec<u16> {
    flows.iter().flat_map(|f| [f.input as u16, f.output as u16, f.cells as u16]).collect()
}

#[cfg(test)]
mod tests {
    use super::*;

    fn plan(frame: u32, ports: u32, flows: &[Flow]) -> Plan {
        Plan { frame, ports, flows: flows.to_vec() }
    }

    #[test]
    fn frame_is_asked_before_ports() {
        assert_eq!(sizes_fit(0, 0), Err(no(1)));
        assert_eq!(sizes_fit(2_049, 4), Err(no(1)));
        assert_eq!(sizes_fit(2_048, 33), Err(no(2)));
        assert_eq!(sizes_fit(2_048, 0), Err(no(2)));
        assert_eq!(sizes_fit(2_048, 32), Ok(()));
    }

    #[test]
    fn lists_are_of_threes_and_at_most_255_flows() {
        assert_eq!(listed(5, 4, &[1, 1]), Err(no(3)));
        assert_eq!(listed(5, 4, &[1; 256 * 3]), Err(no(3)));
        assert_eq!(listed(5, 4, &[1; 255 * 3]).map(|f| f.len()), Ok(255));
        assert_eq!(listed(5, 4, &[]), Ok(vec![]));
    }

    #[test]
    fn the_lowest_flow_out_of_range_is_named() {
        assert_eq!(listed(5, 4, &[1, 1, 5, 1, 5, 1, 0, 1, 1]), Err(no_at(4, 2)));
        assert_eq!(listed(5, 4, &[1, 1, 6]), Err(no_at(4, 1)));
        assert_eq!(listed(5, 4, &[1, 1, 0]), Err(no_at(4, 1)));
    }

    #[test]
    fn document_01_load_cases() {
        let a3 = [flow(1, 1, 3), flow(1, 2, 2), flow(2, 1, 3)];
        assert_eq!(loads_fit(&plan(5, 4, &a3)), Err(no_at(6, 1)));
        assert_eq!(loads_fit(&plan(1, 2, &[flow(1, 1, 1), flow(1, 2, 1)])), Err(no_at(5, 1)));
        assert_eq!(loads_fit(&plan(1, 2, &[flow(1, 1, 1), flow(2, 1, 1)])), Err(no_at(6, 1)));
        assert_eq!(loads_fit(&plan(1, 2, &[flow(1, 2, 1), flow(2, 1, 1)])), Ok(()));
    }

    #[test]
    fn an_input_over_is_named_before_a_lower_output() {
        let flows = [flow(1, 1, 2), flow(2, 1, 1), flow(3, 2, 1), flow(3, 3, 2)];
        assert_eq!(loads_fit(&plan(2, 3, &flows)), Err(no_at(5, 3)));
    }
}
