//! Document 000's traffic (its section IV-A): sensing and video flows added at random, none
//! past a port's capacity, until the switch has the wanted utilisation.

use crate::builder::Demand;
use crate::delays::fit;
use crate::random::Random;

/// Document 000's cells. They carry no label: every bit is the message's.
const CELL_BITS: u32 = 500;
/// 1 ms at 1 Gbps in these cells.
pub const FRAME: u32 = 2_000;

/// Which pairs of ports may have flows.
#[derive(Clone, Copy, PartialEq, Eq)]
pub enum Pairs {
    All,
    /// A random choice of this many, as even over the ports as can be.
    Some(usize),
}

/// Cells per frame of a random flow: sensing (1 to 5 kbit every 10 ms) or video (120 to 240
/// kbit every 30 ms), by document 000's equation 4.
fn flow_cells(random: &mut Random) -> u32 {
    let (least, most, periods) = random.pick(&[(1_000, 5_000, 10), (120_000, 240_000, 30)]);
    let bits = random.between(least, most);
    fit(FRAME, periods * FRAME, bits.div_ceil(CELL_BITS)).expect("the flow fits a frame") as u32
}

/// The pairs in the order of random permutations, so that a beginning of it is even.
fn chosen(random: &mut Random, ports: usize, pairs: Pairs) -> Vec<(usize, usize)> {
    let mut inputs: Vec<usize> = (0..ports).collect();
    let mut outputs = inputs.clone();
    random.shuffle(&mut inputs);
    random.shuffle(&mut outputs);
    let shifted = |shift| (0..ports).map(move |k| (k, (k + shift) % ports));
    let in_order = (0..ports).flat_map(shifted).map(|(i, o)| (inputs[i], outputs[o]));
    match pairs {
        Pairs::All => in_order.collect(),
        Pairs::Some(count) => in_order.take(count).collect(),
    }
}

/// A feasible demand with `wanted` cells in all, or fewer if the pairs left have no room.
pub fn demand(random: &mut Random, ports: usize, pairs: Pairs, wanted: u32) -> Demand {
    let mut demand = vec![vec![0; ports]; ports];
    let (mut inputs, mut outputs) = (vec![FRAME; ports], vec![FRAME; ports]);
    let mut open = chosen(random, ports, pairs);
    let mut left = wanted;
    while left > 0 && !open.is_empty() {
        let place = random.place(open.len());
        let (input, output) = open[place];
        let room = inputs[input].min(outputs[output]);
        if room == 0 {
            open.swap_remove(place);
            continue;
        }
        let cells = flow_cells(random);
        if cells <= room.min(left) {
            demand[input][output] += cells;
            inputs[input] -= cells;
            outputs[output] -= cells;
            left -= cells;
        }
    }
    demand
}

pub fn cells(demand: &Demand) -> u32 {
    demand.iter().flatten().sum()
}

#[cfg(test)]
mod tests {
    use super::*;

    #[test]
    fn sensing_takes_one_cell_and_video_8_to_16() {
        let mut random = Random::new(2);
        let mut seen = [false; 17];
        for _ in 0..2_000 {
            seen[flow_cells(&mut random) as usize] = true;
        }
        // 8 is for 120 kbit exactly, so it may be missing.
        assert!(seen[1] && seen[9..].iter().all(|&seen| seen));
        assert!(!seen[0] && !seen[2..8].contains(&true));
    }

    #[test]
    fn demands_are_feasible_and_as_large_as_wanted() {
        let mut random = Random::new(2);
        for wanted in [0, 1, 5_000, 15_999, 16_000] {
            let demand = demand(&mut random, 8, Pairs::All, wanted);
            assert_eq!(cells(&demand), wanted);
            for port in 0..8 {
                assert!(demand[port].iter().sum::<u32>() <= FRAME);
                assert!(demand.iter().map(|row| row[port]).sum::<u32>() <= FRAME);
            }
        }
    }

    #[test]
    fn a_choice_of_pairs_is_kept_to() {
        let demand = demand(&mut Random::new(2), 32, Pairs::Some(255), 50_000);
        let used = demand.iter().flatten().filter(|&&cells| cells > 0).count();
        assert!((240..=255).contains(&used), "{used}");
    }
}
