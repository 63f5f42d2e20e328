//! The least TRD of a network, by document 004.

use crate::answer::{refuse_if, Outcome};

const MOST_DEPTH: u32 = 64;
const MOST_NODES: u32 = 64;
const MOST_TIME: u32 = 10_000;

/// The least whole number above the right side of document 004's equation 1.
pub fn least_trd(depth: u32, nodes: u32, sig: u32, tm: u32, sld: u32) -> Outcome {
    let counts_fit = (1..=MOST_DEPTH).contains(&depth) && (1..=MOST_NODES).contains(&nodes);
    refuse_if(!counts_fit || [sig, tm, sld].iter().any(|&time| time > MOST_TIME), 32)?;
    let (sd_sig, sd_tm) = (sig + sld, tm + sld);
    // Level by level: each has a SIG on its way, and each but the first a TM too.
    let levels = (1..depth).fold(sd_sig, |sum, _| sum + sd_tm + sd_sig);
    Ok(i64::from(levels + nodes * sig + 1))
}

#[cfg(test)]
mod tests {
    use super::*;
    use crate::answer::no;

    /// Document 004's network has SIG 2, TM 5 and SLD 17, so SD_SIG is 19 and SD_TM 22. With 10
    /// nodes the right sides are 0 + 20 + 19, 22 + 20 + 38, 44 + 20 + 57 and 88 + 20 + 95.
    #[test]
    fn document_004_least_trds() {
        let with = |depth| least_trd(depth, 10, 2, 5, 17);
        assert_eq!([1, 2, 3, 5].map(with), [Ok(40), Ok(81), Ok(122), Ok(204)]);
    }

    #[test]
    fn a_least_trd_reaches_both_ends_of_its_range() {
        assert_eq!(least_trd(1, 1, 0, 0, 0), Ok(1));
        // 63 times 20,000, 64 times 10,000 and 64 times 20,000.
        assert_eq!(least_trd(64, 64, 10_000, 10_000, 10_000), Ok(3_180_001));
    }

    #[test]
    fn depth_nodes_and_times_have_their_ranges() {
        for place in 0..5 {
            let outs: &[u32] = if place < 2 { &[0, 65] } else { &[10_001] };
            for &out in outs.iter().chain(&[4_000_000_000, u32::MAX]) {
                let mut numbers = [64, 64, 10_000, 10_000, 10_000];
                numbers[place] = out;
                let [depth, nodes, sig, tm, sld] = numbers;
                assert_eq!(least_trd(depth, nodes, sig, tm, sld), Err(no(32)));
            }
        }
    }

    /// Equation 1 asks for a TRD greater than its right side.
    #[test]
    fn the_least_trd_is_greater_and_one_less_is_not() {
        let times = [0, 1, 2, 5, 17, 9_999, 10_000];
        let cube = times.iter().flat_map(|&a| times.iter().map(move |&b| (a, b)));
        for (sig, tm, sld) in cube.flat_map(|(a, b)| times.iter().map(move |&c| (a, b, c))) {
            for (depth, nodes) in (1..=64).flat_map(|d| (1..=64).map(move |n| (d, n))) {
                let least = least_trd(depth, nodes, sig, tm, sld).unwrap();
                let [d, n, sig, tm, sld] = [depth, nodes, sig, tm, sld].map(i64::from);
                let right = (d - 1) * (tm + sld) + n * sig + d * (sig + sld);
                assert!(least > right && least - 1 <= right);
            }
        }
    }
}
