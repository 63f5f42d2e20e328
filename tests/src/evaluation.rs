//! Document 000's evaluation of schedulability (its section IV-C and figure 6), run again.

use crate::builder::{Demand, Schedule};
use crate::flows::{flow, Plan, MOST_FLOWS};
use crate::judge::judge;
use crate::random::Random;
use crate::runner::{in_parallel, Planner};
use crate::text::text_of;
use crate::traffic::{cells, demand, Pairs, FRAME};

const SLOTS: usize = FRAME as usize;

/// Six ranges of utilisation, 5 % each. Document 000's text names no range for its figure 6;
/// from 70 % on its figure 4 sees flow sets that cannot be scheduled.
const RANGES: [u32; 6] = [70, 75, 80, 85, 90, 95];
/// A little over a thousand matrices a setting, as in document 000.
const MATRICES: u64 = 170;
/// Of these, the planner is run on so many, a fifth: emulated, a large plan takes a second or two.
const PLANNED: usize = 34;

struct Setting {
    ports: usize,
    pairs: Pairs,
    seed: u64,
}

const SETTINGS: [Setting; 5] = [
    Setting { ports: 8, pairs: Pairs::All, seed: 801 },
    Setting { ports: 16, pairs: Pairs::All, seed: 802 },
    Setting { ports: 32, pairs: Pairs::All, seed: 803 },
    // A plan has at most 255 flows, so at most 255 pairs: what the planner can be asked.
    Setting { ports: 16, pairs: Pairs::Some(MOST_FLOWS as usize), seed: 804 },
    Setting { ports: 32, pairs: Pairs::Some(MOST_FLOWS as usize), seed: 805 },
];

/// Of some matrices: how many each method schedules, and the planner of those it was run on.
#[derive(Clone, Copy, Default)]
struct Shares {
    matrices: usize,
    exact: usize,
    least_slack: usize,
    planned: usize,
    asked: usize,
}

/// The least-slack method of document 000's figure 3; it may find no schedule where there is
/// one. Ties go to the lowest output, then to the lowest input.
fn least_slack(demand: &Demand) -> bool {
    let ports = demand.len();
    let pairs = (0..ports).flat_map(|output| (0..ports).map(move |input| (input, output)));
    let mut blocks: Vec<(usize, usize)> = pairs.filter(|&(i, o)| demand[i][o] > 0).collect();
    // The slack is the frame less the cells; the sort keeps the order of ties.
    blocks.sort_by_key(|&(input, output)| FRAME - demand[input][output]);
    let mut row_used = vec![vec![false; SLOTS]; ports];
    let mut colour_used = vec![vec![false; SLOTS]; ports];
    for (input, output) in blocks {
        let (row, colour) = (&mut row_used[output], &mut colour_used[input]);
        let mut left = demand[input][output];
        for slot in 0..SLOTS {
            if left > 0 && !row[slot] && !colour[slot] {
                (row[slot], colour[slot]) = (true, true);
                left -= 1;
            }
        }
        if left > 0 {
            return false;
        }
    }
    true
}

/// True if the exact builder's schedule has every cell and uses no input twice in a slot.
fn exact(demand: &Demand) -> bool {
    let schedule = Schedule::of(SLOTS, demand);
    let ports = demand.len();
    let mut left = demand.clone();
    for slot in 0..SLOTS {
        let mut used = vec![false; ports];
        let joined = |output| schedule.input_at(output, slot).map(|input| (input, output));
        for (input, output) in (0..ports).filter_map(joined) {
            if std::mem::replace(&mut used[input], true) || left[input][output] == 0 {
                return false;
            }
            left[input][output] -= 1;
        }
    }
    cells(&left) == 0
}

/// A feasible demand with a utilisation in the range. Where the pairs have no room left for
/// what was drawn, it is drawn again.
fn matrix(random: &mut Random, setting: &Setting, range: u32) -> Demand {
    loop {
        let thousandths = random.between(range * 10, range * 10 + 49);
        let wanted = setting.ports as u32 * FRAME / 1_000 * thousandths;
        let demand = demand(random, setting.ports, setting.pairs, wanted);
        if cells(&demand) == wanted {
            return demand;
        }
    }
}

fn matrices(setting: &Setting, range: u32) -> Vec<Demand> {
    let mut random = Random::new(setting.seed * 1_000 + u64::from(range));
    (0..MATRICES).map(|_| matrix(&mut random, setting, range)).collect()
}

/// One flow a pair; none if the matrix has more pairs than a plan has flows.
fn plan_of(demand: &Demand) -> Option<Plan> {
    let mut flows = Vec::new();
    for (input, row) in (1..).zip(demand) {
        let used = (1..).zip(row).filter(|&(_, &cells)| cells > 0);
        flows.extend(used.map(|(output, &cells)| flow(input, output, cells)));
    }
    let ports = demand.len() as u32;
    (flows.len() <= MOST_FLOWS as usize).then_some(Plan { frame: FRAME, ports, flows })
}

/// True if the planner's answer for the text is an accepted table.
fn planned(planner: &dyn Planner, text: &[u8]) -> bool {
    match planner.plan(text).and_then(|output| judge(text, &output)) {
        Ok(()) => true,
        Err(why) => {
            eprintln!("evaluation: {why}; the text:\n{}", text.escape_ascii());
            false
        }
    }
}

fn count(results: Vec<bool>) -> usize {
    results.into_iter().filter(|&well| well).count()
}

fn shares(planner: Option<&dyn Planner>, setting: &Setting, range: u32) -> Shares {
    let matrices = matrices(setting, range);
    let plans = matrices.iter().filter_map(plan_of);
    let texts: Vec<Vec<u8>> = plans.take(PLANNED).map(|plan| text_of(&plan)).collect();
    let mut shares = Shares {
        matrices: matrices.len(),
        exact: count(in_parallel(&matrices, exact)),
        least_slack: count(in_parallel(&matrices, least_slack)),
        ..Shares::default()
    };
    if let Some(planner) = planner {
        shares.asked = texts.len();
        shares.planned = count(in_parallel(&texts, |text| planned(planner, text)));
    }
    shares
}

fn add(sum: Shares, more: Shares) -> Shares {
    Shares {
        matrices: sum.matrices + more.matrices,
        exact: sum.exact + more.exact,
        least_slack: sum.least_slack + more.least_slack,
        planned: sum.planned + more.planned,
        asked: sum.asked + more.asked,
    }
}

/// The planner is not asked where it was not given, or no matrix is small enough for a plan.
fn print_row(setting: &Setting, from: u32, to: u32, shares: Shares) {
    let pairs = match setting.pairs {
        Pairs::All => format!("all {}", setting.ports * setting.ports),
        Pairs::Some(count) => format!("{count}"),
    };
    let part = |n: usize| format!("{:.1} %", 100.0 * n as f64 / shares.matrices as f64);
    let planner = match shares.asked {
        0 => "not asked".to_string(),
        asked => format!("{} of {asked}", shares.planned),
    };
    let (exact, least_slack) = (part(shares.exact), part(shares.least_slack));
    println!(
        "| {} | {pairs} | {from}-{to} % | {} | {exact} | {least_slack} | {planner} |",
        setting.ports, shares.matrices
    );
}

fn run_setting(planner: Option<&dyn Planner>, setting: &Setting) -> Shares {
    let mut sum = Shares::default();
    for range in RANGES {
        let shares = shares(planner, setting, range);
        print_row(setting, range, range + 5, shares);
        sum = add(sum, shares);
    }
    print_row(setting, RANGES[0], 100, sum);
    sum
}

/// Prints the table; true if the exact builder, and the planner where asked, schedule all.
pub fn run(planner: Option<&dyn Planner>) -> bool {
    println!("Frame {FRAME}; seeds {} to {}.\n", SETTINGS[0].seed, SETTINGS[4].seed);
    println!("| ports | pairs | utilisation | matrices | exact builder | least slack | planner |");
    println!("|---|---|---|---|---|---|---|");
    let runs = SETTINGS.iter().map(|setting| run_setting(planner, setting));
    let sum = runs.fold(Shares::default(), add);
    println!(
        "\nevaluation: exact builder {} of {}, planner {} of {}",
        sum.exact, sum.matrices, sum.planned, sum.asked
    );
    sum.exact == sum.matrices && sum.planned == sum.asked
}

#[cfg(test)]
mod tests {
    use super::*;
    use crate::builder::reference;

    #[test]
    fn least_slack_takes_the_largest_block_first_and_the_earliest_slots() {
        let full = vec![vec![FRAME, 0], vec![0, FRAME]];
        assert!(least_slack(&full));
        assert!(least_slack(&vec![vec![1_500, 500], vec![500, 1_500]]));
    }

    /// Feasible and full, yet the earliest slots of the large blocks leave the last no slot.
    #[test]
    fn least_slack_misses_a_schedule_that_the_exact_builder_finds() {
        let demand = vec![vec![1_000, 600, 400], vec![600, 800, 600], vec![400, 600, 1_000]];
        assert!(!least_slack(&demand));
        assert!(exact(&demand));
    }

    #[test]
    fn matrices_have_the_utilisation_asked_for() {
        let mut random = Random::new(6);
        for setting in &SETTINGS {
            let demand = matrix(&mut random, setting, 90);
            let most = setting.ports as u32 * FRAME;
            assert!((most * 90 / 100..most * 95 / 100).contains(&cells(&demand)));
        }
    }

    #[test]
    fn a_matrix_of_at_most_255_pairs_is_a_plan_that_the_reference_serves() {
        let mut random = Random::new(7);
        let dense = matrix(&mut random, &SETTINGS[2], 70);
        assert_eq!(plan_of(&dense), None);
        let text = text_of(&plan_of(&matrix(&mut random, &SETTINGS[0], 95)).unwrap());
        assert!(planned(&reference, &text));
        assert!(!planned(&|_: &[u8]| b"answer=5,1\n".to_vec(), &text));
    }
}
