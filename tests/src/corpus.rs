//! The texts that the planner is run over, by sections with fixed seeds.

use crate::damage::{damage, NUMBERS};
use crate::flows::{Plan, MOST_FLOWS, MOST_FRAME, MOST_PORTS};
use crate::plans::{feasible, full, funnel, mirrored, one_over, size, wild, Size};
use crate::random::Random;
use crate::text::text_of;

type Texts = Vec<Vec<u8>>;

pub struct Section {
    pub name: &'static str,
    pub seed: u64,
    pub texts: Texts,
}

fn section(name: &'static str, seed: u64, make: impl Fn(&mut Random) -> Texts) -> Section {
    Section { name, seed, texts: make(&mut Random::new(seed)) }
}

pub fn sections() -> Vec<Section> {
    vec![
        section("large plans", 101, large),
        section("plans of any size", 110, |random| any_size(random, 60)),
        section("every number of ports", 102, every_ports),
        section("small plans", 103, |random| small(random, 900)),
        section("document 01", 104, |_| document_01()),
        section("limits", 105, |_| limits()),
        section("counts of flows", 106, |_| flow_counts()),
        section("long texts", 107, long),
        section("damaged small plans", 108, |random| damaged(random, 1_500)),
        section("damaged long plans", 109, |random| damaged_long(random, 200)),
    ]
}

fn any_plan(random: &mut Random, size: Size) -> Plan {
    match random.below(if size.flows < size.ports { 6 } else { 9 }) {
        0 | 1 => feasible(random, size),
        2 => wild(random, size),
        3 => funnel(random, size, size.frame),
        4 => funnel(random, size, size.frame + 1),
        5 => mirrored(funnel(random, size, size.frame + 1)),
        6 => one_over(random, size),
        _ => full(random, size),
    }
}

/// The three corners of the sizes, and full plans between; few, for their tables are large.
fn large(random: &mut Random) -> Texts {
    let most = size(MOST_FRAME, MOST_PORTS, MOST_FLOWS);
    let mut plans = vec![
        full(random, most),
        feasible(random, most),
        one_over(random, most),
        wild(random, most),
        funnel(random, most, MOST_FRAME),
        funnel(random, most, MOST_FRAME + 1),
        mirrored(funnel(random, most, MOST_FRAME + 1)),
        feasible(random, size(MOST_FRAME, MOST_PORTS, 0)),
        full(random, size(MOST_FRAME, 1, MOST_FLOWS)),
        full(random, size(1, MOST_PORTS, MOST_PORTS)),
    ];
    for (frame, ports) in
        [(MOST_FRAME, 2), (MOST_FRAME, 4), (MOST_FRAME, 8), (500, 16), (200, 32), (100, 32)]
    {
        plans.push(full(random, size(frame, ports, MOST_FLOWS)));
        plans.push(feasible(random, size(frame, ports, MOST_FLOWS)));
    }
    plans.iter().map(text_of).collect()
}

/// Sizes over the whole range of frames, ports and flows.
fn any_size(random: &mut Random, count: usize) -> Texts {
    (0..count)
        .map(|_| {
            let (frame, ports) = (random.between(1, MOST_FRAME), random.between(1, MOST_PORTS));
            let flows = random.between(0, MOST_FLOWS);
            text_of(&any_plan(random, size(frame, ports, flows)))
        })
        .collect()
}

fn every_ports(random: &mut Random) -> Texts {
    let mut texts = Texts::new();
    for ports in 1..=32 {
        for most in [1, 2, 5, 17, 40, 64] {
            let flows = random.between(0, 255);
            let size = size(random.between(1, most), ports, flows);
            texts.push(text_of(&any_plan(random, size)));
        }
        let frame = random.between(1, 64);
        texts.push(text_of(&full(random, size(frame, ports, 255))));
    }
    texts
}

fn small_plan(random: &mut Random) -> Plan {
    let (frame, ports) = (random.between(1, 12), random.between(1, 8));
    let flows = random.between(0, 24);
    any_plan(random, size(frame, ports, flows))
}

pub fn small(random: &mut Random, count: usize) -> Texts {
    (0..count).map(|_| text_of(&small_plan(random))).collect()
}

pub fn damaged(random: &mut Random, count: usize) -> Texts {
    (0..count)
        .map(|_| {
            let text = text_of(&small_plan(random));
            damage(random, &text)
        })
        .collect()
}

fn damaged_long(random: &mut Random, count: usize) -> Texts {
    (0..count)
        .map(|_| {
            let size = size(random.between(1, 300), random.between(1, 32), 255);
            let text = text_of(&any_plan(random, size));
            damage(random, &text)
        })
        .collect()
}

const PLAN_A: &str = "frame=5\nports=4\nflow=1,1,3\nflow=1,2,2\nflow=2,1,2\n";

/// The cases that document 01 names for the text and the builder, and every cut of plan A.
pub fn document_01() -> Texts {
    let cases = [
        "frame=1\nports=2\nflow=1,2,1\nflow=2,1,1\n",
        "frame=5\nports=4\nflow=1,1,3\nflow=1,2,2\nflow=2,1,3\n",
        "frame=1\nports=2\nflow=1,1,1\nflow=1,2,1\n",
        "frame=1\nports=2\nflow=1,1,1\nflow=2,1,1\n",
        "frame=0\nports=0\n",
        "frame=2048\nports=1\n",
        "frame=2049\nports=1\n",
        "frame=05",
        "frame=123456",
        "frame=5\r\nports=4\r\n",
        "ports=4\nframe=5\n",
        "frame=5\nports=4\n\n",
        "frame=5\nports=4\nflow=1,1,3",
        "frame=5\nports=4\nflow=1,1,3,1\n",
        "frame=5\nframe=5\nports=4\n",
        "\u{feff}frame=5\nports=4\n",
    ];
    let cuts = (0..=PLAN_A.len()).map(|length| PLAN_A.as_bytes()[..length].to_vec());
    cuts.chain(cases.map(|case| case.as_bytes().to_vec())).collect()
}

/// Each edge number in each place of a text.
pub fn limits() -> Texts {
    let places = |n: &str| {
        [
            format!("frame={n}\nports=3\nflow=1,2,1\n"),
            format!("frame=3\nports={n}\nflow=1,1,1\n"),
            format!("frame=3\nports=32\nflow=1,1,1\nflow={n},2,1\n"),
            format!("frame=3\nports=32\nflow=1,1,1\nflow=2,{n},1\n"),
            format!("frame={MOST_FRAME}\nports=2\nflow=2,2,1\nflow=1,1,{n}\n"),
            format!("frame={n}\nports={n}\nflow={n},{n},{n}\n"),
        ]
    };
    NUMBERS.iter().flat_map(|n| places(n)).map(String::into_bytes).collect()
}

fn flow_counts() -> Texts {
    let text = |sizes: &str, line: &str, flows: usize| {
        [sizes.as_bytes(), &line.as_bytes().repeat(flows)].concat()
    };
    let too_long = format!("frame={}\nports=2\n", MOST_FRAME + 1);
    let mut texts = Texts::new();
    for flows in [1, 2, 253, 254, 255, 256, 257, 511, 512, 700, 743] {
        texts.push(text("frame=255\nports=1\n", "flow=1,1,1\n", flows));
        texts.push(text("frame=254\nports=2\n", "flow=1,2,1\n", flows));
        texts.push(text("frame=9\nports=2\n", "flow=3,1,1\n", flows));
        texts.push(text(&too_long, "flow=3,1,1\n", flows));
        texts.push(text("frame=9\nports=33\n", "flow=0,1,1\n", flows));
        texts.push(text("frame=9\nports=2\n", "flow=65537,65537,65537\n", flows));
    }
    texts
}

/// A text of the form with exactly this many bytes, at least 60: its first flow is widened.
fn of_length(bytes: usize) -> Vec<u8> {
    let (sizes, line) = (b"frame=5\nports=4\n", b"flow=1,1,1\n");
    let left = bytes - sizes.len();
    // Up to 10 digits more are wanted, and each of a flow's three numbers can take 4.
    let more = left % line.len();
    let shares = [more.min(4), more.saturating_sub(4).min(4), more.saturating_sub(8)];
    let numbers = shares.map(|share| "1".repeat(1 + share));
    let widened = format!("flow={}\n", numbers.join(","));
    let rest = line.repeat(left / line.len() - 1);
    [&sizes[..], widened.as_bytes(), &rest].concat()
}

fn long(random: &mut Random) -> Texts {
    let mut texts = Texts::new();
    for bytes in [8_190, 8_191, 8_192, 8_193, 8_194, 8_195, 20_000, 60_000] {
        let of_the_form = of_length(bytes);
        let mut ends_badly = of_the_form.clone();
        ends_badly[bytes - 1] = b'x';
        let plan_a = [PLAN_A.as_bytes(), &vec![b'\n'; bytes - PLAN_A.len()]].concat();
        texts.extend([of_the_form.clone(), ends_badly, plan_a]);
        texts.extend([vec![b'x'; bytes], vec![0; bytes]]);
        texts.extend((0..3).map(|_| damage(random, &of_the_form)));
    }
    texts
}

#[cfg(test)]
mod tests {
    use super::*;
    use crate::judge::wanted;
    use crate::text::plan_of;
    use std::collections::BTreeMap;

    #[test]
    fn long_texts_are_of_the_form_at_every_length() {
        for bytes in 60..200 {
            let text = of_length(bytes);
            assert_eq!(text.len(), bytes);
            let number = plan_of(&text).map_err(|refusal| refusal.number);
            assert!(matches!(number, Ok(_) | Err(4)), "{number:?}");
        }
    }

    #[test]
    fn the_first_large_plan_uses_every_byte_of_the_largest_table() {
        let texts = large(&mut Random::new(1));
        let plan = plan_of(&texts[0]).unwrap();
        assert_eq!((plan.frame, plan.ports, plan.flows.len()), (2_048, 32, 255));
        assert_eq!(plan.flows.iter().map(|flow| flow.cells).sum::<u32>(), 65_536);
        assert!(wanted(&texts[0]).is_ok());
    }

    /// Texts that all get the same answer would compare little.
    #[test]
    fn every_answer_of_the_planner_is_wanted_often() {
        let mut counts = BTreeMap::new();
        for section in sections() {
            for text in section.texts {
                let number = wanted(&text).map_or_else(|refusal| refusal.number, |_| 0);
                *counts.entry(number).or_insert(0) += 1;
            }
        }
        for number in [0, 1, 2, 3, 4, 5, 6, 19, 20] {
            let count = counts.get(&number).copied().unwrap_or(0);
            assert!(count >= 20, "{number}: {count} of {counts:?}");
        }
    }
}
