//! Compares a planner with the independent reader, load test and check over the whole corpus.

use crate::corpus::Section;
use crate::judge::judge;
use crate::runner::{in_parallel, Planner};
use crate::shrink::shrink;
use std::sync::atomic::{AtomicBool, Ordering};

/// A text that a planner answers wrongly, made as short as could be found.
pub struct Mismatch {
    pub text: Vec<u8>,
    pub why: String,
}

fn agree(planner: &dyn Planner, text: &[u8]) -> Result<(), String> {
    judge(text, &planner.plan(text)?)
}

/// The first text in order that was seen to fail; none are begun after one has failed.
fn first_failure<'a>(planner: &dyn Planner, texts: &'a [Vec<u8>]) -> Option<&'a [u8]> {
    let failed = AtomicBool::new(false);
    let results = in_parallel(texts, |text| {
        let fails = !failed.load(Ordering::Relaxed) && agree(planner, text).is_err();
        failed.fetch_or(fails, Ordering::Relaxed);
        fails
    });
    let place = results.into_iter().position(|fails| fails)?;
    Some(&texts[place])
}

/// The number of texts that agree, which is all of them, or one that does not.
pub fn compare(planner: &dyn Planner, texts: &[Vec<u8>]) -> Result<usize, Mismatch> {
    let Some(failing) = first_failure(planner, texts) else {
        return Ok(texts.len());
    };
    let text = shrink(failing, |text| agree(planner, text).is_err());
    let why = agree(planner, &text).err().unwrap_or("it fails at times only".to_string());
    Err(Mismatch { text, why })
}

fn show(mismatch: &Mismatch) {
    println!("planner: MISMATCH: {}", mismatch.why);
    println!("planner: shortest failing text found ({} bytes):", mismatch.text.len());
    println!("{}", mismatch.text.escape_ascii());
}

/// Runs all sections; false at the first mismatch, which is printed.
pub fn run(planner: &dyn Planner, sections: &[Section]) -> bool {
    let mut agreed = 0;
    for section in sections {
        match compare(planner, &section.texts) {
            Ok(count) => agreed += count,
            Err(mismatch) => {
                println!("planner: in section {:?}, seed {}", section.name, section.seed);
                show(&mismatch);
                return false;
            }
        }
        println!("{}, seed {}: {} texts", section.name, section.seed, section.texts.len());
    }
    println!("planner: {agreed} texts agree");
    true
}

#[cfg(test)]
mod tests {
    use super::*;
    use crate::builder::{reference, table_shown};
    use crate::corpus;
    use crate::flows::Plan;
    use crate::judge::wanted;
    use crate::random::Random;

    fn texts() -> Vec<Vec<u8>> {
        let mut random = Random::new(21);
        let mut texts = corpus::small(&mut random, 400);
        texts.extend(corpus::damaged(&mut random, 400));
        texts.extend(corpus::document_01());
        texts.extend(corpus::limits());
        texts
    }

    fn caught(planner: impl Planner) -> Mismatch {
        match compare(&planner, &texts()) {
            Ok(_) => panic!("a wrong planner agrees"),
            Err(mismatch) => mismatch,
        }
    }

    #[test]
    fn the_reference_agrees() {
        assert!(matches!(compare(&reference, &texts()), Ok(count) if count > 1_000));
    }

    /// Document 01's slip: cells first come, first placed, and no exchange.
    fn first_come(plan: &Plan) -> Option<Vec<u8>> {
        let (frame, mut table) = (plan.frame as usize, vec![0; (plan.frame * plan.ports) as usize]);
        let mut used = vec![vec![false; frame]; plan.ports as usize + 1];
        for (number, f) in (1..).zip(&plan.flows) {
            let row = (f.output as usize - 1) * frame;
            for _ in 0..f.cells {
                let inputs = &mut used[f.input as usize];
                let slot = (0..frame).find(|&s| table[row + s] == 0 && !inputs[s])?;
                (table[row + slot], inputs[slot]) = (number, true);
            }
        }
        Some(table)
    }

    #[test]
    fn a_planner_without_the_exchange_is_caught() {
        let mismatch = caught(|text: &[u8]| match wanted(text) {
            Ok(plan) => match first_come(&plan) {
                Some(table) => table_shown(plan.frame as usize, &table),
                None => b"answer=5,1\n".to_vec(),
            },
            Err(_) => reference(text),
        });
        assert!(mismatch.text.len() < 80, "{}", mismatch.text.escape_ascii());
    }

    /// A planner whose output is the right one with a piece of it replaced.
    fn altered(from: &'static str, to: &'static str) -> impl Planner {
        move |text: &[u8]| {
            let output = String::from_utf8(reference(text)).expect("digits and keys");
            output.replacen(from, to, 1).into_bytes()
        }
    }

    #[test]
    fn altered_answers_and_tables_are_caught() {
        for (from, to) in [
            ("answer=0,0", "answer=0,1"),
            ("answer=20,7\n", "answer=20,8\n"),
            ("answer=5,", "answer=6,"),
            ("answer=6,1\n", "answer=6,2\n"),
            ("answer=4,", "answer=3,"),
            ("out=1", "out=0"),
            (",2,", ",1,"),
            ("out=", "out= "),
        ] {
            caught(altered(from, to));
        }
    }

    #[test]
    fn a_planner_that_keeps_16_bits_of_a_number_is_caught() {
        let mismatch = caught(|text: &[u8]| {
            let text = String::from_utf8_lossy(text).replace("65537", "1");
            reference(text.as_bytes())
        });
        assert!(mismatch.text.windows(5).any(|piece| piece == b"65537"));
    }

    #[test]
    fn a_mismatch_comes_back_as_a_short_text() {
        let mismatch = caught(|text: &[u8]| {
            let output = reference(text);
            if text.contains(&b'7') {
                [&output[..], b"\n"].concat()
            } else {
                output
            }
        });
        assert_eq!(mismatch.text, b"7");
    }
}
