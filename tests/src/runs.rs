//! Runs of many cycles: how long each message takes from its release.

use crate::answer::{refuse_if, Outcome};
use crate::cycles::{lists_fit, Network};

const MOST_CYCLES: u32 = 1_024;
/// The mark of a message that still waits when the run ends.
pub const WAITS: u16 = 65_535;
/// The mark of a message whose release lies past the run.
pub const LATER: u16 = 65_534;

/// The message goes in the first cycle from its release on in which those above left it room.
fn response(network: &Network, gone: &mut [Vec<usize>], message: usize, release: usize) -> u16 {
    if release >= gone.len() {
        return LATER;
    }
    for (waited, gone) in gone[release..].iter_mut().enumerate() {
        if network.has_room(gone, message) {
            gone.push(message);
            return waited as u16 + 1;
        }
    }
    WAITS
}

/// Not cycle by cycle: a cycle looks at the messages in order, so what becomes of one is settled
/// by those above it alone, and message by message gives the same.
pub fn run(
    windows: &[u16],
    sizes: &[u16],
    sets: &[u32],
    releases: &[u16],
    cycles: u32,
    responses: &mut [u16],
) -> Outcome {
    lists_fit(windows, sizes, [sets.len(), releases.len()])?;
    refuse_if(!(1..=MOST_CYCLES).contains(&cycles), 34)?;
    let network = Network::of(windows, sizes, sets)?;
    refuse_if(responses.len() < sizes.len(), 21)?;
    let mut gone = vec![Vec::new(); cycles as usize];
    for (message, &release) in releases.iter().enumerate() {
        responses[message] = response(&network, &mut gone, message, release.into());
    }
    Ok(0)
}

#[cfg(test)]
mod tests {
    use super::*;
    use crate::answer::{no, no_at};
    use crate::networks::{cycled, Lists};
    use crate::random::Random;

    /// The answer with a buffer that is long enough; a refusal must leave it as it was.
    fn answer(lists: &Lists, releases: &[u16], cycles: u32) -> Outcome {
        let mut responses = [7_777; 70];
        let Lists { windows, sizes, sets } = lists;
        let answer = run(windows, sizes, sets, releases, cycles, &mut responses);
        if answer.is_err() {
            assert_eq!(responses, [7_777; 70]);
        }
        answer
    }

    /// The responses of a run that must be done, in a buffer that fits just so.
    fn responses(lists: &Lists, releases: &[u16], cycles: u32) -> Vec<u16> {
        let mut responses = vec![7_777; lists.sizes.len()];
        let Lists { windows, sizes, sets } = lists;
        assert_eq!(run(windows, sizes, sets, releases, cycles, &mut responses), Ok(0));
        responses
    }

    /// Some past the end of most runs.
    fn random_releases(random: &mut Random, messages: usize) -> Vec<u16> {
        let most = random.pick(&[1, 5, 40, 100]);
        (0..messages).map(|_| random.below(most) as u16).collect()
    }

    /// Link 0 has window 10, link 1 has 6.
    /// Cycle 0: message 0 takes 6 of link 0; message 1, on both, would make that 11 and is held;
    /// message 2 fills link 0. Cycle 1: message 1 takes 5 of both; message 3 on link 1 would make
    /// that 11 and is held; message 4 makes link 0 be 7. Cycle 2: message 3 fills link 1, and
    /// message 5 is held. Then the run ends, before the release of message 6.
    #[test]
    fn a_run_by_hand() {
        let (windows, sizes) = ([10, 6], [6, 5, 4, 6, 2, 1, 1]);
        let (sets, releases) = ([0b01, 0b11, 0b01, 0b10, 0b01, 0b10, 0b01], [0, 0, 0, 1, 1, 2, 3]);
        let mut responses = [7_777; 9];
        assert_eq!(run(&windows, &sizes, &sets, &releases, 3, &mut responses), Ok(0));
        assert_eq!(responses, [1, 2, 1, 2, 1, 65_535, 65_534, 7_777, 7_777]);
        assert_eq!(run(&windows, &sizes, &sets, &releases, 4, &mut responses), Ok(0));
        assert_eq!(responses, [1, 2, 1, 2, 1, 2, 1, 7_777, 7_777]);
    }

    #[test]
    fn without_messages_a_run_is_done() {
        let mut responses = [7_777; 2];
        assert_eq!(run(&[], &[], &[], &[], 1, &mut responses), Ok(0));
        assert_eq!(run(&[0; 32], &[], &[], &[], 1_024, &mut responses), Ok(0));
        assert_eq!(responses, [7_777; 2]);
        assert_eq!(run(&[], &[], &[], &[], 1_024, &mut []), Ok(0));
    }

    /// One a cycle, so the lowest waits as long as a message can.
    #[test]
    fn messages_that_fill_the_link_go_one_after_another() {
        let lists = Lists::new(&[65_535], &[65_535; 64], &[1; 64]);
        let all: Vec<u16> = (1..=64).collect();
        assert_eq!(responses(&lists, &[0; 64], 64), all);
        assert_eq!(responses(&lists, &[960; 64], 1_024), all);
        for cycles in 1..64 {
            let mut cut = all.clone();
            cut[cycles..].fill(WAITS);
            assert_eq!(responses(&lists, &[0; 64], cycles as u32), cut);
        }
    }

    #[test]
    fn a_release_in_the_last_cycle_is_in_the_run() {
        let lists = Lists::new(&[1], &[1; 2], &[1; 2]);
        for cycles in [1, 2, 5, 1_023, 1_024] {
            let (last, end) = (cycles as u16 - 1, cycles as u16);
            assert_eq!(responses(&lists, &[last, last], cycles), [1, WAITS]);
            assert_eq!(responses(&lists, &[end, last], cycles), [LATER, 1]);
            assert_eq!(responses(&lists, &[last, 65_535], cycles), [1, LATER]);
        }
    }

    #[test]
    fn runs_are_of_1_to_1024_cycles_and_lists_of_like_lengths() {
        let lists = Lists::new(&[1; 32], &[1; 64], &[1; 64]);
        for cycles in [0, 1_025, 65_536, 65_537, 4_000_000_000] {
            assert_eq!(answer(&lists, &[0; 64], cycles), Err(no(34)));
        }
        for cycles in [1, 1_024] {
            assert_eq!(answer(&lists, &[0; 64], cycles), Ok(0));
            assert_eq!(answer(&lists, &[0; 63], cycles), Err(no(34)));
            assert_eq!(answer(&lists, &[0; 65], cycles), Err(no(34)));
        }
        for (links, messages, sets) in [(33, 64, 64), (32, 65, 65), (32, 64, 63), (32, 64, 65)] {
            let lists = Lists::new(&vec![1; links], &vec![1; messages], &vec![1; sets]);
            assert_eq!(answer(&lists, &vec![0; messages], 1), Err(no(34)));
        }
    }

    /// Each line has the causes of all refusals that come after its own.
    #[test]
    fn refusals_of_a_run_come_in_order_and_change_nothing() {
        let mut responses = [7_777; 3];
        for (cycles, releases, size, window, room, wanted) in [
            (0, 2, 0, 7, 2, Err(no(34))),
            (1_024, 2, 0, 7, 2, Err(no(34))),
            (1_024, 3, 0, 7, 2, Err(no_at(30, 2))),
            (1_024, 3, 8, 7, 2, Err(no_at(31, 0))),
            (1_024, 3, 8, 8, 2, Err(no(21))),
            (1_024, 3, 8, 8, 0, Err(no(21))),
        ] {
            let (sizes, lent) = ([8, 8, size], &mut responses[..room]);
            let answer = run(&[window], &sizes, &[1; 3], &[0; 3][..releases], cycles, lent);
            assert_eq!((answer, responses), (wanted, [7_777; 3]));
        }
        assert_eq!(run(&[8], &[8; 3], &[1; 3], &[0; 3], 1_024, &mut responses), Ok(0));
        assert_eq!(responses, [1, 2, 3]);
    }

    /// A message is refused even if its release lies past the run.
    #[test]
    fn the_lowest_message_of_a_run_is_named() {
        for (low, high) in (0..64).flat_map(|low| (low..64).map(move |high| (low, high))) {
            for release in [0, 65_535] {
                let mut lists = Lists::new(&[3], &[3; 64], &[1; 64]);
                (lists.sizes[low], lists.sizes[high]) = (4, 4);
                assert_eq!(answer(&lists, &[release; 64], 1), Err(no_at(31, low)));
                lists.sets[high] = 0b10;
                assert_eq!(answer(&lists, &[release; 64], 1), Err(no_at(30, high)));
                lists.sets[low] = 0;
                assert_eq!(answer(&lists, &[release; 64], 1), Err(no_at(30, low)));
            }
        }
    }

    /// The responses by one cycle after another, each with the ready bytes made anew.
    fn by_cycles(lists: &Lists, releases: &[u16], cycles: u32) -> Vec<u16> {
        let mut responses: Vec<Option<u16>> = vec![None; releases.len()];
        for turn in 0..cycles as u16 {
            let is_ready = |m: usize| releases[m] <= turn && responses[m].is_none();
            let ready: Vec<u8> = (0..releases.len()).map(|m| is_ready(m).into()).collect();
            let (taken, _) = cycled(lists, &ready);
            for m in (0..releases.len()).filter(|&m| taken[m] == 1) {
                responses[m] = Some(turn - releases[m] + 1);
            }
        }
        let mark = |m: usize| if u32::from(releases[m]) < cycles { WAITS } else { LATER };
        (0..releases.len()).map(|m| responses[m].unwrap_or(mark(m))).collect()
    }

    #[test]
    fn a_run_is_one_cycle_after_another() {
        let mut random = Random::new(50);
        let (mut at_once, mut after, mut wait, mut later) = (0, 0, 0, 0);
        for _ in 0..2_000 {
            let lists = Lists::random(&mut random);
            let releases = random_releases(&mut random, lists.sizes.len());
            let cycles = random.pick(&[1, 2, 3, 5, 20, 70]);
            let responses = responses(&lists, &releases, cycles);
            assert_eq!(responses, by_cycles(&lists, &releases, cycles));
            for response in responses {
                let count = match response {
                    1 => &mut at_once,
                    WAITS => &mut wait,
                    LATER => &mut later,
                    _ => &mut after,
                };
                *count += 1;
            }
        }
        let counts = [at_once, after, wait, later];
        assert!(counts.iter().all(|&count| count > 1_000), "{counts:?}");
    }

    #[test]
    fn a_message_is_marked_later_exactly_if_its_release_lies_past_the_run() {
        let mut random = Random::new(51);
        for _ in 0..2_000 {
            let lists = Lists::random(&mut random);
            let releases = random_releases(&mut random, lists.sizes.len());
            let cycles = random.between(1, 60);
            let responses = responses(&lists, &releases, cycles);
            for (&response, &release) in responses.iter().zip(&releases) {
                assert_eq!(response == LATER, u32::from(release) >= cycles);
                let taken = response != LATER && response != WAITS;
                assert!(!taken || response >= 1 && u32::from(release + response) <= cycles);
            }
        }
    }

    /// While a message waits, each cycle takes one above it.
    #[test]
    fn a_response_is_at_most_one_more_than_the_messages_above() {
        let mut random = Random::new(52);
        let mut sharp = 0;
        for _ in 0..3_000 {
            let lists = Lists::random(&mut random);
            let releases = random_releases(&mut random, lists.sizes.len());
            let cycles = random.between(1, 170);
            let responses = responses(&lists, &releases, cycles);
            for (above, (&response, &release)) in responses.iter().zip(&releases).enumerate() {
                let bound = above as u16 + 1;
                if u32::from(release + bound) <= cycles {
                    assert!(response <= bound);
                    sharp += u32::from(above > 0 && response == bound);
                }
            }
        }
        assert!(sharp > 500, "{sharp}");
    }

    /// The messages below are drawn anew, more or fewer of them, or left out.
    #[test]
    fn messages_below_change_no_response_above() {
        let mut random = Random::new(53);
        for _ in 0..3_000 {
            let lists = Lists::random(&mut random);
            let releases = random_releases(&mut random, lists.sizes.len());
            let (kept, cycles) = (random.place(releases.len() + 1), random.between(1, 60));
            let before = responses(&lists, &releases, cycles);
            let other = lists.with_others_below(&mut random, kept);
            let mut other_releases = random_releases(&mut random, other.sizes.len());
            other_releases[..kept].copy_from_slice(&releases[..kept]);
            assert_eq!(responses(&other, &other_releases, cycles)[..kept], before[..kept]);
            let alone = responses(&lists.first(kept), &releases[..kept], cycles);
            assert_eq!(alone, before[..kept]);
        }
    }

    /// What turns into a response was taken only in the cycles that came to the run.
    #[test]
    fn a_longer_run_only_turns_marks_into_responses() {
        let mut random = Random::new(54);
        let mut turned = 0;
        for _ in 0..3_000 {
            let lists = Lists::random(&mut random);
            let releases = random_releases(&mut random, lists.sizes.len());
            let cycles = random.between(1, 60);
            let more = random.between(cycles, 130);
            let (short, long) =
                (responses(&lists, &releases, cycles), responses(&lists, &releases, more));
            for message in 0..releases.len() {
                match (short[message], long[message]) {
                    (WAITS | LATER, WAITS) | (LATER, LATER) => {}
                    (WAITS | LATER, response @ 1..=1_024) => {
                        assert!(u32::from(releases[message] + response) > cycles);
                        turned += 1;
                    }
                    (response, same) => assert_eq!(response, same),
                }
            }
        }
        assert!(turned > 1_000, "{turned}");
    }
}
