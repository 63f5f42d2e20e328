//! One cycle of a network: of the messages that are ready, those that fit into the links' windows.

use crate::answer::{no_at, refuse_if, Outcome, Refusal};

const MOST_LINKS: usize = 32;
const MOST_MESSAGES: usize = 64;

struct Message {
    size: u64,
    links: Vec<usize>,
}

/// What the refusals leave: every message has links, all of them there, and fits on each alone.
/// Numbers are wide, so that no sum of sizes wraps.
pub struct Network {
    windows: Vec<u64>,
    messages: Vec<Message>,
}

/// Refusal 34. `others` are the lengths of the lists that go with the sizes, a number a message.
pub fn lists_fit(windows: &[u16], sizes: &[u16], others: [usize; 2]) -> Result<(), Refusal> {
    refuse_if(windows.len() > MOST_LINKS || sizes.len() > MOST_MESSAGES, 34)?;
    refuse_if(others != [sizes.len(); 2], 34)
}

fn links_of(set: u32) -> Vec<usize> {
    (0..MOST_LINKS).filter(|link| set >> link & 1 == 1).collect()
}

impl Network {
    /// Refusals 30 and 31, the first over all messages before the second.
    pub fn of(windows: &[u16], sizes: &[u16], sets: &[u32]) -> Result<Network, Refusal> {
        let sets = sets.iter().map(|&set| links_of(set));
        let messages = sizes.iter().zip(sets);
        let network = Network {
            windows: windows.iter().copied().map(u64::from).collect(),
            messages: messages.map(|(&size, links)| Message { size: size.into(), links }).collect(),
        };
        network.refuse_lowest(30, |message| !network.is_sound(message))?;
        // Too large for a link is what finds no room even where nothing went before.
        network.refuse_lowest(31, |message| !network.has_room(&[], message))?;
        Ok(network)
    }

    fn refuse_lowest(&self, number: u32, wrong: impl Fn(usize) -> bool) -> Result<(), Refusal> {
        match (0..self.messages.len()).find(|&message| wrong(message)) {
            Some(message) => Err(no_at(number, message)),
            None => Ok(()),
        }
    }

    fn is_sound(&self, message: usize) -> bool {
        let Message { size, links } = &self.messages[message];
        // The links stand in order, so with the last all are there.
        *size > 0 && links.last().is_some_and(|&link| link < self.windows.len())
    }

    fn load(&self, gone: &[usize], link: usize) -> u64 {
        let gone = gone.iter().map(|&message| &self.messages[message]);
        gone.filter(|message| message.links.contains(&link)).map(|message| message.size).sum()
    }

    /// Whether the message still goes in a cycle in which the messages `gone` went before it.
    pub fn has_room(&self, gone: &[usize], message: usize) -> bool {
        let Message { size, links } = &self.messages[message];
        links.iter().all(|&link| self.load(gone, link) + size <= self.windows[link])
    }
}

pub fn cycle(
    windows: &[u16],
    sizes: &[u16],
    sets: &[u32],
    ready: &[u8],
    taken: &mut [u8],
    loads: &mut [u16],
) -> Outcome {
    lists_fit(windows, sizes, [sets.len(), ready.len()])?;
    let network = Network::of(windows, sizes, sets)?;
    refuse_if(taken.len() < sizes.len() || loads.len() < windows.len(), 21)?;
    let mut gone = Vec::new();
    for message in (0..sizes.len()).filter(|&message| ready[message] != 0) {
        if network.has_room(&gone, message) {
            gone.push(message);
        }
    }
    for (message, byte) in taken.iter_mut().enumerate().take(sizes.len()) {
        *byte = gone.contains(&message).into();
    }
    for (link, load) in loads.iter_mut().enumerate().take(windows.len()) {
        // At most the window, so within 16 bits.
        *load = network.load(&gone, link) as u16;
    }
    Ok(0)
}

#[cfg(test)]
mod tests {
    use super::*;
    use crate::answer::no;
    use crate::networks::{cycled, ready_bytes, Lists};
    use crate::random::Random;

    /// The answer with buffers that are long enough; a refusal must leave them as they were.
    fn answer(windows: &[u16], sizes: &[u16], sets: &[u32], ready: &[u8]) -> Outcome {
        let (mut taken, mut loads) = ([9; 70], [7_777; 40]);
        let answer = cycle(windows, sizes, sets, ready, &mut taken, &mut loads);
        if answer.is_err() {
            assert_eq!((taken, loads), ([9; 70], [7_777; 40]));
        }
        answer
    }

    /// Link 0 has window 10, link 1 has 6. Message 0 takes 6 of link 0. Message 1, on both links,
    /// would make that 11 and is held. Message 2 fills link 0 to 10. Message 3 fills link 1, where
    /// the held message does not count. Message 4 would make that 7 and is held. Message 5 is not
    /// ready. The ready bytes of the others are not all 1.
    #[test]
    fn a_cycle_by_hand() {
        let (windows, sizes) = ([10, 6], [6, 5, 4, 6, 1, 1]);
        let (sets, ready) = ([0b01, 0b11, 0b01, 0b10, 0b10, 0b01], [1, 2, 255, 1, 1, 0]);
        let (mut taken, mut loads) = ([9; 8], [7_777; 4]);
        assert_eq!(cycle(&windows, &sizes, &sets, &ready, &mut taken, &mut loads), Ok(0));
        assert_eq!(taken, [1, 0, 1, 1, 0, 0, 9, 9]);
        assert_eq!(loads, [10, 6, 7_777, 7_777]);
    }

    #[test]
    fn without_messages_the_loads_are_0() {
        let (mut taken, mut loads) = ([9; 2], [7_777; 4]);
        assert_eq!(cycle(&[], &[], &[], &[], &mut taken, &mut loads), Ok(0));
        assert_eq!((taken, loads), ([9; 2], [7_777; 4]));
        assert_eq!(cycle(&[], &[], &[], &[], &mut [], &mut []), Ok(0));
        assert_eq!(cycle(&[5, 0, 65_535], &[], &[], &[], &mut taken, &mut loads), Ok(0));
        assert_eq!((taken, loads), ([9; 2], [0, 0, 0, 7_777]));
    }

    /// Two messages a link; each second one is held, for the window takes just one.
    #[test]
    fn the_largest_network_is_served() {
        let sets: Vec<u32> = (0..64).map(|message| 1 << (message / 2)).collect();
        let (mut taken, mut loads) = ([9; 65], [7_777; 33]);
        let done = cycle(&[7; 32], &[7; 64], &sets, &[1; 64], &mut taken, &mut loads);
        assert_eq!(done, Ok(0));
        assert!((0..64).all(|message| u32::from(taken[message]) == 1 - message as u32 % 2));
        assert_eq!((taken[64], &loads[..32], loads[32]), (9, &[7; 32][..], 7_777));
    }

    #[test]
    fn too_many_and_lists_of_unlike_lengths_are_refused() {
        assert_eq!(answer(&[7; 33], &[], &[], &[]), Err(no(34)));
        assert_eq!(answer(&[7; 33], &[7; 64], &[1; 64], &[1; 64]), Err(no(34)));
        assert_eq!(answer(&[7; 32], &[7; 65], &[1; 65], &[1; 65]), Err(no(34)));
        assert_eq!(answer(&[7; 32], &[7; 64], &[1; 64], &[1; 64]), Ok(0));
        // Before the message that is wrong in every way.
        assert_eq!(answer(&[7], &[0], &[0], &[]), Err(no(34)));
        for sets in 0..70 {
            for ready in 0..70 {
                for messages in [0, 1, 2, 5, 63, 64] {
                    let like = sets == messages && ready == messages;
                    let wanted = if like { Ok(0) } else { Err(no(34)) };
                    let lists = (&vec![1; messages], &vec![1; sets], &vec![1; ready]);
                    assert_eq!(answer(&[7], lists.0, lists.1, lists.2), wanted);
                }
            }
        }
    }

    /// Whether or not the message is ready.
    #[test]
    fn a_size_fits_up_to_the_smallest_window_of_its_links() {
        for window in [0, 1, 2, 40, 65_533, 65_534] {
            for ready in [0, 1] {
                let windows = [65_535, window, 65_535];
                assert_eq!(answer(&windows, &[window + 1], &[0b111], &[ready]), Err(no_at(31, 0)));
                assert_eq!(answer(&windows, &[window + 1], &[0b101], &[ready]), Ok(0));
                let whole = if window == 0 { Err(no_at(30, 0)) } else { Ok(0) };
                assert_eq!(answer(&windows, &[window], &[0b111], &[ready]), whole);
            }
        }
    }

    #[test]
    fn a_full_window_is_taken_and_no_more() {
        for window in [1, 2, 40, 65_535] {
            let lists = Lists::new(&[window], &[window, 1, window], &[1; 3]);
            assert_eq!(cycled(&lists, &[1; 3]), (vec![1, 0, 0], vec![window]));
            assert_eq!(cycled(&lists, &[0, 0, 1]), (vec![0, 0, 1], vec![window]));
        }
    }

    /// In 16 bits 40,000 and 40,000 are 14,464, 65,535 and 1 are 0, and 64 times 65,535 is 65,472.
    #[test]
    fn sums_past_16_bits_do_not_wrap() {
        let lists = Lists::new(&[65_535], &[40_000, 40_000, 25_535, 1], &[1; 4]);
        assert_eq!(cycled(&lists, &[1; 4]), (vec![1, 0, 1, 0], vec![65_535]));
        let lists = Lists::new(&[65_535], &[65_535, 1, 65_535], &[1; 3]);
        assert_eq!(cycled(&lists, &[1; 3]), (vec![1, 0, 0], vec![65_535]));
        let lists = Lists::new(&[65_535], &[65_535; 64], &[1; 64]);
        let (taken, loads) = cycled(&lists, &[1; 64]);
        assert_eq!((taken[0], &taken[1..], loads[0]), (1, &[0; 63][..], 65_535));
    }

    #[test]
    fn a_link_is_there_exactly_below_the_number_of_links() {
        for links in 0..=32 {
            for link in 0..32 {
                let wanted = if link < links { Ok(0) } else { Err(no_at(30, 0)) };
                assert_eq!(answer(&vec![5; links], &[5], &[1 << link], &[1]), wanted);
                let among = if links > 0 { 1 | 1 << link } else { 1 << link };
                assert_eq!(answer(&vec![5; links], &[5], &[among], &[1]), wanted);
            }
        }
    }

    #[test]
    fn link_31_has_its_own_window_and_load() {
        let mut windows = [9; 32];
        windows[31] = 5;
        let lists = Lists::new(&windows, &[3, 3, 2, 9], &[1 << 31, u32::MAX, 1 << 31, 1 << 30]);
        assert_eq!(answer(&windows, &[3, 6], &[1 << 31, u32::MAX], &[1; 2]), Err(no_at(31, 1)));
        let (taken, loads) = cycled(&lists, &[1; 4]);
        assert_eq!((taken, &loads[29..]), (vec![1, 0, 1, 1], &[0, 9, 5][..]));
    }

    /// Each line has the causes of all refusals that come after its own.
    #[test]
    fn refusals_come_in_order_and_change_nothing() {
        let (mut taken, mut loads) = ([9; 3], [7_777; 2]);
        for (links, size, window, bytes, numbers, wanted) in [
            (33, 0, 7, 2, 1, Err(no(34))),
            (2, 0, 7, 2, 1, Err(no_at(30, 1))),
            (2, 8, 7, 2, 1, Err(no_at(31, 0))),
            (2, 8, 8, 2, 2, Err(no(21))),
            (2, 8, 8, 3, 1, Err(no(21))),
            (2, 8, 8, 0, 0, Err(no(21))),
        ] {
            let (windows, sizes) = (vec![window; links], [8, size, 8]);
            let lent = (&mut taken[..bytes], &mut loads[..numbers]);
            assert_eq!(cycle(&windows, &sizes, &[1; 3], &[1; 3], lent.0, lent.1), wanted);
            assert_eq!((taken, loads), ([9; 3], [7_777; 2]));
        }
        assert_eq!(cycle(&[8; 2], &[8; 3], &[1; 3], &[1; 3], &mut taken, &mut loads), Ok(0));
        assert_eq!((taken, loads), ([1, 0, 0], [8, 0]));
    }

    #[test]
    fn the_lowest_message_is_named() {
        // A size of 0, an empty set, and a set with a link that is not there.
        let wrongs = [(0, 0b01), (3, 0), (3, 0b101)];
        for (low, high) in (0..64).flat_map(|low| (low..64).map(move |high| (low, high))) {
            for turn in 0..3 {
                let mut lists = Lists::new(&[9, 3], &[3; 64], &[0b11; 64]);
                let refused = |lists: &Lists| {
                    answer(&lists.windows, &lists.sizes, &lists.sets, &[turn as u8; 64])
                };
                assert_eq!(refused(&lists), Ok(0));
                lists.sizes[high] = 9;
                lists.sizes[low] = 4;
                assert_eq!(refused(&lists), Err(no_at(31, low)));
                (lists.sizes[high], lists.sets[high]) = wrongs[turn];
                assert_eq!(refused(&lists), Err(no_at(30, high)));
                (lists.sizes[low], lists.sets[low]) = wrongs[(turn + 1) % 3];
                assert_eq!(refused(&lists), Err(no_at(30, low)));
            }
        }
    }

    /// The sum on a link of what is taken above this message.
    fn load_above(lists: &Lists, taken: &[u8], message: usize, link: usize) -> u32 {
        let above = (0..message).filter(|&m| taken[m] == 1 && lists.sets[m] & 1 << link != 0);
        above.map(|m| u32::from(lists.sizes[m])).sum()
    }

    /// In both directions, from the bytes alone: what is taken fits with what is taken above it,
    /// what is ready and held does not, and what is not ready is not taken.
    #[test]
    fn taken_is_exactly_what_fits() {
        let mut random = Random::new(40);
        let (mut went, mut held) = (0, 0);
        for _ in 0..5_000 {
            let lists = Lists::random(&mut random);
            let ready = ready_bytes(&mut random, lists.sizes.len());
            let (taken, _) = cycled(&lists, &ready);
            for message in 0..taken.len() {
                let (size, set) = (u32::from(lists.sizes[message]), lists.sets[message]);
                let fits = (0..lists.windows.len()).all(|link| {
                    let sum = load_above(&lists, &taken, message, link) + size;
                    set & 1 << link == 0 || sum <= u32::from(lists.windows[link])
                });
                assert_eq!(taken[message], u8::from(ready[message] != 0 && fits));
                went += u32::from(taken[message]);
                held += u32::from(ready[message] != 0 && taken[message] == 0);
            }
        }
        assert!(went > 10_000 && held > 10_000, "{went} went, {held} held");
    }

    #[test]
    fn loads_are_what_is_taken_and_within_the_windows() {
        let mut random = Random::new(41);
        let mut full = 0;
        for _ in 0..5_000 {
            let lists = Lists::random(&mut random);
            let ready = ready_bytes(&mut random, lists.sizes.len());
            let (taken, loads) = cycled(&lists, &ready);
            for (link, (&load, &window)) in loads.iter().zip(&lists.windows).enumerate() {
                assert_eq!(u32::from(load), load_above(&lists, &taken, taken.len(), link));
                assert!(load <= window);
                full += u32::from(load == window);
            }
        }
        assert!(full > 1_000, "{full}");
    }

    #[test]
    fn a_held_message_has_a_taken_one_above_it_on_one_of_its_links() {
        let mut random = Random::new(42);
        let mut held = 0;
        for _ in 0..5_000 {
            let lists = Lists::random(&mut random);
            let ready = ready_bytes(&mut random, lists.sizes.len());
            let (taken, _) = cycled(&lists, &ready);
            for message in (0..taken.len()).filter(|&m| ready[m] != 0 && taken[m] == 0) {
                let meets = |m: usize| lists.sets[m] & lists.sets[message] != 0;
                assert!((0..message).any(|m| taken[m] == 1 && meets(m)));
                held += 1;
            }
        }
        assert!(held > 10_000, "{held}");
    }

    /// The messages below are drawn anew, more or fewer of them, or left out.
    #[test]
    fn messages_below_change_nothing_above() {
        let mut random = Random::new(43);
        for _ in 0..5_000 {
            let lists = Lists::random(&mut random);
            let ready = ready_bytes(&mut random, lists.sizes.len());
            let kept = random.place(lists.sizes.len() + 1);
            let (taken, _) = cycled(&lists, &ready);
            let other = lists.with_others_below(&mut random, kept);
            let mut other_ready = ready_bytes(&mut random, other.sizes.len());
            other_ready[..kept].copy_from_slice(&ready[..kept]);
            assert_eq!(cycled(&other, &other_ready).0[..kept], taken[..kept]);
            assert_eq!(cycled(&lists.first(kept), &ready[..kept]).0, taken[..kept]);
        }
    }
}
