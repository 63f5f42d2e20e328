//! The calls of the fixed sequence that are of cycles, runs and least TRDs.

use crate::answer::{shown, Outcome};
use crate::calls::{digest, Calls, Edges};
use crate::{cycles, runs, trd};

const LINKS: Edges = [0, 1, 2, 3, 4, 8, 31, 32, 33, 40];
const MESSAGES: Edges = [0, 1, 2, 3, 5, 20, 63, 64, 65, 70];
const SLOTS: Edges = [0, 1, 9, 10, 11, 40, 41, 65534, 65535, 100];
const CYCLES: Edges = [0, 1, 2, 5, 64, 100, 1023, 1024, 1025, 4000000000];
const DEPTHS: Edges = [0, 1, 2, 3, 5, 63, 64, 65, 100, 4000000000];
const TIMES: Edges = [0, 1, 2, 5, 17, 100, 9999, 10000, 10001, 4000000000];

/// As many elements as the largest edge needs.
type PerLink<T> = Lent<T, 40>;
type PerMessage<T> = Lent<T, 70>;

/// Memory of which the first elements are lent; all of it is digested.
struct Lent<T, const N: usize> {
    all: [T; N],
    lent: usize,
}

impl<T: Copy, const N: usize> Lent<T, N> {
    fn of(element: T, lent: usize) -> Lent<T, N> {
        Lent { all: [element; N], lent }
    }

    fn part(&self) -> &[T] {
        &self.all[..self.lent]
    }

    fn part_mut(&mut self) -> &mut [T] {
        &mut self.all[..self.lent]
    }
}

struct Network {
    windows: PerLink<u16>,
    sizes: PerMessage<u16>,
    sets: PerMessage<u32>,
}

struct Cycle {
    network: Network,
    ready: PerMessage<u8>,
    taken: PerMessage<u8>,
    loads: PerLink<u16>,
}

impl Cycle {
    fn make(&mut self) -> Outcome {
        let Network { windows, sizes, sets } = &self.network;
        let (taken, loads) = (self.taken.part_mut(), self.loads.part_mut());
        let (windows, sizes, sets) = (windows.part(), sizes.part(), sets.part());
        cycles::cycle(windows, sizes, sets, self.ready.part(), taken, loads)
    }
}

struct Run {
    network: Network,
    releases: PerMessage<u16>,
    cycles: u32,
    responses: PerMessage<u16>,
}

impl Run {
    fn make(&mut self) -> Outcome {
        let Network { windows, sizes, sets } = &self.network;
        let (releases, responses) = (self.releases.part(), self.responses.part_mut());
        let (windows, sizes, sets) = (windows.part(), sizes.part(), sets.part());
        runs::run(windows, sizes, sets, releases, self.cycles, responses)
    }
}

/// Never empty, and only of links that are there, if that can be.
fn set_of(wide: u32, links: usize) -> u32 {
    let sets = if (1..=32).contains(&links) { u32::MAX >> (32 - links) } else { u32::MAX };
    1 + wide % sets
}

impl Calls {
    fn pick_wide(&mut self) -> u32 {
        let low = self.pick(65_536);
        low + 65_536 * self.pick(65_536)
    }

    fn network(&mut self) -> Network {
        let links = if self.rarely(8) { self.of(&LINKS) } else { 1 + self.pick(6) } as usize;
        let messages = if self.rarely(8) { self.of(&MESSAGES) } else { 1 + self.pick(10) } as usize;
        let mut network = Network {
            windows: Lent::of(0, links),
            sizes: Lent::of(0, messages),
            sets: Lent::of(0, messages),
        };
        network.windows.part_mut().fill_with(|| 10 + self.pick(11) as u16);
        for message in 0..messages {
            network.sizes.all[message] = 1 + self.pick(10) as u16;
            network.sets.all[message] = set_of(self.pick_wide(), links);
        }
        self.change(&mut network);
        network
    }

    /// What is changed may lie past what is lent.
    fn change(&mut self, network: &mut Network) {
        if self.rarely(6) {
            let place = self.pick(6) as usize;
            network.windows.all[place] = self.of(&SLOTS) as u16;
        }
        if self.rarely(6) {
            let place = self.pick(10) as usize;
            network.sizes.all[place] = self.of(&SLOTS) as u16;
        }
        if self.rarely(6) {
            let place = self.pick(10) as usize;
            network.sets.all[place] = if self.rarely(3) { 0 } else { self.pick_wide() };
        }
    }

    /// How much is lent of a list that should have a number a message.
    fn lent_of(&mut self, messages: usize) -> usize {
        if self.rarely(12) {
            self.pick(71) as usize
        } else {
            messages
        }
    }

    /// How much is lent of a buffer that has room enough; seldom fewer than `few` elements.
    fn room_of(&mut self, whole: usize, few: u32) -> usize {
        if self.rarely(8) {
            self.pick(few) as usize
        } else {
            whole
        }
    }

    fn pick_cycle(&mut self) -> Cycle {
        let mut network = self.network();
        let messages = network.sizes.lent;
        let mut ready = Lent::of(0, messages);
        ready.part_mut().fill_with(|| self.pick(3) as u8);
        network.sets.lent = self.lent_of(messages);
        ready.lent = self.lent_of(messages);
        let (taken, loads) = (self.room_of(70, 12), self.room_of(40, 8));
        Cycle { network, ready, taken: Lent::of(9, taken), loads: Lent::of(7_777, loads) }
    }

    fn pick_run(&mut self) -> Run {
        let mut network = self.network();
        let messages = network.sizes.lent;
        let mut releases = Lent::of(0, messages);
        releases.part_mut().fill_with(|| self.pick(4) as u16);
        if self.rarely(3) {
            let place = self.pick(10) as usize;
            releases.all[place] = self.pick(70_000).min(65_535) as u16;
        }
        network.sets.lent = self.lent_of(messages);
        releases.lent = self.lent_of(messages);
        let cycles = if self.rarely(4) { self.of(&CYCLES) } else { 1 + self.pick(10) };
        let responses = Lent::of(7_777, self.room_of(70, 12));
        Run { network, releases, cycles, responses }
    }

    fn trd(&mut self) {
        let (depth, nodes) = (self.of(&DEPTHS), self.of(&DEPTHS));
        let [sig, tm, sld] = [(); 3].map(|()| self.of(&TIMES));
        self.answer("trd", trd::least_trd(depth, nodes, sig, tm, sld));
    }

    pub fn cycle_run_and_trd(&mut self) {
        let mut cycle = self.pick_cycle();
        let answer = shown(cycle.make());
        let (taken, loads) = (digest(&cycle.taken.all), digest(&cycle.loads.all));
        self.line(format_args!("cycle {answer} {taken} {loads}"));
        let mut run = self.pick_run();
        let answer = shown(run.make());
        let responses = digest(&run.responses.all);
        self.line(format_args!("run {answer} {responses}"));
        self.trd();
    }
}

#[cfg(test)]
mod tests {
    use super::*;
    use crate::calls::{has_cycle, lines, ROUNDS};
    use crate::runs::{LATER, WAITS};

    #[test]
    fn sets_are_of_the_links_that_are_there() {
        assert_eq!([0, 5, u32::MAX].map(|wide| set_of(wide, 1)), [1, 1, 1]);
        assert_eq!([0, 6, 7, 8, 13, 14].map(|wide| set_of(wide, 3)), [1, 7, 1, 2, 7, 1]);
        assert_eq!(set_of(0x7fff_fffe, 31), 0x7fff_ffff);
        for links in [0, 32, 33, 40] {
            let ends = [0, u32::MAX - 1, u32::MAX].map(|wide| set_of(wide, links));
            assert_eq!(ends, [1, u32::MAX, 1]);
        }
    }

    /// The cycles and runs of the sequence that are done, after they are.
    fn done() -> (Vec<Cycle>, Vec<Run>) {
        let (mut calls, mut cycles, mut runs) = (Calls::new(), Vec::new(), Vec::new());
        for round in 0..ROUNDS {
            calls.turn(round);
            if has_cycle(round) {
                let mut cycle = calls.pick_cycle();
                if cycle.make().is_ok() {
                    cycles.push(cycle);
                }
                let mut run = calls.pick_run();
                if run.make().is_ok() {
                    runs.push(run);
                }
                calls.trd();
            }
        }
        (cycles, runs)
    }

    /// Only digests are compared: here is what they are of.
    #[test]
    fn the_sequence_has_held_messages_late_responses_and_both_marks() {
        let (cycles, runs) = done();
        let lines = lines();
        assert_eq!(cycles.len(), lines.matches("cycle 0,").count());
        assert_eq!(runs.len(), lines.matches("run 0,").count());
        let both = cycles.iter().filter(|cycle| {
            let mut messages = cycle.ready.part().iter().zip(&cycle.taken.all);
            let taken = messages.clone().any(|(_, &taken)| taken == 1);
            taken && messages.any(|(&ready, &taken)| ready != 0 && taken == 0)
        });
        let with = |is: fn(u16) -> bool| {
            let given = |run: &&Run| run.responses.all[..run.releases.lent].iter().any(|&r| is(r));
            runs.iter().filter(given).count()
        };
        let late = with(|response| (2..LATER).contains(&response));
        let (waits, later) = (with(|response| response == WAITS), with(|r| r == LATER));
        let counts = [both.count(), late, waits, later];
        assert!(counts.iter().all(|&count| count >= 20), "{counts:?}");
    }
}
