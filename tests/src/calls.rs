//! The fixed sequence of calls that the proved program makes too; the two outputs are compared.

use crate::answer::{shown, Outcome, Refusal};
use crate::delays::{CARRIED_BITS, MOST_DELAY};
use crate::flows::MOST_FRAME;
use crate::forwarding::Running;
use crate::{delays, forwarding, table, text};
use std::fmt::Write;

pub const ROUNDS: u32 = 12_000;
const SEED: u64 = 20_261_115;

pub type Edges = [u32; 10];
const FRAMES: Edges = [0, 1, 2, 3, 5, 8, 60, MOST_FRAME, MOST_FRAME + 1, 4000000000];
const PORTS: Edges = [0, 1, 2, 3, 4, 8, 32, 33, 4000000000, 1];
const DEADLINES: Edges = [
    0,
    1,
    MOST_FRAME - 1,
    MOST_FRAME,
    2 * MOST_FRAME,
    2 * MOST_FRAME + 1,
    999999,
    1000000,
    1000001,
    4000000000,
];
const LINKS: Edges = [0, 1, 2, 254, 255, 256, 300, 3, 10, 100];
const DELAYS: Edges =
    [0, 1, 2, 20, MOST_DELAY - 1, MOST_DELAY, MOST_DELAY + 1, 65535, 65536, 4000000000];
const PERIODS: Edges = [0, 1, 4, 5, 11, MOST_FRAME, MOST_FRAME - 1, 999999, 1000000, 1000001];
const CELLS: Edges = [0, 1, 2, 3, 6, MOST_FRAME, MOST_FRAME + 1, 65535, 65536, 4000000000];
const BITS: Edges = [
    0,
    1,
    CARRIED_BITS - 1,
    CARRIED_BITS,
    CARRIED_BITS + 1,
    1000,
    9999999,
    10000000,
    10000001,
    4000000000,
];
const COUNTS: Edges = [0, 1, 2, 3, 5, 10, 100, 254, 255, 256];
const OFFERS: Edges = [0, 1, 2, 5, 100, 3999, 4000, 4001, 40000, 65535];

/// The buffers live through the whole run, so a byte left wrong by one call shows later.
pub struct Calls {
    state: u64,
    list: [u16; 800],
    table: [u8; 2600],
    waiting: [u16; 260],
    sent: [u8; 40],
    record: Running,
    text: [u8; 9000],
    lines: String,
}

pub fn digest<T: Copy + Into<u64>>(numbers: &[T]) -> u64 {
    numbers.iter().fold(7, |d, &x| (d * 257 + x.into() + 1) % 1_000_003)
}

impl Calls {
    pub fn new() -> Calls {
        Calls {
            state: SEED,
            list: [0; 800],
            table: [0; 2600],
            waiting: [0; 260],
            sent: [0; 40],
            record: Running::default(),
            text: [0; 9000],
            lines: String::new(),
        }
    }

    pub fn pick(&mut self, n: u32) -> u32 {
        self.state = self.state * 48_271 % 2_147_483_647;
        (self.state % u64::from(n)) as u32
    }

    pub fn of(&mut self, edges: &Edges) -> u32 {
        edges[self.pick(10) as usize]
    }

    /// One choice in `n` goes to the edges; the condition is always picked first.
    pub fn rarely(&mut self, n: u32) -> bool {
        self.pick(n) == 0
    }

    pub fn line(&mut self, line: std::fmt::Arguments) {
        writeln!(self.lines, "{line}").expect("a string takes every line");
    }

    pub fn answer(&mut self, name: &str, outcome: Outcome) {
        self.line(format_args!("{name} {}", shown(outcome)));
    }

    fn sizes(&mut self) -> (u32, u32) {
        let frame = if self.rarely(4) { self.of(&FRAMES) } else { 1 + self.pick(8) };
        let ports = if self.rarely(4) { self.of(&PORTS) } else { 1 + self.pick(4) };
        (frame, ports)
    }

    fn table_bytes(&mut self, n: u32) -> usize {
        let bytes = if self.rarely(n) { self.pick(2601) } else { 2600 };
        bytes as usize
    }

    fn waiting_counts(&mut self, n: u32) -> usize {
        let counts = if self.rarely(n) { self.of(&COUNTS) } else { 10 };
        counts as usize
    }

    fn round(&mut self) {
        match self.pick(12) {
            0 => self.margin(),
            1 => self.room(),
            2 => self.fit(),
            3 => self.cells(),
            4 => self.fill_list(),
            5 => self.damage_table(),
            6 => self.plan_table(),
            7 => self.check(),
            8 => self.row(),
            9 => self.start(),
            10 => self.offer(),
            _ => self.slot(),
        }
    }

    /// Delays in range, and then up to two that may not be: one near the front, one anywhere, if
    /// the list goes so far.
    fn delays(&mut self, links: u32) -> Vec<u16> {
        let mut delays: Vec<_> = (0..links).map(|_| 1 + self.pick(MOST_DELAY) as u16).collect();
        for places in [12, 300] {
            if self.rarely(3) {
                let place = self.pick(places) as usize;
                let delay = self.of(&DELAYS).min(65_535) as u16;
                if let Some(there) = delays.get_mut(place) {
                    *there = delay;
                }
            }
        }
        delays
    }

    fn margin(&mut self) {
        let (frame, links) = (self.of(&FRAMES), self.of(&LINKS));
        let delays = self.delays(links);
        let deadline = self.of(&DEADLINES);
        self.answer("margin", delays::margin(frame, &delays, deadline));
    }

    fn room(&mut self) {
        let (frame, delay) = (self.of(&FRAMES), self.of(&DELAYS));
        let deadline = self.of(&DEADLINES);
        self.answer("room", delays::room(frame, delay, deadline));
    }

    fn fit(&mut self) {
        let (frame, period) = (self.of(&FRAMES), self.of(&PERIODS));
        let cells = self.of(&CELLS);
        self.answer("fit", delays::fit(frame, period, cells));
    }

    fn cells(&mut self) {
        let bits = self.of(&BITS);
        self.answer("cells", delays::cells_of_message(bits));
    }

    fn fill_list(&mut self) {
        let flows = self.pick(9) as usize;
        let frame = 1 + self.pick(8);
        let ports = 1 + self.pick(4);
        for k in 0..flows {
            for (offset, most) in [ports, ports, frame].into_iter().enumerate() {
                self.list[3 * k + offset] = 1 + self.pick(most) as u16;
            }
        }
        if self.rarely(8) {
            let place = self.pick(24) as usize;
            self.list[place] = self.pick(70_000).min(65_535) as u16;
        }
        let list = digest(&self.list[..24]);
        self.line(format_args!("list {list}"));
    }

    fn damage_table(&mut self) {
        let place = self.pick(2600) as usize;
        self.table[place] = self.pick(256) as u8;
        let table = digest(&self.table);
        self.line(format_args!("damage {table}"));
    }

    fn plan_table(&mut self) {
        let frame = 1 + self.pick(8);
        let ports = 1 + self.pick(4);
        for place in 0..(ports * frame) as usize {
            let empty = self.rarely(3);
            self.table[place] = if empty { 0 } else { 1 + self.pick(8) as u8 };
        }
        let table = digest(&self.table[..40]);
        self.line(format_args!("plan {table}"));
    }

    fn numbers(&mut self) -> usize {
        (if self.rarely(4) { self.pick(30) } else { 3 * self.pick(9) }) as usize
    }

    fn check(&mut self) {
        let (frame, ports) = self.sizes();
        let numbers = self.numbers();
        let bytes = self.table_bytes(4);
        let outcome = table::check(frame, ports, &self.list[..numbers], &self.table[..bytes]);
        let (list, table) = (digest(&self.list[..24]), digest(&self.table));
        self.line(format_args!("check {} {list} {table}", shown(outcome)));
    }

    fn row(&mut self) {
        let (frame, ports) = self.sizes();
        let bytes = self.table_bytes(4);
        let output = self.pick(6);
        let row = table::row(frame, ports, &self.table[..bytes], output);
        let part = row.unwrap_or(&[]);
        let (length, part) = (part.len(), digest(part));
        let answer = shown(row.map(|_| 0));
        self.line(format_args!("row {answer} {length} {part}"));
    }

    fn record_shown(&self) -> String {
        let Running { frame, ports, position } = self.record;
        format!("{frame},{ports},{position}")
    }

    fn start(&mut self) {
        let (frame, ports) = self.sizes();
        let counts = self.of(&COUNTS) as usize;
        let waiting = &mut self.waiting[..counts];
        let outcome = forwarding::start(&mut self.record, frame, ports, waiting);
        let (record, waiting) = (self.record_shown(), digest(&self.waiting));
        self.line(format_args!("start {} {record} {waiting}", shown(outcome)));
    }

    fn offer(&mut self) {
        let counts = self.waiting_counts(4);
        let flow = self.pick(12);
        let cells = if self.rarely(4) { self.of(&OFFERS) } else { self.pick(4) } as u16;
        let outcome = forwarding::offer(&mut self.waiting[..counts], flow, cells);
        let waiting = digest(&self.waiting);
        self.line(format_args!("offer {} {waiting}", shown(outcome)));
    }

    fn slot(&mut self) {
        let counts = self.waiting_counts(8);
        let bytes = self.table_bytes(8);
        let room = if self.rarely(8) { self.pick(41) } else { 40 } as usize;
        self.slot_of(counts, bytes, room, "slot");
    }

    fn slot_of(&mut self, counts: usize, bytes: usize, room: usize, name: &str) {
        let outcome = forwarding::slot(
            &mut self.record,
            &self.table[..bytes],
            &mut self.waiting[..counts],
            &mut self.sent[..room],
        );
        let (record, answer) = (self.record_shown(), shown(outcome));
        let (waiting, sent) = (digest(&self.waiting), digest(&self.sent));
        self.line(format_args!("{name} {answer} {record} {waiting} {sent}"));
    }

    /// Gives how much of the text is then read: what was written, or any part.
    fn write(&mut self) -> usize {
        let (frame, ports) = self.sizes();
        let numbers = self.numbers();
        let room = self.pick(200) as usize;
        let outcome = text::write(frame, ports, &self.list[..numbers], &mut self.text[..room]);
        let text = digest(&self.text[..200]);
        self.line(format_args!("write {} {text}", shown(outcome)));
        match outcome {
            Ok(bytes) => bytes as usize,
            Err(_) => self.pick(200) as usize,
        }
    }

    fn read(&mut self, cut: usize) {
        if self.rarely(4) {
            let place = self.pick(200) as usize;
            self.text[place] = self.pick(256) as u8;
        }
        let room = self.pick(25) as usize;
        let outcome = text::read(&self.text[..cut], &mut self.list[..room]);
        let (frame, ports, answer) = read_shown(outcome);
        let list = digest(&self.list[..24]);
        self.line(format_args!("read {answer} {frame},{ports} {list}"));
    }
}

/// Small tables that are often accepted, and slots of records that no fresh start makes: answers
/// that the other rounds hardly ever meet.
impl Calls {
    fn small_list(&mut self, frame: u32) {
        for k in 0..2 {
            self.list[3 * k] = 1 + self.pick(2) as u16;
            self.list[3 * k + 1] = k as u16 + 1;
            self.list[3 * k + 2] = 1 + self.pick(frame) as u16;
        }
    }

    fn small_table(&mut self, frame: u32) {
        for place in 0..2 * frame {
            self.table[place as usize] = match self.pick(8) {
                0..=4 => (place / frame + 1) as u8,
                5 | 6 => 0,
                _ => self.pick(4) as u8,
            };
        }
    }

    fn accept(&mut self) {
        let frame = 1 + self.pick(3);
        self.small_list(frame);
        self.small_table(frame);
        let outcome = table::check(frame, 2, &self.list[..6], &self.table);
        self.answer("accept", outcome);
        let (frame, ports) = self.sizes();
        let position = self.pick(5);
        let running = std::mem::replace(&mut self.record, Running { frame, ports, position });
        self.slot_of(10, 2600, 40, "other");
        self.record = running;
    }

    /// All of a round but its cycle, run and TRD.
    pub fn turn(&mut self, round: u32) {
        self.round();
        if round % 4 == 1 {
            self.accept();
        }
        if round % 16 == 15 {
            let cut = self.write();
            self.read(cut);
        }
    }
}

/// Frame and ports are 0 on refusal.
fn read_shown(outcome: Result<(u32, u32, usize), Refusal>) -> (u32, u32, String) {
    match outcome {
        Ok((frame, ports, flows)) => (frame, ports, shown(Ok(flows as i64))),
        Err(refusal) => (0, 0, refusal.to_string()),
    }
}

/// Whether the round also has a cycle, a run and a TRD.
pub fn has_cycle(round: u32) -> bool {
    round % 8 == 2
}

/// The lines of the whole sequence.
pub fn lines() -> String {
    let mut calls = Calls::new();
    for round in 0..ROUNDS {
        calls.turn(round);
        if has_cycle(round) {
            calls.cycle_run_and_trd();
        }
    }
    calls.lines
}

#[cfg(test)]
mod tests {
    use super::*;
    use std::collections::BTreeSet;

    #[test]
    fn the_sequence_is_the_agreed_one() {
        let mut calls = Calls::new();
        let next = 20_261_115u64 * 48_271 % 2_147_483_647;
        assert_eq!(u64::from(calls.pick(1_000_000)), next % 1_000_000);
        assert_eq!(digest::<u8>(&[]), 7);
        assert_eq!(digest(&[0u8]), 7 * 257 + 1);
        assert_eq!(digest(&[65_535u16, 1]), ((7 * 257 + 65_536) * 257 + 2) % 1_000_003);
        assert_eq!(lines().lines().count(), 12_000 + 2 * 750 + 2 * 3_000 + 3 * 1_500);
    }

    /// A sequence that never meets an answer would compare nothing about it. Not met are some of
    /// read's, which the planner's texts meet.
    #[test]
    fn nearly_every_answer_is_met() {
        let wanted = "margin 0 1 15 16 25;room 0 1 16 25;fit 0 1 17 18;cells 0 23;\
             check 1 2 3 4 7 8 10;row 0 1 2 7 22;start 0 1 2 12;offer 0 12 13 14;\
             slot 0 7 12 28;write 0 1 2 3 4 21;read 0 20 21;accept 0 8 9 10;other 0 1 2 7 11 28;\
             cycle 0 21 30 31 34;run 0 21 30 31 34;trd 0 32";
        let lines = lines();
        let met: BTreeSet<_> = lines
            .lines()
            .filter_map(|line| line.split_once(','))
            .map(|(start, _)| start.to_string())
            .collect();
        for call in wanted.split(';') {
            let (name, numbers) = call.split_once(' ').unwrap();
            for number in numbers.split(' ') {
                assert!(met.contains(&format!("{name} {number}")), "{name} {number}");
            }
        }
    }
}
