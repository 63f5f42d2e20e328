//! The forwarding core: fresh start, offer and slot over lent memory.

use crate::answer::{no_at, refuse_if, Outcome, Refusal};
use crate::flows::sizes_fit;
use crate::table::body;

const MOST_COUNTS: usize = 255;
const MOST_WAITING: u32 = 4_000;

#[derive(Clone, Copy, Default, PartialEq, Eq, Debug)]
pub struct Running {
    pub frame: u32,
    pub ports: u32,
    pub position: u32,
}

pub fn start(record: &mut Running, frame: u32, ports: u32, waiting: &mut [u16]) -> Outcome {
    sizes_fit(frame, ports)?;
    refuse_if(waiting.len() > MOST_COUNTS, 12)?;
    *record = Running { frame, ports, position: 0 };
    waiting.fill(0);
    Ok(0)
}

pub fn offer(waiting: &mut [u16], flow: u32, cells: u16) -> Outcome {
    refuse_if(waiting.len() > MOST_COUNTS, 12)?;
    refuse_if(flow == 0 || flow as usize > waiting.len(), 13)?;
    let count = &mut waiting[flow as usize - 1];
    // The sum may pass 16 bits.
    let sum = u32::from(*count) + u32::from(cells);
    refuse_if(sum > MOST_WAITING, 14)?;
    *count = sum as u16;
    Ok(0)
}

/// Refusal 28: one of the entries, each with its place, is above the number of counts.
fn entries_have_counts<'a>(
    mut entries: impl Iterator<Item = (usize, &'a u8)>,
    counts: usize,
) -> Result<(), Refusal> {
    match entries.find(|&(_, &entry)| usize::from(entry) > counts) {
        Some((place, _)) => Err(no_at(28, place)),
        None => Ok(()),
    }
}

/// What the output sends for this entry: the flow's number if it has a cell, else 0.
fn send(entry: u8, waiting: &mut [u16]) -> u8 {
    let Some(flow) = usize::from(entry).checked_sub(1) else {
        return 0;
    };
    if waiting[flow] == 0 {
        return 0;
    }
    waiting[flow] -= 1;
    entry
}

pub fn slot(record: &mut Running, table: &[u8], waiting: &mut [u16], sent: &mut [u8]) -> Outcome {
    let Running { frame, ports, position } = *record;
    sizes_fit(frame, ports)?;
    let body = body(frame, ports, table)?;
    refuse_if(waiting.len() > MOST_COUNTS || sent.len() < ports as usize, 12)?;
    refuse_if(position >= frame, 11)?;
    let entries = body.iter().enumerate().skip(position as usize).step_by(frame as usize);
    entries_have_counts(entries.clone(), waiting.len())?;
    for (byte, (_, &entry)) in sent.iter_mut().zip(entries) {
        *byte = send(entry, waiting);
    }
    record.position = (position + 1) % frame;
    Ok(0)
}

#[cfg(test)]
mod tests {
    use super::*;
    use crate::answer::no;
    use crate::builder::table_of;
    use crate::plans::{feasible, size};
    use crate::random::Random;

    const TABLE_A: [u8; 20] = [1, 1, 1, 3, 3, 0, 0, 0, 2, 2, 0, 0, 0, 0, 0, 0, 0, 0, 0, 0];

    fn running(frame: u32, ports: u32, position: u32) -> Running {
        Running { frame, ports, position }
    }

    #[test]
    fn document_01_offers() {
        let mut waiting = [3_999];
        assert_eq!(offer(&mut waiting, 1, 1), Ok(0));
        assert_eq!(offer(&mut waiting, 1, 1), Err(no(14)));
        assert_eq!(offer(&mut waiting, 1, 0), Ok(0));
        assert_eq!(offer(&mut waiting, 1, 65_535), Err(no(14)));
        assert_eq!(waiting, [4_000]);
    }

    #[test]
    fn refusals_of_offer_come_in_order() {
        assert_eq!(offer(&mut [0; 256], 0, 5_000), Err(no(12)));
        assert_eq!(offer(&mut [0; 255], 256, 5_000), Err(no(13)));
        assert_eq!(offer(&mut [], 1, 0), Err(no(13)));
        assert_eq!(offer(&mut [0; 255], 255, 4_001), Err(no(14)));
    }

    #[test]
    fn a_fresh_start_forgets_all() {
        let mut record = running(9, 9, 9);
        let mut waiting = [5; 3];
        assert_eq!(start(&mut record, 0, 0, &mut waiting), Err(no(1)));
        assert_eq!(start(&mut record, 5, 33, &mut waiting), Err(no(2)));
        assert_eq!(start(&mut record, 5, 4, &mut [5; 256]), Err(no(12)));
        assert_eq!((record, waiting), (running(9, 9, 9), [5; 3]));
        assert_eq!(start(&mut record, 5, 4, &mut waiting), Ok(0));
        assert_eq!((record, waiting), (running(5, 4, 0), [0; 3]));
    }

    #[test]
    fn refusals_of_slot_come_in_order_and_change_nothing() {
        let mut sent = [7; 4];
        for (mut record, bytes, counts, room, number) in [
            (running(0, 0, 9), 0, 256, 0, 1),
            (running(5, 0, 9), 0, 256, 0, 2),
            (running(5, 4, 9), 19, 256, 0, 7),
            (running(5, 4, 9), 20, 256, 4, 12),
            (running(5, 4, 9), 20, 3, 3, 12),
            // From here on flow 3 has no count, but 28 comes last.
            (running(5, 4, 5), 20, 2, 4, 11),
            (running(5, 4, 9), 20, 2, 4, 11),
        ] {
            let (before, mut waiting) = (record, [1; 256]);
            let lent = &mut waiting[..counts];
            let answer = slot(&mut record, &TABLE_A[..bytes], lent, &mut sent[..room]);
            assert_eq!(answer, Err(no(number)));
            assert_eq!((record, waiting, sent), (before, [1; 256], [7; 4]));
        }
    }

    #[test]
    fn a_slot_sends_what_waits_at_that_moment() {
        // One cell of flow 1, which two rows name: the first takes it.
        let (mut record, mut waiting, mut sent) = (running(1, 4, 0), [1, 0], [9; 6]);
        assert_eq!(slot(&mut record, &[1, 1, 2, 0], &mut waiting, &mut sent), Ok(0));
        assert_eq!((waiting, sent), ([0, 0], [1, 0, 0, 0, 9, 9]));
        assert_eq!(record, running(1, 4, 0));
    }

    /// Frame 2, ports 3: at position 0 the entries are 1, 9, 200, and at position 1 they are
    /// 2, 3, 0; the 255 stands past the table.
    #[test]
    fn a_strange_entry_at_the_position_is_refused_with_its_place() {
        let table = [1, 2, 9, 3, 200, 0, 255];
        for (position, counts, answer) in [
            (0, 2, Err(no_at(28, 2))),
            (1, 2, Err(no_at(28, 3))),
            // Three counts: the entry 3 is equal to their number, and 9 stands elsewhere.
            (1, 3, Ok(0)),
            (0, 3, Err(no_at(28, 2))),
            // Nine: of position 0 only 200 is left.
            (0, 9, Err(no_at(28, 4))),
            (0, 199, Err(no_at(28, 4))),
            (0, 200, Ok(0)),
            // None: the lowest output's own entry.
            (0, 0, Err(no_at(28, 0))),
            (1, 0, Err(no_at(28, 1))),
        ] {
            let (mut record, mut waiting, mut sent) = (running(2, 3, position), [5; 255], [7; 3]);
            let given = slot(&mut record, &table, &mut waiting[..counts], &mut sent);
            assert_eq!(given, answer, "position {position}, {counts} counts");
            if answer.is_err() {
                let untouched = (running(2, 3, position), [5; 255], [7; 3]);
                assert_eq!((record, waiting, sent), untouched);
            }
        }
    }

    /// The largest entry in the last place of the largest table.
    #[test]
    fn a_strange_entry_at_the_limits_is_refused() {
        let mut table = [0; 65_536];
        table[65_535] = 255;
        for (counts, answer) in [(254, Err(no_at(28, 65_535))), (255, Ok(0))] {
            let (mut record, mut waiting) = (running(2_048, 32, 2_047), [1; 255]);
            let (lent, mut sent) = (&mut waiting[..counts], [0; 32]);
            assert_eq!(slot(&mut record, &table, lent, &mut sent), answer);
            assert_eq!(sent[31], if answer.is_ok() { 255 } else { 0 });
            assert_eq!(record.position, if answer.is_ok() { 0 } else { 2_047 });
        }
    }

    /// Any bytes: refused exactly if the column has an entry above the counts, and then nothing
    /// is changed. The column is found here by the remainders of the places.
    #[test]
    fn any_table_is_served_or_refused_by_its_column() {
        let mut random = Random::new(28);
        let (mut refused, mut done) = (0, 0);
        for _ in 0..3_000 {
            let (frame, ports) = (random.between(1, 6), random.between(1, 5));
            let most = random.pick(&[2, 5, 9, 256]);
            let table: Vec<u8> = (0..40).map(|_| random.below(most) as u8).collect();
            let counts = random.pick(&[0, 1, 4, 5, 8, 254, 255]);
            let mut record = running(frame, ports, random.below(frame));
            let (before, mut waiting, mut sent) = (record, vec![1; counts], [77; 6]);
            let answer = slot(&mut record, &table, &mut waiting, &mut sent);
            let strange = (0..(frame * ports) as usize)
                .filter(|place| *place as u32 % frame == before.position)
                .find(|&place| table[place] as usize > counts);
            match strange {
                Some(place) => {
                    assert_eq!(answer, Err(no_at(28, place)));
                    assert_eq!((record, waiting, sent), (before, vec![1; counts], [77; 6]));
                    refused += 1;
                }
                None => {
                    assert_eq!(answer, Ok(0));
                    assert_eq!(record.position, (before.position + 1) % frame);
                    done += 1;
                }
            }
        }
        assert!(refused > 500 && done > 500, "{refused} refused, {done} done");
    }

    /// And with one count fewer it is refused in just the slots that have the last flow.
    #[test]
    fn an_accepted_table_with_a_count_a_flow_is_never_refused() {
        let mut random = Random::new(10);
        for _ in 0..100 {
            let (frame, ports) = (random.between(1, 12), random.between(1, 6));
            let plan = feasible(&mut random, size(frame, ports, 20));
            let (table, mut waiting) = (table_of(&plan), vec![0; plan.flows.len()]);
            let (mut record, mut sent) = (running(frame, ports, 0), [0; 6]);
            for _ in 0..frame {
                assert_eq!(slot(&mut record, &table, &mut waiting, &mut sent), Ok(0));
            }
            let last = plan.flows.len() as u8;
            let Some(fewer) = waiting.len().checked_sub(1) else { continue };
            let refused = |position: &u32| {
                let mut record = running(frame, ports, *position);
                slot(&mut record, &table, &mut waiting[..fewer], &mut sent).is_err()
            };
            let slots = (0..frame).filter(refused).count();
            let columns = (0..frame as usize)
                .filter(|&s| table[s..].iter().step_by(frame as usize).any(|&e| e == last));
            assert_eq!(slots, columns.count());
        }
    }

    #[test]
    fn every_window_of_a_frame_serves_each_flow_its_cells() {
        for first in 0..5 {
            let mut record = running(5, 4, first);
            let (mut waiting, mut sent) = ([10; 3], [0; 4]);
            for _ in 0..5 {
                assert_eq!(slot(&mut record, &TABLE_A, &mut waiting, &mut sent), Ok(0));
            }
            assert_eq!((waiting, record.position), ([7, 8, 8], first));
        }
    }

    #[test]
    fn offers_equal_cells_sent_and_waiting_under_any_table() {
        let mut random = Random::new(11);
        let (mut record, mut waiting) = (Running::default(), [0; 4]);
        assert_eq!(start(&mut record, 3, 2, &mut waiting), Ok(0));
        let (mut offered, mut gone, mut refused) = ([0; 4], [0; 4], 0);
        for _ in 0..2_000 {
            let (flow, cells) = (random.below(6), random.below(3_000));
            if offer(&mut waiting, flow, cells as u16).is_ok() {
                offered[flow as usize - 1] += cells;
            }
            let (table, mut sent) = ([0; 6].map(|_: u8| random.below(7) as u8), [0; 2]);
            refused += u32::from(slot(&mut record, &table, &mut waiting, &mut sent).is_err());
            for flow in sent.into_iter().filter(|&flow| flow != 0) {
                gone[usize::from(flow) - 1] += 1;
            }
            for flow in 0..4 {
                assert_eq!(offered[flow], gone[flow] + u32::from(waiting[flow]));
            }
        }
        assert!(refused > 500 && refused < 1_500, "{refused}");
    }
}
