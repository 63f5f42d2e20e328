//! Margins, link rooms, period fits and cells of a message.

use crate::answer::{no_at, refuse_if, Outcome};
use crate::flows::frame_fits;

const MOST_LINKS: usize = 255;
/// The longest that a link may take, in slots.
pub const MOST_DELAY: u32 = 40;
const MOST_DEADLINE: u32 = 1_000_000;
const MOST_PERIOD: u32 = 1_000_000;
const MOST_BITS: u32 = 10_000_000;
const CELL_BITS: u32 = 500;
const LABEL_BITS: u32 = 20;
/// What the flow label leaves of a cell for the message.
pub const CARRIED_BITS: u32 = CELL_BITS - LABEL_BITS;

fn delay_fits(delay: u32) -> bool {
    (1..=MOST_DELAY).contains(&delay)
}

pub fn margin(frame: u32, delays: &[u16], deadline: u32) -> Outcome {
    frame_fits(frame)?;
    refuse_if(delays.len() > MOST_LINKS, 15)?;
    refuse_if(deadline > MOST_DEADLINE, 16)?;
    if let Some(link) = delays.iter().position(|&delay| !delay_fits(delay.into())) {
        return Err(no_at(25, link));
    }
    // The way of a cell that just misses its slot everywhere: a frame at the first switch, then
    // each link and a frame at the switch behind it.
    let behind = delays.iter().map(|&delay| i64::from(delay) + i64::from(frame));
    Ok(i64::from(deadline) - i64::from(frame) - behind.sum::<i64>())
}

pub fn room(frame: u32, delay: u32, deadline: u32) -> Outcome {
    frame_fits(frame)?;
    refuse_if(deadline > MOST_DEADLINE, 16)?;
    refuse_if(!delay_fits(delay), 25)?;
    let (frame, delay) = (i64::from(frame), i64::from(delay));
    // With a divisor above zero this rounds down, below zero too.
    Ok((i64::from(deadline) - frame).div_euclid(frame + delay))
}

pub fn fit(frame: u32, period: u32, cells: u32) -> Outcome {
    frame_fits(frame)?;
    refuse_if(period < frame || period > MOST_PERIOD, 17)?;
    refuse_if(cells == 0, 18)?;
    let least = cells.div_ceil(period / frame);
    refuse_if(least > frame, 18)?;
    Ok(i64::from(least))
}

pub fn cells_of_message(bits: u32) -> Outcome {
    refuse_if(!(1..=MOST_BITS).contains(&bits), 23)?;
    Ok(i64::from(bits.div_ceil(CARRIED_BITS)))
}

#[cfg(test)]
mod tests {
    use super::*;
    use crate::answer::no;
    use crate::random::Random;

    #[test]
    fn document_01_margins_and_rooms() {
        assert_eq!((margin(2_000, &[], 1_999), room(2_000, 1, 1_999)), (Ok(-1), Ok(-1)));
        assert_eq!((margin(2_000, &[1], 4_001), room(2_000, 1, 4_001)), (Ok(0), Ok(1)));
        assert_eq!((margin(2_000, &[1], 4_000), room(2_000, 1, 4_000)), (Ok(-1), Ok(0)));
    }

    #[test]
    fn with_every_delay_1_the_bound_is_document_01s() {
        for frame in [1, 5, 2_000, 2_048] {
            for links in 0..=255 {
                let bound = (i64::from(frame) + 1) * links as i64 + i64::from(frame);
                assert_eq!(margin(frame, &vec![1; links], 1_000_000), Ok(1_000_000 - bound));
            }
        }
    }

    #[test]
    fn a_radio_hop_takes_its_forty_slots() {
        assert_eq!((margin(2_000, &[40], 4_040), room(2_000, 40, 4_040)), (Ok(0), Ok(1)));
        assert_eq!((margin(2_000, &[40], 4_039), room(2_000, 40, 4_039)), (Ok(-1), Ok(0)));
        assert_eq!((margin(5, &[1, 40, 2], 63), margin(5, &[1, 40, 2], 62)), (Ok(0), Ok(-1)));
    }

    /// Document 02's bound, (h+1)·M plus the sum of the delays, whatever their order.
    #[test]
    fn the_bound_is_a_frame_a_switch_and_every_delay() {
        let mut random = Random::new(5);
        for _ in 0..2_000 {
            let frame = random.between(1, 2_048);
            let mut delays = vec![0; random.place(256)];
            delays.fill_with(|| random.between(1, 40) as u16);
            let sum: i64 = delays.iter().map(|&delay| i64::from(delay)).sum();
            let bound = (delays.len() as i64 + 1) * i64::from(frame) + sum;
            assert_eq!(margin(frame, &delays, 777_777), Ok(777_777 - bound));
            random.shuffle(&mut delays);
            assert_eq!(margin(frame, &delays, 777_777), Ok(777_777 - bound));
        }
    }

    #[test]
    fn margins_reach_both_ends_of_their_range() {
        assert_eq!(margin(2_048, &[40; 255], 0), Ok(-534_488));
        assert_eq!(margin(1, &[], 1_000_000), Ok(999_999));
    }

    #[test]
    fn margin_is_at_least_zero_exactly_up_to_the_room() {
        for (frame, delay) in [(1, 1), (1, 40), (2, 3), (5, 39), (60, 2), (2_047, 1), (2_048, 40)] {
            for deadline in (0..30_000).step_by(37) {
                let room = room(frame, delay, deadline).unwrap();
                let mut delays = Vec::new();
                for links in 0..=255 {
                    let fits = margin(frame, &delays, deadline).unwrap() >= 0;
                    assert_eq!(fits, links <= room);
                    delays.push(delay as u16);
                }
            }
        }
    }

    #[test]
    fn refusals_of_margin_and_room_come_in_order() {
        assert_eq!(margin(0, &[0; 256], 1_000_001), Err(no(1)));
        assert_eq!(margin(1, &[0; 256], 1_000_001), Err(no(15)));
        assert_eq!(margin(1, &[0; 255], 1_000_001), Err(no(16)));
        assert_eq!(margin(1, &[0; 255], 1_000_000), Err(no_at(25, 0)));
        assert_eq!(room(2_049, 0, 1_000_001), Err(no(1)));
        assert_eq!(room(2_048, 0, 1_000_001), Err(no(16)));
        assert_eq!(room(2_048, 0, 1_000_000), Err(no(25)));
    }

    #[test]
    fn delays_are_1_to_40() {
        for delay in [0, 41, 65_535] {
            assert_eq!(margin(5, &[1, delay], 63), Err(no_at(25, 1)));
            assert_eq!(room(5, delay.into(), 63), Err(no(25)));
        }
        for delay in [1, 40] {
            assert_eq!(margin(5, &[1, delay], 63), Ok(47 - i64::from(delay)));
            assert_eq!(room(5, delay.into(), 63), Ok(58 / (5 + i64::from(delay))));
        }
        assert_eq!(room(5, 4_000_000_000, 63), Err(no(25)));
    }

    #[test]
    fn the_lowest_delay_out_of_range_is_named() {
        for low in 0..255 {
            for high in (low..255).step_by(17) {
                let mut delays = [40; 255];
                delays[high] = 65_535;
                delays[low] = 0;
                assert_eq!(margin(2_048, &delays, 0), Err(no_at(25, low)));
            }
        }
    }

    #[test]
    fn document_01_fits() {
        assert_eq!(fit(5, 11, 3), Ok(2));
        assert_eq!(fit(5, 4, 3), Err(no(17)));
        assert_eq!(fit(5, 5, 6), Err(no(18)));
        assert_eq!(fit(5, 1_000_001, 0), Err(no(17)));
        assert_eq!(fit(5, 5, 0), Err(no(18)));
    }

    #[test]
    fn a_fit_is_the_least_that_serves() {
        for (frame, period) in [(1, 7), (5, 11), (8, 8), (8, 100), (2_048, 1_000_000)] {
            for cells in 1..300 {
                let Ok(least) = fit(frame, period, cells) else {
                    continue;
                };
                let served = |c: i64| c * i64::from(period / frame) >= i64::from(cells);
                assert!(served(least) && !served(least - 1));
            }
        }
    }

    #[test]
    fn document_02_cells_of_a_message() {
        assert_eq!([480, 481, 1_000].map(cells_of_message), [Ok(1), Ok(2), Ok(3)]);
        assert_eq!(cells_of_message(0), Err(no(23)));
        assert_eq!(cells_of_message(10_000_000), Ok(20_834));
        assert_eq!(cells_of_message(10_000_001), Err(no(23)));
    }

    #[test]
    fn cells_are_the_fewest_that_carry_the_message() {
        for bits in (1..=5_000).chain(9_999_000..=10_000_000) {
            let fewest = cells_of_message(bits).unwrap();
            let carried = |cells: i64| cells * 500 - cells * 20 >= i64::from(bits);
            assert!(carried(fewest) && !carried(fewest - 1));
        }
    }

    /// Document 000's largest sensing message, 5 kbit every 10 frames: 10 cells without labels.
    #[test]
    fn with_the_label_a_large_sensing_message_takes_two_cells_a_frame() {
        assert_eq!(cells_of_message(5_000), Ok(11));
        assert_eq!((fit(2_000, 20_000, 10), fit(2_000, 20_000, 11)), (Ok(1), Ok(2)));
    }
}
