//! Slot tables: the check of any table, and an output's own row.

use crate::answer::{no, no_at, refuse_if, Outcome, Refusal};
use crate::flows::{listed, sizes_fit, Flow};

/// The bytes of a table that count: N·M of them, refusal 7 if there are fewer.
pub fn body(frame: u32, ports: u32, table: &[u8]) -> Result<&[u8], Refusal> {
    table.get(..(frame * ports) as usize).ok_or(no(7))
}

/// Refusal 8: an entry that is neither 0 nor a flow of its row.
fn entries_belong(frame: usize, flows: &[Flow], body: &[u8]) -> Result<(), Refusal> {
    let strange = |(place, &entry): (usize, &u8)| {
        let output = (place / frame + 1) as u32;
        entry != 0 && flows.get(entry as usize - 1).is_none_or(|f| f.output != output)
    };
    match body.iter().enumerate().position(strange) {
        Some(place) => Err(no_at(8, place)),
        None => Ok(()),
    }
}

/// Refusal 9, for a body whose entries belong.
fn inputs_stand_once(frame: usize, flows: &[Flow], body: &[u8]) -> Result<(), Refusal> {
    for slot in 0..frame {
        let mut used = [false; 33];
        for &entry in body[slot..].iter().step_by(frame).filter(|&&entry| entry != 0) {
            let input = flows[entry as usize - 1].input as usize;
            if std::mem::replace(&mut used[input], true) {
                return Err(no_at(9, slot));
            }
        }
    }
    Ok(())
}

/// Refusal 10.
fn counts_are_cells(flows: &[Flow], body: &[u8]) -> Result<(), Refusal> {
    for (number, flow) in (1..).zip(flows) {
        let count = body.iter().filter(|&&entry| usize::from(entry) == number).count();
        if count != flow.cells as usize {
            return Err(no_at(10, number));
        }
    }
    Ok(())
}

pub fn check(frame: u32, ports: u32, list: &[u16], table: &[u8]) -> Outcome {
    let flows = listed(frame, ports, list)?;
    let body = body(frame, ports, table)?;
    entries_belong(frame as usize, &flows, body)?;
    inputs_stand_once(frame as usize, &flows, body)?;
    counts_are_cells(&flows, body)?;
    Ok(0)
}

/// The output's row as a part of the table; a caller takes a refusal for the empty part.
pub fn row(frame: u32, ports: u32, table: &[u8], output: u32) -> Result<&[u8], Refusal> {
    sizes_fit(frame, ports)?;
    let body = body(frame, ports, table)?;
    refuse_if(!(1..=ports).contains(&output), 22)?;
    let end = (output * frame) as usize;
    Ok(&body[end - frame as usize..end])
}

#[cfg(test)]
mod tests {
    use super::*;

    const LIST_A: [u16; 9] = [1, 1, 3, 1, 2, 2, 2, 1, 2];
    const TABLE_A: [u8; 20] = [1, 1, 1, 3, 3, 0, 0, 0, 2, 2, 0, 0, 0, 0, 0, 0, 0, 0, 0, 0];

    fn check_a(row_1: [u8; 5]) -> Outcome {
        let mut table = TABLE_A;
        table[..5].copy_from_slice(&row_1);
        check(5, 4, &LIST_A, &table)
    }

    #[test]
    fn document_01_tables_of_plan_a() {
        assert_eq!(check_a([1, 1, 1, 3, 3]), Ok(0));
        assert_eq!(check_a([3, 3, 1, 1, 1]), Err(no_at(9, 3)));
        assert_eq!(check_a([1, 1, 1, 3, 0]), Err(no_at(10, 3)));
        assert_eq!(check_a([2, 1, 1, 3, 3]), Err(no_at(8, 0)));
        assert_eq!(check_a([1, 1, 1, 3, 4]), Err(no_at(8, 4)));
    }

    #[test]
    fn an_all_zero_table_is_accepted_for_the_empty_list_alone() {
        assert_eq!(check(2_048, 32, &[], &[0; 65_536]), Ok(0));
        assert_eq!(check(5, 4, &LIST_A, &[0; 20]), Err(no_at(10, 1)));
    }

    #[test]
    fn two_flows_of_one_pair_are_counted_apart() {
        let list = [1, 1, 1, 1, 1, 2];
        assert_eq!(check(3, 1, &list, &[2, 1, 2]), Ok(0));
        assert_eq!(check(3, 1, &list, &[1, 1, 2]), Err(no_at(10, 1)));
    }

    #[test]
    fn refusals_of_the_check_come_in_order() {
        assert_eq!(check(0, 0, &[1], &[]), Err(no(1)));
        assert_eq!(check(5, 0, &[1], &[]), Err(no(2)));
        assert_eq!(check(5, 4, &[1], &[]), Err(no(3)));
        assert_eq!(check(5, 4, &[1, 1, 6], &[]), Err(no_at(4, 1)));
        assert_eq!(check(5, 4, &LIST_A, &TABLE_A[..19]), Err(no(7)));
        // Overload is no refusal of the check: the counts then cannot be right.
        assert_eq!(check(1, 1, &[1, 1, 1, 1, 1, 1], &[1]), Err(no_at(10, 2)));
    }

    #[test]
    fn bytes_past_the_table_are_ignored() {
        assert_eq!(check(5, 4, &LIST_A, &[&TABLE_A[..], &[255, 1]].concat()), Ok(0));
    }

    #[test]
    fn a_row_is_the_part_of_the_table_itself() {
        let table = [&TABLE_A[..], &[9]].concat();
        let part = row(5, 4, &table, 2).unwrap();
        assert_eq!(part.as_ptr_range(), table[5..10].as_ptr_range());
        assert_eq!(row(5, 4, &table, 4).unwrap(), [0; 5]);
        assert_eq!(row(5, 4, &table, 0), Err(no(22)));
        assert_eq!(row(5, 4, &table, 5), Err(no(22)));
        assert_eq!(row(5, 4, &table[..19], 5), Err(no(7)));
        assert_eq!(row(5, 33, &[], 5), Err(no(2)));
    }
}
