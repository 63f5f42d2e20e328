//! Judges what a planner wrote for a text, by the independent reader, load test and check.

use crate::answer::{shown, Refusal};
use crate::flows::{list_of, loads_fit, Plan};
use crate::table::check;
use crate::text::plan_of;

/// The plan that must get a table, or the refusal that must be answered. Refusal 7 has no
/// place here: the program's own table holds the largest plan.
pub fn wanted(text: &[u8]) -> Result<Plan, Refusal> {
    let plan = plan_of(text)?;
    loads_fit(&plan)?;
    Ok(plan)
}

fn entry(written: &str) -> Result<u8, String> {
    match written.parse::<u8>() {
        // The one way to write it: `007` and `+7` parse too.
        Ok(number) if number.to_string() == written => Ok(number),
        _ => Err(format!("{written:?} is no entry")),
    }
}

fn row(frame: usize, line: &str) -> Result<Vec<u8>, String> {
    let entries = line.strip_prefix("out=").ok_or(format!("{line:?} is no out= line"))?;
    let row = entries.split(',').map(entry).collect::<Result<Vec<u8>, String>>()?;
    if row.len() != frame {
        return Err(format!("a row of {} entries in a frame of {frame}", row.len()));
    }
    Ok(row)
}

/// The table on the lines after a done answer.
fn table(plan: &Plan, lines: &str) -> Result<Vec<u8>, String> {
    let body = lines.strip_suffix('\n').ok_or("the last line does not end")?;
    let rows = body
        .split('\n')
        .map(|line| row(plan.frame as usize, line))
        .collect::<Result<Vec<_>, String>>()?;
    if rows.len() != plan.ports as usize {
        return Err(format!("{} out= lines for {} ports", rows.len(), plan.ports));
    }
    Ok(rows.concat())
}

fn short(output: &[u8]) -> String {
    String::from_utf8_lossy(&output[..output.len().min(60)]).into_owned()
}

pub fn judge(text: &[u8], output: &[u8]) -> Result<(), String> {
    let unlike = |wanted: &str| Err(format!("wanted {wanted:?}, got {:?}", short(output)));
    let plan = match wanted(text) {
        Ok(plan) => plan,
        Err(refusal) => {
            let only = format!("answer={refusal}\n");
            return if output == only.as_bytes() { Ok(()) } else { unlike(&only) };
        }
    };
    let Some(lines) = output.strip_prefix(b"answer=0,0\n") else {
        return unlike("answer=0,0\n");
    };
    let lines = std::str::from_utf8(lines).map_err(|_| "strange bytes in the table")?;
    let table = table(&plan, lines)?;
    match check(plan.frame, plan.ports, &list_of(&plan.flows), &table) {
        Ok(_) => Ok(()),
        refused => Err(format!("the table is not accepted: {}", shown(refused))),
    }
}

#[cfg(test)]
mod tests {
    use super::*;

    const TEXT: &[u8] = b"frame=1\nports=2\nflow=1,2,1\nflow=2,1,1\n";

    #[test]
    fn document_01_output_is_right_and_near_ones_are_not() {
        assert_eq!(judge(TEXT, b"answer=0,0\nout=2\nout=1\n"), Ok(()));
        for wrong in [
            &b""[..],
            b"answer=0,0\n",
            b"answer=0,0\nout=2\nout=1",
            b"answer=0,0\nout=2\n",
            b"answer=0,0\nout=2\nout=1\n\n",
            b"answer=0,0\nout=2\nout=1\nout=0\n",
            b"answer=0,0\nout=2\nout=01\n",
            b"answer=0,0\nout=2,0\nout=1\n",
            b"answer=0,0\nout=1\nout=2\n",
            b"answer=0,0\nout=0\nout=0\n",
            b"answer=0,2\nout=2\nout=1\n",
            b"answer=6,1\n",
        ] {
            assert!(judge(TEXT, wrong).is_err(), "{}", short(wrong));
        }
    }

    #[test]
    fn a_refusal_writes_its_first_line_only() {
        assert_eq!(judge(b"frame=5", b"answer=20,7\n"), Ok(()));
        assert!(judge(b"frame=5", b"answer=20,7\nout=0\n").is_err());
        assert!(judge(b"frame=5", b"answer=20,8\n").is_err());
        assert!(judge(b"frame=5", b"answer=20,7").is_err());
    }
}
