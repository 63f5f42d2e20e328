//! Answers: a number and a detail.

use std::fmt;

/// A refusal by its number in document 01, with 0 where no detail is named.
#[derive(Clone, Copy, PartialEq, Eq, Debug)]
pub struct Refusal {
    pub number: u32,
    pub detail: u32,
}

/// Done with a detail, or refused. Signed, since a margin may be below zero.
pub type Outcome = Result<i64, Refusal>;

pub fn no(number: u32) -> Refusal {
    Refusal { number, detail: 0 }
}

pub fn no_at(number: u32, detail: usize) -> Refusal {
    let detail = detail as u32;
    Refusal { number, detail }
}

/// `Err(no(number))` exactly if the condition of that number holds.
pub fn refuse_if(condition: bool, number: u32) -> Result<(), Refusal> {
    if condition {
        Err(no(number))
    } else {
        Ok(())
    }
}

impl fmt::Display for Refusal {
    fn fmt(&self, f: &mut fmt::Formatter) -> fmt::Result {
        write!(f, "{},{}", self.number, self.detail)
    }
}

/// The way every program writes an answer.
pub fn shown(outcome: Outcome) -> String {
    match outcome {
        Ok(detail) => format!("0,{detail}"),
        Err(refusal) => refusal.to_string(),
    }
}

#[cfg(test)]
mod tests {
    use super::*;

    #[test]
    fn answers_are_written_as_number_and_detail() {
        assert_eq!(shown(Ok(-1)), "0,-1");
        assert_eq!(shown(Err(no(7))), "7,0");
        assert_eq!(shown(Err(no_at(8, 12))), "8,12");
    }
}
