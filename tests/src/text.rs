//! The plan text: reading and writing.

use crate::answer::{no, no_at, Outcome, Refusal};
use crate::flows::{flow, listed, ranges_fit, sizes_fit, Flow, Plan, MOST_FLOWS};

pub const MOST_TEXT: usize = 8_192;
const MOST_DIGITS: usize = 5;

/// Goes over the text byte by byte. What lies before `at` always begins some text of the
/// form, and a byte is only passed if that stays so; so where it stops is refusal 20's detail.
struct Scan<'a> {
    text: &'a [u8],
    at: usize,
}

impl Scan<'_> {
    fn next_is(&self, wanted: impl Fn(u8) -> bool) -> bool {
        self.text.get(self.at).is_some_and(|&byte| wanted(byte))
    }

    fn stop<T>(&self) -> Result<T, Refusal> {
        Err(no_at(20, self.at))
    }

    fn key(&mut self, key: &[u8]) -> Result<(), Refusal> {
        for &wanted in key {
            if !self.next_is(|byte| byte == wanted) {
                return self.stop();
            }
            self.at += 1;
        }
        Ok(())
    }

    fn number(&mut self) -> Result<u32, Refusal> {
        if self.next_is(|byte| byte == b'0') {
            self.at += 1;
            return Ok(0);
        }
        let (from, mut value) = (self.at, 0);
        while self.at - from < MOST_DIGITS && self.next_is(|byte| byte.is_ascii_digit()) {
            value = value * 10 + u32::from(self.text[self.at] - b'0');
            self.at += 1;
        }
        if self.at == from {
            return self.stop();
        }
        Ok(value)
    }

    fn line(&mut self, key: &[u8]) -> Result<u32, Refusal> {
        self.key(key)?;
        let value = self.number()?;
        self.key(b"\n")?;
        Ok(value)
    }

    fn flow(&mut self) -> Result<Flow, Refusal> {
        self.key(b"flow=")?;
        let input = self.number()?;
        self.key(b",")?;
        let output = self.number()?;
        self.key(b",")?;
        let cells = self.number()?;
        self.key(b"\n")?;
        Ok(flow(input, output, cells))
    }
}

/// Refusal 20: the form alone, with no bound on length or number of flows.
fn form_of(text: &[u8]) -> Result<Plan, Refusal> {
    let mut scan = Scan { text, at: 0 };
    let frame = scan.line(b"frame=")?;
    let ports = scan.line(b"ports=")?;
    let mut flows = Vec::new();
    while scan.at < text.len() {
        flows.push(scan.flow()?);
    }
    Ok(Plan { frame, ports, flows })
}

/// The plan of a text: read's refusals 19, 20, 1, 2, 3 and 4.
pub fn plan_of(text: &[u8]) -> Result<Plan, Refusal> {
    if text.len() > MOST_TEXT {
        return Err(no(19));
    }
    let plan = form_of(text)?;
    sizes_fit(plan.frame, plan.ports)?;
    if plan.flows.len() > MOST_FLOWS as usize {
        return Err(no(3));
    }
    ranges_fit(plan.frame, plan.ports, &plan.flows)?;
    Ok(plan)
}

/// Read: frame, ports and flow count; numbers past the flows stay as they were.
pub fn read(text: &[u8], list: &mut [u16]) -> Result<(u32, u32, usize), Refusal> {
    let plan = plan_of(text)?;
    let numbers = crate::flows::list_of(&plan.flows);
    if list.len() < numbers.len() {
        return Err(no(21));
    }
    list[..numbers.len()].copy_from_slice(&numbers);
    Ok((plan.frame, plan.ports, plan.flows.len()))
}

pub fn text_of(plan: &Plan) -> Vec<u8> {
    let mut text = format!("frame={}\nports={}\n", plan.frame, plan.ports);
    for f in &plan.flows {
        text += &format!("flow={},{},{}\n", f.input, f.output, f.cells);
    }
    text.into_bytes()
}

/// Write: bytes past the text's end stay as they were.
pub fn write(frame: u32, ports: u32, list: &[u16], buffer: &mut [u8]) -> Outcome {
    let flows = listed(frame, ports, list)?;
    let text = text_of(&Plan { frame, ports, flows });
    if buffer.len() < text.len() {
        return Err(no(21));
    }
    buffer[..text.len()].copy_from_slice(&text);
    Ok(text.len() as i64)
}

#[cfg(test)]
mod tests {
    use super::*;

    pub const PLAN_A: &[u8] = b"frame=5\nports=4\nflow=1,1,3\nflow=1,2,2\nflow=2,1,2\n";

    #[test]
    fn plan_a_is_read_and_written_back() {
        assert_eq!(PLAN_A.len(), 49);
        let mut list = [7; 11];
        assert_eq!(read(PLAN_A, &mut list), Ok((5, 4, 3)));
        assert_eq!(list, [1, 1, 3, 1, 2, 2, 2, 1, 2, 7, 7]);
        let mut buffer = [9; 50];
        assert_eq!(write(5, 4, &list[..9], &mut buffer), Ok(49));
        assert_eq!(&buffer[..49], PLAN_A);
        assert_eq!(buffer[49], 9);
    }

    #[test]
    fn buffers_one_short_are_refused_and_stay() {
        let mut list = [7; 8];
        assert_eq!(read(PLAN_A, &mut list), Err(no(21)));
        assert_eq!(list, [7; 8]);
        let mut buffer = [9; 48];
        assert_eq!(write(5, 4, &[1, 1, 3, 1, 2, 2, 2, 1, 2], &mut buffer), Err(no(21)));
        assert_eq!(buffer, [9; 48]);
    }

    #[test]
    fn document_01_texts_not_of_the_form() {
        let cases: [(&[u8], usize); 4] =
            [(b"", 0), (b"frame=5", 7), (b"frame=05", 7), (b"frame=123456", 11)];
        for (text, detail) in cases {
            assert_eq!(plan_of(text), Err(no_at(20, detail)));
        }
    }

    #[test]
    fn refusals_of_read_come_in_order() {
        let many =
            |sizes: &str, flows: usize| [sizes.as_bytes(), &b"flow=1,1,9\n".repeat(flows)].concat();
        assert_eq!(plan_of(&[b'x'; 8_193]), Err(no(19)));
        assert_eq!(plan_of(&[b'x'; 8_192]), Err(no_at(20, 0)));
        assert_eq!(plan_of(&many("frame=0\nports=0\n", 256)), Err(no(1)));
        assert_eq!(plan_of(&many("frame=8\nports=0\n", 256)), Err(no(2)));
        assert_eq!(plan_of(&many("frame=8\nports=4\n", 256)), Err(no(3)));
        assert_eq!(plan_of(&many("frame=8\nports=4\n", 255)), Err(no_at(4, 1)));
        assert_eq!(plan_of(&many("frame=9\nports=4\n", 255)).map(|p| p.flows.len()), Ok(255));
        assert_eq!(plan_of(b"frame=65537\nports=1\n"), Err(no(1)));
        assert_eq!(plan_of(b"frame=5\nports=4\nflow=65537,1,1\n"), Err(no_at(4, 1)));
    }

    /// The form said a second way, over whole lines.
    fn of_the_form(text: &[u8]) -> bool {
        let number = |n: &str| {
            n == "0"
                || (n.len() <= 5
                    && n.starts_with(|c: char| ('1'..='9').contains(&c))
                    && n.bytes().all(|b| b.is_ascii_digit()))
        };
        let Ok(text) = std::str::from_utf8(text) else {
            return false;
        };
        let Some(body) = text.strip_suffix('\n') else {
            return false;
        };
        body.split('\n').count() >= 2
            && body.split('\n').enumerate().all(|(i, line)| match (i, line.split_once('=')) {
                (0, Some(("frame", n))) | (1, Some(("ports", n))) => number(n),
                (2.., Some(("flow", ns))) => {
                    ns.split(',').count() == 3 && ns.split(',').all(number)
                }
                _ => false,
            })
    }

    /// Refusal 20's detail by its definition: every beginning of a text of the form is
    /// completed by the end of some text that uses the digit 1 alone, or by a line feed first.
    fn longest_beginning(text: &[u8]) -> usize {
        let end = b"frame=1\nports=1\nflow=1,1,1\n";
        let begins = |length: &usize| {
            (0..=end.len()).any(|from| of_the_form(&[&text[..*length], &end[from..]].concat()))
        };
        (0..=text.len()).rev().find(begins).expect("the empty text begins one")
    }

    fn agrees(text: &[u8]) {
        match form_of(text) {
            Ok(plan) => {
                assert!(of_the_form(text));
                assert_eq!(text_of(&plan), text);
            }
            Err(refusal) => {
                assert!(!of_the_form(text));
                assert_eq!(refusal, no_at(20, longest_beginning(text)), "{text:?}");
            }
        }
    }

    #[test]
    fn the_scan_stops_where_the_definition_says() {
        for place in 0..=PLAN_A.len() {
            agrees(&PLAN_A[..place]);
            for byte in *b"0159=,\n fpx\r\xff" {
                agrees(&[&PLAN_A[..place], &[byte], &PLAN_A[place..]].concat());
                if place < PLAN_A.len() {
                    agrees(&[&PLAN_A[..place], &[byte], &PLAN_A[place + 1..]].concat());
                }
            }
        }
        agrees(b"frame=99999\nports=0\nflow=10000,0,12345\n");
        agrees(b"frame=99999\nports=0\nflow=100000,0,12345\n");
        agrees(b"frame=1\nports=1\nflow=1,1\n");
        agrees(b"frame=1\nports=1\nflow=1,1,1,1\n");
        agrees(b"frame=1\nports=1\n\n");
    }
}
