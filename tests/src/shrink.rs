//! Makes a failing text shorter while it still fails: by lines, then by bytes.

use std::time::{Duration, Instant};

/// A large plan takes an emulated planner seconds a run: then the shortest so far must do.
const TIME_LIMIT: Duration = Duration::from_secs(60);

/// The shortest text found that still fails. `fails` must hold of the text given.
pub fn shrink(text: &[u8], fails: impl Fn(&[u8]) -> bool) -> Vec<u8> {
    let begun = Instant::now();
    let fails = |pieces: &[&[u8]]| begun.elapsed() < TIME_LIMIT && fails(&pieces.concat());
    let lines: Vec<&[u8]> = text.split_inclusive(|&byte| byte == b'\n').collect();
    let text = shrink_pieces(lines, &fails).concat();
    let bytes: Vec<&[u8]> = text.chunks(1).collect();
    shrink_pieces(bytes, &fails).concat()
}

/// Leaves out runs of pieces, long ones first; at length 1 until nothing more can go.
fn shrink_pieces<'a>(
    mut pieces: Vec<&'a [u8]>,
    fails: &impl Fn(&[&[u8]]) -> bool,
) -> Vec<&'a [u8]> {
    let mut length = pieces.len().div_ceil(2);
    while length > 0 {
        let shorter = leave_out(&mut pieces, length, fails);
        if length > 1 || !shorter {
            length /= 2;
        }
    }
    pieces
}

/// One pass over the pieces; true if anything was left out.
fn leave_out(pieces: &mut Vec<&[u8]>, length: usize, fails: &impl Fn(&[&[u8]]) -> bool) -> bool {
    let (mut from, before) = (0, pieces.len());
    while from < pieces.len() {
        let end = (from + length).min(pieces.len());
        let rest = [&pieces[..from], &pieces[end..]].concat();
        if fails(&rest) {
            *pieces = rest;
        } else {
            from = end;
        }
    }
    pieces.len() < before
}

#[cfg(test)]
mod tests {
    use super::*;

    #[test]
    fn what_fails_is_found_among_lines_and_bytes() {
        let text = b"frame=5\nports=4\nflow=1,2,3\nflow=1,3,9\nflow=2,2,2\n";
        assert_eq!(shrink(text, |t| t.contains(&b'9')), b"9");
        let both = |t: &[u8]| t.starts_with(b"frame=") && t.contains(&b'9');
        assert_eq!(shrink(text, both), b"frame=9");
    }

    #[test]
    fn a_text_that_cannot_be_shortened_stays() {
        assert_eq!(shrink(b"frame=5\n", |t| t == b"frame=5\n"), b"frame=5\n");
        assert_eq!(shrink(b"", |_| true), b"");
    }
}
