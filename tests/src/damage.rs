//! Damaged texts: flipped bits, cuts, insertions, deletions, moved lines, edge numbers.

use crate::random::Random;

/// Numbers at and beside every limit, and ways of writing that are not allowed. 65537 and
/// 4294967297 would be 1 in 16 and in 32 bits.
pub const NUMBERS: [&str; 34] = [
    "0",
    "1",
    "2",
    "4",
    "5",
    "6",
    "31",
    "32",
    "33",
    "254",
    "255",
    "256",
    "2047",
    "2048",
    "2049",
    "4000",
    "9999",
    "10000",
    "65535",
    "65536",
    "65537",
    "99999",
    "100000",
    "4294967297",
    "00",
    "01",
    "002",
    "-1",
    "+1",
    "",
    " 1",
    "1 ",
    "1.0",
    "0x1",
];

/// Bytes that stand in plan texts, and some that never do.
const BYTES: [u8; 22] = *b"0123459=,\nframeportlw\xff";

fn lines(text: &[u8]) -> Vec<Vec<u8>> {
    text.split_inclusive(|&byte| byte == b'\n').map(<[u8]>::to_vec).collect()
}

fn replace_number(random: &mut Random, text: &[u8]) -> Vec<u8> {
    let is_digit = |place: usize| text.get(place).is_some_and(|byte| byte.is_ascii_digit());
    let from = random.place(text.len());
    let Some(from) = (from..text.len()).find(|&place| is_digit(place)) else {
        return text.to_vec();
    };
    let end = (from..).find(|&place| !is_digit(place)).expect("a text ends");
    [&text[..from], random.pick(&NUMBERS).as_bytes(), &text[end..]].concat()
}

fn move_line(random: &mut Random, text: &[u8]) -> Vec<u8> {
    let mut lines = lines(text);
    let (from, to) = (random.place(lines.len()), random.place(lines.len()));
    match random.below(3) {
        0 => lines.swap(from, to),
        1 => lines.insert(to, lines[from].clone()),
        _ => drop(lines.remove(from)),
    }
    lines.concat()
}

fn change_byte(random: &mut Random, text: &[u8]) -> Vec<u8> {
    let mut text = text.to_vec();
    let place = random.place(text.len());
    match random.below(5) {
        0 => text[place] ^= 1 << random.below(8),
        1 => text[place] = random.pick(&BYTES),
        2 => text.insert(place, random.pick(&BYTES)),
        3 => drop(text.remove(place)),
        _ => text.push(random.pick(&BYTES)),
    }
    text
}

/// The text with one damage; the empty text stays.
fn damage_once(random: &mut Random, text: &[u8]) -> Vec<u8> {
    if text.is_empty() {
        return Vec::new();
    }
    match random.below(8) {
        0 => text[..random.place(text.len())].to_vec(),
        1 => replace_number(random, text),
        2 => move_line(random, text),
        _ => change_byte(random, text),
    }
}

/// Mostly one damage: with more, the first would hide the others.
pub fn damage(random: &mut Random, text: &[u8]) -> Vec<u8> {
    let times = random.pick(&[1, 1, 1, 2, 3]);
    (0..times).fold(text.to_vec(), |text, _| damage_once(random, &text))
}

#[cfg(test)]
mod tests {
    use super::*;
    use crate::text::plan_of;
    use std::collections::BTreeSet;

    #[test]
    fn damage_meets_refusals_of_the_form_at_many_places() {
        let text = b"frame=5\nports=4\nflow=1,1,3\nflow=1,2,2\nflow=2,1,2\n";
        let mut random = Random::new(9);
        let refusals: BTreeSet<_> = (0..3_000)
            .filter_map(|_| plan_of(&damage(&mut random, text)).err())
            .map(|refusal| (refusal.number, refusal.detail))
            .collect();
        assert!((0..49).all(|place| refusals.contains(&(20, place))), "{refusals:?}");
        assert!([(1, 0), (2, 0), (4, 1), (4, 3)].iter().all(|r| refusals.contains(r)));
    }
}
