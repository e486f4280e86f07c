//! Damaged sheets: what half-written, mistyped and foreign sheets look like.

use crate::generate::{good, to_bytes};
use crate::random::Random;

/// Numbers at and past the limits of a sheet, and numbers that are written wrongly.
const NUMBERS: [&str; 34] = [
    "0",
    "1",
    "2",
    "3",
    "9",
    "10",
    "31",
    "32",
    "33",
    "99",
    "100",
    "255",
    "256",
    "257",
    "999",
    "1000",
    "4094",
    "4095",
    "4096",
    "4097",
    "9999",
    "10000",
    "65534",
    "65535",
    "65536",
    "99999",
    "100000",
    "4294967298",
    "00",
    "01",
    "02",
    "000000",
    "",
    "-1",
];

/// Bytes that stand somewhere in a good sheet, or nearly do.
const NEAR: &[u8] = b"0123456789 \nSRD-\r\tsrd+./:,\0";

/// A sheet at random: half of them good, the others damaged or no sheets at all.
pub fn sheet(random: &mut Random) -> Vec<u8> {
    match random.below(32) {
        0 => (0..random.below(40)).map(|_| random.draw() as u8).collect(),
        1 => (0..random.below(60)).map(|_| random.pick(NEAR)).collect(),
        2..=17 => to_bytes(&good(random)),
        _ => {
            let mut bytes = to_bytes(&good(random));
            for _ in 0..random.pick(&[1, 1, 1, 2, 3]) {
                damage(random, &mut bytes);
            }
            bytes
        }
    }
}

/// Does one damage to a sheet. (It can happen that the sheet stays good.)
fn damage(random: &mut Random, bytes: &mut Vec<u8>) {
    match random.below(16) {
        0 => bytes.truncate(place(random, bytes.len())),
        1..=3 => damage_byte(random, bytes),
        4..=7 => damage_line(random, bytes),
        8 | 9 => change_number(random, bytes, |random, _| random.pick(&NUMBERS).to_string()),
        10 | 11 => change_number(random, bytes, |random, old| {
            let near = old + random.pick(&[0, 2]);
            near.saturating_sub(1).to_string()
        }),
        12 => change_kind(random, bytes),
        13 => carriage_returns(random, bytes),
        14 => {
            let length = random.within(1..=5);
            bytes.extend((0..length).map(|_| random.pick(NEAR)));
        }
        _ => lengthen(random, bytes),
    }
}

/// A place below a length, the first ones more often: there the counts and modules stand.
fn place(random: &mut Random, length: usize) -> usize {
    let bound = if random.once_in(2) { length.min(48) } else { length };
    if bound == 0 {
        0
    } else {
        random.below(bound)
    }
}

/// Changes, inserts or removes one byte.
fn damage_byte(random: &mut Random, bytes: &mut Vec<u8>) {
    let at = place(random, bytes.len());
    let byte = if random.once_in(4) { random.draw() as u8 } else { random.pick(NEAR) };
    match random.below(3) {
        0 if at < bytes.len() => bytes[at] = byte,
        1 if at < bytes.len() => drop(bytes.remove(at)),
        _ => bytes.insert(at, byte),
    }
}

/// Duplicates, removes, swaps or overwrites lines.
fn damage_line(random: &mut Random, bytes: &mut Vec<u8>) {
    let mut lines: Vec<&[u8]> = bytes.split_inclusive(|&byte| byte == b'\n').collect();
    if lines.is_empty() {
        return;
    }
    let (one, other) = (place(random, lines.len()), place(random, lines.len()));
    match random.below(5) {
        0 => lines.insert(one, lines[one]),
        1 => drop(lines.remove(one)),
        2 => lines.swap(one, other),
        3 if one + 1 < lines.len() => lines.swap(one, one + 1),
        _ => lines[one] = lines[other],
    }
    *bytes = lines.concat();
}

/// Puts another number in the place of one that stands in the sheet.
fn change_number(random: &mut Random, bytes: &mut Vec<u8>, new: impl Fn(&mut Random, usize) -> String) {
    let mut start = place(random, bytes.len());
    while start < bytes.len() && !bytes[start].is_ascii_digit() {
        start += 1;
    }
    while start > 0 && bytes[start - 1].is_ascii_digit() {
        start -= 1;
    }
    let digits = bytes[start..].iter().take_while(|byte| byte.is_ascii_digit()).count();
    let old = bytes[start..start + digits].iter().take(9).fold(0, |old, &digit| 10 * old + usize::from(digit - b'0'));
    let new = new(random, old);
    bytes.splice(start..start + digits, new.bytes());
}

/// Changes the letter of one mark, mostly to another letter of a mark.
fn change_kind(random: &mut Random, bytes: &mut [u8]) {
    let letters: Vec<usize> = (0..bytes.len()).filter(|&at| b"SRD".contains(&bytes[at])).collect();
    if !letters.is_empty() {
        bytes[random.pick(&letters)] = random.pick(b"SSSSRRRRDDx");
    }
}

/// Ends all lines, or one of them, with carriage return and line feed, or with a carriage return alone.
fn carriage_returns(random: &mut Random, bytes: &mut Vec<u8>) {
    let end: &[u8] = random.pick(&[b"\r\n", b"\r"]);
    let ends: Vec<usize> = (0..bytes.len()).filter(|&at| bytes[at] == b'\n').collect();
    if ends.is_empty() {
        return;
    }
    let only = random.once_in(2).then(|| random.pick(&ends));
    let mut changed = Vec::with_capacity(bytes.len() + ends.len());
    for (at, &byte) in bytes.iter().enumerate() {
        if byte == b'\n' && only.is_none_or(|only| only == at) {
            changed.extend(end);
        } else {
            changed.push(byte);
        }
    }
    *bytes = changed;
}

/// Makes the sheet longer than the 16,384 bytes that the program reads, at its end or within.
fn lengthen(random: &mut Random, bytes: &mut Vec<u8>) {
    let at = if random.once_in(2) { bytes.len() } else { place(random, bytes.len()) };
    let filling = random.pick(b"01-\n \0S9");
    let length = random.within(16_384..=17_000);
    bytes.splice(at..at, std::iter::repeat_n(filling, length));
}

#[cfg(test)]
mod tests {
    use super::*;
    use crate::reader::read;

    #[test]
    fn some_sheets_are_good_and_each_refusal_is_met() {
        let mut met = [0; 8];
        for number in 0..20_000 {
            let bytes = sheet(&mut Random::for_sheet(2, number));
            let number = read(&bytes).map_or_else(|refused| refused.reason.number(), |_| 0);
            met[number as usize] += 1;
        }
        assert!(met.iter().all(|&times| times >= 50), "good, then refusals 1 to 7: {met:?}");
    }
}
