//! What happens to a HEX file on its way.

use crate::random::Random;
use crate::writer::{digits, sum};

/// Characters that are nearly right: the neighbours of digits and letters, signs, blanks, line ends.
const NEARLY: &[u8] = b"/:;@AFGZ`afgz+- \t\r\n\0\x7F\xFF";

/// Flips, replaces, drops or doubles a byte, or cuts off all from there.
fn damage_byte(text: &mut Vec<u8>, random: &mut Random) {
    let place = random.below(text.len());
    let pair = place..(place + 2).min(text.len());
    match random.below(8) {
        0 => text[place] ^= 1 << random.below(8),
        1 | 2 => text[place] = random.of(b"0123456789ABCDEFabcdef"),
        3 => text[place] = random.of(NEARLY),
        4 => drop(text.remove(place)),
        5 => drop(text.drain(pair)),
        6 => text.insert(place, text[place]),
        _ => text.truncate(place),
    }
}

/// Swaps, drops or doubles a line, or puts an empty one before it.
fn damage_line(text: &mut Vec<u8>, random: &mut Random) {
    let mut lines: Vec<&[u8]> = text.split_inclusive(|&character| character == b'\n').collect();
    let (place, other) = (random.below(lines.len()), random.below(lines.len()));
    match random.below(4) {
        0 => lines.swap(place, other),
        1 => drop(lines.remove(place)),
        2 => lines.insert(other, lines[place]),
        _ => lines.insert(place, random.of(&[&b"\n"[..], b"\r\n", b"\r\r\n"])),
    }
    *text = lines.concat();
}

pub fn damage(text: &mut Vec<u8>, random: &mut Random) {
    if text.is_empty() {
        return;
    }
    if random.one_in(3) {
        damage_line(text, random);
    } else {
        damage_byte(text, random);
    }
}

/// The bytes of a line behind its first character, where they are pairs of digits and enough for a record.
fn bytes(line: &[u8]) -> Option<Vec<u8>> {
    let pair = |pair: &[u8]| u8::from_str_radix(std::str::from_utf8(pair).ok()?, 16).ok();
    let bytes: Vec<u8> = line.get(1..)?.chunks(2).map(pair).collect::<Option<_>>()?;
    (bytes.len() >= 5 && line.len() == 1 + 2 * bytes.len()).then_some(bytes)
}

/// Gives a line the sum that its digits ask for, and before that the count where `count` says so.
fn mend_line(line: &mut [u8], count: bool) {
    if let Some(mut bytes) = bytes(line) {
        let last = bytes.len() - 1;
        if count {
            bytes[0] = (last - 4) as u8;
        }
        line[1..3].copy_from_slice(&digits(bytes[0]));
        line[1 + 2 * last..].copy_from_slice(&digits(sum(&bytes[..last])));
    }
}

/// Mends the sums, so that what comes behind a wrong sum is reached, and of some texts the counts.
pub fn mend(text: &mut [u8], random: &mut Random) {
    let count = random.one_in(2);
    for line in text.split_mut(|&character| character == b'\n').filter(|line| !line.is_empty()) {
        let end = line.len() - usize::from(line.ends_with(b"\r"));
        mend_line(&mut line[..end], count);
    }
}

/// Small letters, CR LF, or no LF at the end: forms that are allowed.
pub fn in_another_form(text: &mut Vec<u8>, random: &mut Random) {
    if random.one_in(4) {
        text.make_ascii_lowercase();
    }
    if random.one_in(4) {
        *text = text.split(|&character| character == b'\n').collect::<Vec<_>>().join(&b"\r\n"[..]);
    }
    if random.one_in(8) && text.ends_with(b"\n") {
        text.pop();
    }
}
