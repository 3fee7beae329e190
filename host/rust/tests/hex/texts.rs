//! Texts for a buffer of `room` bytes: good files, damaged ones, records in no order, and characters and bytes in none.

use crate::damage::{damage, in_another_form, mend};
use crate::random::Random;
use crate::writer::{line, write};

const ALPHABET: &[u8] = b"0123456789ABCDEFabcdef:::\r\n\n";

/// An address in the buffer or just behind it: near its start, near its end, or a line away from the end.
fn address(random: &mut Random, room: usize) -> usize {
    let (place, last) = (random.below(room.min(300) + 3), (room + 2).min(65_535));
    match random.below(3) {
        0 => place,
        1 => last.saturating_sub(place),
        _ => last.saturating_sub(random.below(20)),
    }
}

fn data(random: &mut Random, at_most: usize) -> Vec<u8> {
    let length = match random.below(8) {
        0 => 0,
        1 => random.below(256),
        2 | 3 => random.below(40),
        _ => 16,
    };
    random.bytes(length.min(at_most))
}

/// A file that is read: rising data lines with gaps, and an end record with any address.
fn good(random: &mut Random, room: usize) -> Vec<u8> {
    let (mut text, mut at) = (Vec::new(), address(random, room).min(room));
    for _ in 0..random.below(10) {
        let bytes = data(random, room - at);
        text.extend(line(at, 0, &bytes));
        let gap = if random.one_in(2) { 0 } else { random.below(20) };
        at = (at + bytes.len() + gap).min(room);
    }
    let free = random.of(&[0, at]);
    text.extend(line(free, 1, &[]));
    text
}

/// A file with every byte of the buffer, 16 a line.
fn whole(random: &mut Random, room: usize) -> Vec<u8> {
    write(&random.bytes(room))
}

/// Records of any type at any address, each right by itself.
fn records(random: &mut Random, room: usize) -> Vec<u8> {
    let mut text = Vec::new();
    for _ in 0..1 + random.below(5) {
        let record_type = random.of(&[0, 0, 0, 0, 0, 0, 1, 1, 2, 3, 255]);
        let bytes = if record_type == 1 && random.one_in(2) { Vec::new() } else { data(random, 20) };
        text.extend(line(address(random, room), record_type, &bytes));
    }
    text
}

fn damaged(random: &mut Random, room: usize) -> Vec<u8> {
    let mut text = if random.one_in(300) { whole(random, room) } else { good(random, room) };
    for _ in 0..1 + random.below(5) {
        damage(&mut text, random);
    }
    if random.one_in(2) {
        mend(&mut text, random);
    }
    text
}

fn noise(random: &mut Random) -> Vec<u8> {
    let length = random.below(60);
    random.bytes(length)
}

fn characters(random: &mut Random) -> Vec<u8> {
    (0..random.below(60)).map(|_| random.of(ALPHABET)).collect()
}

pub fn any(random: &mut Random, room: usize) -> Vec<u8> {
    let mut text = match random.below(20) {
        0 => noise(random),
        1 => characters(random),
        2..=4 => good(random, room),
        5..=7 => records(random, room),
        _ => damaged(random, room),
    };
    in_another_form(&mut text, random);
    text
}
