//! Random cores, programs, data and offers.

use crate::random::Random;
use avr_core::bytes::NO_OFFER;
use avr_core::SNAPSHOT_BYTES;

/// A snapshot that mostly has PC and SP where something is, or at the ends, and now and then a length or a last byte that is refused.
pub fn snapshot(random: &mut Random) -> Vec<u8> {
    let length = if random.one_in(50) { random.below(SNAPSHOT_BYTES) } else { SNAPSHOT_BYTES };
    let mut bytes = random.bytes(SNAPSHOT_BYTES);
    if !random.one_in(10) {
        (bytes[33], bytes[35]) = random.of(&[(0, 0), (0xFF, 0xFF), (0, 0xFF)]);
    }
    if random.one_in(5) {
        (bytes[33], bytes[34]) = (0xFF, random.of(&[0xFD, 0xFE, 0xFF]));
    }
    if !random.one_in(10) {
        bytes[37] = random.of(&[0x00, 0x00, 0x04, 0x08, 0x10, 0x20, 0x80]);
    }
    bytes.truncate(length);
    bytes
}

pub fn offer(random: &mut Random) -> u32 {
    let vector = random.below(65_536) as u32;
    random.of(&[NO_OFFER, NO_OFFER, vector, vector, NO_OFFER + 1 + vector])
}

pub fn program(random: &mut Random) -> Vec<u8> {
    let length = random.of(&[600, 600, 131_072, 3]);
    random.bytes(length)
}

pub fn data(random: &mut Random) -> Vec<u8> {
    let length = random.of(&[300, 300, 65_536, 7]);
    random.bytes(length)
}
