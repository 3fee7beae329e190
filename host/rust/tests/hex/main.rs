//! HEX files through the port and through a reader and a writer that were written without it: 200,000 random and damaged texts, and programs of many lengths.

mod damage;
mod lent;
mod random;
mod reader;
mod texts;
mod writer;

use avr_core::bytes::{hex_read, hex_write};
use avr_core::{hex_bytes, HexRefused};
use lent::Lent;
use random::Random;
use std::collections::BTreeMap;

const TEXTS: usize = 200_000;
const PROGRAMS: usize = 2_000;
const MOST: usize = 65_536;

/// The length of a program buffer: mostly short, some as long as can be, and some too long.
fn room(random: &mut Random) -> usize {
    match random.below(400) {
        0 => MOST + 1 + random.below(64),
        1 | 2 => MOST,
        3 => MOST - random.below(64),
        _ => random.below(301),
    }
}

/// The typed call's refusal and line, as the bytes' call gives them.
fn typed(text: &[u8], room: usize) -> (u32, usize) {
    match avr_core::hex_read(text, &mut vec![0; room]) {
        Ok(()) => (0, 0),
        Err(HexRefused { refusal, line }) => (refusal.number(), line),
    }
}

/// Reads the text both ways into random bytes between guards. Gives the refusal, 0 where there is none. What stands behind the text is not lent, and must not count.
fn read_both_ways(text: &[u8], room: usize, random: &mut Random) -> u32 {
    let mut lent = Lent::new(random, room);
    let longer = [text, b"0\n:00000001FF\n"].concat();
    let said = hex_read(&longer[..text.len()], lent.part());
    let expected = reader::read(text, room);
    let (number, bytes) = match &expected {
        Ok(program) => ((0, 0), &program[..]),
        Err(refused) => (*refused, &[][..]),
    };
    assert_eq!((said, typed(text, room)), (number, number), "{room} bytes of room, text {}", text.escape_ascii());
    assert!(lent.holds(bytes), "other bytes than expected: {room} bytes of room, text {}", text.escape_ascii());
    number.0
}

#[test]
fn texts_are_read_as_document_02_says() {
    let (mut random, mut met) = (Random(1), BTreeMap::new());
    for _ in 0..TEXTS {
        let room = room(&mut random);
        let text = texts::any(&mut random, room);
        *met.entry(read_both_ways(&text, room, &mut random)).or_insert(0) += 1;
    }
    println!("numbers met, and how often: {met:?}");
    assert!(met.keys().copied().eq([0, 50, 51, 52, 53, 54, 55, 56, 57]), "a number is not met, or is none of document 02's");
    assert!(met.values().all(|&times| times >= 100), "a number is met too seldom");
}

/// Writes the program both ways into random bytes between guards: the text and nothing else where it fits, and nothing where it does not.
fn write_both_ways(program: &[u8], room: usize, random: &mut Random) {
    let mut lent = Lent::new(random, room);
    let said = hex_write(program, lent.part());
    let text = writer::write(program);
    let number = if program.len() > MOST {
        57
    } else if room < text.len() {
        58
    } else {
        0
    };
    let bytes = if number == 0 { &text[..] } else { &[] };
    assert_eq!(said, (number, bytes.len()), "a program of {} bytes, {room} bytes of room", program.len());
    assert!(lent.holds(bytes), "other bytes than expected: a program of {} bytes, {room} bytes of room", program.len());
}

/// The lengths of the programs that are written.
fn lengths(random: &mut Random) -> Vec<usize> {
    let mut lengths = vec![4_096, 49_152, MOST - 17, MOST - 16, MOST - 15, MOST - 1, MOST, MOST + 1, MOST + 16];
    lengths.extend((0..10).map(|_| random.below(MOST + 1)));
    lengths.extend((0..PROGRAMS).map(|number| number % 601));
    lengths
}

#[test]
fn programs_are_written_as_document_02_says() {
    let mut random = Random(2);
    for length in lengths(&mut random) {
        let (program, exact) = (random.bytes(length), hex_bytes(length));
        for room in [exact, exact + 1 + random.below(100), exact - 1, random.below(exact)] {
            write_both_ways(&program, room, &mut random);
        }
    }
}

#[test]
fn what_was_written_is_read_back() {
    let mut random = Random(3);
    for length in lengths(&mut random).into_iter().filter(|&length| length <= MOST) {
        let (program, mut text, mut lent) = (random.bytes(length), vec![0; hex_bytes(length)], Lent::new(&mut random, length));
        assert_eq!(hex_write(&program, &mut text), (0, text.len()));
        assert!(avr_core::hex_write(&program).as_ref() == Ok(&text), "another text of {length} bytes by the typed call");
        assert_eq!(hex_read(&text, lent.part()), (0, 0));
        assert!(lent.holds(&program), "another program of {length} bytes is read back");
    }
}
