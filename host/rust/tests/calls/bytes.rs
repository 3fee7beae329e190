//! The calls over bytes on document 01's example, and what they refuse.

use avr_core::bytes::{foretell, hex_read, hex_write, run, tick, NO_OFFER};
use avr_core::{hex_bytes, SNAPSHOT_BYTES};

// LDI R16, 0x05; ADIW R24, 1; BREAK, from a fresh core with SP 0x3FFF: document 01's example.
const PROGRAM: [u8; 6] = [0x05, 0xE0, 0x01, 0x96, 0x98, 0x95];

fn fresh() -> [u8; SNAPSHOT_BYTES] {
    let mut snapshot = [0; SNAPSHOT_BYTES];
    snapshot[35..37].copy_from_slice(&0x3FFFu16.to_be_bytes());
    snapshot
}

#[test]
fn ticks_like_the_example() {
    let (mut snapshot, mut data) = (fresh(), [0; 64]);
    let answers: Vec<u32> = (0..4).map(|_| tick(&mut snapshot, &PROGRAM, &mut data, NO_OFFER)).collect();
    assert_eq!(answers, [18, 18, 16, 22]);
    assert_eq!(snapshot[16], 0x05);
    assert_eq!(&snapshot[33..35], &[0, 3]);
}

#[test]
fn foretells_each_tick_of_the_example() {
    let (mut snapshot, mut data) = (fresh(), [0; 64]);
    for _ in 0..4 {
        let foretold = foretell(&snapshot, &PROGRAM, &data, NO_OFFER);
        assert_eq!(foretold, tick(&mut snapshot, &PROGRAM, &mut data, NO_OFFER));
    }
}

#[test]
fn foretells_refusals_in_their_order() {
    let (mut wrong, data) = (fresh(), [0; 4]);
    assert_eq!(foretell(&wrong, &[], &data, NO_OFFER), 1);
    wrong[37] = 0x03;
    assert_eq!(foretell(&wrong, &PROGRAM, &data, NO_OFFER), 9);
    wrong[37] = 0xA3;
    assert_eq!(foretell(&wrong, &PROGRAM, &data, NO_OFFER), 8);
    assert_eq!(foretell(&wrong[..37], &PROGRAM, &data, NO_OFFER), 7);
    assert_eq!(foretell(&wrong[..37], &PROGRAM, &data, 65_537), 10);
}

#[test]
fn a_run_counts_its_ticks() {
    let (mut snapshot, mut data) = (fresh(), [0; 64]);
    assert_eq!(run(&mut snapshot, &PROGRAM, &mut data, NO_OFFER, 100), (22, 4));
}

#[test]
fn refused_calls_change_nothing() {
    let (mut snapshot, mut data) = (fresh(), [7; 4]);
    let before = snapshot;
    assert_eq!(tick(&mut snapshot, &[], &mut data, NO_OFFER), 1);
    assert_eq!(tick(&mut snapshot[..37], &PROGRAM, &mut data, NO_OFFER), 7);
    assert_eq!(run(&mut snapshot, &PROGRAM, &mut data, 65_537, 9), (10, 0));
    assert_eq!((snapshot, data), (before, [7; 4]));
}

const TEXT: &[u8] = b":0600000005E00196989551\n:00000001FF\n";

#[test]
fn writes_a_hex_file_and_reads_it_back() {
    let (mut text, mut program) = ([b'?'; hex_bytes(PROGRAM.len()) + 1], [0; 8]);
    assert_eq!(hex_write(&PROGRAM, &mut text), (0, TEXT.len()));
    assert_eq!((&text[..TEXT.len()], text[TEXT.len()]), (TEXT, b'?'));
    assert_eq!(hex_read(TEXT, &mut program), (0, 0));
    assert_eq!((&program[..6], &program[6..]), (&PROGRAM[..], &[0xFF, 0xFF][..]));
}

#[test]
fn refused_hex_files_change_nothing() {
    let (mut text, mut program, mut long) = ([b'?'; 35], [7; 6], vec![7; 65_537]);
    let no_end = TEXT[..24].repeat(2);
    assert_eq!(hex_read(&no_end, &mut program), (55, 2));
    assert_eq!(hex_read(&no_end[..24], &mut program), (56, 2));
    assert_eq!(hex_read(TEXT, &mut program[..5]), (54, 1));
    assert_eq!(hex_read(b"", &mut long), (57, 0));
    assert_eq!(hex_write(&long, &mut text), (57, 0));
    assert_eq!(hex_write(&PROGRAM, &mut text), (58, 0));
    assert_eq!((text, program), ([b'?'; 35], [7; 6]));
    assert!(long.iter().all(|&byte| byte == 7));
}
