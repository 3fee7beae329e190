//! What the rule changes, and what it does not.

use avr_core::{tick, Answer, Refusal, Rule, Snapshot, SNAPSHOT_BYTES};

const RULES: [Rule; 2] = [Rule::Source, Rule::Chip];

fn fresh(rule: Rule) -> Snapshot {
    let mut snapshot = Snapshot::fresh(0x3FFF);
    snapshot.set_rule(rule);
    snapshot
}

fn runs(snapshot: &mut Snapshot, program: &[u8], data: &mut [u8]) {
    assert_eq!(tick(snapshot, program, data, None), Ok(Answer::Ran));
}

/// Line 2 of document 01's bench sheet, from SREG 0. Under source these are the bytes that there were before there was a rule.
#[test]
fn adiw_goes_by_the_rule() {
    for (rule, sreg, last) in [(Rule::Source, 0x0C, 0x20), (Rule::Chip, 0x14, 0x24)] {
        let (mut snapshot, mut bytes) = (fresh(rule), [0; SNAPSHOT_BYTES]);
        snapshot.set_register(24, 0x01).unwrap();
        snapshot.set_register(25, 0x80).unwrap();
        runs(&mut snapshot, &[0x01, 0x96], &mut []);
        for (place, byte) in [(24, 0x02), (25, 0x80), (32, sreg), (34, 1), (35, 0x3F), (36, 0xFF), (37, last)] {
            bytes[place] = byte;
        }
        assert_eq!(snapshot, bytes.into());
    }
}

/// Pointer loads and stores, also at SREG's address, and LDS and STS, which go by no pointer.
#[test]
fn pointer_access_waits_by_the_rule() {
    let waits = |rule, program: &[u8], x| {
        let mut snapshot = fresh(rule);
        snapshot.set_register(26, x).unwrap();
        runs(&mut snapshot, program, &mut [0]);
        snapshot.busy()
    };
    let (ld, st, lds, sts) = ([0x0C, 0x91], [0x0C, 0x93], [0x00, 0x91, 0, 0], [0x00, 0x93, 0, 0]);
    for (rule, load, store) in [(Rule::Source, 2, 1), (Rule::Chip, 1, 0)] {
        for x in [0, 0x3D, 0x3E, 0x3F] {
            assert_eq!((waits(rule, &ld, x), waits(rule, &st, x)), (load, store));
        }
        assert_eq!((waits(rule, &lds, 0), waits(rule, &sts, 0)), (2, 1));
    }
}

/// BSET and BCLR of each flag, with I clear and set; and I set by OUT and STS, which write SREG.
#[test]
fn sei_alone_inhibits_and_under_chip() {
    let inhibits = |rule, program: &[u8], sreg| {
        let mut snapshot = fresh(rule);
        snapshot.set_sreg(sreg);
        snapshot.set_register(16, 0x80).unwrap();
        runs(&mut snapshot, program, &mut []);
        snapshot.inhibit()
    };
    for rule in RULES {
        for (flag, sreg) in (0..8).flat_map(|flag| [(flag, 0x00), (flag, 0x80)]) {
            assert_eq!(inhibits(rule, &[0x08 | flag << 4, 0x94], sreg), rule == Rule::Chip && flag == 7);
            assert!(!inhibits(rule, &[0x88 | flag << 4, 0x94], sreg));
        }
        assert!(!inhibits(rule, &[0x0F, 0xBF], 0)); // OUT 0x3F,R16
        assert!(!inhibits(rule, &[0x00, 0x93, 0x3F, 0x00], 0)); // STS 0x3F,R16
    }
}

/// A wait, an entry at vector 1, its four waits, RETI there, a wait.
#[test]
fn ticks_keep_the_rule() {
    use Answer::{Entered, Ran, Waited};
    for rule in RULES {
        let (mut snapshot, mut data) = (fresh(rule), [0; 0x4000]);
        snapshot.set_sreg(0x80);
        snapshot.set_busy(1);
        for answer in [Waited, Entered, Waited, Waited, Waited, Waited, Ran, Waited] {
            assert_eq!(tick(&mut snapshot, &[0, 0, 0x18, 0x95], &mut data, Some(1)), Ok(answer));
            assert_eq!(snapshot.rule(), rule);
        }
        assert_eq!((snapshot.pc(), snapshot.sp(), snapshot.busy(), snapshot.in_service()), (0, 0x3FFF, 2, false));
    }
}

#[test]
fn two_spare_bits_are_left() {
    for last in 0..8 {
        let mut snapshot = Snapshot::fresh(0x3FFF);
        snapshot[37] = last;
        let expected = if last & 3 == 0 { Ok(Answer::Ran) } else { Err(Refusal::SpareBits) };
        assert_eq!(tick(&mut snapshot, &[0, 0], &mut [], None), expected);
        assert_eq!(snapshot[37], last);
    }
}
