//! Runs by a schedule, and what they refuse.

use avr_core::bytes::{self, list_of, RECORD_BYTES};
use avr_core::{run, run_schedule, Answer, Firing, Ran, Refusal, ScheduleRefused, Scheduled, Snapshot};

/// INC R16 and RJMP, round and round; at word 2 a handler that takes R16 as its sample: MOV R17,R16; RETI.
const LOOP: [u8; 8] = [0x03, 0x95, 0xFE, 0xCF, 0x10, 0x2F, 0x18, 0x95];

fn with_interrupts_on(sp: u16) -> Snapshot {
    let mut snapshot = Snapshot::fresh(sp);
    snapshot.set_sreg(0x80);
    snapshot
}

fn at(ticks: &[u32]) -> Vec<Firing> {
    ticks.iter().map(|&tick| Firing::new(tick, 2).unwrap()).collect()
}

#[test]
fn each_record_has_its_place() {
    let list = list_of(&[Firing::new(1, 2).unwrap(), Firing::new(0x12_3456, 0x789A).unwrap()]);
    assert_eq!(list, [0, 0, 1, 0, 2, 0x12, 0x34, 0x56, 0x78, 0x9A]);
    assert_eq!(list.len(), 2 * RECORD_BYTES);
    assert_eq!(list_of(&[]), []);
}

#[test]
fn a_tick_has_24_bits() {
    assert_eq!(list_of(&[Firing::new(0xFF_FFFF, 0xFFFF).unwrap()]), [0xFF; RECORD_BYTES]);
    assert_eq!((Firing::new(0x100_0000, 0), Firing::new(u32::MAX, 0)), (None, None));
}

/// The second is due while the handler runs; it is entered when that has returned, at tick 13, and one instruction more has run. The third is due behind the budget.
#[test]
fn firings_are_entered_when_they_are_due_and_can_be() {
    let (mut snapshot, mut data) = (with_interrupts_on(15), [0; 16]);
    let scheduled = Scheduled { answer: Answer::Budget, ticks: 21, entries: vec![Some(4), Some(15), None] };
    assert_eq!(run_schedule(&mut snapshot, &LOOP, &mut data, &at(&[4, 5, 22]), 21), Ok(scheduled));
    assert_eq!(snapshot.register(17), Some(2));
}

#[test]
fn no_firings_are_a_run_with_no_offer() {
    let (mut by_list, mut by_run, mut data) = (with_interrupts_on(15), with_interrupts_on(15), [0; 16]);
    let scheduled = run_schedule(&mut by_list, &LOOP, &mut data, &[], 100).unwrap();
    assert_eq!(run(&mut by_run, &LOOP, &mut data, None, 100), Ok(Ran { answer: scheduled.answer, ticks: scheduled.ticks }));
    assert_eq!((by_list, data), (by_run, [0; 16]));
}

/// With budget 0, and where the entry itself is refused, SP being 1.
#[test]
fn what_is_not_entered_has_no_tick() {
    let (mut snapshot, mut data) = (with_interrupts_on(1), [0; 16]);
    let nothing = vec![None, None];
    let scheduled = Scheduled { answer: Answer::Budget, ticks: 0, entries: nothing.clone() };
    assert_eq!(run_schedule(&mut snapshot, &LOOP, &mut data, &at(&[1, 2]), 0), Ok(scheduled));
    let refused = ScheduleRefused { refusal: Refusal::Stack, ticks: 3, entries: nothing };
    assert_eq!(run_schedule(&mut snapshot, &LOOP, &mut data, &at(&[4, 5]), 21), Err(refused));
}

#[test]
fn numbers_past_the_last_record_keep_what_they_held() {
    let (mut snapshot, mut data, mut entered) = (with_interrupts_on(15), [0; 16], [7; 4]);
    assert_eq!(bytes::run_schedule(&mut snapshot, &LOOP, &mut data, &list_of(&at(&[4, 5, 22])), 21, &mut entered), (24, 21));
    assert_eq!(entered, [4, 15, 0, 7]);
    assert_eq!(bytes::run_schedule(&mut snapshot, &LOOP, &mut data, &list_of(&at(&[1, 2])), 0, &mut entered), (24, 0));
    assert_eq!(entered, [0, 0, 0, 7]);
}

#[test]
fn refused_schedules_change_nothing_and_are_refused_in_their_order() {
    let (mut snapshot, mut data, mut entered) = (with_interrupts_on(15), [7; 16], [7; 1]);
    let mut wrong = snapshot.clone();
    wrong.set_busy(5);
    wrong[37] |= 0x03;
    let before = wrong.clone();
    let list = |ticks: &[u32]| list_of(&at(ticks));
    let mut refusal = |snapshot: &mut [u8], list: &[u8]| bytes::run_schedule(snapshot, &LOOP, &mut data, list, 21, &mut entered);
    assert_eq!(refusal(&mut wrong[..37], &list(&[5, 5])[..9]), (7, 0));
    assert_eq!(refusal(&mut wrong, &list(&[5, 5])[..9]), (8, 0));
    wrong.set_busy(0);
    assert_eq!(refusal(&mut wrong, &list(&[5, 5])[..9]), (9, 0));
    wrong.set_busy(5);
    assert_eq!(refusal(&mut snapshot, &list(&[0, 5])[..9]), (30, 0));
    for ticks in [[0, 5], [5, 5], [5, 4]] {
        assert_eq!(refusal(&mut snapshot, &list(&ticks)), (31, 0));
    }
    assert_eq!(refusal(&mut snapshot, &list(&[4, 5])), (32, 0));
    assert_eq!((wrong, snapshot), (before, with_interrupts_on(15)));
    assert_eq!((data, entered), ([7; 16], [7; 1]));
}
