//! Which answer or panic a tick is, and 01's one exception for words outside the program.

use original::{tick, Case, Outcome, Panic, State};

const NOP: u16 = 0x0000;
const CALL: u16 = 0x940E;
const JMP: u16 = 0x940C;
const LDS: u16 = 0x9000;
const STS: u16 = 0x9200;
const CPSE: u16 = 0x1000;
const LPM: u16 = 0x95C8;
const RET: u16 = 0x9508;
const UNDEFINED: u16 = 0x0001;

fn fresh(words: &[u16]) -> Case {
    let state = State { regs: [0; 32], sreg: 0, pc: 0, sp: 2, busy: 0, inhibit: false, in_service: false };
    let program = words.iter().flat_map(|word| word.to_le_bytes()).collect();
    Case { state, offer: None, program, data: vec![0; 8] }
}

/// The words at `pc` in a whole program.
fn at(pc: u16, words: &[u16]) -> Case {
    let mut case = fresh(words);
    case.program.splice(..0, vec![0; 2 * usize::from(pc)]);
    case.state.pc = pc;
    case
}

fn answer(case: &Case) -> Result<u8, Panic> {
    match tick(case) {
        Outcome::Done { answer, .. } => Ok(answer),
        Outcome::Panicked(panic) => Err(panic),
    }
}

fn cut(mut case: Case, bytes: usize) -> Case {
    case.program.truncate(case.program.len() - bytes);
    case
}

#[test]
fn answers_are_told_apart() {
    for (word, number) in [(NOP, 18), (0x9588, 19), (0x95A8, 20), (UNDEFINED, 21), (0x9598, 22)] {
        assert_eq!(answer(&fresh(&[word])), Ok(number));
    }
    // an undefined word that is skipped is printed, but not executed
    assert_eq!(answer(&fresh(&[CPSE, UNDEFINED])), Ok(18));
}

#[test]
fn busy_waits_and_an_offer_enters() {
    let mut case = fresh(&[]);
    case.state = State { sreg: 0x80, sp: 7, busy: 4, ..case.state };
    case.offer = Some(65_535);
    assert_eq!(answer(&case), Ok(16));
    case.state.busy = 0;
    let Outcome::Done { answer: number, state, .. } = tick(&case) else { panic!("it enters") };
    assert_eq!((number, state.pc, state.sp, state.busy, state.in_service), (17, 65_535, 5, 4, true));
    case.state.in_service = true;
    assert_eq!(answer(&case), Err(Panic::Program));
}

#[test]
fn a_second_word_is_needed_where_it_is_used() {
    for word in [CALL, JMP, LDS, STS] {
        assert_eq!(answer(&fresh(&[word, 1])), Ok(18));
        assert_eq!(answer(&cut(fresh(&[word, 1]), 1)), Err(Panic::Program));
        assert_eq!(answer(&fresh(&[word])), Err(Panic::Program));
    }
    assert_eq!(answer(&fresh(&[NOP])), Ok(18));
    assert_eq!(answer(&cut(fresh(&[NOP]), 1)), Err(Panic::Program));
}

#[test]
fn a_skipped_word_is_needed_and_the_one_behind_it_is_not() {
    assert_eq!(answer(&fresh(&[CPSE])), Err(Panic::Program));
    assert_eq!(answer(&cut(fresh(&[CPSE, JMP]), 1)), Err(Panic::Program));
    let Outcome::Done { state, .. } = tick(&fresh(&[CPSE, JMP])) else { panic!("it skips") };
    assert_eq!((state.pc, state.busy), (3, 2));
    let mut not_taken = fresh(&[CPSE | 1]);
    not_taken.state.regs[1] = 1;
    assert_eq!(answer(&not_taken), Ok(18));
}

#[test]
fn lpm_needs_its_byte() {
    let mut case = fresh(&[LPM]);
    case.state.regs[30] = 1;
    assert_eq!(answer(&case), Ok(18));
    case.state.regs[30] = 2;
    assert_eq!(answer(&case), Err(Panic::Program));
}

#[test]
fn at_the_top_nothing_is_needed() {
    let mut case = fresh(&[]);
    case.state.pc = 65_535;
    assert_eq!(answer(&case), Ok(23));
    assert_eq!(answer(&at(65_535, &[CALL])), Ok(23));
    assert_eq!(answer(&at(65_535, &[UNDEFINED])), Ok(23));
    assert_eq!(answer(&at(65_534, &[NOP])), Ok(18));
}

#[test]
fn sums_and_differences_are_checked() {
    assert_eq!(answer(&at(65_534, &[CALL, 1])), Err(Panic::Sum));
    assert_eq!(answer(&at(65_534, &[LDS, 1])), Err(Panic::Sum));
    assert_eq!(answer(&at(65_534, &[JMP, 1])), Ok(18));
    assert_eq!(answer(&at(65_534, &[CPSE, 1])), Err(Panic::Sum));
    assert_eq!(answer(&at(65_533, &[CPSE, JMP])), Err(Panic::Sum));
    assert_eq!(answer(&at(65_533, &[CPSE, NOP])), Ok(18));
    let mut case = fresh(&[CALL, 1]);
    case.state.sp = 1;
    assert_eq!(answer(&case), Err(Panic::Difference));
    let mut case = fresh(&[RET]);
    case.state.sp = 65_535;
    assert_eq!(answer(&case), Err(Panic::Sum));
    case.state.sp = 7;
    assert_eq!(answer(&case), Err(Panic::Data));
}

#[test]
fn a_refusals_number_is_at_most_the_panics() {
    let allowed = |panic: Panic| (0..=5).filter(|number| panic.allows(*number)).collect::<Vec<u8>>();
    assert_eq!(allowed(Panic::Program), [1]);
    assert_eq!(allowed(Panic::Difference), [1, 2, 3]);
    assert_eq!(allowed(Panic::Data), [1, 2, 3, 4]);
}
