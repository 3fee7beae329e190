//! Makes a case smaller while it keeps what it shows.

use original::Case;

/// The smallest case that `shows` still holds of: no part of it can be cleared or shortened.
pub fn smallest(mut case: Case, shows: &mut impl FnMut(&Case) -> bool) -> Case {
    loop {
        let found = smaller(&case).find(|candidate| *candidate != case && shows(candidate));
        match found {
            Some(smaller) => case = smaller,
            None => return case,
        }
    }
}

type Candidates<'a> = Box<dyn Iterator<Item = Case> + 'a>;

/// Cases with shorter memories or fewer set bits, the boldest first.
fn smaller(case: &Case) -> impl Iterator<Item = Case> + '_ {
    memories(case).chain(flags(case)).chain(words(case)).chain(registers(case)).chain(bytes(case))
}

fn changed(case: &Case, change: impl FnOnce(&mut Case)) -> Case {
    let mut case = case.clone();
    change(&mut case);
    case
}

fn memories(case: &Case) -> Candidates<'_> {
    let (program, data) = (case.program.len(), case.data.len());
    let from_pc = 2 * usize::from(case.state.pc).min(program / 2);
    let cuts = [0, program / 2, program.saturating_sub(16), program.saturating_sub(1)];
    let data_cuts = [0, data / 2, data.saturating_sub(16), data.saturating_sub(1)];
    let start = changed(case, |case| {
        case.program.drain(..from_pc);
        case.state.pc = 0;
    });
    let shorter = cuts.map(|len| changed(case, |case| case.program.truncate(len)));
    let shorter_data = data_cuts.map(|len| changed(case, |case| case.data.truncate(len)));
    Box::new([start].into_iter().chain(shorter).chain(shorter_data))
}

fn flags(case: &Case) -> Candidates<'_> {
    Box::new(
        [
            changed(case, |case| case.offer = None),
            changed(case, |case| case.offer = case.offer.map(|_| 0)),
            changed(case, |case| case.state.busy = 0),
            changed(case, |case| case.state.inhibit = false),
            changed(case, |case| case.state.in_service = false),
            changed(case, |case| case.state.sreg = 0),
        ]
        .into_iter(),
    )
}

/// SREG, SP and PC with one bit less.
fn words(case: &Case) -> Candidates<'_> {
    Box::new((0..16).rev().flat_map(|bit| {
        [
            changed(case, |case| case.state.sp &= !(1 << bit)),
            changed(case, |case| case.state.pc &= !(1 << bit)),
            changed(case, |case| case.state.sreg &= !((1u16 << bit) as u8)),
        ]
    }))
}

fn registers(case: &Case) -> Candidates<'_> {
    let whole = (0..32).map(|place| changed(case, |case| case.state.regs[place] = 0));
    let bits = (0..256).map(|bit| changed(case, |case| case.state.regs[bit / 8] &= !(1 << (bit % 8))));
    Box::new(whole.chain(bits))
}

/// Program and data with zeros in a stretch, then in a byte, then with a bit less.
fn bytes(case: &Case) -> Candidates<'_> {
    let program = stretches(&case.program).map(|(from, to)| changed(case, |case| case.program[from..to].fill(0)));
    let data = stretches(&case.data).map(|(from, to)| changed(case, |case| case.data[from..to].fill(0)));
    let set = (0..case.program.len()).filter(|place| case.program[*place] != 0);
    let bits = set.flat_map(move |place| (0..8).map(move |bit| changed(case, |case| case.program[place] &= !(1 << bit))));
    Box::new(program.chain(data).chain(bits))
}

/// Stretches of `bytes` that aren't zero throughout, each length half of the one before.
fn stretches(bytes: &[u8]) -> impl Iterator<Item = (usize, usize)> + '_ {
    let lengths = std::iter::successors(Some(bytes.len().next_power_of_two()), |len| (*len > 1).then_some(len / 2));
    let all = lengths.flat_map(move |len| (0..bytes.len()).step_by(len).map(move |from| (from, (from + len).min(bytes.len()))));
    all.filter(move |(from, to)| bytes[*from..*to].iter().any(|byte| *byte != 0))
}

#[cfg(test)]
mod tests {
    use super::*;
    use crate::plan::Plan;

    #[test]
    fn what_does_not_matter_goes() {
        let mut case = Plan::new(1).case(7);
        case.state.regs[5] = 0x97;
        case.data = vec![7; 300];
        let small = smallest(case, &mut |case| case.state.regs[5] & 0x10 != 0 && case.data.len() > 2 && case.data[2] == 7);
        assert_eq!(small.data, [0, 0, 7]);
        assert_eq!(small.state.regs.iter().map(|reg| usize::from(*reg)).sum::<usize>(), 0x10);
        assert!(small.program.is_empty() && small.offer.is_none());
        let state = small.state;
        assert_eq!((state.sreg, state.pc, state.sp, state.busy, state.inhibit, state.in_service), (0, 0, 0, 0, false, false));
    }
}
