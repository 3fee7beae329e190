//! The limits that cases are drawn at, so that a run can say how often each was.

use original::Case;

pub type Limit = (&'static str, fn(&Case) -> bool);

/// Bytes of the program from PC on.
fn rest(case: &Case) -> isize {
    case.program.len() as isize - 2 * case.state.pc as isize
}

fn pointer(case: &Case, low: usize) -> u16 {
    u16::from_le_bytes([case.state.regs[low], case.state.regs[low + 1]])
}

fn any_pointer(case: &Case, test: impl Fn(u16) -> bool) -> bool {
    [26, 28, 30].into_iter().any(|low| test(pointer(case, low)))
}

pub const LIMITS: [Limit; 38] = [
    ("PC 0", |c| c.state.pc == 0),
    ("PC 65533", |c| c.state.pc == 65_533),
    ("PC 65533 in program", |c| c.state.pc == 65_533 && rest(c) >= 2),
    ("PC 65534", |c| c.state.pc == 65_534),
    ("PC 65534 in program", |c| c.state.pc == 65_534 && rest(c) >= 2),
    ("PC 65535", |c| c.state.pc == 65_535),
    ("PC 65535 in program", |c| c.state.pc == 65_535 && rest(c) >= 2),
    ("SP 0", |c| c.state.sp == 0),
    ("SP 1", |c| c.state.sp == 1),
    ("SP 2", |c| c.state.sp == 2),
    ("SP 65533", |c| c.state.sp == 65_533),
    ("SP 65534", |c| c.state.sp == 65_534),
    ("SP 65535", |c| c.state.sp == 65_535),
    ("SP at data's end, 2 off at most", |c| c.data.len().abs_diff(c.state.sp.into()) <= 2),
    ("X, Y or Z 0", |c| any_pointer(c, |p| p == 0)),
    ("X, Y or Z 65535", |c| any_pointer(c, |p| p == 65_535)),
    ("X, Y or Z at data's end, 1 off at most", |c| any_pointer(c, |p| c.data.len().abs_diff(p.into()) <= 1)),
    ("X, Y or Z at 61 to 63", |c| any_pointer(c, |p| (61..64).contains(&p))),
    ("Z at program's end, 1 off at most", |c| c.program.len().abs_diff(pointer(c, 30).into()) <= 1),
    ("data 0", |c| c.data.is_empty()),
    ("data 1", |c| c.data.len() == 1),
    ("data 32", |c| c.data.len() == 32),
    ("data 64", |c| c.data.len() == 64),
    ("data 256", |c| c.data.len() == 256),
    ("data 65536", |c| c.data.len() == 65_536),
    ("data above 65536", |c| c.data.len() > 65_536),
    ("data 65536 or more, SP 65533 or more", |c| c.data.len() >= 65_536 && c.state.sp >= 65_533),
    ("data 65536 or more, X, Y or Z 65473 or more", |c| c.data.len() >= 65_536 && any_pointer(c, |p| p >= 65_473)),
    ("program ends before or in the opcode", |c| rest(c) < 2),
    ("program ends behind the opcode", |c| rest(c) == 2),
    ("program ends in the second word", |c| rest(c) == 3),
    ("program ends behind the second word, or in a third", |c| rest(c) == 4 || rest(c) == 5),
    ("busy 1 to 3", |c| (1..4).contains(&c.state.busy)),
    ("busy 4", |c| c.state.busy == 4),
    ("inhibit", |c| c.state.inhibit),
    ("in-service", |c| c.state.in_service),
    ("offer", |c| c.offer.is_some()),
    ("offer 65535", |c| c.offer == Some(65_535)),
];
