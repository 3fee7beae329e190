//! A snapshot with its fields by name, so that a host counts no bytes and no bits.

use std::ops::{Deref, DerefMut};

use crate::Refusal;

/// The bytes of a snapshot: R0 to R31, SREG, PC, SP, busy 3 bits, inhibit, in-service, the rule (1 is chip), two zero bits. [`Snapshot`] has them by name.
pub const SNAPSHOT_BYTES: usize = 38;

const SREG: usize = 32;
const PC: usize = 33;
const SP: usize = 35;

/// The last byte, and its fields from the top. Its two lowest bits are zero, or the call is refused with 9.
const LAST: usize = 37;
const BUSY: u8 = 0xE0;
const INHIBIT: u8 = 0x10;
const IN_SERVICE: u8 = 0x08;
const CHIP: u8 = 0x04;

/// Whose rule a core goes by. Under `Chip` three things go as in the AVR manual, and nothing else differs: ADIW's V, and S with it; the waits of LD and LDD, one and not two, and
/// of ST and STD, none and not one; and behind SEI one instruction runs before an interrupt is entered.
#[derive(Clone, Copy, PartialEq, Eq, Debug, Default)]
pub enum Rule {
    /// That of the Rust which was ported. Fresh cores have it, and snapshots written before there was a rule.
    #[default]
    Source,
    /// The chip's own.
    Chip,
}

/// A core: its 38 bytes, with the fields by name. It is those bytes where a slice is asked for, as by [`bytes`](crate::bytes), and is made of any that many.
///
/// ```
/// use avr_core::{Refusal, Snapshot};
///
/// let mut snapshot = Snapshot::fresh(0x3FFF);
/// snapshot.set_pc(2);
/// let kept = snapshot.to_vec();
/// assert_eq!(Snapshot::try_from(&kept[..]), Ok(snapshot));
/// assert_eq!(Snapshot::try_from(&kept[1..]), Err(Refusal::SnapshotLength));
/// ```
#[derive(Clone, PartialEq, Eq, Debug)]
pub struct Snapshot([u8; SNAPSHOT_BYTES]);

impl Snapshot {
    /// A fresh core: everything zero but SP, and the rule source.
    ///
    /// ```
    /// use avr_core::{Rule, Snapshot};
    /// let snapshot = Snapshot::fresh(0x3FFF);
    /// assert_eq!((snapshot.sp(), snapshot.pc(), snapshot.rule()), (0x3FFF, 0, Rule::Source));
    /// ```
    pub fn fresh(sp: u16) -> Self {
        let mut fresh = Snapshot([0; SNAPSHOT_BYTES]);
        fresh.set_sp(sp);
        fresh
    }

    /// R0 to R31.
    ///
    /// ```
    /// assert_eq!(avr_core::Snapshot::fresh(0x3FFF).registers(), &[0; 32]);
    /// ```
    pub fn registers(&self) -> &[u8; SREG] {
        self.0[..SREG].try_into().expect("SREG stands behind the registers")
    }

    /// R0 to R31, to be set.
    ///
    /// ```
    /// let mut snapshot = avr_core::Snapshot::fresh(0x3FFF);
    /// snapshot.registers_mut()[16] = 5;
    /// assert_eq!(snapshot.register(16), Some(5));
    /// ```
    pub fn registers_mut(&mut self) -> &mut [u8; SREG] {
        (&mut self.0[..SREG]).try_into().expect("SREG stands behind the registers")
    }

    /// A register. Nothing where there is none of that number, above 31.
    ///
    /// ```
    /// let snapshot = avr_core::Snapshot::fresh(0x3FFF);
    /// assert_eq!((snapshot.register(31), snapshot.register(32)), (Some(0), None));
    /// ```
    pub fn register(&self, number: u8) -> Option<u8> {
        self.registers().get(usize::from(number)).copied()
    }

    /// Sets a register. Nothing, and no byte changed, where there is none of that number, above 31.
    ///
    /// ```
    /// let mut snapshot = avr_core::Snapshot::fresh(0x3FFF);
    /// assert_eq!((snapshot.set_register(31, 0xA5), snapshot.set_register(32, 0xA5)), (Some(()), None));
    /// assert_eq!(snapshot.register(31), Some(0xA5));
    /// ```
    #[must_use = "above 31 there is no register, and nothing is set"]
    pub fn set_register(&mut self, number: u8, value: u8) -> Option<()> {
        *self.registers_mut().get_mut(usize::from(number))? = value;
        Some(())
    }

    /// SREG, whose bits 0 to 7 are C Z N V S H T I.
    ///
    /// ```
    /// assert_eq!(avr_core::Snapshot::fresh(0x3FFF).sreg(), 0);
    /// ```
    pub fn sreg(&self) -> u8 {
        self.0[SREG]
    }

    /// Sets SREG.
    ///
    /// ```
    /// let mut snapshot = avr_core::Snapshot::fresh(0x3FFF);
    /// snapshot.set_sreg(0x80);
    /// assert_eq!(snapshot.sreg(), 0x80);
    /// ```
    pub fn set_sreg(&mut self, sreg: u8) {
        self.0[SREG] = sreg;
    }

    /// PC, a word address.
    ///
    /// ```
    /// assert_eq!(avr_core::Snapshot::fresh(0x3FFF).pc(), 0);
    /// ```
    pub fn pc(&self) -> u16 {
        self.word(PC)
    }

    /// Sets PC.
    ///
    /// ```
    /// let mut snapshot = avr_core::Snapshot::fresh(0x3FFF);
    /// snapshot.set_pc(0x1234);
    /// assert_eq!(snapshot.pc(), 0x1234);
    /// ```
    pub fn set_pc(&mut self, pc: u16) {
        self.set_word(PC, pc);
    }

    /// SP.
    ///
    /// ```
    /// assert_eq!(avr_core::Snapshot::fresh(0x3FFF).sp(), 0x3FFF);
    /// ```
    pub fn sp(&self) -> u16 {
        self.word(SP)
    }

    /// Sets SP.
    ///
    /// ```
    /// let mut snapshot = avr_core::Snapshot::fresh(0x3FFF);
    /// snapshot.set_sp(0x01FF);
    /// assert_eq!(snapshot.sp(), 0x01FF);
    /// ```
    pub fn set_sp(&mut self, sp: u16) {
        self.set_word(SP, sp);
    }

    /// The ticks still to wait.
    ///
    /// ```
    /// assert_eq!(avr_core::Snapshot::fresh(0x3FFF).busy(), 0);
    /// ```
    pub fn busy(&self) -> u8 {
        self.0[LAST] >> BUSY.trailing_zeros()
    }

    /// Sets the ticks still to wait. Above 4 a call is refused with [`Refusal::BusyField`]. The field holds 7 at most, and that is what a larger number sets.
    ///
    /// ```
    /// let mut snapshot = avr_core::Snapshot::fresh(0x3FFF);
    /// snapshot.set_busy(5);
    /// assert_eq!(snapshot.busy(), 5);
    /// assert!(avr_core::tick(&mut snapshot, &[0, 0], &mut [], None).is_err());
    /// ```
    pub fn set_busy(&mut self, busy: u8) {
        self.0[LAST] = self.0[LAST] & !BUSY | busy.min(7) << BUSY.trailing_zeros();
    }

    /// Whether the next tick that does not wait enters no interrupt, as behind RETI.
    ///
    /// ```
    /// assert!(!avr_core::Snapshot::fresh(0x3FFF).inhibit());
    /// ```
    pub fn inhibit(&self) -> bool {
        self.flag(INHIBIT)
    }

    /// Sets whether the next tick that does not wait enters no interrupt.
    ///
    /// ```
    /// let mut snapshot = avr_core::Snapshot::fresh(0x3FFF);
    /// snapshot.set_inhibit(true);
    /// assert!(snapshot.inhibit());
    /// ```
    pub fn set_inhibit(&mut self, on: bool) {
        self.set_flag(INHIBIT, on);
    }

    /// Whether a handler is under way: from the entry to its RETI.
    ///
    /// ```
    /// assert!(!avr_core::Snapshot::fresh(0x3FFF).in_service());
    /// ```
    pub fn in_service(&self) -> bool {
        self.flag(IN_SERVICE)
    }

    /// Sets whether a handler is under way.
    ///
    /// ```
    /// let mut snapshot = avr_core::Snapshot::fresh(0x3FFF);
    /// snapshot.set_in_service(true);
    /// assert!(snapshot.in_service());
    /// ```
    pub fn set_in_service(&mut self, on: bool) {
        self.set_flag(IN_SERVICE, on);
    }

    /// Whose rule the core goes by.
    ///
    /// ```
    /// assert_eq!(avr_core::Snapshot::fresh(0x3FFF).rule(), avr_core::Rule::Source);
    /// ```
    pub fn rule(&self) -> Rule {
        if self.flag(CHIP) {
            Rule::Chip
        } else {
            Rule::Source
        }
    }

    /// Sets whose rule the core goes by. No call changes it afterwards.
    ///
    /// ```
    /// let mut snapshot = avr_core::Snapshot::fresh(0x3FFF);
    /// snapshot.set_rule(avr_core::Rule::Chip);
    /// assert_eq!(snapshot.rule(), avr_core::Rule::Chip);
    /// ```
    pub fn set_rule(&mut self, rule: Rule) {
        self.set_flag(CHIP, rule == Rule::Chip);
    }

    fn word(&self, at: usize) -> u16 {
        u16::from_be_bytes([self.0[at], self.0[at + 1]])
    }

    fn set_word(&mut self, at: usize, word: u16) {
        self.0[at..at + 2].copy_from_slice(&word.to_be_bytes());
    }

    fn flag(&self, bit: u8) -> bool {
        self.0[LAST] & bit != 0
    }

    fn set_flag(&mut self, bit: u8, on: bool) {
        self.0[LAST] = self.0[LAST] & !bit | if on { bit } else { 0 };
    }
}

/// Any bytes: what is wrong with them is refused when the core is to tick.
impl From<[u8; SNAPSHOT_BYTES]> for Snapshot {
    fn from(bytes: [u8; SNAPSHOT_BYTES]) -> Self {
        Snapshot(bytes)
    }
}

/// As many bytes as a snapshot has, or [`Refusal::SnapshotLength`].
impl TryFrom<&[u8]> for Snapshot {
    type Error = Refusal;

    fn try_from(bytes: &[u8]) -> Result<Self, Refusal> {
        bytes.try_into().map(Snapshot).map_err(|_| Refusal::SnapshotLength)
    }
}

impl From<Snapshot> for [u8; SNAPSHOT_BYTES] {
    fn from(snapshot: Snapshot) -> Self {
        snapshot.0
    }
}

impl Deref for Snapshot {
    type Target = [u8];

    fn deref(&self) -> &[u8] {
        &self.0
    }
}

impl DerefMut for Snapshot {
    fn deref_mut(&mut self) -> &mut [u8] {
        &mut self.0
    }
}

#[cfg(test)]
mod tests {
    use super::*;

    /// A fresh core's 38 bytes, some of them otherwise.
    fn bytes(others: &[(usize, u8)]) -> [u8; SNAPSHOT_BYTES] {
        let mut bytes = [0; SNAPSHOT_BYTES];
        (bytes[35], bytes[36]) = (0x3F, 0xFF);
        others.iter().for_each(|(place, byte)| bytes[*place] = *byte);
        bytes
    }

    fn after(set: impl FnOnce(&mut Snapshot)) -> [u8; SNAPSHOT_BYTES] {
        let mut snapshot = Snapshot::fresh(0x3FFF);
        set(&mut snapshot);
        snapshot.into()
    }

    #[test]
    fn each_field_has_its_place() {
        assert_eq!(after(|s| s.set_register(0, 0xA5).unwrap()), bytes(&[(0, 0xA5)]));
        assert_eq!(after(|s| s.set_register(31, 0xA5).unwrap()), bytes(&[(31, 0xA5)]));
        assert_eq!(after(|s| s.set_sreg(0xA5)), bytes(&[(32, 0xA5)]));
        assert_eq!(after(|s| s.set_pc(0x1234)), bytes(&[(33, 0x12), (34, 0x34)]));
        assert_eq!(after(|s| s.set_sp(0x1234)), bytes(&[(35, 0x12), (36, 0x34)]));
        assert_eq!(after(|s| s.set_busy(1)), bytes(&[(37, 0x20)]));
        assert_eq!(after(|s| s.set_busy(200)), bytes(&[(37, 0xE0)]));
        assert_eq!(after(|s| s.set_inhibit(true)), bytes(&[(37, 0x10)]));
        assert_eq!(after(|s| s.set_in_service(true)), bytes(&[(37, 0x08)]));
        assert_eq!(after(|s| s.set_rule(Rule::Chip)), bytes(&[(37, 0x04)]));
    }

    #[test]
    fn what_is_set_is_read_and_can_be_set_back() {
        let mut snapshot = Snapshot::from([0xFF; SNAPSHOT_BYTES]);
        assert_eq!((snapshot.register(31), snapshot.register(32), snapshot.set_register(32, 0)), (Some(0xFF), None, None));
        assert_eq!((snapshot.sreg(), snapshot.pc(), snapshot.sp()), (0xFF, 0xFFFF, 0xFFFF));
        assert_eq!((snapshot.busy(), snapshot.inhibit(), snapshot.in_service(), snapshot.rule()), (7, true, true, Rule::Chip));
        assert_eq!(snapshot.registers(), &[0xFF; 32]);
        snapshot.registers_mut().fill(0);
        snapshot.set_sreg(0);
        snapshot.set_pc(0);
        snapshot.set_sp(0x3FFF);
        snapshot.set_busy(0);
        snapshot.set_inhibit(false);
        snapshot.set_in_service(false);
        snapshot.set_rule(Rule::Source);
        assert_eq!(snapshot.rule(), Rule::Source);
        assert_eq!(<[u8; SNAPSHOT_BYTES]>::from(snapshot), bytes(&[(37, 0x03)]));
    }

    #[test]
    fn other_lengths_are_no_snapshot() {
        let bytes = [0xA5; SNAPSHOT_BYTES + 1];
        assert_eq!(Snapshot::try_from(&bytes[1..]), Ok(Snapshot([0xA5; SNAPSHOT_BYTES])));
        for other in [&bytes[..], &bytes[2..], &[]] {
            assert_eq!(Snapshot::try_from(other), Err(Refusal::SnapshotLength));
        }
    }
}
