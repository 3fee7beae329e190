//! The calls as C has them, over plain bytes and numbers, and safe: for a host that keeps snapshots as bytes, and to see wrong lengths and offers refused. The functions of the crate stand on
//! these. A [`Snapshot`](crate::Snapshot) may be handed as it is, being its bytes; [`Answer`](crate::Answer) and [`Refusal`](crate::Refusal) have the numbers by name.

use crate::Firing;

/// The offer that offers nothing.
pub const NO_OFFER: u32 = 65_536;

/// The bytes of a record of the list that [`run_schedule`] takes: the number of a tick, three bytes, and a vector, two, high byte first. [`Firing`] has them by name.
pub const RECORD_BYTES: usize = 5;

extern "C" {
    fn avr_tick(
        snapshot: *mut u8,
        snapshot_len: usize,
        program: *const u8,
        program_len: usize,
        data: *mut u8,
        data_len: usize,
        offer: u32,
    ) -> u32;
    fn avr_foretell(
        snapshot: *const u8,
        snapshot_len: usize,
        program: *const u8,
        program_len: usize,
        data: *const u8,
        data_len: usize,
        offer: u32,
    ) -> u32;
    fn avr_run(
        snapshot: *mut u8,
        snapshot_len: usize,
        program: *const u8,
        program_len: usize,
        data: *mut u8,
        data_len: usize,
        offer: u32,
        budget: u32,
        ticks: *mut u32,
    ) -> u32;
    fn avr_run_schedule(
        snapshot: *mut u8,
        snapshot_len: usize,
        program: *const u8,
        program_len: usize,
        data: *mut u8,
        data_len: usize,
        list: *const u8,
        list_len: usize,
        budget: u32,
        entered: *mut u32,
        entered_len: usize,
        ticks: *mut u32,
    ) -> u32;
    fn avr_hex_read(text: *const u8, text_len: usize, program: *mut u8, program_len: usize, line: *mut usize) -> u32;
    fn avr_hex_write(program: *const u8, program_len: usize, text: *mut u8, text_len: usize, written: *mut usize) -> u32;
}

/// One tick of the core in `snapshot`; the answer's number in document 01's table. A refused call changes no byte.
///
/// ```
/// use avr_core::bytes::{tick, NO_OFFER};
///
/// let mut snapshot = [0; avr_core::SNAPSHOT_BYTES];
/// assert_eq!(tick(&mut snapshot, &[0x05, 0xE0], &mut [], NO_OFFER), 18); // LDI R16,5
/// assert_eq!(snapshot[16], 5);
/// assert_eq!(tick(&mut snapshot[..37], &[0x05, 0xE0], &mut [], NO_OFFER), 7);
/// ```
pub fn tick(snapshot: &mut [u8], program: &[u8], data: &mut [u8], offer: u32) -> u32 {
    // The three slices are disjoint, as Rust's borrows are, and live through the call.
    unsafe { avr_tick(snapshot.as_mut_ptr(), snapshot.len(), program.as_ptr(), program.len(), data.as_mut_ptr(), data.len(), offer) }
}

/// The number that [`tick`] would give for the same, a refusal too. Nothing is changed, so it may be asked under one offer and another.
///
/// ```
/// use avr_core::bytes::{foretell, NO_OFFER};
///
/// let snapshot = [0; avr_core::SNAPSHOT_BYTES];
/// assert_eq!(foretell(&snapshot, &[0x98, 0x95], &[], NO_OFFER), 22); // BREAK
/// assert_eq!(foretell(&snapshot, &[0x98, 0x95], &[], NO_OFFER + 1), 10);
/// ```
pub fn foretell(snapshot: &[u8], program: &[u8], data: &[u8], offer: u32) -> u32 {
    // The three slices live through the call, which only reads them.
    unsafe { avr_foretell(snapshot.as_ptr(), snapshot.len(), program.as_ptr(), program.len(), data.as_ptr(), data.len(), offer) }
}

/// Up to `budget` ticks under one held offer: the answer's number, and the number of ticks done.
///
/// ```
/// use avr_core::bytes::{run, NO_OFFER};
///
/// let program = [0x05, 0xE0, 0x98, 0x95]; // LDI R16,5; BREAK
/// assert_eq!(run(&mut [0; avr_core::SNAPSHOT_BYTES], &program, &mut [], NO_OFFER, 10), (22, 2));
/// ```
pub fn run(snapshot: &mut [u8], program: &[u8], data: &mut [u8], offer: u32, budget: u32) -> (u32, u32) {
    let mut ticks = 0;
    // The slices are disjoint and live through the call; `ticks` is a local of it.
    let answer = unsafe {
        avr_run(
            snapshot.as_mut_ptr(),
            snapshot.len(),
            program.as_ptr(),
            program.len(),
            data.as_mut_ptr(),
            data.len(),
            offer,
            budget,
            &mut ticks,
        )
    };
    (answer, ticks)
}

/// The list of these firings, as [`run_schedule`] takes it.
///
/// ```
/// use avr_core::{bytes::list_of, Firing};
/// assert_eq!(list_of(&[Firing::new(1, 2).unwrap(), Firing::new(0x12_3456, 0x789A).unwrap()]), [0, 0, 1, 0, 2, 0x12, 0x34, 0x56, 0x78, 0x9A]);
/// ```
pub fn list_of(firings: &[Firing]) -> Vec<u8> {
    firings.iter().flat_map(record).collect()
}

fn record(firing: &Firing) -> [u8; RECORD_BYTES] {
    let ([_, high, middle, low], vector) = (firing.tick().to_be_bytes(), firing.vector().to_be_bytes());
    [high, middle, low, vector[0], vector[1]]
}

/// Up to `budget` ticks driven by the ticks at which interrupts fired, the records of `list`, which [`list_of`] makes: the answer's number, and the number of ticks done. The ticks are numbered
/// from 1, and a record is due at its tick and at every later one; at every tick the first that is due and not yet entered is offered. `entered` gets for each record the tick of its entry, or 0
/// where the run ended before one; numbers past the last record keep what they held. Beside [`run`]'s refusals there are document 02's: 30 `list` is not whole records, 31 ticks are 0 or do not
/// rise, 32 `entered` has fewer numbers than there are records. A call that a check refuses changes nothing.
///
/// ```
/// use avr_core::bytes::run_schedule;
///
/// let program = [0x78, 0x94, 0xFF, 0xCF, 0x18, 0x95]; // SEI; RJMP to itself; at word 2 the handler: RETI
/// let (mut snapshot, mut data, mut entered) = (avr_core::Snapshot::fresh(15), [0; 16], [7; 2]);
/// assert_eq!(run_schedule(&mut snapshot, &program, &mut data, &[0, 0, 4, 0, 2], 20, &mut entered), (24, 20));
/// assert_eq!(entered, [4, 7]);
/// assert_eq!(run_schedule(&mut snapshot, &program, &mut data, &[0, 0, 4, 0], 20, &mut entered), (30, 0));
/// ```
pub fn run_schedule(snapshot: &mut [u8], program: &[u8], data: &mut [u8], list: &[u8], budget: u32, entered: &mut [u32]) -> (u32, u32) {
    let mut ticks = 0;
    // The slices are disjoint and live through the call; the length of `entered` is in numbers.
    let answer = unsafe {
        avr_run_schedule(
            snapshot.as_mut_ptr(),
            snapshot.len(),
            program.as_ptr(),
            program.len(),
            data.as_mut_ptr(),
            data.len(),
            list.as_ptr(),
            list.len(),
            budget,
            entered.as_mut_ptr(),
            entered.len(),
            &mut ticks,
        )
    };
    (answer, ticks)
}

/// Reads a HEX file into `program`; bytes that no line names become 0xFF. 0 and 0, or document 02's number, 50 to 57, and the refused line, counted from 1 (0 for 57).
/// A refused call changes no byte.
///
/// ```
/// use avr_core::bytes::hex_read;
///
/// let mut program = [0; 2];
/// assert_eq!(hex_read(b":0200000005E019\n:00000001FF\n", &mut program), (0, 0));
/// assert_eq!(program, [0x05, 0xE0]);
/// assert_eq!(hex_read(b":0200000005E019\n", &mut program), (56, 2));
/// ```
pub fn hex_read(text: &[u8], program: &mut [u8]) -> (u32, usize) {
    let mut line = 0;
    // The slices are disjoint and live through the call; `line` is a local of it.
    let refusal = unsafe { avr_hex_read(text.as_ptr(), text.len(), program.as_mut_ptr(), program.len(), &mut line) };
    (refusal, line)
}

/// Writes all of `program` as a HEX file into `text`, of which bytes behind the file keep what they held. 0 and the file's length, or document 02's number, 57 or 58,
/// and 0. A refused call changes no byte.
///
/// ```
/// use avr_core::{bytes::hex_write, hex_bytes};
///
/// let mut text = [0; hex_bytes(2)];
/// assert_eq!(hex_write(&[0x05, 0xE0], &mut text), (0, text.len()));
/// assert_eq!(&text, b":0200000005E019\n:00000001FF\n");
/// assert_eq!(hex_write(&[0x05, 0xE0], &mut text[1..]), (58, 0));
/// ```
pub fn hex_write(program: &[u8], text: &mut [u8]) -> (u32, usize) {
    let mut written = 0;
    // The slices are disjoint and live through the call; `written` is a local of it.
    let refusal = unsafe { avr_hex_write(program.as_ptr(), program.len(), text.as_mut_ptr(), text.len(), &mut written) };
    (refusal, written)
}
