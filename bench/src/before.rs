//! The archive that bench/run is given with --before: its calls, renamed by bench/run so that both archives fit into one program.

use crate::port::Archive;

extern "C" {
    fn before_avr_tick(
        snapshot: *mut u8,
        snapshot_len: usize,
        program: *const u8,
        program_len: usize,
        data: *mut u8,
        data_len: usize,
        offer: u32,
    ) -> u32;
    fn before_avr_run(
        snapshot: *mut u8,
        snapshot_len: usize,
        program: *const u8,
        program_len: usize,
        data: *mut u8,
        data_len: usize,
        offer: u32,
        budget: u32,
        ticks: *mut u32,
    ) -> u32;
}

pub struct Before;

// As host/rust/src/bytes.rs has them: the slices are disjoint and live through the call, and `ticks` is a local of it.
impl Archive for Before {
    fn tick(snapshot: &mut [u8], program: &[u8], data: &mut [u8], offer: u32) -> u32 {
        unsafe {
            before_avr_tick(snapshot.as_mut_ptr(), snapshot.len(), program.as_ptr(), program.len(), data.as_mut_ptr(), data.len(), offer)
        }
    }

    fn run(snapshot: &mut [u8], program: &[u8], data: &mut [u8], offer: u32, budget: u32) -> (u32, u32) {
        let mut ticks = 0;
        let answer = unsafe {
            before_avr_run(
                snapshot.as_mut_ptr(),
                snapshot.len(),
                program.as_ptr(),
                program.len(),
                data.as_mut_ptr(),
                data.len(),
                offer,
                budget,
                &mut ticks,
            )
        };
        (answer, ticks)
    }
}
