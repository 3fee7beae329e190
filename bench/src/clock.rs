//! The clock that ticks are timed by.

extern "C" {
    fn clock_gettime(clock: i32, time: *mut [i64; 2]) -> i32;
}

const CLOCK_PROCESS_CPUTIME_ID: i32 = 2;

/// The processor time of this program so far, in seconds: other work on the machine is left out.
pub fn processor_time() -> f64 {
    let mut time = [0; 2];
    // On 64-bit Linux it writes two numbers of 64 bits, seconds and nanoseconds.
    let answer = unsafe { clock_gettime(CLOCK_PROCESS_CPUTIME_ID, &mut time) };
    assert!(answer == 0, "Linux tells the processor time");
    time[0] as f64 + time[1] as f64 / 1e9
}
