//! The same C, built natively.

use crate::layout::{Log, Report, Temperatures, REPORT_BYTES, SORTED};

extern "C" {
    fn fill_report(report: *mut u8, log: *const u8);
    fn crc16(bytes: *const u8, count: u16) -> u16;
    fn sort_readings(sorted: *mut i16, readings: *const i16);
}

/// The report of a log as ../heat.c fills it on this machine. A log counts at most 8 readings of each kind.
pub fn report(log: &Log) -> Report {
    assert!(log[0] <= 8 && log[1] <= 8);
    let mut report = [0; REPORT_BYTES];
    // Both structs are packed, so any address does, and have these lengths; fill_report keeps inside them for such a log.
    unsafe { fill_report(report.as_mut_ptr(), log.as_ptr()) };
    report
}

/// The CRC of ../crc16.c, of at most 65,535 bytes.
pub fn crc(bytes: &[u8]) -> u16 {
    let count = bytes.len().try_into().expect("at most 65,535 bytes");
    // It reads that many bytes.
    unsafe { crc16(bytes.as_ptr(), count) }
}

/// The readings as ../sorting.c puts them.
pub fn sorted(readings: &Temperatures) -> Temperatures {
    let mut sorted = [0; SORTED];
    // Both have as many readings as ../sorting.h says.
    unsafe { sort_readings(sorted.as_mut_ptr(), readings.as_ptr()) };
    sorted
}
