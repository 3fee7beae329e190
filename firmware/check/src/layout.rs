//! Where ../chip.ld and ../start.S put things, and the bytes of ../heat.h's structs and ../sorting.h's readings (low byte first, packed).

pub const LOG_PLACE: usize = 0x400;
pub const LOG_BYTES: usize = 2 + 16 * READING_BYTES;
pub const REPORT_PLACE: usize = 0x3800;
pub const REPORT_BYTES: usize = 1 + 9 * READING_BYTES;
pub const OVERFLOWS_PLACE: usize = REPORT_PLACE + REPORT_BYTES;
pub const READING_BYTES: usize = 6;
pub const SORTED: usize = 96;

/// Vector 8, as a word address.
pub const TIMER_VECTOR: u16 = 16;

pub type Log = [u8; LOG_BYTES];
pub type Report = [u8; REPORT_BYTES];
pub type Reading = (u32, i16);
pub type Temperatures = [i16; SORTED];

pub const HEAT_INDEX: &[u8] = include_bytes!("../../heat_index.bin");
pub const HEAT_INDEX_TIMER: &[u8] = include_bytes!("../../heat_index_timer.bin");
pub const CRC: &[u8] = include_bytes!("../../crc.bin");
pub const SORT: &[u8] = include_bytes!("../../sort.bin");

/// The log that an image was built with.
pub fn log_of(image: &[u8]) -> Log {
    image[LOG_PLACE..].try_into().expect("the log ends the image")
}

/// The image with another log in its place.
pub fn with_log(image: &[u8], log: &Log) -> Vec<u8> {
    [&image[..LOG_PLACE], log].concat()
}

/// A log of these temperatures and humidities, at most 8 of each.
pub fn log(temperatures: &[Reading], humidities: &[Reading]) -> Log {
    let mut log = [0; LOG_BYTES];
    log[0] = temperatures.len() as u8;
    log[1] = humidities.len() as u8;
    let (_, readings) = log.split_at_mut(2);
    let (first, second) = readings.split_at_mut(8 * READING_BYTES);
    put(first, temperatures);
    put(second, humidities);
    log
}

fn put(bytes: &mut [u8], readings: &[Reading]) {
    for (place, (stamp, value)) in bytes.chunks_exact_mut(READING_BYTES).zip(readings) {
        place[..4].copy_from_slice(&stamp.to_le_bytes());
        place[4..].copy_from_slice(&value.to_le_bytes());
    }
}

/// The readings that `sort` was built with; they stand where the others have their log.
pub fn temperatures() -> Temperatures {
    std::array::from_fn(|i| i16::from_le_bytes([SORT[LOG_PLACE + 2 * i], SORT[LOG_PLACE + 2 * i + 1]]))
}

/// `sort` with other readings in their place.
pub fn with_temperatures(temperatures: &Temperatures) -> Vec<u8> {
    [&SORT[..LOG_PLACE], &bytes_of(temperatures)].concat()
}

pub fn bytes_of(temperatures: &Temperatures) -> Vec<u8> {
    temperatures.iter().flat_map(|reading| reading.to_le_bytes()).collect()
}
