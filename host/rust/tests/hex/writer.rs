//! A writer of HEX files of this test's own, from the words of document 02's W1, and not from the port.

const DIGITS: &[u8; 16] = b"0123456789ABCDEF";

/// The two digits of a byte.
pub fn digits(byte: u8) -> [u8; 2] {
    [DIGITS[usize::from(byte / 16)], DIGITS[usize::from(byte % 16)]]
}

/// The byte that makes these add up to 0 modulo 256.
pub fn sum(bytes: &[u8]) -> u8 {
    bytes.iter().fold(0, |rest, &byte| rest.wrapping_sub(byte))
}

/// A line with its sum and LF.
pub fn line(address: usize, record_type: u8, data: &[u8]) -> Vec<u8> {
    let mut bytes = vec![data.len() as u8, (address / 256) as u8, address as u8, record_type];
    bytes.extend(data);
    bytes.push(sum(&bytes));
    let mut line = vec![b':'];
    line.extend(bytes.iter().flat_map(|&byte| digits(byte)));
    line.push(b'\n');
    line
}

pub fn write(program: &[u8]) -> Vec<u8> {
    let data = program.chunks(16).zip(0..).flat_map(|(bytes, number)| line(16 * number, 0, bytes));
    data.chain(line(0, 1, &[])).collect()
}
