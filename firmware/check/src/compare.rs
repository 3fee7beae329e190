//! Where an image compares two four-byte time stamps.

pub const PLACES: usize = 5;

const CP: u16 = 0x1400;
const CPC: u16 = 0x0400;

fn is(word: u16, pattern: u16) -> bool {
    word & 0xFC00 == pattern
}

/// BREQ or BRNE.
fn branches_on_z(word: u16) -> bool {
    word & 0xF807 == 0xF001
}

/// The word addresses of CP, CPC, CPC, CPC and the branch on Z behind them, where the code has exactly one such compare.
pub fn places(code: &[u8]) -> Result<[u16; PLACES], String> {
    let words: Vec<u16> = code.chunks_exact(2).map(|pair| u16::from_le_bytes([pair[0], pair[1]])).collect();
    let compares = |at: &[u16]| is(at[0], CP) && at[1..4].iter().all(|&word| is(word, CPC)) && branches_on_z(at[4]);
    let found: Vec<usize> = (0..=words.len() - PLACES).filter(|&start| compares(&words[start..][..PLACES])).collect();
    match found[..] {
        [start] => Ok(std::array::from_fn(|step| (start + step) as u16)),
        _ => Err(format!("{} compares of stamps in the code", found.len())),
    }
}
