//! A reader of HEX files of this test's own, from the words of document 02's W1, and not from the port.

/// A refusal's number and the line that it names.
pub type Refused = (u32, usize);

struct Record {
    address: usize,
    is_end: bool,
    data: Vec<u8>,
}

/// What stands before an LF, or behind the last one where there is something; a CR right before the LF is part of the line's end.
fn lines(text: &[u8]) -> Vec<&[u8]> {
    let mut lines: Vec<&[u8]> = text.split(|&character| character == b'\n').collect();
    let last = lines.pop().filter(|last| !last.is_empty());
    lines.iter_mut().for_each(|line| *line = line.strip_suffix(b"\r").unwrap_or(line));
    lines.extend(last);
    lines
}

fn digit(character: u8) -> Result<u8, u32> {
    char::from(character).to_digit(16).map(|value| value as u8).ok_or(50)
}

/// The values of the digits behind the colon.
fn digits(line: &[u8]) -> Result<Vec<u8>, u32> {
    match line.split_first() {
        None => Err(51),
        Some((b':', digits)) => digits.iter().copied().map(digit).collect(),
        Some(_) => Err(50),
    }
}

/// A line by itself: 50 to 53, the lowest first.
fn record(line: &[u8]) -> Result<Record, u32> {
    let digits = digits(line)?;
    let bytes: Vec<u8> = digits.chunks_exact(2).map(|pair| pair[0] * 16 + pair[1]).collect();
    let is_whole = bytes.len() >= 5 && digits.len() == 2 * (5 + usize::from(bytes[0]));
    if !is_whole || (bytes[3] == 1 && bytes[0] > 0) {
        return Err(51);
    }
    if bytes.iter().map(|&byte| u32::from(byte)).sum::<u32>() % 256 != 0 {
        return Err(52);
    }
    if bytes[3] > 1 {
        return Err(53);
    }
    let address = usize::from(bytes[1]) * 256 + usize::from(bytes[2]);
    Ok(Record { address, is_end: bytes[3] == 1, data: bytes[4..bytes.len() - 1].to_vec() })
}

/// A data line against the buffer and the end of the data line before it: 54, then 55. Gives its own end.
fn place(record: &Record, program: &mut [u8], end_before: usize) -> Result<usize, u32> {
    let end = record.address + record.data.len();
    if !record.data.is_empty() && end > program.len() {
        return Err(54);
    }
    if record.address < end_before {
        return Err(55);
    }
    if !record.data.is_empty() {
        program[record.address..end].copy_from_slice(&record.data);
    }
    Ok(end)
}

/// The bytes that a buffer of `room` bytes holds after the text is read, or why it is refused.
pub fn read(text: &[u8], room: usize) -> Result<Vec<u8>, Refused> {
    if room > 65_536 {
        return Err((57, 0));
    }
    let lines = lines(text);
    let (mut program, mut end, mut is_ended) = (vec![0xFF; room], 0, false);
    for (line, number) in lines.iter().zip(1..) {
        if is_ended {
            return Err((56, number));
        }
        let record = record(line).map_err(|refusal| (refusal, number))?;
        is_ended = record.is_end;
        if !is_ended {
            end = place(&record, &mut program, end).map_err(|refusal| (refusal, number))?;
        }
    }
    if is_ended {
        Ok(program)
    } else {
        Err((56, lines.len() + 1))
    }
}
