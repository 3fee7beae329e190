//! Writes a sample of the original's answers as crates/answers/stdin and stdout, so that the gate replays them with no Rust at hand.

use std::fs;

use original::{tick, Case, Outcome};

use crate::bench;
use crate::draw::{self, Long, DATA};
use crate::port::{root, Port};
use crate::random::Random;
use crate::tally::Tally;
use crate::wire::{expected, snapshot, write_case, write_raw, Answer, NO_OFFER};
use crate::words::Words;

/// Drawn cases: of each instruction so many that are carried out, and at most so many that aren't; and so many of any.
const CARRIED_OUT: usize = 20;
const OTHERS: usize = 10;
const ANY: u64 = 500;

/// The two files together.
const MOST_BYTES: usize = 2_000_000;

/// Cases that 01 refuses before there is a core to tick: the snapshot's last byte, the offer, the data, the refusal.
const BEFORE_THE_TICK: [(u8, u32, &[u8], u8); 11] = [
    (0x00, 65_537, &[7], 10),
    (0x01, NO_OFFER, &[], 9),
    (0xA0, NO_OFFER, &[], 8),
    (0x00, u32::MAX, &[7], 10),
    (0xFF, 65_537, &[7], 10),
    (0xC0, 0, &[7], 8),
    (0xE0, 65_535, &[7], 8),
    (0xFF, NO_OFFER, &[7], 8),
    (0x02, 0, &[7], 9),
    (0x83, NO_OFFER, &[7], 9),
    (0x1F, 65_535, &[7], 9),
];

struct Record {
    words: Words,
    port: Port,
    tally: Tally,
    cases: usize,
    input: Vec<u8>,
    output: Vec<u8>,
}

pub fn record(seed: u64) -> Result<(), String> {
    let words = Words::new();
    let mut record = Record { tally: Tally::new(&words), words, port: Port::start()?, cases: 0, input: Vec::new(), output: Vec::new() };
    record.first()?;
    record.before_the_tick();
    for (case, ticks) in bench::sheet(&record.words) {
        record.ticks(case, ticks)?;
    }
    for case in bench::top(&record.words) {
        record.one(&case)?;
    }
    record.each_instruction(seed)?;
    record.any(seed)?;
    record.too_long();
    record.save()
}

impl Record {
    /// A case with the original's answer. The original doesn't say a refusal's number: that is the port's, where the panic allows it.
    fn one(&mut self, case: &Case) -> Result<Outcome, String> {
        let outcome = tick(case);
        let number = self.port.ask(case).number;
        let answer = expected(case, &outcome, number).ok_or_else(|| format!("{:?} is no refusal {number}", outcome))?;
        self.tally.count(&self.words, case, &outcome, answer.number);
        write_case(&mut self.input, case).expect("memory takes it");
        self.add(&answer);
        Ok(outcome)
    }

    fn add(&mut self, answer: &Answer) {
        answer.write(&mut self.output).expect("memory takes it");
        self.cases += 1;
    }

    /// Ticks one after another, each from the original's outcome.
    fn ticks(&mut self, mut case: Case, ticks: usize) -> Result<(), String> {
        for _ in 0..ticks {
            if let Outcome::Done { state, data, .. } = self.one(&case)? {
                (case.state, case.data) = (state, data);
            }
        }
        Ok(())
    }

    /// Three ticks with short programs and data, at the start so that a reader can follow them byte by byte.
    fn first(&mut self) -> Result<(), String> {
        for case in bench::first() {
            self.one(&case)?;
        }
        Ok(())
    }

    fn before_the_tick(&mut self) {
        for (last, offer, data, number) in BEFORE_THE_TICK {
            let snapshot = std::array::from_fn(|place| if place == 37 { last } else { 0 });
            write_raw(&mut self.input, &snapshot, offer, &[], data).expect("memory takes it");
            self.add(&Answer { number, snapshot, data: data.to_vec() });
        }
    }

    fn each_instruction(&mut self, seed: u64) -> Result<(), String> {
        for reading in 0..self.words.readings() {
            let random = &mut Random::new(seed, reading as u64);
            let (mut carried_out, mut others) = (0, 0);
            while carried_out < CARRIED_OUT {
                let word = self.words.of_reading(reading, random);
                let case = draw::around(random, &self.words, word, Long::NONE);
                let done = matches!(tick(&case), Outcome::Done { answer: 18..=22, .. });
                let (count, most) = if done { (&mut carried_out, CARRIED_OUT) } else { (&mut others, OTHERS) };
                if *count < most {
                    *count += 1;
                    self.one(&case)?;
                }
            }
        }
        Ok(())
    }

    fn any(&mut self, seed: u64) -> Result<(), String> {
        for index in 1000..1000 + ANY {
            let random = &mut Random::new(seed, index);
            let word = self.words.any(random);
            self.one(&draw::around(random, &self.words, word, Long::NONE))?;
        }
        Ok(())
    }

    /// The last case: data longer than `answers` takes, so it writes 255 and ends, with input left.
    fn too_long(&mut self) {
        self.input.extend(snapshot(&bench::fresh(&[]).state));
        for number in [NO_OFFER, 0, DATA as u32 + 1] {
            self.input.extend(number.to_be_bytes());
        }
        self.input.extend([0; 100]);
        self.output.push(255);
    }

    fn save(&self) -> Result<(), String> {
        let missing = self.tally.missing(&self.words);
        let bytes = self.input.len() + self.output.len();
        if !missing.is_empty() || bytes > MOST_BYTES {
            return Err(format!("{bytes} bytes, not met: {missing:?}"));
        }
        let folder = root().join("crates/answers");
        let saved = fs::write(folder.join("stdin"), &self.input).and_then(|()| fs::write(folder.join("stdout"), &self.output));
        saved.map_err(|error| error.to_string())?;
        println!("{} cases and one too long, {} and {} bytes", self.cases, self.input.len(), self.output.len());
        self.tally.print(&self.words);
        Ok(())
    }
}

#[cfg(test)]
mod tests {
    use super::*;
    use crate::wire::{read_answer, read_case};

    /// Holds the files against the original, without the port. A case that comes to a tick has nothing in its snapshot but the state, so source for its rule.
    #[test]
    fn the_files_hold_the_originals_answers() {
        let read = |name| fs::read(root().join("crates/answers").join(name)).unwrap();
        let (input, output) = (read("stdin"), read("stdout"));
        let (mut cases, mut answers) = (&input[..], &output[..]);
        let mut count = 0;
        while let Some((head, case)) = read_case(&mut cases) {
            let answer = read_answer(&mut answers, case.data.len()).unwrap();
            let refused_before = (8..=10).contains(&answer.number) && answer.snapshot == head && answer.data == case.data;
            assert!(refused_before || head == snapshot(&case.state), "case {count}");
            assert!(refused_before || expected(&case, &tick(&case), answer.number) == Some(answer), "case {count}");
            count += 1;
        }
        assert!(count > 2_000);
        assert_eq!(answers, [255]);
    }
}
