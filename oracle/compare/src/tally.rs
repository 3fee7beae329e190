//! What a run met: answers, panics, instructions carried out, limits.

use original::{Case, Outcome, Panic};

use crate::limits::LIMITS;
use crate::words::Words;

const ANSWERS: [(u8, &str); 12] = [
    (1, "refused, program"),
    (2, "refused, PC"),
    (3, "refused, SP"),
    (4, "refused, data"),
    (16, "waited"),
    (17, "entered"),
    (18, "ran"),
    (19, "sleep"),
    (20, "watchdog"),
    (21, "undefined"),
    (22, "break"),
    (23, "end"),
];
const PANICS: [Panic; 4] = [Panic::Program, Panic::Sum, Panic::Difference, Panic::Data];

pub struct Tally {
    answers: [u64; 256],
    panics: [u64; 4],
    executed: Vec<u64>,
    limits: [u64; LIMITS.len()],
}

impl Tally {
    pub fn new(words: &Words) -> Self {
        Tally { answers: [0; 256], panics: [0; 4], executed: vec![0; words.readings()], limits: [0; LIMITS.len()] }
    }

    /// A case by the original's outcome; `refusal` is the number of a panic.
    pub fn count(&mut self, words: &Words, case: &Case, outcome: &Outcome, refusal: u8) {
        match outcome {
            Outcome::Panicked(panic) => {
                self.answers[usize::from(refusal)] += 1;
                self.panics[*panic as usize] += 1;
            }
            Outcome::Done { answer, .. } => {
                self.answers[usize::from(*answer)] += 1;
                if (18..=22).contains(answer) {
                    let at = 2 * usize::from(case.state.pc);
                    let opcode = u16::from_le_bytes([case.program[at], case.program[at + 1]]);
                    self.executed[words.patterns.reading(opcode)] += 1;
                }
            }
        }
        for (sum, (_, test)) in self.limits.iter_mut().zip(LIMITS) {
            *sum += u64::from(test(case));
        }
    }

    pub fn print(&self, words: &Words) {
        println!("answers:");
        for (number, name) in ANSWERS {
            println!("{:>12}  {number} {name}", self.answers[usize::from(number)]);
        }
        println!("panics of the original:");
        for panic in PANICS {
            println!("{:>12}  {panic:?}", self.panics[panic as usize]);
        }
        println!("carried out, by instruction:");
        for (reading, line) in self.executed.chunks(6).enumerate() {
            let cells = line.iter().enumerate().map(|(place, count)| format!("{:>8} {count:<9}", words.patterns.name(6 * reading + place)));
            println!("    {}", cells.collect::<String>().trim_end());
        }
        println!("limits drawn:");
        for (sum, (name, _)) in self.limits.iter().zip(LIMITS) {
            println!("{sum:>12}  {name}");
        }
    }

    /// Answers, 1 to 4 and 16 to 23, and instructions that were not met.
    pub fn missing(&self, words: &Words) -> Vec<String> {
        let answers = ANSWERS.iter().filter(|(number, _)| self.answers[usize::from(*number)] == 0).map(|(_, name)| name.to_string());
        let never = (0..words.readings()).filter(|reading| self.executed[*reading] == 0);
        // the pattern of LSL lies under that of ADD
        let names = never.map(|reading| words.patterns.name(reading)).filter(|name| *name != "LSL");
        answers.chain(names.map(String::from)).collect()
    }
}
