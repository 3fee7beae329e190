//! Words to be drawn, over the pattern texts of `decode`.

use original::Patterns;

use crate::random::Random;

/// Those that 01's refusals 1 and 2 look at the most.
const TWO_WORDS: [&str; 4] = ["CALL", "JMP", "LDS", "STS"];
const SKIPS: [&str; 5] = ["CPSE", "SBIC", "SBIS", "SBRC", "SBRS"];

/// Those that reach the end of a long data: calls and returns, the stack, displaced and stepped pointers.
const MEMORY: [&str; 15] =
    ["CALL", "RCALL", "ICALL", "RET", "RETI", "PUSH", "POP", "LDDY", "LDDZ", "STDY", "STDZ", "LDXinc", "LDXdec", "STXinc", "STXdec"];

pub struct Words {
    pub patterns: Patterns,
    undefined: Vec<u16>,
}

impl Words {
    pub fn new() -> Self {
        let patterns = Patterns::read();
        let undefined = (0..=u16::MAX).filter(|word| patterns.reading(*word) == patterns.list().len()).collect();
        Words { patterns, undefined }
    }

    /// The instructions of `decode` that a word can be, undefined as the last.
    pub fn readings(&self) -> usize {
        self.patterns.list().len() + 1
    }

    /// A word of this reading's pattern, or an undefined one.
    pub fn of_reading(&self, reading: usize, random: &mut Random) -> u16 {
        match self.patterns.list().get(reading) {
            Some(pattern) => pattern.word(&[], random.word()),
            None => random.of(&self.undefined),
        }
    }

    /// Any word, or a word of any instruction, the second more often: every instruction then comes alike.
    pub fn any(&self, random: &mut Random) -> u16 {
        if random.one_in(4) {
            random.word()
        } else {
            self.of_reading(random.below(self.readings()), random)
        }
    }

    fn of(&self, names: &[&str], random: &mut Random) -> u16 {
        self.patterns.named(random.of(names)).word(&[], random.word())
    }

    pub fn of_two_words(&self, random: &mut Random) -> u16 {
        self.of(&TWO_WORDS, random)
    }

    pub fn of_memory(&self, random: &mut Random) -> u16 {
        self.of(&MEMORY, random)
    }

    /// What the top of the program is hardest on.
    pub fn of_two_words_or_skip(&self, random: &mut Random) -> u16 {
        if random.one_in(2) {
            self.of(&TWO_WORDS, random)
        } else {
            self.of(&SKIPS, random)
        }
    }
}
