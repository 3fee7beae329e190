//! The pattern texts of `decode`, read from the source's text and not by `bitmatch`.

const SOURCE: &str = include_str!(concat!(env!("AVREMU_FOLDER"), "/src/cores.rs"));

pub struct Pattern {
    pub name: &'static str,
    text: String,
}

pub struct Patterns {
    list: Vec<Pattern>,
    readings: Vec<u8>,
}

impl Pattern {
    /// From a line such as `"1001_010d_dddd_0101" => Instruction::ASR { d: d as u8 },`.
    fn of(line: &'static str) -> Option<Pattern> {
        let (text, result) = line.trim().strip_prefix('"')?.split_once("\" => Instruction::")?;
        let end = result.find(|c: char| !c.is_ascii_alphanumeric()).unwrap_or(result.len());
        Some(Pattern { name: &result[..end], text: text.replace('_', "") })
    }

    pub fn fits(&self, word: u16) -> bool {
        let bits = format!("{word:016b}");
        self.text.chars().zip(bits.chars()).all(|(mark, bit)| mark.is_ascii_alphabetic() || mark == bit)
    }

    /// The field's bits in their order, as a number.
    pub fn field(&self, letter: char, word: u16) -> u16 {
        let bits = format!("{word:016b}");
        let chosen: String = self.text.chars().zip(bits.chars()).filter(|(mark, _)| *mark == letter).map(|(_, bit)| bit).collect();
        u16::from_str_radix(&chosen, 2).unwrap_or(0)
    }

    pub fn letters(&self) -> Vec<char> {
        let mut letters: Vec<char> = self.text.chars().filter(char::is_ascii_alphabetic).collect();
        letters.sort_unstable();
        letters.dedup();
        letters
    }

    /// The word with these fields; a field that isn't named is taken from `rest`, where the text has it.
    pub fn word(&self, fields: &[(char, u16)], rest: u16) -> u16 {
        let mut left: Vec<(char, u16)> = fields.to_vec();
        let mut word = 0;
        for (place, mark) in self.text.chars().rev().enumerate() {
            let bit = match (mark, left.iter_mut().find(|(letter, _)| *letter == mark)) {
                ('0', _) => 0,
                ('1', _) => 1,
                (_, None) => rest >> place & 1,
                (_, Some((_, value))) => {
                    let bit = *value & 1;
                    *value >>= 1;
                    bit
                }
            };
            word |= bit << place;
        }
        word
    }
}

impl Patterns {
    pub fn read() -> Self {
        let list: Vec<Pattern> = SOURCE.lines().filter_map(Pattern::of).collect();
        let first = |word| list.iter().position(|pattern| pattern.fits(word)).unwrap_or(list.len());
        let readings = (0..=u16::MAX).map(|word| first(word) as u8).collect();
        Patterns { list, readings }
    }

    pub fn list(&self) -> &[Pattern] {
        &self.list
    }

    /// The number of the first pattern that fits, or that behind the last.
    pub fn reading(&self, word: u16) -> usize {
        self.readings[usize::from(word)].into()
    }

    pub fn name(&self, reading: usize) -> &'static str {
        self.list.get(reading).map_or("UNDEF", |pattern| pattern.name)
    }

    pub fn named(&self, name: &str) -> &Pattern {
        self.list.iter().find(|pattern| pattern.name == name).unwrap_or_else(|| panic!("decode has no {name}"))
    }
}
