//! A pattern's text as the guard of an arm and the fields in it.

/// The sixteen characters of a text, its quotes and separators left out; nothing for `_`.
fn characters(text: &str) -> Option<Vec<char>> {
    if text == "_" {
        return None;
    }
    let characters: Vec<char> = text.chars().filter(|c| *c != '"' && *c != '_').collect();
    let fits = characters.len() == 16 && characters.iter().all(|c| matches!(c, '0' | '1' | 'a'..='z' | 'A'..='Z'));
    assert!(fits, "not a pattern of sixteen bits: {text}");
    Some(characters)
}

/// The arm's head: the word fits where its fixed bits are the text's.
pub fn guard(text: &str) -> String {
    let characters = match characters(text) {
        Some(characters) => characters,
        None => return "_ =>".into(),
    };
    let number = |chosen: &dyn Fn(char) -> bool| characters.iter().fold(0u16, |sum, c| sum << 1 | u16::from(chosen(*c)));
    let mask = number(&|c| c == '0' || c == '1');
    let value = number(&|c| c == '1');
    format!("bitmatch_word if bitmatch_word & {mask}u16 == {value}u16 =>")
}

/// A `let` for each letter: its bits, most significant first, put side by side.
pub fn fields(text: &str) -> String {
    let characters = characters(text).unwrap_or_default();
    let mut letters: Vec<char> = characters.iter().copied().filter(char::is_ascii_alphabetic).collect();
    letters.sort_unstable();
    letters.dedup();
    letters.iter().map(|letter| field(*letter, &characters)).collect()
}

fn field(letter: char, characters: &[char]) -> String {
    let places = (0..16).filter(|place| characters[15 - place] == letter);
    let bits: Vec<String> = places.enumerate().map(|(bit, place)| format!("(bitmatch_word >> {place} & 1) << {bit}")).collect();
    format!("let {letter}: u16 = {};", bits.join(" | "))
}
