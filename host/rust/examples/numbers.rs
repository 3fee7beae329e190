//! Every number that the calls give, answer or refused, with its words: what host/c/numbers.c prints.
use avr_core::{Answer, Refusal};

fn main() {
    for number in 0..=255 {
        if let Some(answer) = Answer::from_number(number) {
            println!("{number} answer: {answer}");
        } else if let Some(refusal) = Refusal::from_number(number) {
            println!("{number} refused: {}", refusal.words());
        }
    }
}
