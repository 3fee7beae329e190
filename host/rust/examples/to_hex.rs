//! Writes the bytes on standard input as a HEX file on standard output: `cargo run --example to_hex < IMAGE > FILE.hex`
use std::io::{self, Read, Write};
use std::process::exit;

fn main() -> io::Result<()> {
    let mut program = Vec::new();
    io::stdin().read_to_end(&mut program)?;
    match avr_core::hex_write(&program) {
        Ok(text) => io::stdout().write_all(&text),
        Err(refusal) => {
            eprintln!("to_hex: {refusal}");
            exit(1)
        }
    }
}
