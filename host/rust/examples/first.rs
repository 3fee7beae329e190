use avr_core::{hex_read, run, HexRefused, Snapshot};
use std::{env, fs, path::PathBuf, process::exit};

fn stop(why: String) -> ! {
    eprintln!("{why}");
    exit(1)
}

fn main() {
    let file = env::args_os().nth(1).map(PathBuf::from).unwrap_or_else(|| stop("name a HEX file: first FILE".into()));
    let text = fs::read(&file).unwrap_or_else(|error| stop(format!("{}: cannot be read: {error}", file.display())));
    let (mut program, mut snapshot, mut data) = ([0; 49_152], Snapshot::fresh(0), [0; 1024]);
    if let Err(HexRefused { refusal, line }) = hex_read(&text, &mut program) {
        stop(format!("{}: refused-{} at line {line}", file.display(), refusal.number()));
    }
    match run(&mut snapshot, &program, &mut data, None, 10) {
        Ok(ran) => println!("answer {} after {} ticks, R16 is {}", ran.answer.number(), ran.ticks, snapshot.registers()[16]),
        Err(refused) => stop(refused.to_string()),
    }
}
