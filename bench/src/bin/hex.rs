//! How long `avr_hex_read` and `avr_hex_write` take for a program of 64 KiB, and beside them processes that read HEX files. `hex once` makes each call once, so that its
//! instructions can be counted.

use std::fs::{self, File};
use std::process::{Command, ExitStatus, Stdio};
use std::time::Instant;
use std::{env, io};

use avr_core::{bytes, hex_bytes};

const LONGEST: usize = 65_536;
/// The length of every image that `unhex` writes.
const IMAGE: usize = 49_152;
const ROUNDS: usize = 301;

const FOLDER: &str = "target/bench";
const UNHEX: &str = "crates/unhex/out/unhex";

/// Something that is done once a round, and its times in milliseconds.
struct Work {
    name: String,
    go: Box<dyn FnMut()>,
    times: Vec<f64>,
}

impl Work {
    fn new(name: impl Into<String>, go: impl FnMut() + 'static) -> Self {
        Work { name: name.into(), go: Box::new(go), times: Vec::new() }
    }

    fn time(&mut self) {
        let start = Instant::now();
        (self.go)();
        self.times.push(start.elapsed().as_secs_f64() * 1e3);
    }

    fn median_and_best(&mut self) -> (f64, f64) {
        self.times.sort_by(f64::total_cmp);
        (self.times[self.times.len() / 2], self.times[0])
    }
}

/// Bytes that look random and are the same in every run.
fn program(length: usize) -> Vec<u8> {
    let mut state = 1_u32;
    let next = || {
        state = state.wrapping_mul(1_664_525).wrapping_add(1_013_904_223);
        (state >> 24) as u8
    };
    std::iter::repeat_with(next).take(length).collect()
}

fn text(program: &[u8]) -> Vec<u8> {
    let mut text = vec![0; hex_bytes(program.len())];
    assert_eq!(bytes::hex_write(program, &mut text), (0, text.len()));
    text
}

/// A read and a write. One write has been made then, for the text.
fn calls() -> [Work; 2] {
    let program = program(LONGEST);
    let text = text(&program);
    let (mut back, mut again) = (vec![0; LONGEST], vec![0; text.len()]);
    let written = (0, text.len());
    [
        Work::new("avr_hex_read", move || assert_eq!(bytes::hex_read(&text, &mut back), (0, 0))),
        Work::new("avr_hex_write", move || assert_eq!(bytes::hex_write(&program, &mut again), written)),
    ]
}

/// A process that reads the HEX file of a program: from the file named, or from standard input, into the file named, or to standard output.
fn run(command: &[&str], length: usize) -> io::Result<ExitStatus> {
    let (file, image) = (format!("{FOLDER}/{length}.hex"), format!("{FOLDER}/{length}.image"));
    let words = command[1..].iter().map(|&word| match word {
        "FILE" => &file[..],
        "IMAGE" => &image[..],
        word => word,
    });
    let output = if command.contains(&"IMAGE") { Stdio::null() } else { File::create(&image)?.into() };
    Command::new(command[0]).args(words).stdin(File::open(&file)?).stdout(output).status()
}

/// The process, where it can be run and gives the program back; it says where not.
fn process(command: &'static [&'static str], length: usize) -> Option<Work> {
    let name = format!("{}, {} KiB", command[0], length / 1024);
    fs::write(format!("{FOLDER}/{length}.hex"), text(&program(length))).expect("the folder is there");
    match run(command, length) {
        Ok(status) => assert!(status.success(), "{name}: {status}"),
        Err(error) => {
            println!("not run: {name}: {error}");
            return None;
        }
    }
    let image = fs::read(format!("{FOLDER}/{length}.image")).expect("the process has written it");
    assert!(image == program(length), "{name}: another image than the program");
    Some(Work::new(name, move || assert!(run(command, length).expect("it ran before").success())))
}

fn processes() -> Vec<Work> {
    const OBJCOPY: &[&str] = &["avr-objcopy", "-I", "ihex", "-O", "binary", "FILE", "IMAGE"];
    fs::create_dir_all(FOLDER).expect("target can be written");
    let nothing = Work::new("true, which does nothing", || assert!(Command::new("true").status().expect("every system has it").success()));
    [process(OBJCOPY, LONGEST), process(OBJCOPY, IMAGE), process(&[UNHEX], IMAGE), Some(nothing)].into_iter().flatten().collect()
}

/// They take turns, so that what else runs on the machine hits all alike.
fn measure(calls: &mut [Work], processes: &mut [Work]) {
    for _ in 0..ROUNDS {
        calls.iter_mut().chain(processes.iter_mut()).for_each(Work::time);
    }
}

fn main() {
    let mut calls = calls();
    if env::args().nth(1).as_deref() == Some("once") {
        return calls[0].time();
    }
    let mut processes = processes();
    measure(&mut calls, &mut processes);
    let bytes = hex_bytes(LONGEST);
    println!("a program of 64 KiB, {bytes} bytes of text; median of {ROUNDS} rounds (best)");
    for work in &mut calls {
        let (median, best) = work.median_and_best();
        println!("  {}: {median:.3} ms ({best:.3}), {:.0} MB of text a second", work.name, bytes as f64 / median / 1e3);
    }
    println!("a process that reads a HEX file, from its start to its end");
    for work in &mut processes {
        let (median, best) = work.median_and_best();
        println!("  {}: {median:.2} ms ({best:.2})", work.name);
    }
}
