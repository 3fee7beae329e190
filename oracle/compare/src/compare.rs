//! The port's answers against the original's, case by case.

use std::io::Write;
use std::sync::mpsc::{sync_channel, SyncSender};
use std::thread;
use std::time::Instant;

use original::{tick, Case};

use crate::plan::Plan;
use crate::port::Port;
use crate::show;
use crate::shrink::smallest;
use crate::tally::Tally;
use crate::wire::{expected, read_answer, write_case};

const BATCH: u64 = 256;

/// Whether `count` cases gave no difference.
pub fn compare(count: u64, seed: u64) -> Result<bool, String> {
    let start = Instant::now();
    let plan = Plan::new(seed);
    let mut tally = Tally::new(&plan.words);
    let differences = run(&plan, count, &mut tally)?;
    println!("{count} cases, seed {seed}, {:.1} s", start.elapsed().as_secs_f64());
    println!("lists that leave nothing out, every second case:");
    for (name, done, len) in Plan::coverage(count) {
        println!("{done:>12}  of {len}: {name}");
    }
    tally.print(&plan.words);
    println!("differences: {}", differences.len());
    if let Some(index) = differences.first() {
        println!("first difference: case {index}");
        explain(plan.case(*index))?;
    }
    Ok(differences.is_empty())
}

/// The indices of the cases that differ. One thread feeds the port, this one reads its answers.
fn run(plan: &Plan, count: u64, tally: &mut Tally) -> Result<Vec<u64>, String> {
    let mut port = Port::start()?;
    let mut input = port.input.take().expect("a new port");
    let mut differences = Vec::new();
    let mut index = 0;
    thread::scope(|scope| {
        let (sender, receiver) = sync_channel(16);
        scope.spawn(move || feed(plan, count, &mut input, sender));
        for case in receiver.iter().flatten() {
            let answer = read_answer(&mut port.output, case.data.len()).map_err(|error| format!("case {index}: answers ended, {error}"))?;
            let outcome = tick(&case);
            tally.count(&plan.words, &case, &outcome, answer.number);
            if expected(&case, &outcome, answer.number).as_ref() != Some(&answer) {
                differences.push(index);
            }
            index += 1;
        }
        Ok(differences)
    })
}

/// Hands each batch to the reader before it is written, so that its answers are read while it is.
fn feed(plan: &Plan, count: u64, input: &mut impl Write, sender: SyncSender<Vec<Case>>) {
    let mut bytes = Vec::new();
    for first in (0..count).step_by(BATCH as usize) {
        let batch: Vec<Case> = (first..count.min(first + BATCH)).map(|index| plan.case(index)).collect();
        bytes.clear();
        batch.iter().for_each(|case| write_case(&mut bytes, case).expect("memory takes it"));
        // neither fails unless the other side has ended, which the reader reports
        if sender.send(batch).is_err() || input.write_all(&bytes).is_err() {
            return;
        }
    }
}

/// Prints the smallest case that still differs, and both sides' answers.
fn explain(case: Case) -> Result<(), String> {
    let mut port = Port::start()?;
    let mut differs = |case: &Case| {
        let answer = port.ask(case);
        expected(case, &tick(case), answer.number) != Some(answer)
    };
    let case = smallest(case, &mut differs);
    println!("{}", show::case(&case));
    println!("original: {}", show::outcome(&tick(&case)));
    println!("port:     {}", show::answer(&port.ask(&case)));
    Ok(())
}
