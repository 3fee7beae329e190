//! The program `answers` as a child process.

use std::env;
use std::io::{BufReader, Write};
use std::path::{Path, PathBuf};
use std::process::{Child, ChildStdin, ChildStdout, Command, Stdio};

use original::Case;

use crate::wire::{read_answer, write_case, Answer};

pub struct Port {
    child: Child,
    pub input: Option<ChildStdin>,
    pub output: BufReader<ChildStdout>,
}

pub fn root() -> PathBuf {
    Path::new(env!("CARGO_MANIFEST_DIR")).ancestors().nth(2).expect("oracle/compare stands in the project").into()
}

/// The program in ANSWERS, or what `rt run` builds of crates/answers.
fn command() -> Result<Command, String> {
    let program = env::var_os("ANSWERS").map_or(root().join("crates/answers/out/answers"), PathBuf::from);
    if !program.is_file() {
        return Err(format!("no {}: run `rt run` in crates/answers, or set ANSWERS to the program", program.display()));
    }
    Ok(Command::new(program))
}

impl Port {
    pub fn start() -> Result<Self, String> {
        let mut command = command()?;
        let spawned = command.stdin(Stdio::piped()).stdout(Stdio::piped()).spawn();
        let mut child = spawned.map_err(|error| format!("{command:?}: {error}"))?;
        let input = child.stdin.take();
        let output = BufReader::with_capacity(65_536, child.stdout.take().expect("a pipe"));
        Ok(Port { child, input, output })
    }

    /// One case at a time. The program reads a whole case before it writes, so neither pipe locks.
    pub fn ask(&mut self, case: &Case) -> Answer {
        let mut bytes = Vec::new();
        write_case(&mut bytes, case).expect("memory takes it");
        let sent = self.input.as_mut().expect("not fed by another thread").write_all(&bytes);
        sent.and_then(|()| read_answer(&mut self.output, case.data.len())).expect("answers answers")
    }
}

impl Drop for Port {
    fn drop(&mut self) {
        self.input = None;
        let _ = self.child.kill();
        let _ = self.child.wait();
    }
}
