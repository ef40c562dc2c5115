//! The program gfroots, from a file to /dev/null.

use crate::inputs::{self, Inputs};
use std::fs::{self, File};
use std::path::{Path, PathBuf};
use std::process::{Command, Stdio};
use std::time::Instant;

/// How often each line stands in the file: enough for the start of the process not to matter.
const REPEATS: usize = 400;

pub struct Program {
    program: PathBuf,
    /// A folder for the files of lines.
    work: PathBuf,
}

impl Program {
    pub fn new(program: PathBuf, work: PathBuf) -> Program {
        Program { program, work }
    }

    fn long_file(&self, m: u32) -> PathBuf {
        self.work.join(format!("lines-{m}.txt"))
    }

    /// Writes the file that is measured with, and checks the answers of the program to its lines, once each.
    pub fn prepare(&self, inputs: &Inputs) -> Result<(), String> {
        let (mut lines, mut answers) = (Vec::new(), Vec::new());
        for line in &inputs.lines {
            lines.extend([&line.text[..], b"\n"].concat());
            answers.extend([&line.answer[..], b"\n"].concat());
        }
        let short_file = self.work.join("lines.txt");
        let written = fs::write(&short_file, &lines).and_then(|()| fs::write(self.long_file(inputs.m), lines.repeat(REPEATS)));
        written.map_err(|error| format!("cannot write the frame lines: {error}"))?;
        let output = self.command(&short_file)?.output().map_err(|error| self.failed(error))?;
        if output.stdout == answers {
            Ok(())
        } else {
            Err(format!("wrong answer: {} does not give back the roots that its lines were built from", self.program.display()))
        }
    }

    /// Nanoseconds a line, start and end of the process included.
    pub fn time(&self, m: u32) -> Result<f64, String> {
        let mut command = self.command(&self.long_file(m))?;
        command.stdout(Stdio::null());
        let start = Instant::now();
        let status = command.status().map_err(|error| self.failed(error))?;
        let ns = start.elapsed().as_nanos() as f64;
        if status.success() { Ok(ns / (REPEATS * inputs::LINES) as f64) } else { Err(self.failed(status)) }
    }

    fn command(&self, file: &Path) -> Result<Command, String> {
        let lines = File::open(file).map_err(|error| format!("cannot read the frame lines: {error}"))?;
        let mut command = Command::new(&self.program);
        command.stdin(lines);
        Ok(command)
    }

    fn failed(&self, why: impl std::fmt::Display) -> String {
        format!("{} failed: {why}", self.program.display())
    }
}
