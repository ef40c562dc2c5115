//! The benchmark of the library: every call beside the yardsticks, in one run and one table. Started by bench/run, which builds what is
//! measured: `bench PROGRAM FOLDER SCRIPT`, with the program gfroots, a folder for temporary files, and the script that runs the
//! yardsticks, or nothing.

mod checks;
/// The safe module over libfirmware.a that examples/ has for everyone.
#[path = "../examples/rust/gfroots.rs"]
mod gfroots;
mod inputs;
mod measure;
mod program;
mod ratios;
mod table;
mod targets;
mod times;
mod unguarded;
mod yardstick;

use inputs::Inputs;
use measure::RUNS;
use program::Program;
use std::path::PathBuf;
use std::process::ExitCode;
use std::time::{Duration, Instant};
use times::{Column, Row, Times, median};
use yardstick::Yardsticks;

const DEGREES: [u32; 4] = [8, 13, 15, 16];
/// At least so many rounds, and more until LAST_BEGIN has passed: another may begin before. In each round the prototype and the library are
/// measured one after the other, so that a slow minute of the machine hits both.
const ROUNDS: usize = 5;
const LAST_BEGIN: Duration = Duration::from_secs(130);

fn main() -> ExitCode {
    match run() {
        Ok(()) => ExitCode::SUCCESS,
        Err(message) => {
            eprintln!("bench: {message}");
            ExitCode::FAILURE
        }
    }
}

fn run() -> Result<(), String> {
    let mut words = std::env::args().skip(1).map(PathBuf::from);
    let (Some(program), Some(work)) = (words.next(), words.next()) else {
        return Err("usage: bench PROGRAM FOLDER SCRIPT".into());
    };
    let program = Program::new(program, work);
    let yardsticks = Yardsticks::new(words.next().filter(|script| !script.as_os_str().is_empty()));
    let fields = prepared(&program)?;
    let (times, rounds) = measured(&fields, &program, &yardsticks)?;
    println!("{}\n{}\n", table::table(&times, &DEGREES), table::LEGEND);
    println!("{}\n", spread(&times, rounds));
    print!("{}", targets::targets(&times, &DEGREES));
    Ok(())
}

/// All inputs, with the answers to them checked.
fn prepared(program: &Program) -> Result<Vec<Inputs>, String> {
    eprintln!("bench: checking answers");
    let mut fields = Vec::new();
    for m in DEGREES {
        let p = gfroots::house_polynomial(m).map_err(|number| format!("no house polynomial of degree {m}: {number}"))?;
        let inputs = Inputs::draw(m, p, |p| gfroots::accept(p).is_ok());
        checks::check(&inputs)?;
        program.prepare(&inputs)?;
        fields.push(inputs);
    }
    Ok(fields)
}

/// The times, and the number of rounds.
fn measured(fields: &[Inputs], program: &Program, yardsticks: &Yardsticks) -> Result<(Times, usize), String> {
    let mut times = Times::default();
    count_roots(&mut times, fields);
    let begin = Instant::now();
    let mut round = 0;
    while round < ROUNDS || begin.elapsed() < LAST_BEGIN {
        round += 1;
        eprintln!("bench: round {round}");
        yardsticks.round(&mut times, "proto");
        for inputs in fields {
            measure::round(&mut times, inputs, program)?;
        }
        // Once is enough for the kernel's code, with which no target compares.
        if round == 2 {
            yardsticks.round(&mut times, "kernel");
        }
    }
    Ok((times, round))
}

/// The average number of roots, to set beside those that the yardsticks print.
fn count_roots(times: &mut Times, fields: &[Inputs]) {
    for (inputs, set) in fields.iter().flat_map(|inputs| inputs.equations.iter().map(move |set| (inputs, set))) {
        let total: u32 = set.all.iter().map(|equation| unguarded::solve(inputs.p, equation).count).sum();
        times.set_roots((Row::Solve(set.degree, set.kind), inputs.m, Column::Whole), f64::from(total) / set.all.len() as f64);
    }
}

/// How far the rounds lie apart, which says how quiet the machine was.
fn spread(times: &Times, rounds: usize) -> String {
    let mut spreads = times.spreads();
    let (middle, worst) = (median(&mut spreads), spreads.iter().copied().fold(1.0, f64::max));
    format!(
        "Each time is the median of {RUNS} runs (yardsticks: 21; program: one), in the best of {rounds} rounds (kernel: one round).\n\
         The slowest round took {middle:.2} times as long as the fastest, in the median of all times, and at worst {worst:.2} times."
    )
}
