//! One round: every call of the library once more, a median for each.

use crate::inputs::{self, Equations, Inputs, Line};
use crate::program::Program;
use crate::times::{Column, Row, Times, median};
use crate::{gfroots, unguarded};
use std::cell::Cell;
use std::hint::black_box;
use std::time::Instant;

pub const RUNS: usize = 31;
/// About how many ns a run takes: long beside reading the clock, and short beside the time after which another process gets its turn.
const RUN: f64 = 1e6;

/// The median of the runs, in ns a call. A run goes on with the next inputs in turn, or through all of them several times.
/// There are 2^n inputs.
fn per_call<I, O>(inputs: &[I], mut call: impl FnMut(&I) -> O) -> f64 {
    let mut timed = |part: &[I], passes: usize| {
        let start = Instant::now();
        for _ in 0..passes {
            for input in part {
                black_box(call(black_box(input)));
            }
        }
        start.elapsed().as_nanos() as f64 / (passes * part.len()) as f64
    };
    // To warm up: twice, since the very first calls have to bring code and inputs into the caches.
    let about = timed(inputs, 1).min(timed(inputs, 1));
    let calls = (RUN / about).max(1.0) as usize;
    // A power of two, so that the parts are equal.
    let part = 1 << calls.min(inputs.len()).ilog2();
    let passes = (calls / inputs.len()).max(1);
    let mut runs: Vec<f64> = inputs.chunks(part).cycle().take(RUNS).map(|part| timed(part, passes)).collect();
    median(&mut runs)
}

pub fn round(times: &mut Times, inputs: &Inputs, program: &Program) -> Result<(), String> {
    accept(times, inputs);
    arithmetic(times, inputs);
    for set in &inputs.equations {
        solve(times, inputs, set);
    }
    match inputs.m {
        8 | 16 => affine(times, inputs),
        _ => {}
    }
    if inputs.m == 16 {
        list(times, inputs);
    }
    match inputs.m {
        8 | 15 | 16 => lines(times, inputs, program),
        _ => Ok(()),
    }
}

fn accept(times: &mut Times, inputs: &Inputs) {
    let m = inputs.m;
    for (row, polynomials) in [(Row::Accept, &inputs.polynomials[..]), (Row::AcceptHouse, &[inputs.p; inputs::POLYNOMIALS])] {
        times.add((row, m, Column::Whole), per_call(polynomials, |p| gfroots::accept(*p)));
        times.add((row, m, Column::Inner), per_call(polynomials, |p| unguarded::factor_free(*p, black_box(m))));
    }
}

fn arithmetic(times: &mut Times, inputs: &Inputs) {
    let (p, m, pairs) = (black_box(inputs.p), black_box(inputs.m), &inputs.pairs);
    times.add((Row::Product, m, Column::Whole), per_call(pairs, |&(a, b)| gfroots::product(p, a, b)));
    times.add((Row::Product, m, Column::Inner), per_call(pairs, |&(a, b)| unguarded::product(p, m, a, b)));
    times.add((Row::Quotient, m, Column::Whole), per_call(pairs, |&(a, b)| gfroots::quotient(p, a, b)));
    times.add((Row::Quotient, m, Column::Inner), per_call(pairs, |&(a, b)| unguarded::quotient(p, m, a, b)));
    // Made odd, so that the chain never arrives at 0.
    let last = Cell::new(1);
    let chained = |&(a, _): &(u32, u32)| last.set(unguarded::product(p, m, last.get(), last.get() ^ a) | 1);
    times.add((Row::Chain, m, Column::Inner), per_call(pairs, chained));
    black_box(last);
}

fn solve(times: &mut Times, inputs: &Inputs, set: &Equations) {
    let (p, m, row) = (black_box(inputs.p), black_box(inputs.m), Row::Solve(set.degree, set.kind));
    times.add((row, m, Column::Whole), per_call(&set.all, |equation| gfroots::solve(p, equation)));
    times.add((row, m, Column::Inner), per_call(&set.all, |equation| unguarded::solve(p, equation)));
    if matches!(set.degree, 2 | 4) {
        times.add((row, m, Column::Every), every_element(p, m, set));
    }
}

/// Trying every element takes milliseconds at m = 16, so a run tries a part of them, and the parts are added up.
fn every_element(p: u32, m: u32, set: &Equations) -> f64 {
    let part: u32 = 1 << m.min(13);
    let parts = (1 << m) / part;
    let equations = set.all[..8].iter().map(|equation| &equation[..=set.degree as usize]);
    let starts = (0..parts).cycle().map(|place| place * part);
    let inputs: Vec<(&[u32], u32)> = equations.zip(starts).collect();
    f64::from(parts) * per_call(&inputs, |&(equation, start)| inputs::try_elements(p, m, equation, start..start + part))
}

fn affine(times: &mut Times, inputs: &Inputs) {
    let (p, m) = (black_box(inputs.p), inputs.m);
    for (row, equations) in [(Row::AffineShort, &inputs.affine_short), (Row::AffineFull, &inputs.affine_full)] {
        times.add((row, m, Column::Whole), per_call(equations, |equation| gfroots::affine_solve(p, equation)));
    }
}

/// 0 = 0, of which every element is a root.
fn list(times: &mut Times, inputs: &Inputs) {
    let mut room = vec![0; gfroots::LIST_ROOM];
    let all = per_call(&[[0]], |equation| (gfroots::list_roots(black_box(inputs.p), equation, &mut room), black_box(&room).len()));
    times.add((Row::List, inputs.m, Column::Whole), all);
}

fn lines(times: &mut Times, inputs: &Inputs, program: &Program) -> Result<(), String> {
    let call = |line: &Line| gfroots::answer_line(&line.text);
    times.add((Row::Line, inputs.m, Column::Whole), per_call(&inputs.lines, call));
    times.add((Row::Program, inputs.m, Column::Whole), program.time(inputs.m)?);
    Ok(())
}
