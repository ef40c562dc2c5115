//! The table: times, and ratios beside them.

use crate::ratios::Ratios;
use crate::times::{Column, Row, Times, rows};

const HEAD: [&str; 12] =
    ["call", "m", "whole", "inner", "C", "kernel", "every", "whole/C", "inner/C", "whole/(2C+test)", "every/whole", "notes"];

pub const LEGEND: &str = "\
whole: the library's call. inner: its code with the test of the field polynomial taken out. C: the prototype. kernel: find_poly_roots of
lib/bch.c, its tables prebuilt, m up to 15; of equations that do not split it does not find all roots. every: trying every element, the
faster of Rust and the prototype. test: the time of accept with one polynomial. ns a call; 1,024 inputs in turn (accept 64, lines 512).";

/// The rows that were measured, under the head, laid out in columns.
pub fn table(times: &Times, degrees: &[u32]) -> String {
    let measured = |row: Row, m: u32| times.least(row, m, [Column::Whole, Column::Inner]).is_some();
    let keys = rows().into_iter().flat_map(|row| degrees.iter().map(move |m| (row, *m))).filter(|(row, m)| measured(*row, *m));
    let mut lines: Vec<Vec<String>> = vec![HEAD.map(String::from).to_vec()];
    lines.extend(keys.map(|(row, m)| cells(times, row, m)));
    laid_out(&lines)
}

fn cells(times: &Times, row: Row, m: u32) -> Vec<String> {
    let r = Ratios { times, row, m };
    let kernel = matches!(row, Row::Solve(..)) && m < 16;
    vec![
        row.to_string(),
        m.to_string(),
        time(r.whole(), false),
        time(r.inner(), false),
        time(r.c(), r.has_c()),
        time(r.kernel(), kernel),
        time(r.every(), false),
        ratio(r.whole_over_c()),
        ratio(r.inner_over_c()),
        ratio(r.whole_over_twice_c_and_test()),
        ratio(r.every_over_whole()),
        notes(&r),
    ]
}

fn notes(r: &Ratios) -> String {
    let note = match r.row {
        Row::Accept | Row::AcceptHouse => trial_note(r),
        Row::Product => r.c().map(|_| "C: in a chain".into()),
        Row::Quotient => r.c().map(|_| "C: an inverse only".into()),
        Row::Solve(..) => roots_note(r),
        Row::List => r.ns_a_root().map(|ns| format!("{ns:.3} ns a root")),
        Row::Line => r.whole().map(lines_a_second),
        Row::Program => program_note(r),
        Row::Chain | Row::AffineShort | Row::AffineFull => None,
    };
    note.unwrap_or_default()
}

fn trial_note(r: &Ratios) -> Option<String> {
    let (quick, bits) = (r.get(Column::C)?, r.get(Column::COther)?);
    Some(format!("C: {} by whole steps, {} bit by bit", number(quick), number(bits)))
}

/// How many roots an equation had on average, and how many of its own equations each yardstick found.
fn roots_note(r: &Ratios) -> Option<String> {
    let named = [(Column::Whole, "roots"), (Column::C, "C"), (Column::Kernel, "kernel")];
    let found = named.iter().filter_map(|(column, name)| Some(format!("{name} {:.2}", r.times.roots((r.row, r.m, *column))?)));
    Some(found.collect::<Vec<_>>().join(", "))
}

fn lines_a_second(ns: f64) -> String {
    format!("{} lines a second", number((1e9 / ns / 1000.0).round() * 1000.0))
}

fn program_note(r: &Ratios) -> Option<String> {
    Some(format!("{}; program/call {:.2}", lines_a_second(r.whole()?), r.program_over_call()?))
}

/// A time that is missing although the yardstick has it was not taken.
fn time(ns: Option<f64>, wanted: bool) -> String {
    match ns {
        Some(ns) => number(ns),
        None if wanted => "not run".into(),
        None => "-".into(),
    }
}

/// Rounded down where it is large, so that what is just below a bound does not look like the bound.
pub fn ratio(ratio: Option<f64>) -> String {
    match ratio {
        Some(ratio) if ratio >= 100.0 => number(ratio.floor()),
        Some(ratio) => format!("{ratio:.2}"),
        None => "-".into(),
    }
}

/// One decimal place below 100, and commas between the thousands.
pub fn number(value: f64) -> String {
    if value < 100.0 {
        return format!("{value:.1}");
    }
    let digits = format!("{value:.0}");
    let mut out = String::new();
    for (place, digit) in digits.chars().enumerate() {
        if place > 0 && (digits.len() - place) % 3 == 0 {
            out.push(',');
        }
        out.push(digit);
    }
    out
}

/// A table in Markdown: the first and the last column begin at the left, the numbers between them end at the right.
fn laid_out(lines: &[Vec<String>]) -> String {
    let last = lines[0].len() - 1;
    let left = |column: usize| column == 0 || column == last;
    let widths: Vec<usize> = (0..=last).map(|column| lines.iter().map(|line| line[column].chars().count()).max().unwrap_or(0)).collect();
    let row = |cells: Vec<String>| format!("| {} |\n", cells.join(" | "));
    let pad = |(column, cell): (usize, &String)| {
        let width = widths[column];
        if left(column) { format!("{cell:<width$}") } else { format!("{cell:>width$}") }
    };
    let rule = |column: usize| if left(column) { "-".repeat(widths[column]) } else { "-".repeat(widths[column] - 1) + ":" };
    let mut text = row(lines[0].iter().enumerate().map(pad).collect());
    text += &row((0..=last).map(rule).collect());
    for line in &lines[1..] {
        text += &row(line.iter().enumerate().map(pad).collect());
    }
    text
}
