//! The yardsticks: programs that stand outside this repository, run by a script that prints their times. They are run where they stand,
//! and only the lines that they print are used.

use crate::times::{Column, Row, Times, rows};
use std::path::{Path, PathBuf};
use std::process::Command;

/// The kernel's source may have to be fetched, and there may be no network.
const LONGEST_SECONDS: &str = "90";

pub struct Yardsticks {
    /// None where there is no such script.
    script: Option<PathBuf>,
}

/// One printed line.
struct Printed {
    name: String,
    m: u32,
    ns: f64,
    roots: Option<f64>,
}

impl Yardsticks {
    pub fn new(script: Option<PathBuf>) -> Yardsticks {
        Yardsticks { script }
    }

    /// Runs the yardstick of this name and adds its times. One that cannot be run, or that finds its own answers wrong, adds none.
    pub fn round(&self, times: &mut Times, name: &str) {
        let Some(script) = &self.script else {
            return;
        };
        eprintln!("bench: yardstick {name}");
        let Some(text) = output(script, name).filter(|text| sound(text)) else {
            return eprintln!("bench: the yardstick {name} cannot be run, or says that its answers are wrong");
        };
        for printed in text.lines().filter_map(parse) {
            for (row, column) in places(&printed.name) {
                times.add((row, printed.m, column), printed.ns);
                if let Some(roots) = printed.roots {
                    times.set_roots((row, printed.m, column), roots);
                }
            }
        }
    }
}

fn output(script: &Path, name: &str) -> Option<String> {
    let output = Command::new("timeout").arg(LONGEST_SECONDS).arg(script).arg(name).output().ok()?;
    output.status.success().then(|| String::from_utf8_lossy(&output.stdout).into_owned())
}

/// The prototype says how many of its answers are `bad`, the kernel's program how many are `wrong`.
fn sound(text: &str) -> bool {
    let bad = text.lines().filter(|line| line.ends_with(" bad")).any(|line| !line.ends_with(", 0 bad"));
    let wrong = text.lines().filter(|line| line.contains("wrong")).any(|line| !line.contains("wrong 0)"));
    !bad && !wrong
}

/// `shift   solve deg 4 split   m= 8   797.2 ns (avg roots 4.000)`: a tag, the name, m, ns, and sometimes the roots.
fn parse(line: &str) -> Option<Printed> {
    let (name, rest) = line.split_once(" m=")?;
    let name = name.split_whitespace().skip(1).collect::<Vec<_>>().join(" ");
    let mut words = rest.split_whitespace();
    let (m, ns) = (words.next()?.parse().ok()?, words.next()?.parse().ok()?);
    let roots = line.split_once("avg roots ").and_then(|(_, rest)| rest.split([',', ')']).next()?.parse().ok());
    (words.next()? == "ns").then_some(Printed { name, m, ns, roots })
}

/// Where a time of this name belongs.
fn places(name: &str) -> Vec<(Row, Column)> {
    let all = rows().into_iter().flat_map(|row| names(row).into_iter().map(move |(column, named)| (row, column, named)));
    all.filter(|(_, _, named)| named == name).map(|(row, column, _)| (row, column)).collect()
}

/// What the yardsticks call the work of a row.
fn names(row: Row) -> Vec<(Column, String)> {
    match row {
        Row::Accept => trial_divisions("irreducible, 64 different p"),
        Row::AcceptHouse => trial_divisions("irreducible"),
        Row::Product | Row::Chain => vec![(Column::C, "mul (latency)".into())],
        Row::Quotient => vec![(Column::C, "inverse".into())],
        Row::Solve(degree, kind) => vec![
            (Column::C, format!("solve deg {degree} {kind}")),
            (Column::Kernel, format!("find_poly_roots deg {degree} {kind}")),
            (Column::EveryC, format!("try every element deg {degree}")),
        ],
        Row::AffineShort | Row::AffineFull | Row::List | Row::Line | Row::Program => vec![],
    }
}

/// Of its factor tests these two try every divisor, as the library does.
fn trial_divisions(kind: &str) -> Vec<(Column, String)> {
    vec![(Column::C, format!("{kind}: trial all 2..")), (Column::COther, format!("{kind}: trial all bitserial"))]
}
