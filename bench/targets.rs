//! What the times were to be, and whether they are.

use crate::ratios::Ratios;
use crate::table::{self, number};
use crate::times::{Kind, Row, Times};

enum Bound {
    AtMost(f64),
    AtLeast(f64),
}

struct Target {
    text: &'static str,
    bound: Bound,
    cases: Cases,
}

impl Bound {
    fn holds(&self, ratio: f64) -> bool {
        match self {
            Bound::AtMost(most) => ratio <= *most,
            Bound::AtLeast(least) => ratio >= *least,
        }
    }
}

/// One line for each target: the verdict, and every case with its ratio. A target is met if all its cases are.
pub fn targets(times: &Times, degrees: &[u32]) -> String {
    let lines = all(times, degrees).into_iter().enumerate().map(|(place, target)| line(place + 1, &target));
    format!("targets\n{}", lines.collect::<String>())
}

fn all(times: &Times, degrees: &[u32]) -> Vec<Target> {
    vec![
        Target {
            text: "degree 4, test taken out / C (split, random)",
            bound: Bound::AtMost(1.5),
            cases: quartics(times, degrees, Ratios::inner_over_c),
        },
        Target {
            text: "degree 4, whole call / (2 C + test) (split, random)",
            bound: Bound::AtMost(1.0),
            cases: quartics(times, degrees, Ratios::whole_over_twice_c_and_test),
        },
        Target {
            text: "factor test / C trial division (accept, bare test)",
            bound: Bound::AtMost(1.3),
            cases: factor_tests(times, degrees),
        },
        Target {
            text: "trying every element / degree 4, whole call (split, random)",
            bound: Bound::AtLeast(1000.0),
            cases: quartics(times, &[16], Ratios::every_over_whole),
        },
        Target { text: "listing, ns a root", bound: Bound::AtMost(2.0), cases: at(times, Row::List, &[16], Ratios::ns_a_root) },
        Target {
            text: "frame program / its library call",
            bound: Bound::AtMost(1.5),
            cases: at(times, Row::Program, &[8, 15, 16], Ratios::program_over_call),
        },
    ]
}

/// The ratios at each m; None where one was not measured.
type Cases = Vec<(u32, Vec<Option<f64>>)>;

fn at<'a>(times: &'a Times, row: Row, degrees: &[u32], ratio: fn(&Ratios<'a>) -> Option<f64>) -> Cases {
    degrees.iter().map(|&m| (m, vec![ratio(&Ratios { times, row, m })])).collect()
}

fn quartics<'a>(times: &'a Times, degrees: &[u32], ratio: fn(&Ratios<'a>) -> Option<f64>) -> Cases {
    let both = |m| [Kind::Split, Kind::Random].map(|kind| ratio(&Ratios { times, row: Row::Solve(4, kind), m })).to_vec();
    degrees.iter().map(|&m| (m, both(m))).collect()
}

/// Both, since the compiler may make different code of the same test in the library and by itself.
fn factor_tests(times: &Times, degrees: &[u32]) -> Cases {
    let tests = degrees.iter().map(|&m| Ratios { times, row: Row::Accept, m });
    tests.map(|test| (test.m, vec![test.whole_over_c(), test.inner_over_c()])).collect()
}

fn line(place: usize, target: &Target) -> String {
    let ratios: Vec<Option<f64>> = target.cases.iter().flat_map(|(_, ratios)| ratios.clone()).collect();
    let verdict = if ratios.iter().flatten().any(|ratio| !target.bound.holds(*ratio)) {
        "missed"
    } else if ratios.contains(&None) {
        "not measured"
    } else {
        "met"
    };
    let bound = match target.bound {
        Bound::AtMost(most) => format!("at most {most}"),
        Bound::AtLeast(least) => format!("at least {}", number(least)),
    };
    let cases: Vec<String> = target.cases.iter().map(|(m, ratios)| shown(&target.bound, *m, ratios)).collect();
    format!("{place}  {verdict:<12}  {}: {bound}; {}\n", target.text, cases.join(", "))
}

/// A ratio that misses its target says so itself, since others may meet it.
fn shown(bound: &Bound, m: u32, ratios: &[Option<f64>]) -> String {
    let one = |ratio: &Option<f64>| match ratio {
        Some(value) => table::ratio(*ratio) + if bound.holds(*value) { "" } else { " (missed)" },
        None => "not run".into(),
    };
    format!("m={m} {}", ratios.iter().map(one).collect::<Vec<_>>().join(" "))
}
