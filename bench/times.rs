//! The rows and columns of the table, and the times found for them.

use std::collections::BTreeMap;
use std::fmt;

#[derive(Clone, Copy, Debug, PartialEq, Eq, PartialOrd, Ord)]
pub enum Kind {
    /// As many roots as the degree, different and not 0.
    Split,
    Random,
}

#[derive(Clone, Copy, Debug, PartialEq, Eq, PartialOrd, Ord)]
pub enum Row {
    /// The factor test, over 64 polynomials in turn.
    Accept,
    /// The factor test of the house's polynomial again and again: this is the test inside the calls of the other rows.
    AcceptHouse,
    Product,
    /// Each product goes into the next, as in the yardstick.
    Chain,
    Quotient,
    Solve(u32, Kind),
    AffineShort,
    AffineFull,
    List,
    Line,
    Program,
}

#[derive(Clone, Copy, Debug, PartialEq, Eq, PartialOrd, Ord)]
pub enum Column {
    Whole,
    /// With the test of the field polynomial taken out.
    Inner,
    C,
    /// For the factor test: the yardstick's other program for the same divisors.
    COther,
    Kernel,
    Every,
    EveryC,
}

/// Every row, in the order of the table.
pub fn rows() -> Vec<Row> {
    let solves = [Kind::Split, Kind::Random].into_iter().flat_map(|kind| (1..=4).map(move |degree| Row::Solve(degree, kind)));
    let before = [Row::Accept, Row::AcceptHouse, Row::Product, Row::Chain, Row::Quotient];
    let after = [Row::AffineShort, Row::AffineFull, Row::List, Row::Line, Row::Program];
    before.into_iter().chain(solves).chain(after).collect()
}

impl fmt::Display for Kind {
    fn fmt(&self, out: &mut fmt::Formatter) -> fmt::Result {
        out.write_str(match self {
            Kind::Split => "split",
            Kind::Random => "random",
        })
    }
}

impl fmt::Display for Row {
    fn fmt(&self, out: &mut fmt::Formatter) -> fmt::Result {
        match self {
            Row::Accept => write!(out, "accept, 64 polynomials"),
            Row::AcceptHouse => write!(out, "accept, one polynomial"),
            Row::Product => write!(out, "product"),
            Row::Chain => write!(out, "product, in a chain"),
            Row::Quotient => write!(out, "quotient"),
            Row::Solve(degree, kind) => write!(out, "solve degree {degree}, {kind}"),
            Row::AffineShort => write!(out, "affine solve, 3 coefficients"),
            Row::AffineFull => write!(out, "affine solve, m + 1 coefficients"),
            Row::List => write!(out, "list of 65,536 roots"),
            Row::Line => write!(out, "answer line, 4 roots"),
            Row::Program => write!(out, "program gfroots, a line"),
        }
    }
}

pub fn median(values: &mut [f64]) -> f64 {
    values.sort_by(f64::total_cmp);
    values[values.len() / 2]
}

pub type Key = (Row, u32, Column);

/// The nanoseconds of each row, degree m and column: one median for every round. Beside them the roots that an equation had on average.
#[derive(Default)]
pub struct Times {
    rounds: BTreeMap<Key, Vec<f64>>,
    roots: BTreeMap<Key, f64>,
}

impl Times {
    pub fn add(&mut self, key: Key, ns: f64) {
        self.rounds.entry(key).or_default().push(ns);
    }

    pub fn set_roots(&mut self, key: Key, average: f64) {
        self.roots.insert(key, average);
    }

    pub fn roots(&self, key: Key) -> Option<f64> {
        self.roots.get(&key).copied()
    }

    /// The smallest of the rounds' medians: whatever else the machine does makes a round slower and never faster, and it does not hit the
    /// library and the yardsticks in the same round.
    pub fn get(&self, key: Key) -> Option<f64> {
        self.rounds.get(&key)?.iter().copied().reduce(f64::min)
    }

    /// The smaller of two columns.
    pub fn least(&self, row: Row, m: u32, columns: [Column; 2]) -> Option<f64> {
        columns.into_iter().filter_map(|column| self.get((row, m, column))).reduce(f64::min)
    }

    /// The slowest round over the fastest, for each key.
    pub fn spreads(&self) -> Vec<f64> {
        let ends =
            self.rounds.values().map(|rounds| rounds.iter().fold((f64::MAX, 0.0f64), |(low, high), ns| (low.min(*ns), high.max(*ns))));
        ends.map(|(low, high)| high / low).collect()
    }
}
