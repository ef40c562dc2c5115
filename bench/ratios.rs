//! The times of a row in one column over those in another.

use crate::times::{Column, Row, Times};

/// The times of one row at one m, and their ratios; None where one of the two is missing.
pub struct Ratios<'a> {
    pub times: &'a Times,
    pub row: Row,
    pub m: u32,
}

impl Ratios<'_> {
    pub fn get(&self, column: Column) -> Option<f64> {
        self.times.get((self.row, self.m, column))
    }

    pub fn whole(&self) -> Option<f64> {
        self.get(Column::Whole)
    }

    pub fn inner(&self) -> Option<f64> {
        self.get(Column::Inner)
    }

    pub fn kernel(&self) -> Option<f64> {
        self.get(Column::Kernel)
    }

    /// Of the two trial divisions the faster one.
    pub fn c(&self) -> Option<f64> {
        self.times.least(self.row, self.m, [Column::C, Column::COther])
    }

    /// Whether the prototype has this work at all.
    pub fn has_c(&self) -> bool {
        matches!(self.row, Row::Accept | Row::AcceptHouse | Row::Product | Row::Chain | Row::Quotient | Row::Solve(..))
    }

    pub fn every(&self) -> Option<f64> {
        self.times.least(self.row, self.m, [Column::Every, Column::EveryC])
    }

    /// The prototype has an inverse and no quotient, so there is nothing to compare a quotient with.
    fn comparable_c(&self) -> Option<f64> {
        self.c().filter(|_| self.row != Row::Quotient)
    }

    pub fn whole_over_c(&self) -> Option<f64> {
        Some(self.whole()? / self.comparable_c()?)
    }

    pub fn inner_over_c(&self) -> Option<f64> {
        Some(self.inner()? / self.comparable_c()?)
    }

    pub fn whole_over_twice_c_and_test(&self) -> Option<f64> {
        let test = self.times.get((Row::AcceptHouse, self.m, Column::Whole))?;
        matches!(self.row, Row::Solve(..)).then_some(self.whole()? / (2.0 * self.c()? + test))
    }

    pub fn every_over_whole(&self) -> Option<f64> {
        Some(self.every()? / self.whole()?)
    }

    pub fn program_over_call(&self) -> Option<f64> {
        Some(self.times.get((Row::Program, self.m, Column::Whole))? / self.times.get((Row::Line, self.m, Column::Whole))?)
    }

    pub fn ns_a_root(&self) -> Option<f64> {
        Some(self.times.get((Row::List, self.m, Column::Whole))? / 65536.0)
    }
}
