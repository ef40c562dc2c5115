//! What the calls are given: drawn with a fixed seed, so that every run of the benchmark measures the same inputs.

use crate::gfroots::Roots;
use crate::times::Kind;
use std::ops::Range;

/// Different inputs that a call is given in turn, so that no branch predictor can learn them.
pub const COUNT: usize = 1024;
pub const POLYNOMIALS: usize = 64;
pub const LINES: usize = 512;

/// Coefficients, constant first. A lower degree has zeros above, as the prototype's equations have.
pub type Equation = [u32; 5];

/// Equations of one degree and kind; of a split also what its answer must be.
pub struct Equations {
    pub degree: u32,
    pub kind: Kind,
    pub all: Vec<Equation>,
    pub expected: Vec<Roots>,
}

pub struct Line {
    pub text: Vec<u8>,
    pub answer: Vec<u8>,
}

/// All inputs over the field of one degree.
pub struct Inputs {
    pub m: u32,
    /// The house's polynomial: every call but the factor tests is given this one, as the prototype is.
    pub p: u32,
    /// Drawn among the polynomials without a factor. Some come twice: of degree 8 there are only 30.
    pub polynomials: Vec<u32>,
    /// Two elements, the second not 0.
    pub pairs: Vec<(u32, u32)>,
    pub equations: Vec<Equations>,
    /// Affine equations with three coefficients, and with all m + 1.
    pub affine_short: Vec<Vec<u32>>,
    pub affine_full: Vec<Vec<u32>>,
    /// Degree 4, four roots.
    pub lines: Vec<Line>,
}

impl Inputs {
    /// `p` has degree `m` and no factor; `accepted` says whether another polynomial has none.
    pub fn draw(m: u32, p: u32, accepted: impl Fn(u32) -> bool) -> Inputs {
        let mut draws = Draws::new(u64::from(m));
        let sets = [Kind::Split, Kind::Random].into_iter().flat_map(|kind| (1..=4).map(move |degree| (degree, kind)));
        Inputs {
            m,
            p,
            polynomials: several(POLYNOMIALS, || 1 << m | draws.until(m, |low| accepted(1 << m | low))),
            pairs: several(COUNT, || (draws.element(m), draws.nonzero(m))),
            equations: sets.map(|(degree, kind)| draws.equations(m, p, degree, kind)).collect(),
            affine_short: several(COUNT, || several(3, || draws.element(m))),
            affine_full: several(COUNT, || several(m as usize + 1, || draws.element(m))),
            lines: several(LINES, || draws.line(m, p)),
        }
    }
}

fn several<T>(count: usize, mut draw: impl FnMut() -> T) -> Vec<T> {
    (0..count).map(|_| draw()).collect()
}

/// xorshift64*.
struct Draws(u64);

impl Draws {
    fn new(seed: u64) -> Draws {
        Draws(0x9E37_79B9_7F4A_7C15 ^ seed)
    }

    fn element(&mut self, m: u32) -> u32 {
        self.0 ^= self.0 >> 12;
        self.0 ^= self.0 << 25;
        self.0 ^= self.0 >> 27;
        (self.0.wrapping_mul(0x2545_F491_4F6C_DD1D) >> (64 - m)) as u32
    }

    fn until(&mut self, m: u32, good: impl Fn(u32) -> bool) -> u32 {
        loop {
            let drawn = self.element(m);
            if good(drawn) {
                return drawn;
            }
        }
    }

    fn nonzero(&mut self, m: u32) -> u32 {
        self.until(m, |drawn| drawn != 0)
    }

    fn equations(&mut self, m: u32, p: u32, degree: u32, kind: Kind) -> Equations {
        let mut set = Equations { degree, kind, all: Vec::new(), expected: Vec::new() };
        for _ in 0..COUNT {
            match kind {
                Kind::Random => set.all.push(self.random(m, degree as usize)),
                Kind::Split => {
                    let roots = self.roots(m, degree as usize);
                    set.all.push(built(p, m, &roots, 1));
                    set.expected.push(once_each(&roots));
                }
            }
        }
        set
    }

    /// Different ones and none of them 0, ascending.
    fn roots(&mut self, m: u32, count: usize) -> Vec<u32> {
        let mut roots = Vec::new();
        while roots.len() < count {
            let root = self.until(m, |drawn| drawn != 0 && !roots.contains(&drawn));
            roots.push(root);
        }
        roots.sort_unstable();
        roots
    }

    /// The first and the last coefficient are not 0, as in the yardsticks' random equations: then 0 is no root, and the degree is right.
    fn random(&mut self, m: u32, degree: usize) -> Equation {
        let mut equation = [0; 5];
        equation[..degree].fill_with(|| self.element(m));
        equation[0] = self.nonzero(m);
        equation[degree] = self.nonzero(m);
        equation
    }

    fn line(&mut self, m: u32, p: u32) -> Line {
        let roots = self.roots(m, 4);
        let hex: String = built(p, m, &roots, self.nonzero(m)).iter().map(|c| format!("{c:04X}")).collect();
        let answer: String = roots.iter().map(|r| format!("{r:04X}01")).collect();
        Line { text: format!("01{p:06X}05{hex}").into_bytes(), answer: format!("010004{answer}").into_bytes() }
    }
}

/// Shift and add: the library's method, and the prototype's.
pub fn product(p: u32, m: u32, mut a: u32, b: u32) -> u32 {
    let mut sum = 0;
    for i in 0..m {
        sum ^= a & (b >> i & 1).wrapping_neg();
        a <<= 1;
        a ^= p & (a >> m).wrapping_neg();
    }
    sum
}

/// The product of all x + r and of the leading coefficient.
fn built(p: u32, m: u32, roots: &[u32], leading: u32) -> Equation {
    let mut equation = [leading, 0, 0, 0, 0];
    for &root in roots {
        for i in (0..5).rev() {
            let lower = if i == 0 { 0 } else { equation[i - 1] };
            equation[i] = product(p, m, equation[i], root) ^ lower;
        }
    }
    equation
}

fn once_each(roots: &[u32]) -> Roots {
    let mut solved = Roots { count: roots.len() as u32, roots: [0; 4], multiplicities: [0; 4] };
    solved.roots[..roots.len()].copy_from_slice(roots);
    solved.multiplicities[..roots.len()].fill(1);
    solved
}

/// How many of these elements are roots, by trying each of them. The last coefficient is the leading one.
pub fn try_elements(p: u32, m: u32, equation: &[u32], elements: Range<u32>) -> u32 {
    let Some((leading, lower)) = equation.split_last() else {
        return 0;
    };
    let value = |x| lower.iter().rev().fold(*leading, |value, c| product(p, m, value, x) ^ c);
    elements.filter(|x| value(*x) == 0).count() as u32
}

/// The value of the linear part l0*x + l1*x^2 + l2*x^4 + ..
pub fn linear_value(p: u32, m: u32, linear: &[u32], x: u32) -> u32 {
    let mut power = x;
    let mut value = 0;
    for l in linear {
        value ^= product(p, m, *l, power);
        power = product(p, m, power, power);
    }
    value
}
