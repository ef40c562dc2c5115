//! The calls of libunguarded.a: the code inside the library's calls, with the tests of their arguments taken out. It is there for the
//! benchmark only. The caller owes what the tests would have tested: `p` has degree `m`, 2 to 16, and no factor (but for `factor_free`,
//! which finds that out), elements and coefficients are below 2^m, one coefficient at least is not 0, and there are one to five of them.

use crate::gfroots::Roots;

unsafe extern "C" {
    fn unguarded_factor_free(p: u32, m: u32) -> bool;
    fn unguarded_product(p: u32, m: u32, a: u32, b: u32) -> u32;
    fn unguarded_quotient(p: u32, m: u32, a: u32, b: u32) -> u32;
    fn unguarded_solve(
        p: u32,
        coefficients: *const u32,
        coefficients_len: usize,
        roots: *mut u32,
        roots_len: usize,
        multiplicities: *mut u32,
        multiplicities_len: usize,
    ) -> u32;
}

pub fn factor_free(p: u32, m: u32) -> bool {
    unsafe { unguarded_factor_free(p, m) }
}

pub fn product(p: u32, m: u32, a: u32, b: u32) -> u32 {
    unsafe { unguarded_product(p, m, a, b) }
}

/// `b` is not 0.
pub fn quotient(p: u32, m: u32, a: u32, b: u32) -> u32 {
    unsafe { unguarded_quotient(p, m, a, b) }
}

pub fn solve(p: u32, equation: &[u32]) -> Roots {
    let (mut roots, mut multiplicities) = ([0; 4], [0; 4]);
    let count = unsafe { unguarded_solve(p, equation.as_ptr(), equation.len(), roots.as_mut_ptr(), 4, multiplicities.as_mut_ptr(), 4) };
    Roots { count, roots, multiplicities }
}
