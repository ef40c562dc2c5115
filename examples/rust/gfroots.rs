//! The calls of libfirmware.a, for Rust. Nothing here can be misused: what include/gfroots.h asks of a caller and no call can test, Rust's
//! types give. A slice's pointer is never null, also where the slice is empty; it points to as many entries as the slice is long; and a
//! slice lent as `&mut` overlaps no other.
//!
//! There are two levels. The functions of this module bring lists of their own, with room, and answer by `Result`: the value, or the number
//! that the call was turned down by. Those of `raw` take every list as a slice of any length and return the number, as C has it.

// A program seldom needs every call.
#![allow(dead_code)]

/// The field polynomial is below 4 or at least 131072; a degree that the house table does not have.
pub const OUT_OF_RANGE: u32 = 1;
/// The field polynomial has a proper factor, so there is no field.
pub const HAS_FACTOR: u32 = 2;
/// No coefficient, or too many; too many roots to build from.
pub const WRONG_COUNT: u32 = 3;
/// An element, a coefficient or a logarithm number is 2^m or more.
pub const TOO_LARGE: u32 = 4;
/// Every coefficient is 0.
pub const ALL_ZERO: u32 = 5;
/// A quotient by 0, or 0 to a negative exponent.
pub const DIVISION_BY_ZERO: u32 = 6;
/// No root at this place, or a lent list without room.
pub const NO_PLACE: u32 = 7;
/// Stands in answer lines only: the line is malformed.
pub const MALFORMED: u32 = 8;

/// Room of a list for one value.
pub const ONE: usize = 1;
/// Room for roots, and for multiplicities.
pub const MOST_ROOTS: usize = 4;
/// Room for the coefficients of what was built; the most that `solve` takes.
pub const MOST_COEFFICIENTS: usize = 5;
/// Room for found, k and base.
pub const SPACE: usize = 3;
/// Room for directions.
pub const DIRECTIONS: usize = 16;
/// Room for all roots of any affine equation.
pub const LIST_ROOM: usize = 65536;
/// Room for the answer to a line.
pub const ANSWER_ROOM: usize = 77;

/// Where `raw::affine_solve` puts its three values.
pub const SPACE_FOUND: usize = 0;
pub const SPACE_K: usize = 1;
pub const SPACE_BASE: usize = 2;

/// The roots of an equation of degree up to 4, ascending; places from `count` on are 0.
#[derive(Clone, Copy, Debug, PartialEq, Eq)]
pub struct Roots {
    pub count: u32,
    pub roots: [u32; MOST_ROOTS],
    pub multiplicities: [u32; MOST_ROOTS],
}

/// The roots of an affine equation: if `found`, the base combined by exclusive or with every choice of the first `k` directions, else none.
#[derive(Clone, Copy, Debug, PartialEq, Eq)]
pub struct Space {
    pub found: bool,
    pub k: u32,
    pub base: u32,
    pub directions: [u32; DIRECTIONS],
}

/// The answer to a frame line: the first `length` characters of `text`.
#[derive(Clone, Copy, Debug, PartialEq, Eq)]
pub struct Answer {
    pub text: [u8; ANSWER_ROOM],
    pub length: usize,
}

/// The degree of a field polynomial that is accepted.
pub fn accept(p: u32) -> Result<u32, u32> {
    one(|degree| raw::accept(p, degree))
}

/// The house's polynomial of this degree, 2 to 16.
pub fn house_polynomial(degree: u32) -> Result<u32, u32> {
    one(|polynomial| raw::house_polynomial(degree, polynomial))
}

/// a + b, which is a ^ b.
pub fn sum(p: u32, a: u32, b: u32) -> Result<u32, u32> {
    one(|element| raw::sum(p, a, b, element))
}

/// a times b.
pub fn product(p: u32, a: u32, b: u32) -> Result<u32, u32> {
    one(|element| raw::product(p, a, b, element))
}

/// The one q with q times b = a.
pub fn quotient(p: u32, a: u32, b: u32) -> Result<u32, u32> {
    one(|element| raw::quotient(p, a, b, element))
}

/// a to the exponent, which may be negative; 0 to the 0 is 1.
pub fn power(p: u32, a: u32, exponent: i32) -> Result<u32, u32> {
    one(|element| raw::power(p, a, exponent, element))
}

/// The one element that squares to b.
pub fn square_root(p: u32, b: u32) -> Result<u32, u32> {
    one(|element| raw::square_root(p, b, element))
}

/// The trace of c, 0 or 1.
pub fn trace(p: u32, c: u32) -> Result<u32, u32> {
    one(|trace| raw::trace(p, c, trace))
}

/// e + 1 for the first e with x^e = a, and 0 for 0 and for an element that is no power of x.
pub fn number_of_element(p: u32, a: u32) -> Result<u32, u32> {
    one(|number| raw::number_of_element(p, a, number))
}

/// x^(number - 1), and 0 for the number 0.
pub fn element_of_number(p: u32, number: u32) -> Result<u32, u32> {
    one(|element| raw::element_of_number(p, number, element))
}

/// x to the exponent, which may be negative.
pub fn power_of_x(p: u32, exponent: i32) -> Result<u32, u32> {
    one(|element| raw::power_of_x(p, exponent, element))
}

/// All roots of the polynomial with these one to five coefficients, constant first.
pub fn solve(p: u32, coefficients: &[u32]) -> Result<Roots, u32> {
    let mut count = [0; ONE];
    let mut roots = [0; MOST_ROOTS];
    let mut multiplicities = [0; MOST_ROOTS];
    match raw::solve(p, coefficients, &mut count, &mut roots, &mut multiplicities) {
        0 => Ok(Roots { count: count[0], roots: roots, multiplicities: multiplicities }),
        number => Err(number),
    }
}

/// The coefficients, constant first, of the product of all (x + r), r the up to four roots.
pub fn build(p: u32, roots: &[u32]) -> Result<[u32; MOST_COEFFICIENTS], u32> {
    let mut coefficients = [0; MOST_COEFFICIENTS];
    match raw::build(p, roots, &mut coefficients) {
        0 => Ok(coefficients),
        number => Err(number),
    }
}

/// All roots of the affine equation c + l0*x + l1*x^2 + l2*x^4 + .. = 0 with the 1 to m + 1 coefficients c, l0, l1, ..
pub fn affine_solve(p: u32, coefficients: &[u32]) -> Result<Space, u32> {
    let mut space = [0; SPACE];
    let mut directions = [0; DIRECTIONS];
    match raw::affine_solve(p, coefficients, &mut space, &mut directions) {
        0 => Ok(Space { found: space[SPACE_FOUND] != 0, k: space[SPACE_K], base: space[SPACE_BASE], directions: directions }),
        number => Err(number),
    }
}

/// The root of the affine equation at place n, from 0, in ascending order.
pub fn root_at_place(p: u32, coefficients: &[u32], n: u32) -> Result<u32, u32> {
    one(|root| raw::root_at_place(p, coefficients, n, root))
}

/// Writes all roots of the affine equation, ascending, at the front of `list`, and says how many they are. If `list` is too short, the call
/// is turned down by `NO_PLACE` and `list` stays as it was.
pub fn list_roots(p: u32, coefficients: &[u32], list: &mut [u16]) -> Result<usize, u32> {
    one(|count| raw::list_roots(p, coefficients, count, list)).map(|count| count as usize)
}

/// The answer to one frame line, given without its line feed. A line that is turned down has an answer too, so there is always one: both
/// lists have room here.
pub fn answer_line(line: &[u8]) -> Result<Answer, u32> {
    let mut text = [0; ANSWER_ROOM];
    one(|count| raw::answer_line(line, count, &mut text)).map(|count| Answer { text: text, length: count as usize })
}

/// The value that a call writes into a list with room for one.
fn one<F: FnOnce(&mut [u32]) -> u32>(call: F) -> Result<u32, u32> {
    let mut value = [0; ONE];
    match call(&mut value) {
        0 => Ok(value[0]),
        number => Err(number),
    }
}

/// The calls as C has them: every list is a slice of the caller's, of any length. They return 0 with the values at the front of the lent
/// lists, or the number that they were turned down by, and then no lent entry was touched.
///
/// Every `unsafe` here rests on the same: pointer and length are those of one slice, and what is written to was lent as `&mut`.
pub mod raw {
    use super::c;

    pub fn accept(p: u32, degree: &mut [u32]) -> u32 {
        unsafe { c::gfroots_accept(p, degree.as_mut_ptr(), degree.len()) }
    }

    pub fn house_polynomial(degree: u32, polynomial: &mut [u32]) -> u32 {
        unsafe { c::gfroots_house_polynomial(degree, polynomial.as_mut_ptr(), polynomial.len()) }
    }

    pub fn sum(p: u32, a: u32, b: u32, element: &mut [u32]) -> u32 {
        unsafe { c::gfroots_sum(p, a, b, element.as_mut_ptr(), element.len()) }
    }

    pub fn product(p: u32, a: u32, b: u32, element: &mut [u32]) -> u32 {
        unsafe { c::gfroots_product(p, a, b, element.as_mut_ptr(), element.len()) }
    }

    pub fn quotient(p: u32, a: u32, b: u32, element: &mut [u32]) -> u32 {
        unsafe { c::gfroots_quotient(p, a, b, element.as_mut_ptr(), element.len()) }
    }

    pub fn power(p: u32, a: u32, exponent: i32, element: &mut [u32]) -> u32 {
        unsafe { c::gfroots_power(p, a, exponent, element.as_mut_ptr(), element.len()) }
    }

    pub fn square_root(p: u32, b: u32, element: &mut [u32]) -> u32 {
        unsafe { c::gfroots_square_root(p, b, element.as_mut_ptr(), element.len()) }
    }

    pub fn trace(p: u32, c: u32, trace: &mut [u32]) -> u32 {
        unsafe { c::gfroots_trace(p, c, trace.as_mut_ptr(), trace.len()) }
    }

    pub fn number_of_element(p: u32, a: u32, number: &mut [u32]) -> u32 {
        unsafe { c::gfroots_number_of_element(p, a, number.as_mut_ptr(), number.len()) }
    }

    pub fn element_of_number(p: u32, number: u32, element: &mut [u32]) -> u32 {
        unsafe { c::gfroots_element_of_number(p, number, element.as_mut_ptr(), element.len()) }
    }

    pub fn power_of_x(p: u32, exponent: i32, element: &mut [u32]) -> u32 {
        unsafe { c::gfroots_power_of_x(p, exponent, element.as_mut_ptr(), element.len()) }
    }

    pub fn solve(p: u32, coefficients: &[u32], count: &mut [u32], roots: &mut [u32], multiplicities: &mut [u32]) -> u32 {
        unsafe {
            c::gfroots_solve(
                p,
                coefficients.as_ptr(),
                coefficients.len(),
                count.as_mut_ptr(),
                count.len(),
                roots.as_mut_ptr(),
                roots.len(),
                multiplicities.as_mut_ptr(),
                multiplicities.len(),
            )
        }
    }

    pub fn build(p: u32, roots: &[u32], coefficients: &mut [u32]) -> u32 {
        unsafe { c::gfroots_build(p, roots.as_ptr(), roots.len(), coefficients.as_mut_ptr(), coefficients.len()) }
    }

    pub fn affine_solve(p: u32, coefficients: &[u32], space: &mut [u32], directions: &mut [u32]) -> u32 {
        unsafe {
            c::gfroots_affine_solve(
                p,
                coefficients.as_ptr(),
                coefficients.len(),
                space.as_mut_ptr(),
                space.len(),
                directions.as_mut_ptr(),
                directions.len(),
            )
        }
    }

    pub fn root_at_place(p: u32, coefficients: &[u32], n: u32, root: &mut [u32]) -> u32 {
        unsafe { c::gfroots_root_at_place(p, coefficients.as_ptr(), coefficients.len(), n, root.as_mut_ptr(), root.len()) }
    }

    pub fn list_roots(p: u32, coefficients: &[u32], count: &mut [u32], list: &mut [u16]) -> u32 {
        unsafe {
            c::gfroots_list_roots(
                p,
                coefficients.as_ptr(),
                coefficients.len(),
                count.as_mut_ptr(),
                count.len(),
                list.as_mut_ptr(),
                list.len(),
            )
        }
    }

    pub fn answer_line(line: &[u8], count: &mut [u32], answer: &mut [u8]) -> u32 {
        unsafe {
            c::gfroots_answer_line(line.as_ptr(), line.len(), count.as_mut_ptr(), count.len(), answer.as_mut_ptr(), answer.len())
        }
    }
}

/// The declarations of include/gfroots.h, in its order. `size_t` is `usize`.
mod c {
    unsafe extern "C" {
        pub fn gfroots_accept(p: u32, degree: *mut u32, degree_len: usize) -> u32;
        pub fn gfroots_house_polynomial(degree: u32, polynomial: *mut u32, polynomial_len: usize) -> u32;
        pub fn gfroots_sum(p: u32, a: u32, b: u32, element: *mut u32, element_len: usize) -> u32;
        pub fn gfroots_product(p: u32, a: u32, b: u32, element: *mut u32, element_len: usize) -> u32;
        pub fn gfroots_quotient(p: u32, a: u32, b: u32, element: *mut u32, element_len: usize) -> u32;
        pub fn gfroots_power(p: u32, a: u32, exponent: i32, element: *mut u32, element_len: usize) -> u32;
        pub fn gfroots_square_root(p: u32, b: u32, element: *mut u32, element_len: usize) -> u32;
        pub fn gfroots_trace(p: u32, c: u32, trace: *mut u32, trace_len: usize) -> u32;
        pub fn gfroots_number_of_element(p: u32, a: u32, number: *mut u32, number_len: usize) -> u32;
        pub fn gfroots_element_of_number(p: u32, number: u32, element: *mut u32, element_len: usize) -> u32;
        pub fn gfroots_power_of_x(p: u32, exponent: i32, element: *mut u32, element_len: usize) -> u32;
        pub fn gfroots_solve(
            p: u32,
            coefficients: *const u32,
            coefficients_len: usize,
            count: *mut u32,
            count_len: usize,
            roots: *mut u32,
            roots_len: usize,
            multiplicities: *mut u32,
            multiplicities_len: usize,
        ) -> u32;
        pub fn gfroots_build(
            p: u32,
            roots: *const u32,
            roots_len: usize,
            coefficients: *mut u32,
            coefficients_len: usize,
        ) -> u32;
        pub fn gfroots_affine_solve(
            p: u32,
            coefficients: *const u32,
            coefficients_len: usize,
            space: *mut u32,
            space_len: usize,
            directions: *mut u32,
            directions_len: usize,
        ) -> u32;
        pub fn gfroots_root_at_place(
            p: u32,
            coefficients: *const u32,
            coefficients_len: usize,
            n: u32,
            root: *mut u32,
            root_len: usize,
        ) -> u32;
        pub fn gfroots_list_roots(
            p: u32,
            coefficients: *const u32,
            coefficients_len: usize,
            count: *mut u32,
            count_len: usize,
            list: *mut u16,
            list_len: usize,
        ) -> u32;
        pub fn gfroots_answer_line(
            line: *const u8,
            line_len: usize,
            count: *mut u32,
            count_len: usize,
            answer: *mut u8,
            answer_len: usize,
        ) -> u32;
    }
}
