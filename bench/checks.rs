//! Before anything is timed: the answers to the inputs must be right, since the time of a wrong answer says nothing.

use crate::inputs::{Equations, Inputs, linear_value, product, try_elements};
use crate::{gfroots, unguarded};

pub fn check(inputs: &Inputs) -> Result<(), String> {
    accept(inputs)?;
    arithmetic(inputs)?;
    for set in &inputs.equations {
        equations(inputs, set)?;
    }
    affine(inputs)?;
    list(inputs)?;
    lines(inputs)
}

fn require(right: bool, what: impl FnOnce() -> String) -> Result<(), String> {
    if right { Ok(()) } else { Err(format!("wrong answer: {}", what())) }
}

fn accept(inputs: &Inputs) -> Result<(), String> {
    let m = inputs.m;
    for &p in &inputs.polynomials {
        require(gfroots::accept(p) == Ok(m), || format!("accept({p})"))?;
    }
    for p in (1 << m..2 << m).step_by(97).chain(inputs.polynomials.iter().copied()) {
        require(gfroots::accept(p).is_ok() == unguarded::factor_free(p, m), || format!("factor_free({p}, {m}) against accept"))?;
    }
    Ok(())
}

fn arithmetic(inputs: &Inputs) -> Result<(), String> {
    let (p, m) = (inputs.p, inputs.m);
    for &(a, b) in &inputs.pairs {
        let expected = product(p, m, a, b);
        require(gfroots::product(p, a, b) == Ok(expected), || format!("product({p}, {a}, {b})"))?;
        require(unguarded::product(p, m, a, b) == expected, || format!("product({p}, {a}, {b}), test taken out"))?;
        let quotient = unguarded::quotient(p, m, a, b);
        require(product(p, m, quotient, b) == a, || format!("quotient({p}, {a}, {b}), test taken out"))?;
        require(gfroots::quotient(p, a, b) == Ok(quotient), || format!("quotient({p}, {a}, {b})"))?;
    }
    Ok(())
}

/// A split has the roots that it was built from. The first few equations of each set are also held to trying every element.
fn equations(inputs: &Inputs, set: &Equations) -> Result<(), String> {
    let (p, m) = (inputs.p, inputs.m);
    for (place, equation) in set.all.iter().enumerate() {
        let solved = unguarded::solve(p, equation);
        require(gfroots::solve(p, equation) == Ok(solved), || format!("solve({p}, {equation:?}), with and without the test"))?;
        let split = set.expected.get(place).is_none_or(|expected| *expected == solved);
        require(split, || format!("solve({p}, {equation:?}) does not give its roots back"))?;
        let counted = place >= 4 || solved.count == try_elements(p, m, equation, 0..1 << m);
        require(counted, || format!("solve({p}, {equation:?}) against every element"))?;
    }
    Ok(())
}

/// The base is a root, and the linear part takes each direction to 0.
fn affine(inputs: &Inputs) -> Result<(), String> {
    let (p, m) = (inputs.p, inputs.m);
    for equation in inputs.affine_short.iter().chain(&inputs.affine_full) {
        let space = gfroots::affine_solve(p, equation).map_err(|number| format!("affine_solve({p}, {equation:?}): {number}"))?;
        let (constant, linear) = (equation[0], &equation[1..]);
        let based = !space.found || linear_value(p, m, linear, space.base) == constant;
        let directed = space.directions[..space.k as usize].iter().all(|v| linear_value(p, m, linear, *v) == 0);
        require(based && directed, || format!("affine_solve({p}, {equation:?})"))?;
    }
    Ok(())
}

fn list(inputs: &Inputs) -> Result<(), String> {
    let mut room = vec![0; gfroots::LIST_ROOM];
    let count = gfroots::list_roots(inputs.p, &[0], &mut room);
    let all = room.iter().take(1 << inputs.m).enumerate().all(|(place, root)| place == *root as usize);
    require(count == Ok(1 << inputs.m) && all, || format!("list_roots({}, [0])", inputs.p))
}

fn lines(inputs: &Inputs) -> Result<(), String> {
    for line in &inputs.lines {
        let right = gfroots::answer_line(&line.text).is_ok_and(|answer| answer.text[..answer.length] == line.answer[..]);
        require(right, || format!("answer_line({})", String::from_utf8_lossy(&line.text)))?;
    }
    Ok(())
}
