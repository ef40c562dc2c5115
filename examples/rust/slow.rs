//! What document 01 says of every call, computed the slow way: divide by every polynomial, try every element, walk through every power.
//! Nothing here is shared with the library. A refusal is `Err` of its number, and tests stand in the order of the table of numbers.
//!
//! Products of many elements go through logarithms, or the large fields would take too long. Their base is an element that is seen to
//! generate the field, and the tables are made by carry-less products and long division.

use std::collections::HashMap;
use std::rc::Rc;

/// Document 01, "The house table": degrees 2 to 16.
pub const HOUSE: [u32; 15] = [7, 11, 19, 37, 67, 131, 285, 529, 1033, 2053, 4179, 8219, 17475, 32771, 69643];

/// The highest bit of a; 0 for 0 and 1.
fn degree(a: u64) -> u32 {
    63 - (a | 1).leading_zeros()
}

/// Product over GF(2): a moved up once for every bit of b.
fn times(a: u32, b: u32) -> u64 {
    let mut product = 0;
    for i in 0..32 {
        if b >> i & 1 == 1 {
            product ^= (a as u64) << i;
        }
    }
    product
}

/// What long division of a by p leaves, over GF(2). The degree of p is at least 1.
fn remainder(mut a: u64, p: u32) -> u32 {
    let below = degree(p as u64);
    while degree(a) >= below {
        a ^= (p as u64) << (degree(a) - below);
    }
    a as u32
}

/// A field with its tables.
pub struct Field {
    pub m: u32,
    /// 2^m.
    pub size: u32,
    /// The powers of a generator, twice one after the other, so that a sum of two logarithms need not be reduced.
    antilog: Vec<u32>,
    /// The place of each element but 0 in the powers of the generator.
    log: Vec<u32>,
    /// x^0, x^1, .. x^(2^m - 2). They repeat where x does not generate the field.
    of_x: Vec<u32>,
    /// The logarithm number of each element.
    number: Vec<u32>,
    /// The element that squares to each element.
    square_root: Vec<u32>,
}

impl Field {
    /// The field of a polynomial that is accepted.
    fn new(p: u32) -> Field {
        let m = degree(p as u64);
        let size = 1 << m;
        let powers_of = |a: u32| {
            let mut powers = vec![1];
            for _ in 2..size {
                let last = powers[powers.len() - 1];
                powers.push(remainder(times(last, a), p));
            }
            powers
        };
        // A generator is an element with a 1 only at the front of its first 2^m - 1 powers.
        let mut generator = 2;
        let mut antilog = powers_of(generator);
        while antilog[1..].contains(&1) {
            generator += 1;
            antilog = powers_of(generator);
        }
        let mut log = vec![0; size as usize];
        for (i, &a) in antilog.iter().enumerate() {
            log[a as usize] = i as u32;
        }
        let again = antilog.clone();
        antilog.extend(again);
        let of_x = powers_of(2);
        let mut number = vec![0; size as usize];
        for (e, &a) in of_x.iter().enumerate() {
            if number[a as usize] == 0 {
                number[a as usize] = e as u32 + 1;
            }
        }
        let mut square_root = vec![0; size as usize];
        for a in 0..size {
            square_root[remainder(times(a, a), p) as usize] = a;
        }
        Field { m: m, size: size, antilog: antilog, log: log, of_x: of_x, number: number, square_root: square_root }
    }

    pub fn product(&self, a: u32, b: u32) -> u32 {
        if a == 0 || b == 0 {
            return 0;
        }
        self.antilog[(self.log[a as usize] + self.log[b as usize]) as usize]
    }

    /// The polynomial at r, highest coefficient first.
    fn value(&self, coefficients: &[u32], r: u32) -> u32 {
        coefficients.iter().rev().fold(0, |value, &c| self.product(value, r) ^ c)
    }

    /// The polynomial divided by x + r, and what is left.
    fn divided(&self, coefficients: &[u32], r: u32) -> (Vec<u32>, u32) {
        let mut quotient = vec![0; coefficients.len() - 1];
        let mut carry = 0;
        for i in (0..coefficients.len()).rev() {
            let c = coefficients[i] ^ self.product(carry, r);
            if i == 0 {
                return (quotient, c);
            }
            quotient[i - 1] = c;
            carry = c;
        }
        (quotient, 0)
    }

    /// The largest k with (x + r)^k dividing the polynomial, which is not 0.
    fn multiplicity(&self, coefficients: &[u32], r: u32) -> u32 {
        let mut k = 0;
        let mut rest = coefficients.to_vec();
        loop {
            let (quotient, left) = self.divided(&rest, r);
            if left != 0 {
                return k;
            }
            k += 1;
            rest = quotient;
        }
    }

    /// The affine polynomial c + l0*x + l1*x^2 + l2*x^4 + .. at x.
    pub fn affine_value(&self, coefficients: &[u32], x: u32) -> u32 {
        let mut value = coefficients[0];
        let mut power = x;
        for &l in &coefficients[1..] {
            value ^= self.product(l, power);
            power = self.product(power, power);
        }
        value
    }
}

/// Roots in four places, with their multiplicities.
#[derive(Clone, Copy, Debug, PartialEq)]
pub struct Solved {
    pub count: u32,
    pub roots: [u32; 4],
    pub multiplicities: [u32; 4],
}

/// Found, k, base and directions, read off the roots.
#[derive(Clone, Copy, Debug, PartialEq)]
pub struct Space {
    pub found: u32,
    pub k: u32,
    pub base: u32,
    pub directions: [u32; 16],
}

/// The space of the roots of an affine equation, which are given in ascending order.
pub fn space(roots: &[u16]) -> Space {
    let mut space = Space { found: 0, k: 0, base: 0, directions: [0; 16] };
    if roots.is_empty() {
        return space;
    }
    space.found = 1;
    space.base = roots[0] as u32;
    while 1 << space.k < roots.len() {
        // The root at place 2^i is the base with the direction i alone.
        space.directions[space.k as usize] = roots[1 << space.k] as u32 ^ space.base;
        space.k += 1;
    }
    // What document 01 says of base and directions, so that the reading above is no assumption.
    let directions = &space.directions[..space.k as usize];
    for (i, &d) in directions.iter().enumerate() {
        let highest = 1 << degree(d as u64);
        assert!(d != 0 && space.base & highest == 0, "the highest bit of a direction is clear in the base");
        assert!(i == 0 || directions[i - 1] < d, "directions ascend");
        for (j, &other) in directions.iter().enumerate() {
            assert!(i == j || other & highest == 0, "the highest bit of a direction is clear in the others");
        }
    }
    assert!(roots.len() == 1 << space.k, "the roots are 2^k");
    for (n, &root) in roots.iter().enumerate() {
        let chosen = (0..directions.len()).filter(|i| n >> i & 1 == 1);
        assert!(root as u32 == chosen.fold(space.base, |root, i| root ^ directions[i]), "place n is base and directions by n's bits");
    }
    space
}

/// The root at place n of an affine equation with these roots.
pub fn root_at_place(roots: &Result<Vec<u16>, u32>, n: u32) -> Result<u32, u32> {
    match *roots {
        Err(number) => Err(number),
        Ok(ref roots) => roots.get(n as usize).map(|&root| root as u32).ok_or(7),
    }
}

/// The calls. What was found about a polynomial is kept, since it is asked for again and again.
pub struct Slow {
    tests: Vec<Option<Result<u32, u32>>>,
    fields: HashMap<u32, Rc<Field>>,
}

impl Slow {
    pub fn new() -> Slow {
        Slow { tests: vec![None; 131072], fields: HashMap::new() }
    }

    /// The degree of a field polynomial that is accepted: no polynomial of degree 1 to m/2 divides it.
    pub fn accept(&mut self, p: u32) -> Result<u32, u32> {
        if p < 4 || p >= 131072 {
            return Err(1);
        }
        if let Some(known) = self.tests[p as usize] {
            return known;
        }
        let m = degree(p as u64);
        let has_factor = (2..1 << (m / 2 + 1)).any(|d| remainder(p as u64, d) == 0);
        let answer = if has_factor { Err(2) } else { Ok(m) };
        self.tests[p as usize] = Some(answer);
        answer
    }

    /// The degree of a field polynomial that is accepted, if all these are elements of its field.
    fn elements(&mut self, p: u32, elements: &[u32]) -> Result<u32, u32> {
        let m = self.accept(p)?;
        if elements.iter().any(|&a| a >= 1 << m) {
            return Err(4);
        }
        Ok(m)
    }

    pub fn field(&mut self, p: u32) -> Result<Rc<Field>, u32> {
        self.accept(p)?;
        // A field of degree 16 has more than a megabyte of tables.
        if self.fields.len() > 100 && !self.fields.contains_key(&p) {
            self.fields.clear();
        }
        Ok(self.fields.entry(p).or_insert_with(|| Rc::new(Field::new(p))).clone())
    }

    /// The field, if all these are elements of it.
    fn field_of(&mut self, p: u32, elements: &[u32]) -> Result<Rc<Field>, u32> {
        self.elements(p, elements)?;
        self.field(p)
    }

    pub fn house_polynomial(&mut self, degree: u32) -> Result<u32, u32> {
        if degree < 2 || degree > 16 {
            return Err(1);
        }
        Ok(HOUSE[degree as usize - 2])
    }

    pub fn sum(&mut self, p: u32, a: u32, b: u32) -> Result<u32, u32> {
        self.elements(p, &[a, b])?;
        Ok(a ^ b)
    }

    /// By long division, not by logarithms.
    pub fn product(&mut self, p: u32, a: u32, b: u32) -> Result<u32, u32> {
        self.elements(p, &[a, b])?;
        Ok(remainder(times(a, b), p))
    }

    /// The one q with q times b = a: the first of all elements.
    pub fn quotient(&mut self, p: u32, a: u32, b: u32) -> Result<u32, u32> {
        let field = self.field_of(p, &[a, b])?;
        if b == 0 {
            return Err(6);
        }
        Ok((0..field.size).find(|&q| field.product(q, b) == a).expect("there is a quotient"))
    }

    /// The power of the logarithm times the exponent; powers come back after 2^m - 1 steps.
    pub fn power(&mut self, p: u32, a: u32, exponent: i32) -> Result<u32, u32> {
        let field = self.field_of(p, &[a])?;
        if a == 0 {
            return if exponent < 0 { Err(6) } else { Ok((exponent == 0) as u32) };
        }
        let steps = (field.log[a as usize] as i64 * exponent as i64).rem_euclid(field.size as i64 - 1);
        Ok(field.antilog[steps as usize])
    }

    pub fn square_root(&mut self, p: u32, b: u32) -> Result<u32, u32> {
        let field = self.field_of(p, &[b])?;
        Ok(field.square_root[b as usize])
    }

    pub fn trace(&mut self, p: u32, c: u32) -> Result<u32, u32> {
        let field = self.field_of(p, &[c])?;
        let mut sum = 0;
        let mut power = c;
        for _ in 0..field.m {
            sum ^= power;
            power = field.product(power, power);
        }
        Ok(sum)
    }

    pub fn number_of_element(&mut self, p: u32, a: u32) -> Result<u32, u32> {
        let field = self.field_of(p, &[a])?;
        Ok(field.number[a as usize])
    }

    pub fn element_of_number(&mut self, p: u32, number: u32) -> Result<u32, u32> {
        let field = self.field_of(p, &[number])?;
        Ok(if number == 0 { 0 } else { field.of_x[number as usize - 1] })
    }

    pub fn power_of_x(&mut self, p: u32, exponent: i32) -> Result<u32, u32> {
        let field = self.field(p)?;
        Ok(field.of_x[exponent.rem_euclid(field.size as i32 - 1) as usize])
    }

    pub fn solve(&mut self, p: u32, coefficients: &[u32]) -> Result<Solved, u32> {
        self.accept(p)?;
        if coefficients.is_empty() || coefficients.len() > 5 {
            return Err(3);
        }
        let field = self.field_of(p, coefficients)?;
        if coefficients.iter().all(|&c| c == 0) {
            return Err(5);
        }
        let mut solved = Solved { count: 0, roots: [0; 4], multiplicities: [0; 4] };
        for r in 0..field.size {
            if field.value(coefficients, r) == 0 {
                solved.roots[solved.count as usize] = r;
                solved.multiplicities[solved.count as usize] = field.multiplicity(coefficients, r);
                solved.count += 1;
            }
        }
        Ok(solved)
    }

    pub fn build(&mut self, p: u32, roots: &[u32]) -> Result<[u32; 5], u32> {
        self.accept(p)?;
        if roots.len() > 4 {
            return Err(3);
        }
        let field = self.field_of(p, roots)?;
        let mut built = [1, 0, 0, 0, 0];
        for &r in roots {
            let before = built;
            for i in 0..5 {
                built[i] = field.product(before[i], r) ^ if i > 0 { before[i - 1] } else { 0 };
            }
        }
        Ok(built)
    }

    /// All roots of an affine equation, ascending. Everything else that is said of it is read off them.
    pub fn affine_roots(&mut self, p: u32, coefficients: &[u32]) -> Result<Vec<u16>, u32> {
        let m = self.accept(p)?;
        if coefficients.is_empty() || coefficients.len() > m as usize + 1 {
            return Err(3);
        }
        let field = self.field_of(p, coefficients)?;
        Ok((0..field.size).filter(|&x| field.affine_value(coefficients, x) == 0).map(|x| x as u16).collect())
    }

    /// The answer to a frame line.
    pub fn answer_line(&mut self, line: &[u8]) -> Vec<u8> {
        let mut text = Vec::new();
        for byte in self.answer_bytes(line) {
            for digit in &[byte >> 4, byte & 15] {
                text.push(b"0123456789ABCDEF"[*digit as usize]);
            }
        }
        text
    }

    fn answer_bytes(&mut self, line: &[u8]) -> Vec<u8> {
        let malformed = vec![0xFF, 8];
        if line.is_empty() || line.len() > 1030 || line.len() % 2 == 1 {
            return malformed;
        }
        let mut bytes = Vec::new();
        for pair in line.chunks(2) {
            match (digit(pair[0]), digit(pair[1])) {
                (Some(high), Some(low)) => bytes.push(16 * high + low),
                _ => return malformed,
            }
        }
        if bytes.len() < 5 || bytes[0] < 1 || bytes[0] > 2 || bytes.len() != 5 + 2 * bytes[4] as usize {
            return malformed;
        }
        let kind = bytes[0];
        let p = (bytes[1] as u32) << 16 | (bytes[2] as u32) << 8 | bytes[3] as u32;
        let coefficients: Vec<u32> = bytes[5..].chunks(2).map(|pair| (pair[0] as u32) << 8 | pair[1] as u32).collect();
        let found = if kind == 1 {
            self.solve(p, &coefficients).map(|solved| {
                let mut answer = vec![kind, 0, solved.count as u8];
                for i in 0..solved.count as usize {
                    answer.extend(two_bytes(solved.roots[i]));
                    answer.push(solved.multiplicities[i] as u8);
                }
                answer
            })
        } else {
            self.affine_roots(p, &coefficients).map(|roots| {
                let space = space(&roots);
                let mut answer = vec![kind, 0, space.found as u8, space.k as u8];
                answer.extend(two_bytes(space.base));
                for &direction in &space.directions[..space.k as usize] {
                    answer.extend(two_bytes(direction));
                }
                answer
            })
        };
        found.unwrap_or_else(|number| vec![kind, number as u8])
    }
}

/// The value of a hexadecimal digit, either letter case.
fn digit(character: u8) -> Option<u8> {
    match character {
        b'0'..=b'9' => Some(character - b'0'),
        b'A'..=b'F' => Some(character - b'A' + 10),
        b'a'..=b'f' => Some(character - b'a' + 10),
        _ => None,
    }
}

fn two_bytes(a: u32) -> Vec<u8> {
    vec![(a >> 8) as u8, a as u8]
}
