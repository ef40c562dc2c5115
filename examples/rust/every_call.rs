//! Compares every call of libfirmware.a with a slow program that tries every element (slow.rs), and says how many inputs agree. At the
//! first that does not it prints the input and both answers, and ends with status 1.
//!
//! An input is the arguments of a call and the lengths of the lists that it is lent. Lent lists hold a pattern before the call, and so do
//! some cells before and after them. All of it is compared afterwards, since a call may write its values and nothing else.
//!
//! Inputs are drawn by a generator with a fixed seed: two runs compare the same.

mod gfroots;
mod slow;

use gfroots::raw;
use slow::{Slow, Solved, HOUSE};
use std::fmt::Debug;
use std::process::exit;

fn main() {
    let mut t = Test::new();
    table_of_values(&mut t.slow);
    accept(&mut t);
    t.report("accept");
    house_polynomial(&mut t);
    t.report("house_polynomial");
    pairs(&mut t, Test::sum);
    t.report("sum");
    pairs(&mut t, Test::product);
    t.report("product");
    pairs(&mut t, Test::quotient);
    t.report("quotient");
    power(&mut t);
    t.report("power");
    singles(&mut t, Test::square_root);
    t.report("square_root");
    singles(&mut t, Test::trace);
    t.report("trace");
    singles(&mut t, Test::number_of_element);
    t.report("number_of_element");
    singles(&mut t, Test::element_of_number);
    t.report("element_of_number");
    power_of_x(&mut t);
    t.report("power_of_x");
    solve(&mut t);
    t.report("solve");
    build(&mut t);
    t.report("build");
    affine(&mut t, Test::affine_solve);
    t.report("affine_solve");
    affine(&mut t, Test::root_at_place);
    t.report("root_at_place");
    affine(&mut t, Test::list_roots);
    t.report("list_roots");
    answer_line(&mut t);
    t.report("answer_line");
    println!("all {} inputs agree", t.inputs);
}

/// Who tells whether the slow side is right? Here it must say what document 01 does, in its table of values and its example of lines.
fn table_of_values(slow: &mut Slow) {
    let mut roots = |p, coefficients: &[u32], want: &[(u32, u32)]| {
        let solved = slow.solve(p, coefficients).expect("every row is solved");
        let found: Vec<(u32, u32)> = (0..solved.count as usize).map(|i| (solved.roots[i], solved.multiplicities[i])).collect();
        assert_eq!(found, want, "p {}, coefficients {:?}", p, coefficients);
    };
    roots(19, &[14, 8, 1], &[(3, 1), (11, 1)]);
    roots(37, &[31, 1, 1], &[(24, 1), (25, 1)]);
    roots(37, &[23, 1, 1], &[]);
    roots(19, &[1, 1, 1], &[(6, 1), (7, 1)]);
    roots(19, &[8, 0, 0, 1], &[(2, 1), (12, 1), (14, 1)]);
    roots(19, &[2, 0, 0, 1], &[]);
    roots(11, &[2, 0, 0, 1], &[(7, 1)]);
    roots(19, &[0, 1, 0, 1], &[(0, 1), (1, 2)]);
    roots(19, &[0, 1, 1, 1, 1], &[(0, 1), (1, 3)]);
    roots(19, &[3, 0, 0, 0, 1], &[(2, 4)]);
    roots(19, &[6, 1, 1, 0, 0], &[(2, 1), (3, 1)]);
    assert_eq!(slow.trace(37, 23), Ok(1));
    let space = slow::space(&slow.affine_roots(37, &[31, 1, 1]).expect("the row is solved"));
    assert_eq!((space.found, space.k, space.base, &space.directions[..2]), (1, 1, 24, &[1, 0][..]));
    assert_eq!(slow.power(19, 2, -1), Ok(9));
    assert_eq!(slow.number_of_element(31, 3), Ok(0));
    assert_eq!(slow.number_of_element(19, 15), Ok(13));
    assert_eq!([slow.accept(3), slow.accept(4), slow.accept(7), slow.accept(131072)], [Err(1), Err(2), Ok(2), Err(1)]);
    assert_eq!((slow.solve(19, &[15]).map(|solved| solved.count), slow.solve(19, &[16])), (Ok(0), Err(4)));
    for (line, answer) in LINES.iter().zip(&["010002000301000B01", "020000000000", "0200010100180001", "0102"]) {
        assert_eq!(slow.answer_line(line.as_bytes()), answer.as_bytes());
    }
}

/// The lines of document 01.
const LINES: [&str; 4] = ["0100001303000E00080001", "0200002503001700010001", "0200002503001F00010001", "01000015010001"];

// ---- which inputs ----

/// Every field polynomial up to a few past the last one, and numbers of any size.
fn accept(t: &mut Test) {
    for p in 0..131081 {
        t.accept(p);
    }
    for p in edges() {
        t.accept(p);
    }
    // Right in the lower bits, so that no upper bit may get lost.
    for i in 17..32 {
        for p in &HOUSE {
            t.accept(1 << i | p);
        }
    }
    for _ in 0..20000 {
        let p = t.random.number();
        t.accept(p);
    }
}

fn house_polynomial(t: &mut Test) {
    for degree in 0..2000 {
        t.house_polynomial(degree);
    }
    // The degrees that there are, often enough to meet every length of the lent list.
    for _ in 0..100 {
        for degree in 2..17 {
            t.house_polynomial(degree);
        }
    }
    for degree in edges() {
        t.house_polynomial(degree);
    }
    for i in 5..32 {
        for degree in 0..18 {
            t.house_polynomial(1 << i | degree);
        }
    }
    for _ in 0..2000 {
        let degree = t.random.number();
        t.house_polynomial(degree);
    }
}

/// A call with two elements: all pairs in every field of degree up to 5, with one number past the field; drawn pairs in larger fields; and
/// faults of every kind beside each other.
fn pairs(t: &mut Test, call: fn(&mut Test, u32, u32, u32)) {
    for m in 2..6 {
        for p in t.every_field(m) {
            for a in 0..(1 << m) + 1 {
                for b in 0..(1 << m) + 1 {
                    call(t, p, a, b);
                }
            }
        }
    }
    for m in 6..17 {
        for _ in 0..2000 {
            let p = t.field(m);
            let (a, b) = (t.element(m), t.element(m));
            call(t, p, a, b);
        }
    }
    for _ in 0..10000 {
        let m = t.degree();
        let p = t.any_polynomial(m);
        let (a, b) = (t.any_number(m), t.any_number(m));
        call(t, p, a, b);
    }
}

/// A call with one element, or one logarithm number: every one in every field of degree up to 8 and in all of the house's fields, drawn
/// ones in other fields, and faults.
fn singles(t: &mut Test, call: fn(&mut Test, u32, u32)) {
    for m in 2..9 {
        for p in t.every_field(m) {
            for a in 0..(1 << m) + 2 {
                call(t, p, a);
            }
        }
    }
    for m in 9..17 {
        for a in 0..(1 << m) + 2 {
            call(t, HOUSE[m as usize - 2], a);
        }
    }
    for m in 9..17 {
        for _ in 0..600 {
            let p = t.field(m);
            let a = t.element(m);
            call(t, p, a);
        }
    }
    for _ in 0..10000 {
        let m = t.degree();
        let p = t.any_polynomial(m);
        let a = t.any_number(m);
        call(t, p, a);
    }
}

fn power(t: &mut Test) {
    for m in 2..5 {
        for p in t.every_field(m) {
            for a in 0..(1 << m) + 1 {
                for exponent in -40..41 {
                    t.power(p, a, exponent);
                }
                for exponent in exponents(m) {
                    t.power(p, a, exponent);
                }
            }
        }
    }
    for m in 5..17 {
        for _ in 0..40 {
            let p = t.field(m);
            let a = t.element(m);
            for exponent in exponents(m) {
                t.power(p, a, exponent);
            }
        }
        for _ in 0..1000 {
            let p = t.field(m);
            let a = t.element(m);
            let exponent = t.exponent(m);
            t.power(p, a, exponent);
        }
    }
    for _ in 0..20000 {
        let m = t.degree();
        let p = t.any_polynomial(m);
        let a = if t.random.below(4) == 0 { 0 } else { t.any_number(m) };
        let exponent = t.exponent(m);
        t.power(p, a, exponent);
    }
}

fn power_of_x(t: &mut Test) {
    for m in 2..17 {
        for exponent in -1000..1001 {
            t.power_of_x(HOUSE[m as usize - 2], exponent);
        }
        for p in t.stock[m as usize].clone() {
            for exponent in exponents(m) {
                t.power_of_x(p, exponent);
            }
            for _ in 0..300 {
                let exponent = t.exponent(m);
                t.power_of_x(p, exponent);
            }
        }
    }
    for _ in 0..10000 {
        let m = t.degree();
        let p = t.any_polynomial(m);
        let exponent = t.exponent(m);
        t.power_of_x(p, exponent);
    }
}

fn solve(t: &mut Test) {
    // Every equation for m = 2 and 3, and those of degree up to 3 for m = 4.
    for m in 2..5 {
        for p in t.every_field(m) {
            for count in 1..if m == 4 { 5 } else { 6 } {
                every_list(1 << m, count, &mut |coefficients| t.solve(p, coefficients));
            }
        }
    }
    for m in 4..17 {
        for _ in 0..tries(m, 25) {
            let p = t.field(m);
            let coefficients = t.equation(p, m);
            t.solve(p, &coefficients);
        }
    }
    faulty_lists(t, |t, p, list| t.solve(p, list));
    // Every length of every list: solved, and with each fault.
    for &m in &[2, 3, 8, 16] {
        let p = t.field(m);
        let equation = t.equation(p, m);
        let far = t.polynomial_of_kind(m, 1);
        let composed = t.polynomial_of_kind(m, 2);
        let large = [0, 0, 1 << m];
        for &(p, coefficients) in &[(p, &equation[..]), (far, &[]), (composed, &[]), (p, &[]), (p, &[1; 6]), (p, &large), (p, &[0; 5])] {
            let want = t.slow.solve(p, coefficients);
            every_room(&[gfroots::ONE, gfroots::MOST_ROOTS, gfroots::MOST_ROOTS], &mut |rooms| t.solve_in(p, coefficients, want, rooms));
        }
    }
}

fn build(t: &mut Test) {
    for m in 2..5 {
        for p in t.every_field(m) {
            for count in 0..if m == 4 { 4 } else { 5 } {
                every_list(1 << m, count, &mut |roots| t.build(p, roots));
            }
        }
    }
    for m in 4..17 {
        for _ in 0..2000 {
            let p = t.field(m);
            let mut roots = t.elements(m, 4);
            if t.random.below(2) == 0 {
                roots[1] = roots[3];
            }
            roots.truncate(t.random.below(5) as usize);
            t.build(p, &roots);
        }
    }
    faulty_lists(t, |t, p, list| t.build(p, list));
}

/// A call about an affine equation.
fn affine(t: &mut Test, call: fn(&mut Test, u32, &[u32])) {
    // Every equation for m = 2 and 3, and those up to x^2 for m = 4.
    for m in 2..5 {
        for p in t.every_field(m) {
            for count in 1..if m == 4 { 4 } else { m as usize + 2 } {
                every_list(1 << m, count, &mut |coefficients| call(t, p, coefficients));
            }
        }
    }
    for m in 4..17 {
        for _ in 0..tries(m, 23) {
            let p = t.field(m);
            let coefficients = t.affine_equation(p, m);
            call(t, p, &coefficients);
        }
        // Every element is a root.
        let p = t.field(m);
        let count = 1 + t.random.below(m + 1) as usize;
        call(t, p, &vec![0; count]);
    }
    faulty_lists(t, call);
}

/// Lists of coefficients or roots with every fault beside every other: a polynomial that is accepted, out of range or has a factor; any
/// number of entries; entries too large in any place; nothing but zeros.
fn faulty_lists(t: &mut Test, call: fn(&mut Test, u32, &[u32])) {
    for m in 2..17 {
        for kind in 0..3 {
            for length in 0..21 {
                for fault in 0..6 {
                    let p = t.polynomial_of_kind(m, kind);
                    let list = t.faulty_list(m, length, fault);
                    call(t, p, &list);
                }
            }
            // 259 and 65,539 would be 3 if a length lost its upper bits.
            for length in &[259, 2000, 65539] {
                let p = t.polynomial_of_kind(m, kind);
                let fault = t.random.below(6);
                let list = t.faulty_list(m, *length, fault);
                call(t, p, &list);
            }
        }
    }
}

fn answer_line(t: &mut Test) {
    for line in &LINES {
        t.answer_line(line.as_bytes());
        t.every_damage(line.as_bytes());
    }
    for m in 2..17 {
        for kind in 1..3 {
            for _ in 0..tries(m, 22) {
                let p = t.field(m);
                let coefficients = if kind == 1 { t.equation(p, m) } else { t.affine_equation(p, m) };
                let line = t.line(kind, p, coefficients.len() as u8, &coefficients);
                t.answer_line(&line);
            }
        }
        // The longest answer of this field: every element is a root.
        let p = t.field(m);
        let line = t.line(2, p, 1, &[0]);
        t.answer_line(&line);
    }
    // Every count, with as many coefficients, one fewer and one more; 255 of them are 1,030 digits, the longest line that is well formed.
    for count in 0..256 {
        for kind in 0..4 {
            for off in 0..3 {
                let m = t.degree();
                let polynomial_kind = t.random.below(3);
                let p = t.polynomial_of_kind(m, polynomial_kind);
                let length = (count + off) as usize;
                let coefficients = t.elements(m, if length > 0 { length - 1 } else { 0 });
                let line = t.line(kind, p, count as u8, &coefficients);
                t.answer_line(&line);
                t.answer_line(&line[1..]);
                t.answer_line(&line[..line.len() - 1]);
            }
        }
    }
    for length in 0..1060 {
        t.answer_line(&vec![b'0'; length]);
        t.answer_line(&vec![b'2'; length]);
        t.answer_line(&vec![0; length]);
    }
    // 278 and 65,558 would be 22 if a length lost its upper bits, and that is the length of the line in front.
    for length in &[278, 2000, 65558, 100000] {
        t.answer_line(&vec![b'0'; *length]);
        t.answer_line(&vec![0; *length]);
        let mut line = b"0100001303000E00080001".to_vec();
        line.resize(*length, b'0');
        t.answer_line(&line);
        let lines = b"0100001303000E00080001\n".iter().cycle().take(*length).cloned().collect::<Vec<u8>>();
        t.answer_line(&lines);
    }
    // Faults within well formed lines, and then damaged characters.
    for _ in 0..30000 {
        let m = 2 + t.random.below(15).min(t.random.below(15)).min(t.random.below(15));
        let kind = 1 + t.random.below(2) as u8;
        let p = t.any_polynomial(m);
        let coefficients = if t.slow.accept(p) == Ok(m) && t.random.below(2) == 0 {
            if kind == 1 { t.equation(p, m) } else { t.affine_equation(p, m) }
        } else {
            let length = t.random.below(m + 4) as usize;
            let fault = t.random.below(6);
            t.faulty_list(m, length, fault)
        };
        let mut line = t.line(kind, p, coefficients.len() as u8, &coefficients);
        t.answer_line(&line);
        for _ in 0..1 + t.random.below(3) {
            t.damage(&mut line);
        }
        t.answer_line(&line);
    }
    for _ in 0..5000 {
        let length = t.random.below(60);
        let noise = (0..length).map(|_| t.random.number() as u8).collect::<Vec<u8>>();
        t.answer_line(&noise);
        let digits = noise.iter().map(|byte| b"0123456789ABCDEFabcdef"[*byte as usize % 22]).collect::<Vec<u8>>();
        t.answer_line(&digits);
    }
    for line in &["", "0100001303000E00080001", "01000015010001", "0200002503001F00010001", "0200000401000", "02000013010000"] {
        let want = t.slow.answer_line(line.as_bytes());
        every_room(&[gfroots::ONE, gfroots::ANSWER_ROOM], &mut |rooms| t.answer_line_in(line.as_bytes(), &want, rooms));
    }
}

/// How many equations to try in a field of degree m, so that about 2^budget elements are tried.
fn tries(m: u32, budget: u32) -> u32 {
    (1 << (budget - m)).min(4000)
}

/// Every list of this many numbers below a bound.
fn every_list(bound: u32, count: usize, each: &mut dyn FnMut(&[u32])) {
    let mut list = vec![0; count];
    loop {
        each(&list);
        let mut place = 0;
        while place < count && list[place] + 1 == bound {
            list[place] = 0;
            place += 1;
        }
        if place == count {
            return;
        }
        list[place] += 1;
    }
}

/// Every choice of lengths about those that the lists need: none, one too few, just enough, more.
fn every_room(needed: &[usize], each: &mut dyn FnMut(&[usize])) {
    every_list(4, needed.len(), &mut |choice| {
        let rooms = (0..needed.len()).map(|i| [0, needed[i] - 1, needed[i], needed[i] + 3][choice[i] as usize]);
        each(&rooms.collect::<Vec<usize>>());
    });
}

/// Every power of 2, and the numbers beside it.
fn edges() -> Vec<u32> {
    let mut edges = vec![0, u32::max_value()];
    for i in 0..32 {
        edges.extend(&[(1 << i) - 1, 1 << i, (1 << i) + 1]);
    }
    edges
}

/// Exponents about the number of elements, and the lowest and highest ones.
fn exponents(m: u32) -> Vec<i32> {
    let mut exponents = Vec::new();
    for e in &[0, 1, (1 << m) - 1, 1 << m, (1 << m) - 2, 3 * ((1 << m) - 1), 1 << 30] {
        exponents.extend(&[*e, -*e, *e + 1, -*e - 1]);
    }
    for i in 0..4 {
        exponents.extend(&[i32::min_value() + i, i32::max_value() - i]);
    }
    exponents
}

// ---- the generator ----

/// xorshift64*, the upper half of each product.
struct Random(u64);

impl Random {
    fn number(&mut self) -> u32 {
        self.0 ^= self.0 >> 12;
        self.0 ^= self.0 << 25;
        self.0 ^= self.0 >> 27;
        (self.0.wrapping_mul(0x2545F4914F6CDD1D) >> 32) as u32
    }

    fn below(&mut self, bound: u32) -> u32 {
        (self.number() as u64 * bound as u64 >> 32) as u32
    }

    fn one_of<T: Copy>(&mut self, list: &[T]) -> T {
        list[self.below(list.len() as u32) as usize]
    }
}

// ---- lent lists ----

/// A kind of number that lists hold, with the pattern that stands in a list before the call.
trait Entry: Copy + PartialEq + Debug {
    fn pattern(place: usize, salt: u32) -> Self;
}

// The values of a u32 list are below 2^31 and those of a u8 list below 128, so a pattern is never taken for one.
impl Entry for u32 {
    fn pattern(place: usize, salt: u32) -> u32 {
        1 << 31 | scattered(place, salt) >> 1
    }
}

impl Entry for u8 {
    fn pattern(place: usize, salt: u32) -> u8 {
        1 << 7 | (scattered(place, salt) >> 25) as u8
    }
}

// Every u16 can be a root. But the salt is another one for every call.
impl Entry for u16 {
    fn pattern(place: usize, salt: u32) -> u16 {
        (scattered(place, salt) >> 16) as u16
    }
}

fn scattered(place: usize, salt: u32) -> u32 {
    (place as u32 ^ salt).wrapping_mul(0x9E3779B1)
}

/// Cells before and after a lent list that no call may touch.
const GUARD: usize = 4;

/// A list to lend, as the library leaves it and as the slow side says that it is left.
struct Lent<T> {
    name: &'static str,
    length: usize,
    salt: u32,
    library: Vec<T>,
    slow: Vec<T>,
}

impl<T: Entry> Lent<T> {
    fn new(name: &'static str, length: usize, salt: u32) -> Lent<T> {
        let cells: Vec<T> = (0..length + 2 * GUARD).map(|place| T::pattern(place, salt)).collect();
        Lent { name: name, length: length, salt: salt, library: cells.clone(), slow: cells }
    }

    fn lend(&mut self) -> &mut [T] {
        &mut self.library[GUARD..GUARD + self.length]
    }

    fn has_room(&self, needed: usize) -> bool {
        self.length >= needed
    }

    /// The values that must stand at the front.
    fn expect(&mut self, values: &[T]) {
        self.slow[GUARD..GUARD + values.len()].copy_from_slice(values);
    }
}

/// What a comparison needs of a lent list, whatever it holds.
trait Compared {
    fn agrees(&self) -> bool;
    /// Both sides in words: a cell that holds its pattern is shown as _, and | stands at both ends of the list. A long list is shown from
    /// shortly before the first difference on.
    fn shown(&self) -> (String, String);
}

impl<T: Entry> Compared for Lent<T> {
    fn agrees(&self) -> bool {
        self.library == self.slow
    }

    fn shown(&self) -> (String, String) {
        let first = (0..self.library.len()).find(|&i| self.library[i] != self.slow[i]).unwrap_or(0);
        let from = if first < 100 { 0 } else { first - 10 };
        let to = self.library.len().min(from + 120);
        let words = |cells: &[T]| {
            let mut words = format!("; {}", self.name);
            if from > 0 {
                words += &format!(" from place {} on", from - GUARD);
            }
            for place in from..to {
                if place == GUARD || place == GUARD + self.length {
                    words += " |";
                }
                let untouched = cells[place] == T::pattern(place, self.salt);
                words += &if untouched { " _".to_string() } else { format!(" {:?}", cells[place]) };
            }
            words
        };
        (words(&self.library), words(&self.slow))
    }
}

// ---- the comparison of each call ----

struct Test {
    slow: Slow,
    random: Random,
    /// Some polynomials that are accepted, by degree; the house's stands first.
    stock: Vec<Vec<u32>>,
    /// Inputs compared so far, and of these the ones of calls that were reported.
    inputs: u64,
    reported: u64,
    /// How often this call was turned down by each number, and how often an answer line said one.
    turned_down: [u64; 9],
    lines_turned_down: [u64; 9],
}

impl Test {
    fn new() -> Test {
        let mut t = Test {
            slow: Slow::new(),
            random: Random(0x0123456789ABCDEF),
            stock: vec![vec![]; 17],
            inputs: 0,
            reported: 0,
            turned_down: [0; 9],
            lines_turned_down: [0; 9],
        };
        for m in 2..17 {
            let mut stock = vec![HOUSE[m as usize - 2]];
            while stock.len() < [1, 2, 3, 4][m.min(5) as usize - 2] {
                let p = (1 << m) + t.random.below(1 << m);
                if t.slow.accept(p).is_ok() && !stock.contains(&p) {
                    stock.push(p);
                }
            }
            t.stock[m as usize] = stock;
        }
        t
    }

    fn report(&mut self, call: &str) {
        let words = |numbers: &[u64; 9]| {
            let met = (1..9).filter(|&number| numbers[number] > 0);
            met.map(|number| format!("{} by {}", numbers[number], number)).collect::<Vec<String>>().join(", ")
        };
        let mut line = format!("{:<18}{:>8} inputs; turned down: {}", call, self.inputs - self.reported, words(&self.turned_down));
        if self.lines_turned_down != [0; 9] {
            line += &format!("; in answers: {}", words(&self.lines_turned_down));
        }
        println!("{}", line);
        self.reported = self.inputs;
        self.turned_down = [0; 9];
    }

    fn compare(&mut self, library: u32, slow: u32, lists: &[&dyn Compared], input: &dyn Fn() -> String) {
        self.inputs += 1;
        self.turned_down[slow as usize] += 1;
        if library == slow && lists.iter().all(|list| list.agrees()) {
            return;
        }
        let mut answers = (format!("returned {}", library), format!("returned {}", slow));
        for list in lists {
            let shown = list.shown();
            answers.0 += &shown.0;
            answers.1 += &shown.1;
        }
        differ(&input(), &answers.0, &answers.1);
    }

    /// The safe wrapper's answer. It is not counted: the same arguments were compared as an input before.
    fn compare_safe<T: PartialEq + Debug>(&mut self, library: T, slow: T, input: &dyn Fn() -> String) {
        if library != slow {
            differ(&format!("safe wrapper, {}", input()), &format!("{:?}", library), &format!("{:?}", slow));
        }
    }

    /// A call with one value: always with room, exact or more, and now and then without and by the safe wrapper.
    fn one(
        &mut self,
        want: Result<u32, u32>,
        raw: &dyn Fn(&mut [u32]) -> u32,
        safe: &dyn Fn() -> Result<u32, u32>,
        input: &dyn Fn() -> String,
    ) {
        let room = self.room_enough(1);
        self.one_in(want, room, raw, input);
        match self.random.below(4) {
            0 => self.one_in(want, 0, raw, input),
            1 => self.compare_safe(safe(), want, input),
            _ => {}
        }
    }

    fn one_in(&mut self, want: Result<u32, u32>, room: usize, raw: &dyn Fn(&mut [u32]) -> u32, input: &dyn Fn() -> String) {
        let mut list = Lent::new("list", room, self.random.number());
        let library = raw(list.lend());
        let slow = match want {
            Err(number) => number,
            Ok(_) if !list.has_room(1) => 7,
            Ok(value) => {
                list.expect(&[value]);
                0
            }
        };
        self.compare(library, slow, &[&list], &|| format!("{}, room {}", input(), room));
    }

    fn accept(&mut self, p: u32) {
        let want = self.slow.accept(p);
        self.one(want, &|list| raw::accept(p, list), &|| gfroots::accept(p), &|| format!("accept, p {}", p));
    }

    fn house_polynomial(&mut self, degree: u32) {
        let want = self.slow.house_polynomial(degree);
        self.one(want, &|list| raw::house_polynomial(degree, list), &|| gfroots::house_polynomial(degree), &|| {
            format!("house_polynomial, degree {}", degree)
        });
    }

    fn sum(&mut self, p: u32, a: u32, b: u32) {
        let want = self.slow.sum(p, a, b);
        self.one(want, &|list| raw::sum(p, a, b, list), &|| gfroots::sum(p, a, b), &|| format!("sum, p {}, a {}, b {}", p, a, b));
    }

    fn product(&mut self, p: u32, a: u32, b: u32) {
        let want = self.slow.product(p, a, b);
        self.one(want, &|list| raw::product(p, a, b, list), &|| gfroots::product(p, a, b), &|| {
            format!("product, p {}, a {}, b {}", p, a, b)
        });
    }

    fn quotient(&mut self, p: u32, a: u32, b: u32) {
        let want = self.slow.quotient(p, a, b);
        self.one(want, &|list| raw::quotient(p, a, b, list), &|| gfroots::quotient(p, a, b), &|| {
            format!("quotient, p {}, a {}, b {}", p, a, b)
        });
    }

    fn power(&mut self, p: u32, a: u32, exponent: i32) {
        let want = self.slow.power(p, a, exponent);
        self.one(want, &|list| raw::power(p, a, exponent, list), &|| gfroots::power(p, a, exponent), &|| {
            format!("power, p {}, a {}, exponent {}", p, a, exponent)
        });
    }

    fn square_root(&mut self, p: u32, b: u32) {
        let want = self.slow.square_root(p, b);
        self.one(want, &|list| raw::square_root(p, b, list), &|| gfroots::square_root(p, b), &|| format!("square_root, p {}, b {}", p, b));
    }

    fn trace(&mut self, p: u32, c: u32) {
        let want = self.slow.trace(p, c);
        self.one(want, &|list| raw::trace(p, c, list), &|| gfroots::trace(p, c), &|| format!("trace, p {}, c {}", p, c));
    }

    fn number_of_element(&mut self, p: u32, a: u32) {
        let want = self.slow.number_of_element(p, a);
        self.one(want, &|list| raw::number_of_element(p, a, list), &|| gfroots::number_of_element(p, a), &|| {
            format!("number_of_element, p {}, a {}", p, a)
        });
    }

    fn element_of_number(&mut self, p: u32, number: u32) {
        let want = self.slow.element_of_number(p, number);
        self.one(want, &|list| raw::element_of_number(p, number, list), &|| gfroots::element_of_number(p, number), &|| {
            format!("element_of_number, p {}, number {}", p, number)
        });
    }

    fn power_of_x(&mut self, p: u32, exponent: i32) {
        let want = self.slow.power_of_x(p, exponent);
        self.one(want, &|list| raw::power_of_x(p, exponent, list), &|| gfroots::power_of_x(p, exponent), &|| {
            format!("power_of_x, p {}, exponent {}", p, exponent)
        });
    }

    fn solve(&mut self, p: u32, coefficients: &[u32]) {
        let want = self.slow.solve(p, coefficients);
        let needed = [gfroots::ONE, gfroots::MOST_ROOTS, gfroots::MOST_ROOTS];
        let rooms = self.rooms_enough(&needed);
        self.solve_in(p, coefficients, want, &rooms);
        match self.random.below(3) {
            0 => {
                let rooms = self.rooms_any(&needed);
                self.solve_in(p, coefficients, want, &rooms);
            }
            1 => {
                let library = gfroots::solve(p, coefficients);
                let library = library.map(|r| Solved { count: r.count, roots: r.roots, multiplicities: r.multiplicities });
                self.compare_safe(library, want, &|| format!("solve, p {}, coefficients {}", p, shown_list(coefficients)));
            }
            _ => {}
        }
    }

    fn solve_in(&mut self, p: u32, coefficients: &[u32], want: Result<Solved, u32>, rooms: &[usize]) {
        let mut count = Lent::new("count", rooms[0], self.random.number());
        let mut roots = Lent::new("roots", rooms[1], self.random.number());
        let mut multiplicities = Lent::new("multiplicities", rooms[2], self.random.number());
        let library = raw::solve(p, coefficients, count.lend(), roots.lend(), multiplicities.lend());
        let slow = match want {
            Err(number) => number,
            Ok(_) if !(count.has_room(1) && roots.has_room(4) && multiplicities.has_room(4)) => 7,
            Ok(solved) => {
                count.expect(&[solved.count]);
                roots.expect(&solved.roots);
                multiplicities.expect(&solved.multiplicities);
                0
            }
        };
        self.compare(library, slow, &[&count, &roots, &multiplicities], &|| {
            format!("solve, p {}, coefficients {}, rooms {:?}", p, shown_list(coefficients), rooms)
        });
    }

    fn build(&mut self, p: u32, roots: &[u32]) {
        let want = self.slow.build(p, roots);
        let needed = [gfroots::MOST_COEFFICIENTS];
        let rooms = self.rooms_enough(&needed);
        self.build_in(p, roots, want, rooms[0]);
        match self.random.below(3) {
            0 => {
                let rooms = self.rooms_any(&needed);
                self.build_in(p, roots, want, rooms[0]);
            }
            1 => self.compare_safe(gfroots::build(p, roots), want, &|| format!("build, p {}, roots {}", p, shown_list(roots))),
            _ => {}
        }
    }

    fn build_in(&mut self, p: u32, roots: &[u32], want: Result<[u32; 5], u32>, room: usize) {
        let mut coefficients = Lent::new("coefficients", room, self.random.number());
        let library = raw::build(p, roots, coefficients.lend());
        let slow = match want {
            Err(number) => number,
            Ok(_) if !coefficients.has_room(5) => 7,
            Ok(built) => {
                coefficients.expect(&built);
                0
            }
        };
        self.compare(library, slow, &[&coefficients], &|| format!("build, p {}, roots {}, room {}", p, shown_list(roots), room));
    }

    fn affine_solve(&mut self, p: u32, coefficients: &[u32]) {
        let want = self.slow.affine_roots(p, coefficients).map(|roots| slow::space(&roots));
        let needed = [gfroots::SPACE, gfroots::DIRECTIONS];
        let rooms = self.rooms_enough(&needed);
        self.affine_solve_in(p, coefficients, want, &rooms);
        let rooms = self.rooms_any(&needed);
        self.affine_solve_in(p, coefficients, want, &rooms);
        if self.random.below(3) == 0 {
            let library = gfroots::affine_solve(p, coefficients);
            let library = library.map(|s| slow::Space { found: s.found as u32, k: s.k, base: s.base, directions: s.directions });
            self.compare_safe(library, want, &|| format!("affine_solve, p {}, coefficients {}", p, shown_list(coefficients)));
        }
    }

    fn affine_solve_in(&mut self, p: u32, coefficients: &[u32], want: Result<slow::Space, u32>, rooms: &[usize]) {
        let mut space = Lent::new("space", rooms[0], self.random.number());
        let mut directions = Lent::new("directions", rooms[1], self.random.number());
        let library = raw::affine_solve(p, coefficients, space.lend(), directions.lend());
        let slow = match want {
            Err(number) => number,
            Ok(_) if !(space.has_room(3) && directions.has_room(16)) => 7,
            Ok(found) => {
                space.expect(&[found.found, found.k, found.base]);
                directions.expect(&found.directions);
                0
            }
        };
        self.compare(library, slow, &[&space, &directions], &|| {
            format!("affine_solve, p {}, coefficients {}, rooms {:?}", p, shown_list(coefficients), rooms)
        });
    }

    /// The first places, all if they are few, the last, those past it, and drawn ones.
    fn root_at_place(&mut self, p: u32, coefficients: &[u32]) {
        let roots = self.slow.affine_roots(p, coefficients);
        let count = match roots {
            Ok(ref roots) => roots.len() as u32,
            Err(_) => 0,
        };
        let mut places: Vec<u32> = (0..count.min(20) + 2).collect();
        places.extend(&[count / 2, count.wrapping_sub(1), count, count + 1, u32::max_value()]);
        places.extend(&[self.random.below(count + 1), self.random.number()]);
        // No upper bit of a place may get lost.
        places.push(1 << self.random.below(32) | self.random.below(count.min(20) + 1));
        places.sort();
        places.dedup();
        for n in places {
            let want = slow::root_at_place(&roots, n);
            self.one(want, &|list| raw::root_at_place(p, coefficients, n, list), &|| gfroots::root_at_place(p, coefficients, n), &|| {
                format!("root_at_place, p {}, coefficients {}, n {}", p, shown_list(coefficients), n)
            });
        }
    }

    /// Lists of just the length, one less, none, more; and no room for the count.
    fn list_roots(&mut self, p: u32, coefficients: &[u32]) {
        let roots = self.slow.affine_roots(p, coefficients);
        let count = match roots {
            Ok(ref roots) => roots.len(),
            Err(_) => self.random.below(5) as usize,
        };
        let more = count + 1 + self.random.below(40) as usize;
        for room in &[count, count.saturating_sub(1), 0, more] {
            let count_room = self.room_enough(1);
            self.list_roots_in(p, coefficients, &roots, &[count_room, *room]);
        }
        let room = self.random.one_of(&[count, more, 0]);
        self.list_roots_in(p, coefficients, &roots, &[0, room]);
        if self.random.below(3) == 0 {
            let room = self.random.one_of(&[count, more]);
            let mut list = Lent::new("list", room, self.random.number());
            let library = gfroots::list_roots(p, coefficients, list.lend());
            if let Ok(ref roots) = roots {
                list.expect(roots);
            }
            let want = roots.map(|roots| roots.len());
            let both = ((library, &list.library), (want, &list.slow));
            self.compare_safe(both.0, both.1, &|| format!("list_roots, p {}, coefficients {}, room {}", p, shown_list(coefficients), room));
        }
    }

    fn list_roots_in(&mut self, p: u32, coefficients: &[u32], want: &Result<Vec<u16>, u32>, rooms: &[usize]) {
        let mut count = Lent::new("count", rooms[0], self.random.number());
        let mut list = Lent::new("list", rooms[1], self.random.number());
        let library = raw::list_roots(p, coefficients, count.lend(), list.lend());
        let slow = match *want {
            Err(number) => number,
            Ok(ref roots) if !(count.has_room(1) && list.has_room(roots.len())) => 7,
            Ok(ref roots) => {
                count.expect(&[roots.len() as u32]);
                list.expect(roots);
                0
            }
        };
        self.compare(library, slow, &[&count, &list], &|| {
            format!("list_roots, p {}, coefficients {}, rooms {:?}", p, shown_list(coefficients), rooms)
        });
    }

    fn answer_line(&mut self, line: &[u8]) {
        let want = self.slow.answer_line(line);
        let needed = [gfroots::ONE, gfroots::ANSWER_ROOM];
        let rooms = self.rooms_enough(&needed);
        self.answer_line_in(line, &want, &rooms);
        match self.random.below(6) {
            0 => {
                let rooms = self.rooms_any(&needed);
                self.answer_line_in(line, &want, &rooms);
            }
            // As long as this answer is too short: every list needs the room that the header says, whatever is found.
            1 => self.answer_line_in(line, &want, &[1, want.len()]),
            2 => {
                let library = gfroots::answer_line(line).map(|answer| answer.text[..answer.length].to_vec());
                self.compare_safe(library, Ok(want), &|| format!("answer_line, line {}", shown_line(line)));
            }
            _ => {}
        }
    }

    fn answer_line_in(&mut self, line: &[u8], want: &[u8], rooms: &[usize]) {
        let mut count = Lent::new("count", rooms[0], self.random.number());
        let mut answer = Lent::new("answer", rooms[1], self.random.number());
        let library = raw::answer_line(line, count.lend(), answer.lend());
        let slow = if count.has_room(1) && answer.has_room(77) {
            count.expect(&[want.len() as u32]);
            answer.expect(want);
            // The second byte, which is 0 or the number that the line was turned down by.
            self.lines_turned_down[(want[3] - b'0') as usize] += 1;
            0
        } else {
            7
        };
        self.compare(library, slow, &[&count, &answer], &|| format!("answer_line, line {}, rooms {:?}", shown_line(line), rooms));
    }

    // ---- drawing ----

    /// Every polynomial of degree m that is accepted.
    fn every_field(&mut self, m: u32) -> Vec<u32> {
        (1 << m..2 << m).filter(|&p| self.slow.accept(p).is_ok()).collect()
    }

    fn degree(&mut self) -> u32 {
        2 + self.random.below(15)
    }

    fn field(&mut self, m: u32) -> u32 {
        self.random.one_of(&self.stock[m as usize])
    }

    /// Kind 0: accepted. Kind 1: out of range. Otherwise: of degree m with a factor.
    fn polynomial_of_kind(&mut self, m: u32, kind: u32) -> u32 {
        if kind == 0 {
            return self.field(m);
        }
        if kind == 1 {
            let far = self.random.number() | 1 << 17;
            let nearly = self.field(m) | 1 << (17 + self.random.below(15));
            return self.random.one_of(&[0, 1, 2, 3, 131072, 131073, 1 << 24, 1 << 31, u32::max_value(), far, nearly, nearly]);
        }
        loop {
            let p = (1 << m) + self.random.below(1 << m);
            if self.slow.accept(p) == Err(2) {
                return p;
            }
        }
    }

    /// Accepted half of the time.
    fn any_polynomial(&mut self, m: u32) -> u32 {
        let kind = self.random.one_of(&[0, 0, 1, 2]);
        self.polynomial_of_kind(m, kind)
    }

    fn element(&mut self, m: u32) -> u32 {
        match self.random.below(16) {
            0 => 0,
            1 => 1,
            2 => (1 << m) - 1,
            _ => self.random.below(1 << m),
        }
    }

    fn elements(&mut self, m: u32, length: usize) -> Vec<u32> {
        (0..length).map(|_| self.element(m)).collect()
    }

    fn too_large(&mut self, m: u32) -> u32 {
        let far = self.random.number() | 1 << m;
        let near = (1 << m) + self.random.below(1 << m);
        let nearly = self.element(m) | 1 << (m + self.random.below(32 - m));
        self.random.one_of(&[1 << m, (1 << m) + 1, 2 << m, 1 << 16, 1 << 31, u32::max_value(), near, far, nearly])
    }

    /// An element three times of four.
    fn any_number(&mut self, m: u32) -> u32 {
        if self.random.below(4) == 0 { self.too_large(m) } else { self.element(m) }
    }

    fn exponent(&mut self, m: u32) -> i32 {
        match self.random.below(3) {
            0 => self.random.number() as i32,
            1 => self.random.below(4 << m) as i32 - (2 << m),
            _ => self.random.below(20) as i32 - 10,
        }
    }

    /// Entries without a fault, all zero, too large in front, too large at the end, too large anywhere, all too large.
    fn faulty_list(&mut self, m: u32, length: usize, fault: u32) -> Vec<u32> {
        let mut list = if fault == 1 { vec![0; length] } else { self.elements(m, length) };
        if length > 0 {
            let place = self.random.below(length as u32) as usize;
            match fault {
                2 => list[0] = self.too_large(m),
                3 => list[length - 1] = self.too_large(m),
                4 => list[place] = self.too_large(m),
                5 => list = (0..length).map(|_| self.too_large(m)).collect(),
                _ => {}
            }
        }
        list
    }

    /// One to five coefficients that are elements: drawn, and of the kinds that the papers treat by themselves.
    fn equation(&mut self, p: u32, m: u32) -> Vec<u32> {
        let field = self.slow.field(p).expect("the polynomial is accepted");
        let e = self.elements(m, 5);
        let scale = 1 + self.random.below((1 << m) - 1);
        let built = |t: &mut Test, roots: &[u32]| {
            let coefficients = t.slow.build(p, roots).expect("these are up to four elements");
            coefficients.iter().map(|&c| field.product(c, scale)).collect::<Vec<u32>>()
        };
        match self.random.below(9) {
            0 => {
                let length = 1 + self.random.below(5) as usize;
                e[..length].to_vec()
            }
            // Many zeros, above the degree too.
            1 => e.iter().map(|&c| if self.random.below(2) == 0 { 0 } else { c }).collect(),
            2 => {
                let count = self.random.below(5) as usize;
                built(self, &e[..count])
            }
            // Multiple roots.
            3 => built(self, &[e[0], e[0], e[1], e[2]]),
            4 => built(self, &[e[0], e[0], e[1], e[1]]),
            5 => {
                let count = self.random.below(5) as usize;
                built(self, &vec![e[0]; count])
            }
            // A quartic without x^3: the sum of its roots is 0.
            6 => built(self, &[e[0], e[1], e[2], e[0] ^ e[1] ^ e[2]]),
            // x^4 + Ax^3 + Bx^2 + Cx + D with C = As^2 and s a root.
            7 => {
                let (a, b, s) = (e[0], e[1], e[2]);
                let s2 = field.product(s, s);
                let c = field.product(a, s2);
                let d = field.product(s2, s2) ^ field.product(a, field.product(s2, s)) ^ field.product(b, s2) ^ field.product(c, s);
                vec![d, c, b, a, 1]
            }
            // x^3 + Ax^2 + Bx + C with B = A^2; or with A itself a root, where C = AB.
            _ => {
                let (a, square) = (e[0], field.product(e[0], e[0]));
                if e[4] & 1 == 0 { vec![e[2], square, a, 1] } else { vec![field.product(a, e[1]), e[1], a, 1] }
            }
        }
    }

    /// One to m + 1 coefficients that are elements: many zeros, and half of the time a constant for which there are roots.
    fn affine_equation(&mut self, p: u32, m: u32) -> Vec<u32> {
        let length = 1 + self.random.below(m + 1) as usize;
        let mut list = self.elements(m, length);
        let zeros = self.random.below(3);
        for l in list.iter_mut() {
            // Elements 0 and 1 alone give equations with many roots.
            match zeros {
                0 if self.random.below(3) > 0 => *l = 0,
                1 => *l &= 1,
                _ => {}
            }
        }
        if self.random.below(2) == 0 {
            let field = self.slow.field(p).expect("the polynomial is accepted");
            list[0] = 0;
            let root = self.element(m);
            list[0] = field.affine_value(&list, root);
        }
        list
    }

    /// Just enough, or more; now and then a length whose lower 16 bits are 0.
    fn room_enough(&mut self, needed: usize) -> usize {
        if self.random.below(2000) == 0 { 65536 } else { needed + self.random.one_of(&[0, 0, 1, 7]) }
    }

    fn rooms_enough(&mut self, needed: &[usize]) -> Vec<usize> {
        needed.iter().map(|&n| self.room_enough(n)).collect()
    }

    /// Each list with none, one too few, just enough or more.
    fn rooms_any(&mut self, needed: &[usize]) -> Vec<usize> {
        needed.iter().map(|&n| self.random.one_of(&[0, n - 1, n, n, n, n + 1])).collect()
    }

    /// A frame line in capitals, small letters or both. Coefficients are cut to two bytes.
    fn line(&mut self, kind: u8, p: u32, count: u8, coefficients: &[u32]) -> Vec<u8> {
        let mut bytes = vec![kind, (p >> 16) as u8, (p >> 8) as u8, p as u8, count];
        for &c in coefficients {
            bytes.extend(&[(c >> 8) as u8, c as u8]);
        }
        let letters = self.random.below(3);
        let mut line = Vec::new();
        for byte in bytes {
            for digit in &[byte >> 4, byte & 15] {
                let small = letters == 0 || letters == 1 && self.random.below(2) == 0;
                let digits = if small { b"0123456789abcdef" } else { b"0123456789ABCDEF" };
                line.push(digits[*digit as usize]);
            }
        }
        line
    }

    /// One fault: a character changed, gone, or one too many; a byte of the head changed; the end gone, or more of it.
    fn damage(&mut self, line: &mut Vec<u8>) {
        // No digits, but near them or often met.
        let character = self.random.one_of(b"/:@G`g \r\n\t\0-xX\x7F\x80\xFF\xB0\xC1");
        let digit = self.random.one_of(b"0123456789ABCDEFabcdef");
        if line.is_empty() {
            line.push(digit);
            return;
        }
        let length = line.len() as u32;
        let place = self.random.below(length) as usize;
        match self.random.below(11) {
            0 => line[place] = character,
            1 => line[place] = self.random.number() as u8,
            2 => line.insert(place, character),
            3 => line.insert(place, digit),
            10 => line.push(character),
            4 => {
                line.remove(place);
            }
            5 => line.truncate(place),
            6 => line[place.min(9)] = digit,
            7 => line.extend(b"0001"),
            8 => line.truncate(length.saturating_sub(4) as usize),
            _ => line[place] = digit,
        }
    }

    /// A line with every byte value in every place, cut at every place, and with a character gone or one too many at every place.
    fn every_damage(&mut self, line: &[u8]) {
        for place in 0..line.len() {
            let mut damaged = line.to_vec();
            for value in 0..256 {
                damaged[place] = value as u8;
                self.answer_line(&damaged);
            }
            self.answer_line(&line[..place]);
            self.answer_line(&line[place..]);
            let mut damaged = line.to_vec();
            damaged.remove(place);
            self.answer_line(&damaged);
        }
        for place in 0..line.len() + 1 {
            for character in 0..256 {
                let mut damaged = line.to_vec();
                damaged.insert(place, character as u8);
                self.answer_line(&damaged);
            }
        }
    }
}

fn shown_list(list: &[u32]) -> String {
    if list.len() <= 20 { format!("{:?}", list) } else { format!("{:?} and so on, {} in all", &list[..20], list.len()) }
}

fn shown_line(line: &[u8]) -> String {
    let shown: String = line.iter().take(1100).flat_map(|&byte| std::ascii::escape_default(byte)).map(|byte| byte as char).collect();
    format!("of {} bytes \"{}\"", line.len(), shown)
}

fn differ(input: &str, library: &str, slow: &str) -> ! {
    println!("the answers differ");
    println!("input: {}", input);
    println!("library: {}", library);
    println!("slow: {}", slow);
    exit(1)
}
