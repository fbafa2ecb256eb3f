//! Request 2.1, "Formulas typed at the bench", from its words. A text is read by the grammar, with
//! a list of what is still to be read in place of readers that call each other, so that parentheses
//! may nest to any depth. It becomes a list of operations, which are then done one after another.

use std::collections::BTreeMap;
use std::fmt;

use crate::limits::{DIMENSIONS, LARGEST_COEFFICIENT, LARGEST_DEGREE, MOST};

/// The most parentheses that may stand inside each other.
pub const DEEPEST: usize = 16;
/// The most digits of a number.
const MOST_DIGITS: usize = 7;
/// The letters of axes 1 to 4.
pub const LETTERS: [u8; MOST] = *b"xyzw";
/// The bytes of the longest term list, 70 terms of 8 bytes.
pub const LONGEST: usize = 560;

/// The answer, handed back whole: a refusal's number, or 0 and a term list as a job has it.
#[derive(Clone, Copy, PartialEq, Eq)]
pub struct TermList {
    pub refusal: u64,
    /// The terms; 0 beside a refusal.
    pub count: u64,
    /// 8 bytes a term; behind the last term all are 0.
    pub bytes: [u8; LONGEST],
}

impl TermList {
    pub fn refused(refusal: u64) -> TermList {
        TermList { refusal, count: 0, bytes: [0; LONGEST] }
    }

    /// The list of these terms, which rise.
    pub fn of(terms: impl IntoIterator<Item = (i32, [u8; MOST])>) -> TermList {
        let mut list = TermList::refused(0);
        for (place, (coefficient, exponents)) in list.bytes.chunks_exact_mut(8).zip(terms) {
            place[..4].copy_from_slice(&coefficient.to_le_bytes());
            place[4..].copy_from_slice(&exponents);
            list.count += 1;
        }
        list
    }

    /// The terms alone: a polynomial body of a job.
    pub fn body(&self) -> &[u8] {
        &self.bytes[..8 * self.count as usize]
    }
}

/// The refusal, the count, the terms, and how many bytes behind them are not 0.
impl fmt::Debug for TermList {
    fn fmt(&self, f: &mut fmt::Formatter) -> fmt::Result {
        write!(f, "refusal {}, count {}:", self.refusal, self.count)?;
        let shown = LONGEST.min(8 * self.count as usize);
        for term in self.bytes[..shown].chunks_exact(8) {
            let coefficient = i32::from_le_bytes([term[0], term[1], term[2], term[3]]);
            write!(f, " {coefficient} {:?};", &term[4..])?;
        }
        let behind = self.bytes[shown..].iter().filter(|&&byte| byte != 0).count();
        write!(f, " {behind} bytes behind are not 0")
    }
}

/// What is done with the polynomials at the end of a list: each takes those that it needs away and
/// leaves its result there.
#[derive(Clone, Copy, PartialEq, Eq, Debug)]
pub enum Operation {
    Number(u32),
    /// The letter of an axis, from 1.
    Letter(usize),
    Power(u8),
    Times,
    Plus,
    Minus,
    /// The optional minus of a sum's first product.
    Negate,
}

/// How a text is read.
#[derive(Clone, PartialEq, Eq, Debug)]
pub struct Reading {
    pub operations: Vec<Operation>,
    /// The most parentheses that stand inside each other.
    pub depth: usize,
}

/// What is still to be read of a text, and what is to be done between.
enum Part {
    /// An optional minus and products joined by plus or minus.
    Sum,
    MoreProducts,
    /// Powers joined by stars.
    Product,
    MorePowers,
    /// An atom with an optional exponent.
    Power,
    Exponent,
    /// A number, a letter or a sum in parentheses.
    Atom,
    Closing,
    Do(Operation),
}

/// A text that is being read.
struct Reader<'a> {
    n: usize,
    rest: &'a [u8],
    /// The last is next.
    parts: Vec<Part>,
    reading: Reading,
    open: usize,
}

impl Reader<'_> {
    /// Whether the next byte is this one, which is then read.
    fn takes(&mut self, byte: u8) -> bool {
        let is_next = self.rest.first() == Some(&byte);
        if is_next {
            self.rest = &self.rest[1..];
        }
        is_next
    }

    /// These come next, the first of them first.
    fn then<const COUNT: usize>(&mut self, parts: [Part; COUNT]) {
        self.parts.extend(parts.into_iter().rev());
    }

    /// Reads a part, or what it begins with. None if the text does not go on so.
    fn read(&mut self, part: Part) -> Option<()> {
        match part {
            Part::Sum if self.takes(b'-') => {
                self.then([Part::Product, Part::Do(Operation::Negate), Part::MoreProducts])
            }
            Part::Sum => self.then([Part::Product, Part::MoreProducts]),
            Part::MoreProducts if self.takes(b'+') => {
                self.then([Part::Product, Part::Do(Operation::Plus), Part::MoreProducts])
            }
            Part::MoreProducts if self.takes(b'-') => {
                self.then([Part::Product, Part::Do(Operation::Minus), Part::MoreProducts])
            }
            Part::Product => self.then([Part::Power, Part::MorePowers]),
            Part::MorePowers if self.takes(b'*') => {
                self.then([Part::Power, Part::Do(Operation::Times), Part::MorePowers])
            }
            Part::Power => self.then([Part::Atom, Part::Exponent]),
            Part::Exponent if self.takes(b'^') => {
                let digit = (0..=4).find(|&digit| self.takes(b'0' + digit))?;
                self.reading.operations.push(Operation::Power(digit));
            }
            Part::MoreProducts | Part::MorePowers | Part::Exponent => {}
            Part::Atom => return self.read_atom(),
            Part::Closing => {
                self.open -= 1;
                return self.takes(b')').then_some(());
            }
            Part::Do(operation) => self.reading.operations.push(operation),
        }
        Some(())
    }

    fn read_atom(&mut self) -> Option<()> {
        if self.takes(b'(') {
            self.open += 1;
            self.reading.depth = self.reading.depth.max(self.open);
            self.then([Part::Sum, Part::Closing]);
            return Some(());
        }
        if let Some(axis) = (1..=self.n).find(|&axis| self.takes(LETTERS[axis - 1])) {
            self.reading.operations.push(Operation::Letter(axis));
            return Some(());
        }
        let digits = self.rest.iter().take_while(|byte| byte.is_ascii_digit()).count();
        if digits == 0 || digits > MOST_DIGITS {
            return None;
        }
        let (number, rest) = self.rest.split_at(digits);
        self.rest = rest;
        let value = number.iter().fold(0, |value, digit| 10 * value + (digit - b'0') as u32);
        self.reading.operations.push(Operation::Number(value));
        Some(())
    }
}

/// The reading of a text in dimension n; none if it is outside the language.
pub fn read(n: usize, text: &[u8]) -> Option<Reading> {
    let reading = Reading { operations: Vec::new(), depth: 0 };
    let mut reader = Reader { n, rest: text, parts: vec![Part::Sum], reading, open: 0 };
    while let Some(part) = reader.parts.pop() {
        reader.read(part)?;
    }
    reader.rest.is_empty().then_some(reader.reading)
}

/// The coefficients that are not 0, by exponents.
pub type Polynomial = BTreeMap<[u8; MOST], i128>;

fn with_term(mut polynomial: Polynomial, exponents: [u8; MOST], coefficient: i128) -> Polynomial {
    let gathered = polynomial.get(&exponents).unwrap_or(&0) + coefficient;
    match gathered {
        0 => polynomial.remove(&exponents),
        _ => polynomial.insert(exponents, gathered),
    };
    polynomial
}

fn constant(value: i128) -> Polynomial {
    with_term(Polynomial::new(), [0; MOST], value)
}

fn letter(axis: usize) -> Polynomial {
    let mut exponents = [0; MOST];
    exponents[axis - 1] = 1;
    with_term(Polynomial::new(), exponents, 1)
}

/// The first polynomial and so many times the second.
fn plus(one: Polynomial, times: i128, other: &Polynomial) -> Polynomial {
    other.iter().fold(one, |sum, (e, c)| with_term(sum, *e, times * c))
}

fn product(one: &Polynomial, other: &Polynomial) -> Polynomial {
    let mut all = Polynomial::new();
    for (e, c) in one {
        for (f, d) in other {
            let mut exponents = *e;
            exponents.iter_mut().zip(f).for_each(|(sum, more)| *sum += more);
            all = with_term(all, exponents, c * d);
        }
    }
    all
}

/// An inner result, which has to be within the limits of a term; it may be 0.
fn within(polynomial: Polynomial) -> Option<Polynomial> {
    let fits = |(exponents, coefficient): (&[u8; MOST], &i128)| {
        let degree: u32 = exponents.iter().map(|&e| e as u32).sum();
        coefficient.abs() <= LARGEST_COEFFICIENT as i128 && degree <= LARGEST_DEGREE
    };
    polynomial.iter().all(fits).then_some(polynomial)
}

/// The polynomial that is meant; none if an inner result breaks a limit.
fn evaluate(operations: &[Operation]) -> Option<Polynomial> {
    let mut list: Vec<Polynomial> = Vec::new();
    for operation in operations {
        let mut take = || list.pop().expect("what is operated on");
        let result = match *operation {
            Operation::Number(value) => constant(value as i128),
            Operation::Letter(axis) => letter(axis),
            // By its atom once at a time. Power 0 is 1, of zero too.
            Operation::Power(power) => {
                let atom = take();
                let mut result = constant(1);
                for _ in 0..power {
                    result = within(product(&result, &atom))?;
                }
                result
            }
            Operation::Times => {
                let right = take();
                product(&take(), &right)
            }
            Operation::Plus => {
                let right = take();
                plus(take(), 1, &right)
            }
            Operation::Minus => {
                let right = take();
                plus(take(), -1, &right)
            }
            Operation::Negate => plus(Polynomial::new(), -1, &take()),
        };
        list.push(within(result)?);
    }
    list.pop()
}

/// The terms of the polynomial that a text means, or the refusal.
fn terms_of(n: u64, text: &[u8]) -> Result<Polynomial, u64> {
    // 3: dimension.
    let n = DIMENSIONS.into_iter().find(|&one| one as u64 == n).ok_or(3u64)?;
    // 14: outside the language.
    let reading = read(n, text).ok_or(14u64)?;
    // 15: parentheses nest too deep, an inner result breaks a limit, or the result is zero.
    if reading.depth > DEEPEST {
        return Err(15);
    }
    evaluate(&reading.operations).filter(|result| !result.is_empty()).ok_or(15)
}

/// **A formula typed at the bench.** The job's term list for the polynomial meant.
pub fn formula(n: u64, text: &[u8]) -> TermList {
    match terms_of(n, text) {
        Ok(terms) => TermList::of(terms.into_iter().map(|(e, c)| (c as i32, e))),
        Err(refusal) => TermList::refused(refusal),
    }
}

#[cfg(test)]
mod tests {
    use super::Operation::*;
    use super::*;

    fn operations(text: &str) -> Vec<Operation> {
        read(4, text.as_bytes()).expect("a text of the language").operations
    }

    /// Which operation is done with what, and when.
    #[test]
    fn readings() {
        assert_eq!(operations("7"), [Number(7)]);
        assert_eq!(operations("x"), [Letter(1)]);
        assert_eq!(operations("y+z-w"), [Letter(2), Letter(3), Plus, Letter(4), Minus]);
        assert_eq!(operations("x-(y-z)"), [Letter(1), Letter(2), Letter(3), Minus, Minus]);
        assert_eq!(operations("x*y*z"), [Letter(1), Letter(2), Times, Letter(3), Times]);
        assert_eq!(operations("2*3^2"), [Number(2), Number(3), Power(2), Times]);
        assert_eq!(operations("(2*3)^2"), [Number(2), Number(3), Times, Power(2)]);
        assert_eq!(operations("-x^2"), [Letter(1), Power(2), Negate]);
        // The optional minus takes the first product, and no more.
        assert_eq!(operations("-x*y+z"), [Letter(1), Letter(2), Times, Negate, Letter(3), Plus]);
        assert_eq!(operations("-(x+z)"), [Letter(1), Letter(3), Plus, Negate]);
        assert_eq!(operations("(-x)^0"), [Letter(1), Negate, Power(0)]);
        assert_eq!(
            operations("1+2*x-y"),
            [Number(1), Number(2), Letter(1), Times, Plus, Letter(2), Minus]
        );
    }

    #[test]
    fn depths() {
        let depth = |text: &str| read(2, text.as_bytes()).expect("a text of the language").depth;
        assert_eq!(depth("x"), 0);
        assert_eq!(depth("(x)"), 1);
        assert_eq!(depth("(x)+(y)*(1)"), 1);
        assert_eq!(depth("((x)+1)*(y)"), 2);
        assert_eq!(depth("(1+(2*(x-y)^2))"), 3);
        let deep = |depth: usize| ["(".repeat(depth), "x".into(), ")".repeat(depth)].concat();
        assert_eq!(depth(&deep(100_000)), 100_000);
        assert_eq!(read(2, &deep(100_000).as_bytes()[1..]), None);
    }

    /// Sums, products and powers of polynomials, by hand.
    #[test]
    fn arithmetic() {
        let terms = |text: &str| -> Vec<([u8; 4], i128)> {
            evaluate(&operations(text)).expect("within the limits").into_iter().collect()
        };
        assert_eq!(terms("(x+y)*(x-y)"), [([0, 2, 0, 0], -1), ([2, 0, 0, 0], 1)]);
        assert_eq!(
            terms("(z-2)^3"),
            [([0; 4], -8), ([0, 0, 1, 0], 12), ([0, 0, 2, 0], -6), ([0, 0, 3, 0], 1)]
        );
        assert_eq!(terms("x-x"), []);
        assert_eq!(terms("0"), []);
        assert_eq!(terms("(x-x)^0"), [([0; 4], 1)]);
        assert_eq!(terms("(x-x)^3"), []);
        assert_eq!(terms("w-(1-w)"), [([0; 4], -1), ([0, 0, 0, 1], 2)]);
    }

    /// Where in a list an answer stands, and what stands behind.
    #[test]
    fn lists() {
        let list = formula(2, b"2*x^2+2*y^2-1");
        assert_eq!((list.refusal, list.count), (0, 3));
        let case_a =
            [[255, 255, 255, 255, 0, 0, 0, 0], [2, 0, 0, 0, 0, 2, 0, 0], [2, 0, 0, 0, 2, 0, 0, 0]];
        assert_eq!(list.body(), case_a.concat());
        assert!(list.bytes[24..].iter().all(|&byte| byte == 0));
        assert_eq!(formula(2, b"z"), TermList::refused(14));
        assert_eq!(formula(5, b"z"), TermList::refused(3));
        // All 70 terms of dimension 4.
        let all = formula(4, b"(x+y+z+w+1)^4");
        assert_eq!((all.refusal, all.count), (0, 70));
        assert!(all.bytes[LONGEST - 8..] == [1, 0, 0, 0, 4, 0, 0, 0]);
    }
}
