//! A second reading of request 2.1, and counts of what formulas had. The language is decided byte by
//! byte, by what stands before and by the parentheses that are open; a text that is in it is taken
//! apart at the operators outside all parentheses, and the polynomials are lists of terms. It shares
//! nothing with the reader and the evaluation in `formula`, and the numbers of the paper stand here
//! again.

use std::fmt;

use crate::build::{gathered, product, term};
use crate::crossed::Term;
use crate::formula::{self, Operation, TermList};
use crate::limits::{DIMENSIONS, MOST};
use crate::named;
use crate::tally::{Named, Tally};
use crate::writing_met::{wrong_dimension, WrongDimension};

named! {
    /// What stands before a byte.
    Before {
        /// Nothing: the text begins.
        Nothing: 1,
        /// An opening parenthesis.
        Opening: 1,
        /// The optional minus.
        Sign: 1,
        /// A plus between products.
        Plus: 1,
        /// A minus between products.
        Minus: 1,
        /// A star.
        Star: 1,
        /// The sign of a power.
        Caret: 1,
        /// The first to the sixth digit of a number.
        Digit: 1,
        /// The seventh.
        SeventhDigit: 1,
        /// A letter.
        Letter: 1,
        /// A closing parenthesis.
        Closing: 1,
        /// An exponent.
        Exponent: 1,
    }
}

named! {
    /// What comes next in a text.
    Next {
        /// 0 to 4.
        SmallDigit: 1,
        /// 5 to 9.
        LargeDigit: 1,
        /// A letter of an axis.
        Letter: 1,
        /// x, y, z or w, of an axis above n.
        LetterAbove: 1,
        /// +
        Plus: 1,
        /// -
        Minus: 1,
        /// *
        Star: 1,
        /// ^
        Caret: 1,
        /// (
        Opening: 1,
        /// )
        Closing: 1,
        /// Any other byte.
        Other: 1,
        /// Nothing: the text ends.
        End: 1,
    }
}

impl Next {
    pub fn of(n: usize, byte: Option<u8>) -> Next {
        let Some(byte) = byte else { return Next::End };
        match byte {
            b'0'..=b'4' => Next::SmallDigit,
            b'5'..=b'9' => Next::LargeDigit,
            b'x' | b'y' => Next::Letter,
            b'z' if n >= 3 => Next::Letter,
            b'w' if n >= 4 => Next::Letter,
            b'z' | b'w' => Next::LetterAbove,
            b'+' => Next::Plus,
            b'-' => Next::Minus,
            b'*' => Next::Star,
            b'^' => Next::Caret,
            b'(' => Next::Opening,
            b')' => Next::Closing,
            _ => Next::Other,
        }
    }
}

impl Before {
    /// Whether an atom is still to come.
    fn wants_atom(self) -> bool {
        use Before::*;
        matches!(self, Nothing | Opening | Sign | Plus | Minus | Star)
    }

    /// Whether a power may end here.
    fn may_end(self) -> bool {
        use Before::*;
        matches!(self, Digit | SeventhDigit | Letter | Closing | Exponent)
    }

    /// Whether a text may go on so, with some parenthesis open or none.
    fn goes_on(self, next: Next, is_open: bool) -> bool {
        match next {
            Next::SmallDigit => self.wants_atom() || matches!(self, Before::Caret | Before::Digit),
            Next::LargeDigit => self.wants_atom() || self == Before::Digit,
            Next::Letter | Next::Opening => self.wants_atom(),
            Next::LetterAbove | Next::Other => false,
            Next::Minus => self.may_end() || matches!(self, Before::Nothing | Before::Opening),
            Next::Plus | Next::Star => self.may_end(),
            Next::Caret => self.may_end() && self != Before::Exponent,
            Next::Closing => self.may_end() && is_open,
            Next::End => self.may_end() && !is_open,
        }
    }
}

/// Where a text is while its bytes are looked at one after another.
#[derive(Clone, Copy)]
struct State {
    before: Before,
    /// The digits right before, of a number.
    digits: usize,
    open: usize,
    /// The most that were open.
    deepest: usize,
}

impl State {
    fn at_the_front() -> State {
        State { before: Before::Nothing, digits: 0, open: 0, deepest: 0 }
    }

    /// Behind a byte with which the text may go on.
    fn behind(self, next: Next) -> State {
        let is_number = matches!(next, Next::SmallDigit | Next::LargeDigit);
        let digits = if is_number && self.before != Before::Caret { self.digits + 1 } else { 0 };
        let before = match next {
            Next::SmallDigit if self.before == Before::Caret => Before::Exponent,
            Next::SmallDigit | Next::LargeDigit if digits == 7 => Before::SeventhDigit,
            Next::SmallDigit | Next::LargeDigit => Before::Digit,
            Next::Letter => Before::Letter,
            Next::Plus => Before::Plus,
            Next::Minus if self.before.may_end() => Before::Minus,
            Next::Minus => Before::Sign,
            Next::Star => Before::Star,
            Next::Caret => Before::Caret,
            Next::Opening => Before::Opening,
            Next::Closing => Before::Closing,
            Next::LetterAbove | Next::Other | Next::End => unreachable!("a text does not go on so"),
        };
        let open = match next {
            Next::Opening => self.open + 1,
            Next::Closing => self.open - 1,
            _ => self.open,
        };
        State { before, digits, open, deepest: self.deepest.max(open) }
    }
}

/// How a text leaves the language: at the first byte, or at its end, that no text of the language
/// has there.
#[derive(Clone, Copy, PartialEq, Eq, PartialOrd, Ord)]
pub struct Leaving {
    pub before: Before,
    pub next: Next,
    /// Some parenthesis is open.
    pub is_open: bool,
    /// More than 16 were open at once.
    pub was_deep: bool,
}

/// In few words, since many are shown at once.
impl fmt::Debug for Leaving {
    fn fmt(&self, f: &mut fmt::Formatter) -> fmt::Result {
        let open = if self.is_open { " open" } else { "" };
        let deep = if self.was_deep { " deep" } else { "" };
        write!(f, "{:?}-{:?}{open}{deep}", self.before, self.next)
    }
}

impl Leaving {
    /// Every one that there is in a dimension. At the front nothing is open, behind an opening
    /// parenthesis something is, and the optional minus is at the front or behind such a one. In
    /// dimension 4 no letter is above n.
    pub fn all(n: usize) -> Vec<Leaving> {
        let mut all = Vec::new();
        for before in Before::all() {
            for next in Next::all() {
                for (is_open, was_deep) in
                    [(false, false), (false, true), (true, false), (true, true)]
                {
                    let can_be = match before {
                        Before::Nothing => !is_open && !was_deep,
                        Before::Opening => is_open,
                        Before::Sign => is_open || !was_deep,
                        _ => true,
                    };
                    let has_letter = next != Next::LetterAbove || n < MOST;
                    if can_be && has_letter && !before.goes_on(next, is_open) {
                        all.push(Leaving { before, next, is_open, was_deep });
                    }
                }
            }
        }
        all
    }
}

/// How a text leaves the language, and at which byte; the depth of its parentheses if it does not.
pub fn decide(n: usize, text: &[u8]) -> Result<usize, (Leaving, usize)> {
    let mut state = State::at_the_front();
    for at in 0..=text.len() {
        let next = Next::of(n, text.get(at).copied());
        let is_open = state.open > 0;
        if !state.before.goes_on(next, is_open) {
            let was_deep = state.deepest > 16;
            return Err((Leaving { before: state.before, next, is_open, was_deep }, at));
        }
        if next != Next::End {
            state = state.behind(next);
        }
    }
    Ok(state.deepest)
}

/// What stands before each byte of a text of the language, and before its end.
pub fn befores(n: usize, text: &[u8]) -> Vec<Before> {
    let mut states = vec![State::at_the_front()];
    for &byte in text {
        states.push(states[states.len() - 1].behind(Next::of(n, Some(byte))));
    }
    states.into_iter().map(|state| state.before).collect()
}

/// What stands for numbers and letters when a text is evaluated.
trait Numbers {
    type Value: Clone;
    type Error;
    fn number(&self, value: i64) -> Result<Self::Value, Self::Error>;
    fn letter(&self, axis: usize) -> Result<Self::Value, Self::Error>;
    fn negate(&self, one: Self::Value) -> Result<Self::Value, Self::Error>;
    fn join(
        &self,
        by: By,
        one: Self::Value,
        other: Self::Value,
    ) -> Result<Self::Value, Self::Error>;
}

named! {
    /// An operation by whose result a limit may be broken.
    By {
        /// A number.
        Number: 1,
        /// A multiplication of a power.
        Power: 1,
        /// A star.
        Times: 1,
        /// A plus.
        Plus: 1,
        /// A minus between products.
        Minus: 1,
    }
}

/// The parts of a text between bytes that stand outside all parentheses, each with the byte before
/// it. A minus at the front is no such byte.
fn parts<'a>(text: &'a [u8], between: &[u8]) -> Vec<(Option<u8>, &'a [u8])> {
    let mut all = Vec::new();
    let (mut open, mut from, mut byte_before) = (0, 0, None);
    for (at, byte) in text.iter().enumerate() {
        match byte {
            b'(' => open += 1,
            b')' => open -= 1,
            _ if open == 0 && at > 0 && between.contains(byte) => {
                all.push((byte_before, &text[from..at]));
                (from, byte_before) = (at + 1, Some(*byte));
            }
            _ => {}
        }
    }
    all.push((byte_before, &text[from..]));
    all
}

/// What a text of the language comes to.
fn value_of<N: Numbers>(numbers: &N, text: &[u8]) -> Result<N::Value, N::Error> {
    let mut sum: Option<N::Value> = None;
    for (joint, part) in parts(text, b"+-") {
        let (is_negative, factors) = match part.split_first() {
            Some((b'-', rest)) => (true, rest),
            _ => (false, part),
        };
        let mut value: Option<N::Value> = None;
        for (_, factor) in parts(factors, b"*") {
            let own = power_of(numbers, factor)?;
            value = Some(match value {
                Some(before) => numbers.join(By::Times, before, own)?,
                None => own,
            });
        }
        let mut value = value.expect("a factor");
        if is_negative {
            value = numbers.negate(value)?;
        }
        sum = Some(match (sum, joint) {
            (Some(before), Some(b'+')) => numbers.join(By::Plus, before, value)?,
            (Some(before), _) => numbers.join(By::Minus, before, value)?,
            (None, _) => value,
        });
    }
    Ok(sum.expect("a product"))
}

fn power_of<N: Numbers>(numbers: &N, text: &[u8]) -> Result<N::Value, N::Error> {
    let (atom, power) = match text {
        [atom @ .., b'^', digit] => (atom, Some(digit - b'0')),
        _ => (text, None),
    };
    let value = match atom {
        [b'(', inside @ .., b')'] => value_of(numbers, inside)?,
        b"x" => numbers.letter(1)?,
        b"y" => numbers.letter(2)?,
        b"z" => numbers.letter(3)?,
        b"w" => numbers.letter(4)?,
        digits => {
            let number = std::str::from_utf8(digits).ok().and_then(|digits| digits.parse().ok());
            numbers.number(number.expect("a number"))?
        }
    };
    let Some(power) = power else { return Ok(value) };
    let mut result = numbers.number(1)?;
    for _ in 0..power {
        result = numbers.join(By::Power, result, value.clone())?;
    }
    Ok(result)
}

/// Whole numbers, the letters having values: no polynomial has a part in it.
struct At([i128; MOST]);

impl Numbers for At {
    type Value = i128;
    /// There is none.
    type Error = std::convert::Infallible;
    fn number(&self, value: i64) -> Result<i128, Self::Error> {
        Ok(value as i128)
    }
    fn letter(&self, axis: usize) -> Result<i128, Self::Error> {
        Ok(self.0[axis - 1])
    }
    fn negate(&self, one: i128) -> Result<i128, Self::Error> {
        Ok(-one)
    }
    fn join(&self, by: By, one: i128, other: i128) -> Result<i128, Self::Error> {
        Ok(match by {
            By::Plus => one + other,
            By::Minus => one - other,
            _ => one * other,
        })
    }
}

/// What a text of the language comes to where the letters have these values.
pub fn value_at(text: &[u8], vertex: &[i64; MOST]) -> i128 {
    match value_of(&At(vertex.map(i128::from)), text) {
        Ok(value) => value,
        Err(none) => match none {},
    }
}

/// Why a text of the language is turned away with 15.
#[derive(Clone, Copy, PartialEq, Eq, PartialOrd, Ord, Debug)]
pub enum Broken {
    /// Parentheses nest deeper than 16.
    Deep,
    /// A coefficient is above 1,048,576 in size.
    Coefficient(By),
    /// The degree is above 4.
    Degree(By),
    /// The result is zero.
    Zero,
}

impl Broken {
    /// Every one that there is. No letter breaks a limit and no optional minus does; a degree grows
    /// by multiplication alone.
    pub fn all() -> Vec<Broken> {
        let mut all = vec![Broken::Deep, Broken::Zero];
        all.extend(By::all().into_iter().map(Broken::Coefficient));
        all.extend([By::Power, By::Times].map(Broken::Degree));
        all
    }
}

/// Terms within the limits.
struct Terms;

impl Terms {
    fn tested(by: By, terms: Vec<Term>) -> Result<Vec<Term>, Broken> {
        if terms.iter().any(|t| t.coefficient > 1_048_576 || t.coefficient < -1_048_576) {
            return Err(Broken::Coefficient(by));
        }
        let degrees = terms.iter().map(|t| t.exponents.iter().map(|&e| e as u32).sum::<u32>());
        if degrees.max().unwrap_or(0) > 4 {
            return Err(Broken::Degree(by));
        }
        Ok(terms)
    }
}

fn negated(mut terms: Vec<Term>) -> Vec<Term> {
    terms.iter_mut().for_each(|t| t.coefficient = -t.coefficient);
    terms
}

impl Numbers for Terms {
    type Value = Vec<Term>;
    type Error = Broken;
    fn number(&self, value: i64) -> Result<Vec<Term>, Broken> {
        Terms::tested(By::Number, gathered(&[term(value, &[])]))
    }
    fn letter(&self, axis: usize) -> Result<Vec<Term>, Broken> {
        let mut exponents = [0; MOST];
        exponents[axis - 1] = 1;
        Ok(vec![term(1, &exponents)])
    }
    fn negate(&self, one: Vec<Term>) -> Result<Vec<Term>, Broken> {
        Ok(negated(one))
    }
    fn join(&self, by: By, one: Vec<Term>, other: Vec<Term>) -> Result<Vec<Term>, Broken> {
        Terms::tested(
            by,
            match by {
                By::Plus => gathered(&[one, other].concat()),
                By::Minus => gathered(&[one, negated(other)].concat()),
                _ => product(&one, &other),
            },
        )
    }
}

/// What the second reading finds.
#[derive(Clone, PartialEq, Debug)]
pub enum Found {
    NoDimension(WrongDimension),
    /// And at which byte.
    Outside(Leaving, usize),
    Broken(Broken),
    Terms(Vec<Term>),
}

impl Found {
    pub fn of(n: u64, text: &[u8]) -> Found {
        if let Some(wrong) = wrong_dimension(n) {
            return Found::NoDimension(wrong);
        }
        let depth = match decide(n as usize, text) {
            Ok(depth) => depth,
            Err((leaving, at)) => return Found::Outside(leaving, at),
        };
        if depth > 16 {
            return Found::Broken(Broken::Deep);
        }
        match value_of(&Terms, text) {
            Err(broken) => Found::Broken(broken),
            Ok(terms) if terms.is_empty() => Found::Broken(Broken::Zero),
            Ok(terms) => Found::Terms(terms),
        }
    }

    pub fn answer(&self) -> TermList {
        match self {
            Found::NoDimension(_) => TermList::refused(3),
            Found::Outside(..) => TermList::refused(14),
            Found::Broken(_) => TermList::refused(15),
            Found::Terms(terms) => {
                TermList::of(terms.iter().map(|t| (t.coefficient as i32, t.exponents)))
            }
        }
    }
}

named! {
    /// An operation, without what belongs to it.
    Kind {
        Number: 1,
        Letter: 1,
        Power: 1,
        Times: 1,
        Plus: 1,
        Minus: 1,
        Negate: 1,
    }
}

impl Kind {
    fn of(operation: Operation) -> Kind {
        match operation {
            Operation::Number(_) => Kind::Number,
            Operation::Letter(_) => Kind::Letter,
            Operation::Power(_) => Kind::Power,
            Operation::Times => Kind::Times,
            Operation::Plus => Kind::Plus,
            Operation::Minus => Kind::Minus,
            Operation::Negate => Kind::Negate,
        }
    }
}

/// An operation and what it is done with: its first and its second, which for a power, an optional
/// minus, a number and a letter is none.
pub type Joint = (Kind, Option<Kind>, Option<Kind>);

/// Every one that there is.
pub fn joints() -> Vec<Joint> {
    let mut all = vec![(Kind::Number, None, None), (Kind::Letter, None, None)];
    for one in Kind::all() {
        all.extend([Kind::Power, Kind::Negate].map(|kind| (kind, Some(one), None)));
        for other in Kind::all() {
            let two = [Kind::Times, Kind::Plus, Kind::Minus];
            all.extend(two.map(|kind| (kind, Some(one), Some(other))));
        }
    }
    all
}

fn joints_of(operations: &[Operation]) -> Vec<Joint> {
    let (mut list, mut all): (Vec<Kind>, Vec<Joint>) = (Vec::new(), Vec::new());
    for &operation in operations {
        let kind = Kind::of(operation);
        let (one, other) = match kind {
            Kind::Number | Kind::Letter => (None, None),
            Kind::Power | Kind::Negate => (list.pop(), None),
            Kind::Times | Kind::Plus | Kind::Minus => {
                let other = list.pop();
                (list.pop(), other)
            }
        };
        all.push((kind, one, other));
        list.push(kind);
    }
    all
}

/// The deepest parentheses that are counted by themselves; deeper ones are counted with these.
pub const DEEPEST_COUNTED: usize = 20;

/// What formulas had.
#[derive(Default)]
pub struct FormulaMet {
    /// The refusals, 0 being none.
    pub answers: Tally<u64>,
    pub dimensions: Tally<WrongDimension>,
    pub leavings: Tally<Leaving>,
    /// The byte at which a text leaves the language; none at its end.
    pub leaving_bytes: Tally<Option<u8>>,
    pub broken: Tally<Broken>,
    /// The depth of the parentheses of a text of the language, and whether it is answered.
    pub depths: Tally<(usize, bool)>,
    /// Of texts that are answered: the joints,
    pub joints: Tally<Joint>,
    /// what is taken to which power, a name, a number that is 0 or not or something else,
    pub powers: Tally<(&'static str, u8)>,
    /// the axes of letters,
    pub axes: Tally<usize>,
    /// and the terms.
    pub terms: Tally<usize>,
}

impl FormulaMet {
    /// Counts a text that was made for a dimension. Gives the answer of the second reading.
    pub fn count(&mut self, n: u64, made_in: usize, text: &[u8]) -> TermList {
        let found = Found::of(n, text);
        let answer = found.answer();
        let counted_in = DIMENSIONS.into_iter().find(|&one| one as u64 == n).unwrap_or(made_in);
        self.answers.count(counted_in, answer.refusal);
        match found {
            Found::NoDimension(wrong) => self.dimensions.count(counted_in, wrong),
            Found::Outside(leaving, at) => {
                self.leavings.count(counted_in, leaving);
                self.leaving_bytes.count(counted_in, text.get(at).copied());
            }
            Found::Broken(broken) => {
                self.broken.count(counted_in, broken);
                self.count_depth(counted_in, text, false);
            }
            Found::Terms(terms) => {
                self.terms.count(counted_in, terms.len());
                self.count_depth(counted_in, text, true);
                self.count_operations(counted_in, text);
            }
        }
        answer
    }

    fn count_depth(&mut self, n: usize, text: &[u8], is_answered: bool) {
        let depth = decide(n, text).expect("a text of the language");
        self.depths.count(n, (depth.min(DEEPEST_COUNTED), is_answered));
    }

    fn count_operations(&mut self, n: usize, text: &[u8]) {
        let operations = formula::read(n, text).expect("a text of the language").operations;
        joints_of(&operations).into_iter().for_each(|joint| self.joints.count(n, joint));
        for (k, operation) in operations.iter().enumerate() {
            match *operation {
                Operation::Letter(axis) => self.axes.count(n, axis),
                Operation::Power(power) => {
                    let of = match operations[k - 1] {
                        Operation::Number(0) => "0",
                        Operation::Number(_) => "a number",
                        Operation::Letter(_) => "a letter",
                        _ => "parentheses",
                    };
                    self.powers.count(n, (of, power));
                }
                _ => {}
            }
        }
    }

    /// Fails unless each was met at least so often in each dimension: ten times every answer and every
    /// reason for 15; every depth, joint, power, axis and count of terms of texts that are answered;
    /// a quarter as often every depth of those that get 15, every way to leave the language before
    /// parentheses nest deeper than 16, and every byte there.
    pub fn assert_often(&self, least: u64) {
        let (often, seldom) = (10 * least, least / 4);
        self.answers.assert_met(&[0, 3, 14, 15]);
        self.answers.assert_often(often, &[0, 3, 14, 15]);
        self.dimensions.assert_often(least, &WrongDimension::all());
        self.broken.assert_often(often, &Broken::all());
        let bytes: Vec<Option<u8>> = (0..=255).map(Some).chain([None]).collect();
        self.leaving_bytes.assert_often(seldom, &bytes);
        let answered: Vec<_> = (0..=16).map(|depth| (depth, true)).collect();
        let refused: Vec<_> = (0..=DEEPEST_COUNTED).map(|depth| (depth, false)).collect();
        self.depths.assert_met(&[&answered[..], &refused].concat());
        self.depths.assert_often(least, &answered);
        self.depths.assert_often(seldom, &refused);
        self.joints.assert_met(&joints());
        self.joints.assert_often(least, &joints());
        let each_power = |of| (0..=4).map(move |power| (of, power));
        let powers = ["0", "a number", "a letter", "parentheses"].into_iter().flat_map(each_power);
        self.powers.assert_often(least, &powers.collect::<Vec<_>>());
        for n in DIMENSIONS {
            let early = Leaving::all(n).into_iter().filter(|leaving| !leaving.was_deep);
            self.leavings.assert_often_in(n, seldom, &early.collect::<Vec<_>>());
            self.axes.assert_met_in(n, &(1..=n).collect::<Vec<_>>());
            let counts: Vec<usize> = (1..=[15, 35, 70][n - 2]).collect();
            self.terms.assert_met_in(n, &counts);
            self.terms.assert_often_in(n, least, &counts);
        }
    }
}

#[cfg(test)]
mod tests {
    use super::*;

    /// How many ways there are.
    #[test]
    fn ways_are_all() {
        assert_eq!(DIMENSIONS.map(|n| Leaving::all(n).len()), [321, 321, 279]);
        assert_eq!(Broken::all().len(), 9);
        assert_eq!(joints().len(), 2 + 2 * 7 + 3 * 49);
    }

    /// Where a text leaves the language, by hand.
    #[test]
    fn first_bytes() {
        let leaves = |n: usize, text: &str| {
            let (leaving, at) = decide(n, text.as_bytes()).expect_err("outside the language");
            (at, leaving.before, leaving.next, leaving.is_open)
        };
        assert_eq!(leaves(2, ""), (0, Before::Nothing, Next::End, false));
        assert_eq!(leaves(2, "+x"), (0, Before::Nothing, Next::Plus, false));
        assert_eq!(leaves(2, "()"), (1, Before::Opening, Next::Closing, true));
        assert_eq!(leaves(2, "x*-y"), (2, Before::Star, Next::Minus, false));
        assert_eq!(leaves(2, "--x"), (1, Before::Sign, Next::Minus, false));
        assert_eq!(leaves(2, "12345678"), (7, Before::SeventhDigit, Next::LargeDigit, false));
        assert_eq!(leaves(2, "x^5"), (2, Before::Caret, Next::LargeDigit, false));
        assert_eq!(leaves(2, "x^12"), (3, Before::Exponent, Next::SmallDigit, false));
        assert_eq!(leaves(2, "x^2^2"), (3, Before::Exponent, Next::Caret, false));
        assert_eq!(leaves(2, "2x"), (1, Before::Digit, Next::Letter, false));
        assert_eq!(leaves(2, "(x)y"), (3, Before::Closing, Next::Letter, false));
        assert_eq!(leaves(2, "(x"), (2, Before::Letter, Next::End, true));
        assert_eq!(leaves(2, "x)"), (1, Before::Letter, Next::Closing, false));
        assert_eq!(leaves(2, "x +y"), (1, Before::Letter, Next::Other, false));
        assert_eq!(leaves(3, "z+w"), (2, Before::Plus, Next::LetterAbove, false));
        assert_eq!(decide(4, b"(z+(w))"), Ok(2));
        let deep = ["(".repeat(17), "x".into(), ")".repeat(17), "x".into()].concat();
        let (leaving, at) = decide(2, deep.as_bytes()).expect_err("outside the language");
        assert_eq!((at, leaving.is_open, leaving.was_deep), (35, false, true));
    }

    /// Values, without polynomials.
    #[test]
    fn values() {
        let value = |text: &str| value_at(text.as_bytes(), &[2, 3, -5, 7]);
        assert_eq!(value("2*3^2"), 18);
        assert_eq!(value("x-y-z"), 4);
        assert_eq!(value("x-(y-z)"), -6);
        assert_eq!(value("-x^2*y+w"), -5);
        assert_eq!(value("-(x-y)^3*(z+w)-1"), 1);
        assert_eq!(value("(x-2)^0"), 1);
        assert_eq!(value("((0000012))*x^0*z^3"), -1500);
    }

    /// The first limit that is broken, by hand.
    #[test]
    fn reasons() {
        let found = |text: &str| Found::of(2, text.as_bytes());
        let coefficient = |by| Found::Broken(Broken::Coefficient(by));
        assert_eq!(found("1048577*0"), coefficient(By::Number));
        assert_eq!(found("1025^2-1"), coefficient(By::Power));
        assert_eq!(found("1024*1025*x"), coefficient(By::Times));
        assert_eq!(found("1048576+1-1"), coefficient(By::Plus));
        assert_eq!(found("-1048576-1+1"), coefficient(By::Minus));
        assert_eq!(found("(x^2)^3"), Found::Broken(Broken::Degree(By::Power)));
        assert_eq!(found("x^2*y^3"), Found::Broken(Broken::Degree(By::Times)));
        assert_eq!(found("x-x"), Found::Broken(Broken::Zero));
        let deep = ["(".repeat(17), "1048577".into(), ")".repeat(17)].concat();
        assert_eq!(found(&deep), Found::Broken(Broken::Deep));
        assert_eq!(found("y*x*2"), Found::Terms(vec![term(2, &[1, 1])]));
    }
}
