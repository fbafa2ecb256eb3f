//! Formulas to type, and what may go wrong while they are typed.

use super::kinds::any_dimension;
use super::random::Random;
use super::trees::Tree;
use crate::build::exponents;
use crate::crossed::Term;
use crate::formula::{formula, DEEPEST, LETTERS};
use crate::formula_met::{befores, decide};
use crate::limits::{Limits, DIMENSIONS, LARGEST_COEFFICIENT};
use crate::named;
use crate::tally::Tally;

const LARGEST: u32 = LARGEST_COEFFICIENT as u32;

/// Every byte of the language, in each dimension.
pub const ALPHABET: &[u8] = b"0123456789xyzw+-*^()";

named! {
    /// What a formula is like before a change.
    FormulaKind {
        /// Small numbers, and no degree above 4.
        Plain: 4,
        /// Numbers of up to 7 digits, any powers and products.
        Free: 3,
        /// Parentheses inside each other, often 16 or 17.
        Deep: 5,
        /// Coefficients that come to the limit, or pass it by little, in all ways.
        AtLimit: 4,
        /// Degrees that come to the limit or pass it.
        AtDegree: 2,
        /// An inner zero, its powers and products.
        InnerZero: 3,
        /// An inner result breaks a limit, and the result would be fine.
        PassesInside: 3,
        /// A term list, typed in any order and in several ways.
        TermList: 4,
        /// Products of sums of letters, with many terms.
        Factors: 2,
        /// The result is zero.
        Zero: 1,
    }
}

named! {
    /// What becomes of a formula.
    FormulaChange {
        /// Nothing.
        Untouched: 14,
        /// A byte becomes any other.
        AnyByte: 2,
        /// A byte becomes one of the language.
        OtherByte: 2,
        /// A byte becomes one that looks like it, or differs in one bit.
        LookAlike: 2,
        /// A byte is left out.
        Removed: 2,
        /// A byte of the language is put between.
        Inserted: 2,
        /// Any byte is put between.
        AnyInserted: 2,
        /// A byte is typed twice.
        Doubled: 1,
        /// The end is left out.
        Truncated: 2,
        /// The front is left out.
        FrontCut: 1,
        /// Two neighbours are exchanged.
        Exchanged: 1,
        /// A byte is put where no text of the language has it, and the text goes on.
        Left: 7,
        /// The front of one formula and the end of another.
        Spliced: 1,
        /// A letter becomes another small one.
        OtherLetter: 1,
        /// It is asked for in another dimension.
        OtherDimension: 2,
        /// It is asked for in what is no dimension, half of the time with another change.
        NoDimension: 2,
        /// Up to 12 bytes of the language.
        Noise: 1,
        /// Up to 6 bytes of any kind.
        AnyBytes: 1,
    }
}

/// A number, sometimes with zeros in front.
fn typed_number(r: &mut Random, value: u32) -> Tree {
    let any = 1 + r.index(7);
    Tree::Number(value, r.pick(&[1, 1, 1, 1, 1, 1, 1, any, 7]))
}

fn small_number(r: &mut Random) -> Tree {
    let value = r.pick(&[0, 1, 1, 2, 2, 3, 4, 5, 7, 10, 12, 25]);
    typed_number(r, value)
}

fn letter(r: &mut Random, n: usize) -> Tree {
    Tree::Letter(1 + r.index(n))
}

fn small_leaf(r: &mut Random, n: usize, degree: usize) -> Tree {
    if degree == 0 || r.once_in(3) {
        small_number(r)
    } else {
        letter(r, n)
    }
}

/// A formula with so many numbers and letters, of this degree at most.
fn plain(r: &mut Random, n: usize, degree: usize, size: usize) -> Tree {
    if size < 2 {
        let leaf = small_leaf(r, n, degree);
        return match r.below(8) {
            0 => leaf.power(r.below(2) as u8),
            1 if degree > 1 => leaf.power(r.index(degree + 1) as u8),
            2 => leaf.negate(),
            3 => leaf.in_parentheses(),
            _ => leaf,
        };
    }
    let own = 1 + r.index(size - 1);
    match r.below(12) {
        0..=2 => plain(r, n, degree, own).plus(plain(r, n, degree, size - own)),
        3..=5 => plain(r, n, degree, own).minus(plain(r, n, degree, size - own)),
        6..=8 => {
            let first = r.index(degree + 1);
            plain(r, n, first, own).times(plain(r, n, degree - first, size - own))
        }
        9 => {
            let power = r.index(5);
            let least = if power == 0 { degree } else { degree / power };
            plain(r, n, least, size).power(power as u8)
        }
        10 => plain(r, n, degree, size - 1).negate(),
        _ => plain(r, n, degree, size - 1).in_parentheses(),
    }
}

/// A formula with any numbers and degrees.
fn free(r: &mut Random, n: usize, size: usize) -> Tree {
    if size < 2 {
        if r.once_in(2) {
            return letter(r, n);
        }
        let digits = 1 + r.below(7) as u32;
        let value = r.below(10u64.pow(digits)) as u32;
        return typed_number(r, value);
    }
    let own = 1 + r.index(size - 1);
    match r.below(8) {
        0 | 1 => free(r, n, own).plus(free(r, n, size - own)),
        2 | 3 => free(r, n, own).minus(free(r, n, size - own)),
        4 => free(r, n, own).times(free(r, n, size - own)),
        5 => free(r, n, size - 1).power(r.index(5) as u8),
        6 => free(r, n, size - 1).negate(),
        _ => free(r, n, size - 1).in_parentheses(),
    }
}

fn depth_of(n: usize, tree: &Tree) -> usize {
    decide(n, &tree.text()).expect("a formula of the language")
}

/// A formula whose parentheses nest just so deep; each pair may have something beside it.
pub fn nested(r: &mut Random, n: usize, depth: usize) -> Tree {
    let size = 1 + r.index(3);
    let mut tree = match r.below(8) {
        0 => zero(r, n),
        1 | 2 => breaking(r, n),
        3 => at_limit(r, n),
        _ => plain(r, n, 2, size),
    };
    if depth_of(n, &tree) > depth {
        tree = small_leaf(r, n, 1);
    }
    for _ in depth_of(n, &tree)..depth {
        let inside = tree.in_parentheses();
        let other = small_leaf(r, n, 1);
        tree = match r.below(16) {
            0 => inside.plus(other),
            1 => inside.minus(other),
            2 => other.plus(inside),
            3 => other.minus(inside),
            4 => inside.negate(),
            5 => inside.negate().plus(other),
            6 => inside.times(Tree::number(1)),
            7 => Tree::number(r.below(2) as u32).times(inside).plus(other),
            8 => inside.power(1),
            9 => inside.power(0).minus(other),
            10 => inside.plus(other.in_parentheses()),
            11 => other.in_parentheses().power(2).minus(inside),
            _ => inside,
        };
    }
    tree
}

fn deep(r: &mut Random, n: usize) -> Tree {
    let (any, more) = (r.index(21), 17 + r.index(24));
    let depth = r.weighted(&[(any, 8), (DEEPEST, 4), (DEEPEST + 1, 4), (more, 1)]);
    nested(r, n, depth)
}

/// Numbers whose powers, or their products with small ones, are close to the limit.
const CLOSE: [u32; 12] = [2, 31, 32, 33, 101, 102, 512, 1_023, 1_024, 1_025, 524_288, LARGEST];

/// A coefficient at the limit, or past it by little.
fn at_limit(r: &mut Random, n: usize) -> Tree {
    let target = LARGEST - 2 + r.below(5) as u32;
    let part = r.below(LARGEST as u64) as u32;
    let axis = 1 + r.index(n);
    match r.below(9) {
        0 => typed_number(r, target),
        1 => Tree::number(part).plus(Tree::number(target - part)),
        2 => Tree::number(part).negate().minus(Tree::number(target - part)),
        3 => Tree::number(part).minus(Tree::number(target - part).negate()),
        4 => {
            let factor = r.pick(&CLOSE);
            Tree::number(factor).times(Tree::number(LARGEST / factor + r.below(2) as u32))
        }
        5 => Tree::number(r.pick(&CLOSE)).power(r.index(5) as u8),
        // All coefficients of a power.
        6 => {
            let sum = Tree::Letter(axis).plus(Tree::number(r.pick(&CLOSE)));
            let power = r.index(5) as u8;
            if r.once_in(2) {
                sum.power(power)
            } else {
                sum.negate().power(power)
            }
        }
        // Several products that come to one coefficient, above the limit and back.
        7 => {
            let [a, b, c] = r.pick(&[
                [LARGEST, LARGEST / 2, LARGEST / 2],
                [LARGEST, LARGEST, LARGEST],
                [LARGEST, LARGEST, 1],
                [LARGEST / 2, LARGEST, LARGEST / 2],
                [LARGEST, LARGEST / 2 + 1, LARGEST / 2],
            ]);
            let x = || Tree::Letter(axis);
            let square = || x().power(2);
            let one = Tree::number(a)
                .plus(Tree::number(b).times(x()))
                .plus(Tree::number(c).times(square()));
            let other = match r.below(3) {
                0 => square().plus(x()).minus(Tree::number(1)),
                1 => square().minus(x()).plus(Tree::number(1)),
                _ => x().minus(square()).plus(Tree::number(1)),
            };
            if r.once_in(2) {
                one.times(other)
            } else {
                other.times(one)
            }
        }
        // Of a term with letters.
        _ => {
            let letters = || Tree::Letter(axis).power(2);
            let one = Tree::number(part).times(letters());
            one.plus(letters().times(Tree::number(target - part)))
        }
    }
}

/// Degrees of 3 to 6, by products and powers.
fn at_degree(r: &mut Random, n: usize) -> Tree {
    let sum = |r: &mut Random| letter(r, n).plus(small_leaf(r, n, 1));
    let any = |r: &mut Random| {
        let power = r.index(5) as u8;
        match r.below(3) {
            0 => letter(r, n).power(power),
            1 => letter(r, n),
            _ => sum(r).power(r.index(3) as u8),
        }
    };
    match r.below(5) {
        0 => any(r).power(r.index(5) as u8),
        1 => any(r).times(any(r)),
        2 => any(r).times(any(r)).times(any(r)),
        3 => any(r).times(any(r).times(any(r))),
        // A degree that has become less.
        _ => {
            let high = letter(r, n).power(3);
            let low = high.clone().plus(letter(r, n)).minus(high);
            low.times(any(r))
        }
    }
}

/// What comes to zero.
fn zero(r: &mut Random, n: usize) -> Tree {
    let (size, degree) = (1 + r.index(4), r.index(4));
    let any = plain(r, n, degree, size);
    match r.below(8) {
        0 => Tree::Number(0, 1 + r.index(7)),
        1 => any.clone().minus(any),
        2 => any.clone().negate().plus(any),
        3 => any.clone().plus(any.negate()),
        4 => any.times(Tree::number(0)),
        5 => Tree::number(0).times(any),
        6 => any.clone().minus(any).power(1 + r.index(4) as u8),
        _ => any.clone().minus(any).negate(),
    }
}

/// A formula with an inner zero that is no zero itself, or seldom is.
fn inner_zero(r: &mut Random, n: usize) -> Tree {
    let zero = zero(r, n);
    let size = 1 + r.index(4);
    let other = plain(r, n, 4, size);
    match r.below(7) {
        0 => other.plus(zero),
        1 => zero.minus(other),
        2 => zero.power(0).times(other),
        3 => other.plus(Tree::Number(0, 1 + r.index(7)).power(r.index(5) as u8)),
        // A product with zero may have any degree.
        4 => zero.times(letter(r, n).power(4)).times(letter(r, n)).plus(other),
        5 => other.minus(zero.power(r.index(5) as u8)),
        _ => other.plus(Tree::number(0).times(zero)),
    }
}

/// What breaks a limit.
fn breaking(r: &mut Random, n: usize) -> Tree {
    let close = r.pick(&[1, 2, 1_000]);
    match r.below(7) {
        0 => typed_number(r, LARGEST + close),
        1 => Tree::number(LARGEST).plus(Tree::number(close)),
        2 => Tree::number(LARGEST).negate().minus(Tree::number(close)),
        3 => Tree::number(1_025).times(Tree::number(1_024)),
        4 => Tree::number(r.pick(&[33, 102, 1_025])).power(4),
        5 => letter(r, n).power(3).times(letter(r, n).power(2)),
        _ => letter(r, n).plus(small_number(r)).power(2).power(3),
    }
}

/// A formula that is answered, and the same with an inner result that breaks a limit and goes away.
fn passes_inside(r: &mut Random, n: usize) -> (Tree, Tree) {
    let right = loop {
        let size = 1 + r.index(3);
        let tree = plain(r, n, 3, size);
        if formula(n as u64, &tree.text()).refusal == 0 {
            break tree;
        }
    };
    let (other, breaking) = (right.clone(), breaking(r, n));
    let tree = match r.below(7) {
        0 => other.plus(breaking.clone().minus(breaking)),
        1 => other.plus(breaking.clone()).minus(breaking),
        2 => breaking.clone().minus(breaking).plus(other),
        3 => other.minus(Tree::number(0).times(breaking)),
        4 => breaking.power(0).times(other),
        5 => breaking.times(Tree::number(0)).plus(other),
        _ => other.plus(breaking.minus(letter(r, n)).power(0)).minus(Tree::number(1)),
    };
    (right, tree)
}

/// A product of the factors in any order, from left to right or in groups.
fn multiplied(r: &mut Random, mut factors: Vec<Tree>) -> Tree {
    r.shuffle(&mut factors);
    while factors.len() > 1 {
        let at = if r.once_in(3) { r.index(factors.len() - 1) } else { 0 };
        let other = factors.remove(at + 1);
        factors[at] = factors[at].clone().times(other);
    }
    factors.pop().expect("a factor")
}

/// A term without its sign, in any of the ways in which it may be typed.
fn typed_term(r: &mut Random, size: u32, exponents: &[u8]) -> Tree {
    let mut factors = Vec::new();
    for (axis, &exponent) in (1..).zip(exponents) {
        let mut left = exponent;
        while left > 0 {
            let power = if r.once_in(3) { 1 + r.below(left as u64) as u8 } else { left };
            let is_plain = power == 1 && !r.once_in(8);
            let x = Tree::Letter(axis);
            factors.push(if is_plain { x } else { x.power(power) });
            left -= power;
        }
    }
    if size != 1 || factors.is_empty() || r.once_in(6) {
        factors.push(typed_number(r, size));
    }
    if r.once_in(20) {
        factors.push(letter(r, exponents.len()).power(0));
    }
    multiplied(r, factors)
}

/// A list of so many terms, and a formula for it, in which no inner result breaks a limit. Its terms
/// come in any order; some come in two parts, and some that are not in the list come and go.
pub fn typed_list(r: &mut Random, n: usize, count: usize) -> (Vec<Term>, Tree) {
    let mut all = exponents(n).to_vec();
    r.shuffle(&mut all);
    let largest = r.pick(&[3, 3, 100, LARGEST_COEFFICIENT]);
    let mut terms: Vec<Term> = Vec::new();
    for &exponents in &all[..count] {
        let size = if r.once_in(12) { largest } else { r.between(1, largest) };
        terms.push(Term { coefficient: r.pick(&[size, -size]), exponents });
    }
    // Each with whether it comes with a minus.
    let mut typed: Vec<(bool, Tree)> = Vec::new();
    for term in &terms {
        let (size, is_negative) = (term.coefficient.unsigned_abs() as u32, term.coefficient < 0);
        let part = if r.once_in(6) { r.below(size as u64) as u32 } else { 0 };
        let sizes = [part, size - part];
        for size in sizes.into_iter().filter(|&size| size > 0) {
            typed.push((is_negative, typed_term(r, size, &term.exponents[..n])));
        }
    }
    r.shuffle(&mut typed);
    for exponents in &all[count..] {
        if r.once_in(10) {
            let size = 1 + r.below(9) as u32;
            let at = r.index(typed.len() + 1);
            typed.insert(at, (true, typed_term(r, size, &exponents[..n])));
            let at = r.index(typed.len() + 1);
            typed.insert(at, (false, typed_term(r, size, &exponents[..n])));
        }
    }
    let tree = added(r, typed);
    terms.sort_by_key(|term| term.exponents);
    (terms, tree)
}

/// The sum of all, from left to right.
fn added(r: &mut Random, typed: Vec<(bool, Tree)>) -> Tree {
    let mut sum: Option<Tree> = None;
    for (is_negative, term) in typed {
        // A minus may stand before a term in parentheses, too.
        let (is_negative, term) =
            if r.once_in(12) { (!is_negative, term.negate()) } else { (is_negative, term) };
        sum = Some(match (sum, is_negative) {
            (None, true) => term.negate(),
            (None, false) => term,
            (Some(before), true) => before.minus(term),
            (Some(before), false) => before.plus(term),
        });
    }
    sum.expect("a term")
}

/// Products of sums of letters, or a power of one.
fn factors(r: &mut Random, n: usize) -> Tree {
    let sum = |r: &mut Random| {
        let count = 2 + r.index(n);
        let leaves: Vec<(bool, Tree)> =
            (0..count).map(|_| (r.once_in(3), small_leaf(r, n, 4))).collect();
        added(r, leaves)
    };
    let every = |r: &mut Random| {
        let mut leaves: Vec<(bool, Tree)> =
            (1..=n).map(|axis| (r.once_in(2), Tree::Letter(axis))).collect();
        leaves.push((r.once_in(2), small_number(r)));
        added(r, leaves)
    };
    match r.below(5) {
        0 => every(r).power(3 + r.index(2) as u8),
        1 => sum(r).times(sum(r)),
        2 => sum(r).times(sum(r)).times(every(r)),
        3 => every(r).power(2).times(sum(r)).times(sum(r)),
        _ => sum(r).power(2).minus(every(r).times(sum(r))),
    }
}

/// A formula of a kind.
pub fn formula_of(r: &mut Random, n: usize, kind: FormulaKind) -> Tree {
    let size = 1 + r.index(9);
    let tree = match kind {
        FormulaKind::Plain => plain(r, n, 4, size),
        FormulaKind::Free => free(r, n, size),
        FormulaKind::Deep => return deep(r, n),
        FormulaKind::AtLimit => at_limit(r, n),
        FormulaKind::AtDegree => at_degree(r, n),
        FormulaKind::InnerZero => inner_zero(r, n),
        FormulaKind::PassesInside => return passes_inside(r, n).1,
        FormulaKind::TermList => {
            let count = 1 + r.index(Limits::of(n).terms);
            return typed_list(r, n, count).1;
        }
        FormulaKind::Factors => return factors(r, n),
        FormulaKind::Zero => return zero(r, n),
    };
    // Most stand in something larger.
    match r.below(8) {
        0 => tree.negate(),
        1 => tree.in_parentheses(),
        2 => tree.times(small_leaf(r, n, 1)),
        3 => small_leaf(r, n, 1).minus(tree),
        4 => tree.plus(small_leaf(r, n, 1)),
        5 => plain(r, n, 2, 2).plus(tree),
        _ => tree,
    }
}

/// A text to ask for, and how it was made.
pub struct AnyFormula {
    pub n: u64,
    pub text: Vec<u8>,
    /// The dimension that the formula was made for.
    pub made_in: usize,
    pub kind: FormulaKind,
    pub change: FormulaChange,
    /// The formula before its change.
    pub tree: Tree,
}

/// A number that is no dimension.
fn no_dimension(r: &mut Random) -> u64 {
    let dimension = r.pick(&DIMENSIONS) as u64;
    let shift = r.pick(&[8, 16, 32, 63]);
    let any = r.pick(&[0, 1, 5, 6, 10, 255, 256, u64::MAX]);
    r.pick(&[any, dimension + (1 << shift), dimension << shift])
}

/// Puts a byte where the text leaves the language by it, after some tries, behind anything that the
/// text has as often as behind what it has most; the text goes on behind.
fn leave(r: &mut Random, n: usize, text: &mut Vec<u8>) {
    let befores = befores(n, text);
    let mut kinds = befores.clone();
    kinds.sort();
    kinds.dedup();
    for _ in 0..50 {
        let before = r.pick(&kinds);
        let places = (0..befores.len()).filter(|&at| befores[at] == before);
        let at = r.pick(&places.collect::<Vec<_>>());
        let (any, known) = (r.byte(), r.pick(b"028xyzwzw+-*^()"));
        let byte = r.pick(&[any, known, known]);
        let front = [&text[..at], &[byte]].concat();
        if decide(n, &front).is_err_and(|(_, left_at)| left_at == at) {
            text.insert(at, byte);
            return;
        }
    }
}

/// A byte that is taken for another.
fn look_alike(r: &mut Random, byte: u8) -> u8 {
    let like: &[u8] = match byte {
        b'(' => b"[{<",
        b')' => b"]}>",
        b'x' | b'y' | b'z' | b'w' => &[byte.to_ascii_uppercase()],
        b'*' => b".x#",
        b'^' => b"'~*",
        b'+' => b"&t-",
        b'-' => b"_~+",
        b'0' => b"Oo8",
        b'1' => b"lI7",
        _ => b" .,",
    };
    let other_bit = byte ^ 1 << r.below(8);
    let like = r.pick(like);
    r.pick(&[like, like, byte | 128, other_bit])
}

/// Makes a change of a text.
pub fn change_text(r: &mut Random, n: usize, text: &mut Vec<u8>, change: FormulaChange) {
    let at = r.index(text.len());
    match change {
        FormulaChange::Untouched | FormulaChange::OtherDimension | FormulaChange::NoDimension => {}
        FormulaChange::AnyByte => text[at] = r.byte(),
        FormulaChange::OtherByte => text[at] = r.pick(ALPHABET),
        FormulaChange::LookAlike => text[at] = look_alike(r, text[at]),
        FormulaChange::Removed => drop(text.remove(at)),
        FormulaChange::Inserted => {
            let at = r.index(text.len() + 1);
            text.insert(at, r.pick(ALPHABET));
        }
        FormulaChange::AnyInserted => {
            let at = r.index(text.len() + 1);
            text.insert(at, r.byte());
        }
        FormulaChange::Doubled => text.insert(at, text[at]),
        FormulaChange::Truncated => text.truncate(at),
        FormulaChange::FrontCut => drop(text.drain(..at)),
        FormulaChange::Exchanged => text.swap(at, at.max(1) - 1),
        FormulaChange::Left => leave(r, n, text),
        FormulaChange::Spliced => {
            let kind = r.named();
            let other = formula_of(r, n, kind).text();
            text.truncate(at);
            text.extend_from_slice(&other[r.index(other.len())..]);
        }
        FormulaChange::OtherLetter => {
            let letters: Vec<usize> =
                (0..text.len()).filter(|&at| LETTERS.contains(&text[at])).collect();
            if !letters.is_empty() {
                text[r.pick(&letters)] = r.pick(b"xyzwzwabcvu");
            }
        }
        FormulaChange::Noise => {
            *text = (0..1 + r.index(12)).map(|_| r.pick(ALPHABET)).collect();
        }
        FormulaChange::AnyBytes => {
            let length = r.index(7);
            *text = r.bytes(length);
        }
    }
}

/// Any text in any dimension.
pub fn any_formula(r: &mut Random) -> AnyFormula {
    let made_in = any_dimension(r);
    let (kind, change) = (r.named(), r.named());
    let tree = formula_of(r, made_in, kind);
    let mut text = tree.text();
    change_text(r, made_in, &mut text, change);
    if change == FormulaChange::NoDimension && r.once_in(2) {
        let other = r.named();
        change_text(r, made_in, &mut text, other);
    }
    let n = match change {
        FormulaChange::OtherDimension => r.pick(&DIMENSIONS) as u64,
        FormulaChange::NoDimension => no_dimension(r),
        _ => made_in as u64,
    };
    AnyFormula { n, text, made_in, kind, change, tree }
}

/// Counts of how texts were made.
#[derive(Default)]
pub struct FormulaTally {
    kinds: Tally<FormulaKind>,
    changes: Tally<FormulaChange>,
}

impl FormulaTally {
    pub fn count(&mut self, any: &AnyFormula) {
        self.kinds.count(any.made_in, any.kind);
        self.changes.count(any.made_in, any.change);
    }

    /// Fails unless each kind and each change was met in each dimension.
    pub fn assert_all(&self) {
        self.kinds.assert_all();
        self.changes.assert_all();
    }
}

#[cfg(test)]
mod tests {
    use super::*;
    use crate::formula::read;
    use crate::formula_met::value_at;
    use crate::tally::Named;
    use std::collections::BTreeMap;

    /// Every formula is in the language, and read as it was made.
    #[test]
    fn read_as_made() {
        let mut r = Random::new(200);
        for _ in 0..40_000 {
            let (n, kind) = (any_dimension(&mut r), r.named());
            let tree = formula_of(&mut r, n, kind);
            let text = tree.text();
            let reading = read(n, &text).expect("a formula of the language");
            assert_eq!(reading.operations, tree.operations(), "{}", text.escape_ascii());
            assert_eq!(Ok(reading.depth), decide(n, &text));
        }
    }

    /// What each kind comes to.
    #[test]
    fn each_kind_reaches_its_answers() {
        let mut r = Random::new(201);
        let mut met: BTreeMap<FormulaKind, Tally<u64>> = BTreeMap::new();
        for _ in 0..40_000 {
            let (n, kind) = (any_dimension(&mut r), r.named());
            let text = formula_of(&mut r, n, kind).text();
            met.entry(kind).or_default().count(n, formula(n as u64, &text).refusal);
        }
        for kind in FormulaKind::all() {
            println!("{kind:?}");
            match kind {
                FormulaKind::TermList => met[&kind].assert_met(&[0]),
                FormulaKind::PassesInside | FormulaKind::Zero => met[&kind].assert_met(&[15]),
                _ => met[&kind].assert_met(&[0, 15]),
            }
        }
    }

    /// A formula that breaks a limit inside has the values of the one without it.
    #[test]
    fn what_passes_inside_goes_away() {
        let mut r = Random::new(202);
        for _ in 0..2_000 {
            let n = any_dimension(&mut r);
            let (right, tree) = passes_inside(&mut r, n);
            let vertex = [0; 4].map(|_: i64| r.between(-9, 9));
            let [wanted, found] = [right, tree].map(|tree| value_at(&tree.text(), &vertex));
            assert_eq!(found, wanted);
        }
    }

    /// Depths are as asked for.
    #[test]
    fn just_so_deep() {
        let mut r = Random::new(203);
        for depth in (0..=20).flat_map(|depth| [depth; 50]) {
            let n = any_dimension(&mut r);
            let tree = nested(&mut r, n, depth);
            assert_eq!(depth_of(n, &tree), depth);
        }
    }

    /// A text that was made to leave the language does, but for few.
    #[test]
    fn changes_that_leave() {
        let mut r = Random::new(204);
        let mut outside = 0;
        for _ in 0..5_000 {
            let (n, kind) = (any_dimension(&mut r), r.named());
            let mut text = formula_of(&mut r, n, kind).text();
            change_text(&mut r, n, &mut text, FormulaChange::Left);
            outside += decide(n, &text).is_err() as u32;
        }
        assert!(outside > 4_990, "{outside}");
    }
}
