//! Request 2.1, formulas typed at the bench, as checks of any product. The whole answer must be the
//! reference's and that of the second reading in `formula_met`; where a formula was made for an
//! answer, that one; a list must be a polynomial body of a job that opens, and its values at
//! vertices those of the formula, computed without polynomials.

use std::path::{Path, PathBuf};

use crate::bad_terms::bad_terms;
use crate::build::{case_c, exponents, Parts};
use crate::crossed::{sum, Term};
use crate::formula::{TermList, DEEPEST, LETTERS, LONGEST};
use crate::formula_examples::{EXAMPLES, OF_DOCUMENT_001, TOO_LARGE};
use crate::formula_met::{decide, value_at, FormulaMet, Leaving};
use crate::generate::{
    any_dimension, any_formula, change_text, formula_of, nested, typed_list, FormulaChange,
    FormulaKind, FormulaTally, Random, Tree, ALPHABET,
};
use crate::grid::Vertex;
use crate::job::open;
use crate::limits::{Limits, DIMENSIONS, MOST};
use crate::product::{Product, Reference};
use crate::tally::{Named, Tally};
use crate::writing::Loose;
use crate::writing_checks::large_numbers;

const LARGEST: i128 = 1_048_576;

/// A product, and counts of what it was asked for.
struct Asked<'a, P> {
    product: &'a P,
    r: Random,
    met: FormulaMet,
}

/// A text as it is shown where a check fails; of a long one its ends.
fn shown(n: u64, text: &[u8]) -> String {
    if text.len() <= 300 {
        return format!("for n {n} and the text {}", text.escape_ascii());
    }
    let (front, end) = (&text[..100], &text[text.len() - 100..]);
    let (front, end) = (front.escape_ascii(), end.escape_ascii());
    format!("for n {n} and the text {front} .. {end} of {} bytes", text.len())
}

impl<'a, P: Product> Asked<'a, P> {
    fn new(product: &'a P, seed: u64) -> Self {
        Asked { product, r: Random::new(seed), met: FormulaMet::default() }
    }

    /// Asks for a text. If n is no dimension, the text was made in the other.
    fn ask_made_in(&mut self, n: u64, other: usize, text: &[u8]) -> TermList {
        let answer = self.product.formula(n, text);
        let by_reference = Reference.formula(n, text);
        assert_eq!(answer, by_reference, "{}", shown(n, text));
        let second = self.met.count(n, other, text);
        assert_eq!(answer, second, "second reading {}", shown(n, text));
        if answer.refusal == 0 {
            check_list(&mut self.r, n as usize, text, &answer);
        } else {
            assert_eq!(answer, TermList::refused(answer.refusal), "{}", shown(n, text));
        }
        answer
    }

    fn ask(&mut self, n: usize, text: &[u8]) -> TermList {
        self.ask_made_in(n as u64, n, text)
    }

    /// Asks for a text whose answer is known.
    fn ask_for(&mut self, n: usize, text: &[u8], wanted: &TermList) {
        let answer = self.ask(n, text);
        assert_eq!(answer, *wanted, "known {}", shown(n as u64, text));
    }
}

/// A job of which each polynomial is this body.
fn job_with(n: usize, body: &[u8]) -> Vec<u8> {
    let mut loose = Loose::of(&case_c(n));
    loose.polynomials[..n - 1].iter_mut().for_each(|polynomial| *polynomial = body.to_vec());
    let mut job = vec![0; 2_000];
    let length = Reference.write_job(&loose, &mut job).expect("a polynomial body");
    job.truncate(length);
    job
}

/// A list is a polynomial body, has nothing behind it, and has the values of its formula.
fn check_list(r: &mut Random, n: usize, text: &[u8], list: &TermList) {
    let shown = || shown(n as u64, text);
    let count = list.count as usize;
    assert!((1..=Limits::of(n).terms).contains(&count), "{count} terms {}", shown());
    assert!(list.bytes[8 * count..].iter().all(|&byte| byte == 0), "{}", shown());
    assert_eq!(bad_terms(n, list.body()), [], "{}", shown());
    let job = open(&job_with(n, list.body())).expect("a job that opens");
    let polynomial = &job.polynomials[n - 2];
    assert_eq!(polynomial.len(), count, "{}", shown());
    for largest in [3, 256] {
        let mut vertex: Vertex = [0; MOST];
        vertex[..n].iter_mut().for_each(|x| *x = r.between(-largest, largest));
        let (found, wanted) = (sum(polynomial, &vertex), value_at(text, &vertex));
        assert_eq!(found, wanted, "value at {vertex:?} {}", shown());
    }
}

/// The list of these terms.
fn list(terms: &[(i32, [u8; MOST])]) -> TermList {
    TermList::of(terms.iter().copied())
}

/// The list of one term, or 15 if it is 0.
fn list_of_one(coefficient: i128, exponents: [u8; MOST]) -> TermList {
    match coefficient {
        0 => TermList::refused(15),
        _ => list(&[(coefficient as i32, exponents)]),
    }
}

/// A text of parentheses inside each other.
fn in_parentheses(depth: usize, inside: &str) -> String {
    [&"(".repeat(depth), inside, &")".repeat(depth)].concat()
}

const X: [u8; MOST] = [1, 0, 0, 0];
const Y: [u8; MOST] = [0, 1, 0, 0];
const Z: [u8; MOST] = [0, 0, 1, 0];
const W: [u8; MOST] = [0, 0, 0, 1];
const ONE: [u8; MOST] = [0; MOST];

/// A text and the terms of its list.
type Answered = (&'static str, &'static [(i32, [u8; MOST])]);

/// Texts and their lists, by hand.
const ANSWERED: &[Answered] = &[
    ("2*x^2+2*y^2-1", &[(-1, ONE), (2, [0, 2, 0, 0]), (2, [2, 0, 0, 0])]),
    ("7", &[(7, ONE)]),
    ("0000001", &[(1, ONE)]),
    ("0000000+1", &[(1, ONE)]),
    ("-12", &[(-12, ONE)]),
    ("1048576", &[(1_048_576, ONE)]),
    ("-1048576", &[(-1_048_576, ONE)]),
    ("256*x", &[(256, X)]),
    ("65537*y", &[(65_537, Y)]),
    ("x", &[(1, X)]),
    ("y", &[(1, Y)]),
    ("-x", &[(-1, X)]),
    ("x^0", &[(1, ONE)]),
    ("x^1", &[(1, X)]),
    ("x^2", &[(1, [2, 0, 0, 0])]),
    ("y^3", &[(1, [0, 3, 0, 0])]),
    ("x^4", &[(1, [4, 0, 0, 0])]),
    ("0^0", &[(1, ONE)]),
    ("(x-x)^0", &[(1, ONE)]),
    ("1048576^0", &[(1, ONE)]),
    ("-x^2", &[(-1, [2, 0, 0, 0])]),
    ("(-x)^2", &[(1, [2, 0, 0, 0])]),
    ("(-x)^3", &[(-1, [3, 0, 0, 0])]),
    ("2*3^2", &[(18, ONE)]),
    ("(2*3)^2", &[(36, ONE)]),
    ("-2*3+10", &[(4, ONE)]),
    ("-x+y", &[(1, Y), (-1, X)]),
    ("-(x+y)", &[(-1, Y), (-1, X)]),
    ("-(-x)", &[(1, X)]),
    ("x-y-1", &[(-1, ONE), (-1, Y), (1, X)]),
    ("x-(y-1)", &[(1, ONE), (-1, Y), (1, X)]),
    ("1-2-3", &[(-4, ONE)]),
    ("1-(2-3)", &[(2, ONE)]),
    ("1-2+3", &[(2, ONE)]),
    ("x+x", &[(2, X)]),
    ("2*x-x", &[(1, X)]),
    ("x*y+y*x", &[(2, [1, 1, 0, 0])]),
    ("x-x+y", &[(1, Y)]),
    ("x*2*y", &[(2, [1, 1, 0, 0])]),
    ("x*x*x*x", &[(1, [4, 0, 0, 0])]),
    ("(x^2)^2", &[(1, [4, 0, 0, 0])]),
    ("(x+1)*(x-1)", &[(-1, ONE), (1, [2, 0, 0, 0])]),
    (
        "(x+y)^4",
        &[
            (1, [0, 4, 0, 0]),
            (4, [1, 3, 0, 0]),
            (6, [2, 2, 0, 0]),
            (4, [3, 1, 0, 0]),
            (1, [4, 0, 0, 0]),
        ],
    ),
    ("1024^2", &[(1_048_576, ONE)]),
    ("101^3", &[(1_030_301, ONE)]),
    ("32^4*x^4", &[(1_048_576, [4, 0, 0, 0])]),
    ("(-32)^4", &[(1_048_576, ONE)]),
    ("1048575+1", &[(1_048_576, ONE)]),
    ("1048576-1048576+1", &[(1, ONE)]),
    ("-1048576+1048576+1", &[(1, ONE)]),
    ("1+0*x", &[(1, ONE)]),
    // A product with an inner zero has no degree and no coefficient.
    ("(x-x)*x^4*x+1", &[(1, ONE)]),
    ("0*1048576*1048576+1", &[(1, ONE)]),
    // The degree is that of what is left.
    ("(x^3-x^3+x)*y^3", &[(1, [1, 3, 0, 0])]),
    ("(x^4+y-x^4)*x", &[(1, [1, 1, 0, 0])]),
    // The products that come to one coefficient are no inner results.
    (
        "(1048576+524288*x+524288*x^2)*(x^2+x-1)",
        &[
            (-1_048_576, ONE),
            (524_288, X),
            (1_048_576, [2, 0, 0, 0]),
            (1_048_576, [3, 0, 0, 0]),
            (524_288, [4, 0, 0, 0]),
        ],
    ),
    (
        "(1+x-x^2)*(524288+524288*x+1048576*x^2)",
        &[
            (524_288, ONE),
            (1_048_576, X),
            (1_048_576, [2, 0, 0, 0]),
            (524_288, [3, 0, 0, 0]),
            (-1_048_576, [4, 0, 0, 0]),
        ],
    ),
];

/// Texts of the language that are turned away.
const FIFTEEN: &[&str] = &[
    "1048577",
    "-1048577",
    "9999999",
    "1048577-1",
    "1048576+1",
    "1048576+1-1",
    "-1048576-1",
    "-1048576-1+1",
    "1-(-1048576)",
    "0*1048577+1",
    "1048577*0+1",
    "1025^2-1025^2+1",
    "0*33^4+1",
    "(x^2)^3-(x^3)^2+1",
    "1048577^0",
    "(1048576+1)^0",
    "1024*1025",
    "1025^2",
    "102^3",
    "33^4",
    "2*1048576-1048576",
    "2*1048576*0+1",
    // 0 and 1 in 32 bits.
    "65536*65536",
    "65536*65536+1",
    "1048576*4096+1",
    // 0 and 1 in 64 bits.
    "1048576^4+1",
    "(x+33)^4",
    "(1025*x)^2",
    "x^4*x",
    "x^3*y^2",
    "x^4*y^4",
    "(x^2)^3",
    "(x*y)^3",
    "((x^4)^4)^4",
    "(x+1)^4*x",
    "x^4*x-x^4*x+y",
    "x^4*x*0+1",
    "x^4*x*(x-x)+1",
    "(x^4*x)^0",
    "0",
    "-0",
    "0000000",
    "0^1",
    "0*x",
    "x-x",
    "(x-x)^2",
    "-x+x",
    "(x+y)^2-x^2-2*x*y-y^2",
];

/// Texts outside the language.
const FOURTEEN: &[&str] = &[
    "",
    " ",
    "x ",
    " x",
    "x +y",
    "x\n",
    "\n",
    "\t",
    "x\0",
    "\0",
    "+x",
    "+1",
    "--x",
    "-+x",
    "x*-y",
    "x*+y",
    "x+-y",
    "x--y",
    "x++y",
    "x-+y",
    "-",
    "+",
    "*",
    "^",
    "x+",
    "x-",
    "x*",
    "*x",
    "x**2",
    "()",
    "x()",
    "x*()",
    "-()",
    "(",
    ")",
    ")(",
    "(x",
    "x)",
    "((x)",
    "(x))",
    "(x)+(y",
    "(-)",
    "(+x)",
    "2x",
    "x2",
    "xy",
    "xx",
    "x(y)",
    "(x)(y)",
    "(x)y",
    "(x)2",
    "2(x)",
    "x^",
    "^2",
    "x^5",
    "x^9",
    "x^12",
    "x^00",
    "x^04",
    "x^-1",
    "x^+1",
    "x^x",
    "x^(2)",
    "x^2^2",
    "x^2x",
    "x^2(x)",
    "(x)^",
    "(x)^5",
    "2^5",
    "10000000",
    "00000001",
    "12345678",
    "x+00000000",
    "X",
    "a",
    "v",
    "x=1",
    "x/2",
    "x:2",
    "1.5",
    "1,5",
    "1e3",
    "0x1",
    "x_1",
    "[x]",
    "{x}",
    "x;",
    "x^2.",
    "\u{b2}",
    "x\u{b2}",
    "\u{d7}",
    "2\u{b7}x",
    "\u{2212}x",
    // Outside, and with what is 15 in front.
    "1048577+",
    "1048577x",
    "x^4*x+",
    "x-x)",
    "(1048577",
    "0+",
    "1048576+1-",
    "9999999x^5",
];

/// What is known of single texts.
pub fn facts(product: &impl Product) {
    let mut asked = Asked::new(product, 210);
    let deepest = in_parentheses(DEEPEST, "x");
    let too_deep = in_parentheses(DEEPEST + 1, "x");
    for n in DIMENSIONS {
        for &(text, terms) in ANSWERED {
            asked.ask_for(n, text.as_bytes(), &list(terms));
        }
        for text in FIFTEEN {
            asked.ask_for(n, text.as_bytes(), &TermList::refused(15));
        }
        for text in FOURTEEN {
            asked.ask_for(n, text.as_bytes(), &TermList::refused(14));
        }
        for (axis, (letter, own)) in (1..).zip([("x", X), ("y", Y), ("z", Z), ("w", W)]) {
            let wanted = if axis <= n { list(&[(1, own)]) } else { TermList::refused(14) };
            asked.ask_for(n, letter.as_bytes(), &wanted);
        }
        asked.ask_for(n, deepest.as_bytes(), &list(&[(1, X)]));
        asked.ask_for(n, too_deep.as_bytes(), &TermList::refused(15));
        for damaged in [&too_deep[1..], &too_deep[..34], &format!("{too_deep}x")] {
            asked.ask_for(n, damaged.as_bytes(), &TermList::refused(14));
        }
    }
    // In dimension 4 the letter w is the last axis, and weighs least.
    asked.ask_for(4, b"w+z+y+x", &list(&[(1, W), (1, Z), (1, Y), (1, X)]));
    asked.met.answers.assert_met(&[0, 14, 15]);
    asked.met.answers.assert_totals([215, 215, 216]);
}

/// All texts over an alphabet up to a length, but for the empty one, by rising length.
pub fn all_texts(alphabet: &[u8], largest: usize) -> impl Iterator<Item = Vec<u8>> + '_ {
    let count = alphabet.len();
    (1..=largest).flat_map(move |length| {
        (0..count.pow(length as u32)).map(move |number| {
            let digit = |k: usize| alphabet[number / count.pow(k as u32) % count];
            (0..length).map(digit).collect()
        })
    })
}

/// The dimension, the alphabet, the largest length of the texts, and how many of them are answered,
/// refused with 14 and refused with 15.
pub const SHORT: [(usize, &[u8], usize, [u64; 3]); 5] = [
    (2, b"x12-+*^()", 6, [3_802, 593_969, 99]),
    (2, b"xyz()*-", 5, [78, 19_521, 8]),
    (3, b"z05-+*^()w", 5, [727, 110_185, 198]),
    (4, b"w34-+*^()", 5, [962, 65_422, 45]),
    (4, b"1234567890x", 4, [11_107, 4_993, 4]),
];

/// All short texts over a few bytes.
pub fn all_short_texts(product: &impl Product) {
    let mut asked = Asked::new(product, 211);
    let found = SHORT.map(|(n, alphabet, largest, _)| {
        let mut found = [0; 3];
        for text in all_texts(alphabet, largest) {
            found[match asked.ask(n, &text).refusal {
                0 => 0,
                14 => 1,
                _ => 2,
            }] += 1;
        }
        found
    });
    assert_eq!(found, SHORT.map(|(_, _, _, wanted)| wanted));
}

/// Every byte in place of each byte of some texts, and between each two; every text of one byte and
/// of two.
pub fn every_byte(product: &impl Product) {
    let mut asked = Asked::new(product, 212);
    let texts: [&[u8]; 5] =
        [b"2*x^2+2*y^2-1", b"-(x+10)^3*y", b"((x)-x)^0", b"1048576", b"-((3)*x-(y)^4*1000000)"];
    for n in DIMENSIONS {
        for text in texts {
            for byte in 0..=255 {
                for at in 0..=text.len() {
                    let inserted = [&text[..at], &[byte], &text[at..]].concat();
                    asked.ask(n, &inserted);
                    if at < text.len() {
                        asked.ask(n, &[&text[..at], &[byte], &text[at + 1..]].concat());
                    }
                }
            }
        }
        for one in 0..=255 {
            asked.ask(n, &[one]);
            for other in 0..=255 {
                asked.ask(n, &[one, other]);
            }
        }
    }
    let bytes: Vec<Option<u8>> = (0..=255).map(Some).collect();
    asked.met.leaving_bytes.assert_often(30, &bytes);
    asked.met.answers.assert_met(&[0, 14, 15]);
    let (places, texts) = (2 * (13 + 11 + 9 + 7 + 22) + 5, 1 + 256);
    asked.met.answers.assert_totals([256 * (places + texts); 3]);
}

/// Bytes of each kind in each place of texts whose parentheses nest to various depths, and the texts
/// ended there: every way out of the language, before parentheses are too deep and after.
pub fn every_way_out(product: &impl Product) {
    let mut asked = Asked::new(product, 213);
    let mut r = Random::new(214);
    for n in DIMENSIONS {
        for depth in [0, 1, 2, 3, 16, 17, 17, 18, 20] {
            for _ in 0..6 {
                let deep = nested(&mut r, n, depth);
                let kind = r.pick(&[FormulaKind::Plain, FormulaKind::AtLimit]);
                let beside = formula_of(&mut r, n, kind);
                let tree = match r.below(3) {
                    0 => deep.minus(beside),
                    1 => beside.plus(deep),
                    _ => deep.times(beside),
                };
                let seven = Tree::Number(r.below(1 << 21) as u32, 7);
                let first = if r.once_in(2) { seven.clone() } else { seven.clone().negate() };
                let behind = seven.times(Tree::Letter(1).power(2));
                let text = first.minus(tree).plus(behind.clone()).minus(behind).text();
                for at in 0..=text.len() {
                    asked.ask(n, &text[..at]);
                    for &byte in b"07xyzw+-*^() a" {
                        asked.ask(n, &[&text[..at], &[byte], &text[at..]].concat());
                    }
                }
            }
        }
        asked.met.leavings.assert_often_in(n, 15, &Leaving::all(n));
        asked.met.leavings.assert_met_in(n, &Leaving::all(n));
    }
    asked.met.answers.assert_met(&[0, 14, 15]);
    asked.met.answers.assert_totals([88_020, 88_500, 87_510]);
}

/// What stands on both sides of parentheses that nest, and what it comes to by the depth.
struct Nest {
    opening: &'static str,
    inside: &'static str,
    closing: &'static str,
    comes_to: fn(i128) -> [i128; 2],
}

/// It comes to a number and so many x.
const NESTS: [Nest; 12] = [
    Nest { opening: "(", inside: "x", closing: ")", comes_to: |_| [0, 1] },
    Nest { opening: "(-", inside: "x", closing: ")", comes_to: |d| [0, 1 - 2 * (d % 2)] },
    Nest { opening: "-(", inside: "x", closing: ")", comes_to: |d| [0, 1 - 2 * (d % 2)] },
    Nest { opening: "(", inside: "x", closing: "+1)", comes_to: |d| [d, 1] },
    Nest { opening: "(", inside: "x", closing: ")-1", comes_to: |d| [-d, 1] },
    Nest { opening: "2+(", inside: "x", closing: ")", comes_to: |d| [2 * d, 1] },
    Nest { opening: "1-(", inside: "x", closing: ")", comes_to: |d| [d % 2, 1 - 2 * (d % 2)] },
    Nest { opening: "1*(", inside: "x-3", closing: ")", comes_to: |_| [-3, 1] },
    Nest { opening: "(", inside: "x+y-y", closing: ")*1", comes_to: |_| [0, 1] },
    Nest { opening: "(", inside: "2*x", closing: ")^1", comes_to: |_| [0, 2] },
    Nest { opening: "(", inside: "0", closing: ")^0", comes_to: |d| [(d > 0) as i128, 0] },
    Nest { opening: "(y-", inside: "x", closing: "-y)", comes_to: |d| [0, 1 - 2 * (d % 2)] },
];

/// Depths around each at which something might be cut off.
fn depths() -> Vec<usize> {
    let mut all: Vec<usize> = (0..=40).collect();
    for around in [64, 128, 256, 272, 512, 1_024, 4_096, 65_536, 65_552] {
        all.extend([around - 1, around, around + 1]);
    }
    all.push(100_000);
    all
}

/// Parentheses of each depth with something in them and beside them; and the same outside the
/// language, before the parentheses, behind them and where they are deepest.
pub fn every_depth(product: &impl Product) {
    let mut asked = Asked::new(product, 215);
    // Of the largest depths each is tried with a fourth of these, one in each dimension.
    let each = |k: usize| {
        let some = depths().into_iter().filter(move |d| *d < 1_000 || (k + d) % 4 == 0);
        some.map(move |depth| (&NESTS[k], depth))
    };
    for (nest, depth) in (0..NESTS.len()).flat_map(each) {
        let [opening, closing] = [nest.opening, nest.closing].map(|side| side.repeat(depth));
        let whole = [&opening, nest.inside, &closing].concat();
        let [number, x] = (nest.comes_to)(depth as i128);
        let terms = [(number as i32, ONE), (x as i32, X)];
        let terms: Vec<_> = terms.into_iter().filter(|&(c, _)| c != 0).collect();
        let wanted = match depth {
            _ if depth > DEEPEST || terms.is_empty() => TermList::refused(15),
            _ => list(&terms),
        };
        let mut outside: Vec<String> = vec![
            format!("{whole}+"),
            format!("{whole})"),
            format!("({whole}"),
            format!("+{whole}"),
            format!("{whole} "),
            format!("{whole}^5"),
            [&opening, nest.inside, "*", &closing].concat(),
            [&opening, nest.inside, "()", &closing].concat(),
            [&opening, "00000000", &closing].concat(),
            [&opening, "v", &closing].concat(),
        ];
        if depth > 0 {
            outside.push(whole[..whole.len() - nest.closing.len()].into());
            outside.push([&opening, &closing].map(|side| &side[..]).concat());
            outside.push([&opening.replacen('(', "", 1), nest.inside, &closing].concat());
            outside.push([&opening, nest.inside, &closing.replacen(')', "]", 1)].concat());
        }
        let all = DIMENSIONS.into_iter();
        for n in all.filter(|n| depth < 1_000 || (nest.inside.len() + depth) % 3 == n % 3) {
            asked.ask_for(n, whole.as_bytes(), &wanted);
            // A third of the longest.
            let each = if depth < 1_000 { 1 } else { 3 };
            for text in outside.iter().skip(depth % each).step_by(each) {
                asked.ask_for(n, text.as_bytes(), &TermList::refused(14));
            }
        }
    }
    // Two beside each other nest as deep as the deeper one, and many beside each other no deeper.
    for n in DIMENSIONS {
        for (one, other) in (0..=18).flat_map(|one| (0..=18).map(move |other| (one, other))) {
            let both = [one, other].map(|depth| in_parentheses(depth, "x"));
            let wanted = match one.max(other) <= DEEPEST {
                true => list(&[(2, X)]),
                false => TermList::refused(15),
            };
            asked.ask_for(n, both.join("+").as_bytes(), &wanted);
            let in_one = format!("({})", both.join("+"));
            let wanted = if one.max(other) < DEEPEST { wanted } else { TermList::refused(15) };
            asked.ask_for(n, in_one.as_bytes(), &wanted);
        }
        for count in (1..=20).chain([100, 255, 256, 257, 300]) {
            let many = vec![in_parentheses(DEEPEST, "x"); count].join("+");
            asked.ask_for(n, many.as_bytes(), &list(&[(count as i32, X)]));
        }
    }
    asked.met.answers.assert_met(&[0, 14, 15]);
    asked.met.answers.assert_totals([10_854, 10_867, 10_838]);
}

/// Numbers at the limit, at its half, and such as come to it by products and powers.
const NUMBERS: [i128; 22] = [
    0, 1, 2, 3, 31, 32, 33, 101, 102, 1_023, 1_024, 1_025, 65_536, 524_287, 524_288, 524_289,
    1_048_574, 1_048_575, 1_048_576, 1_048_577, 2_097_152, 9_999_999,
];

/// The list of the last of the inner results, with these exponents; 15 if one breaks the limit.
fn last_of(inner: &[i128], exponents: [u8; MOST]) -> TermList {
    if inner.iter().any(|value| value.abs() > LARGEST) {
        return TermList::refused(15);
    }
    list_of_one(inner[inner.len() - 1], exponents)
}

fn joined(one: i128, joint: u8, other: i128) -> i128 {
    match joint {
        b'+' => one + other,
        b'-' => one - other,
        _ => one * other,
    }
}

/// Every two numbers at the limit joined in each way, and every power of them, alone and beside
/// letters; every three of some.
pub fn every_coefficient(product: &impl Product) {
    let mut asked = Asked::new(product, 216);
    for n in DIMENSIONS {
        for (letters, own) in [("", ONE), ("*y", Y), ("*x^2*y^2", [2, 2, 0, 0])] {
            for (a, b) in NUMBERS.into_iter().flat_map(|a| NUMBERS.map(|b| (a, b))) {
                for (sign, joint) in [("", b'+'), ("", b'-'), ("-", b'+'), ("-", b'-')] {
                    let text = format!("{sign}{a}{letters}{}{b}{letters}", joint as char);
                    let first = if sign.is_empty() { a } else { -a };
                    let inner = [a, b, joined(first, joint, b)];
                    asked.ask_for(n, text.as_bytes(), &last_of(&inner, own));
                }
                for (sign, text) in [
                    (1, format!("{a}{letters}*{b}")),
                    (-1, format!("-{a}{letters}*{b}")),
                    (-1, format!("{a}*(-{b}){letters}")),
                ] {
                    let wanted = last_of(&[a, b, sign * a * b], own);
                    asked.ask_for(n, text.as_bytes(), &wanted);
                }
            }
            for (a, power) in NUMBERS.into_iter().flat_map(|a| (0..=4).map(move |p| (a, p))) {
                let mut inner = vec![a, 1];
                (0..power).for_each(|_| inner.push(inner[inner.len() - 1] * a));
                let wanted = last_of(&inner, own);
                for text in [format!("{a}^{power}{letters}"), format!("({a})^{power}{letters}")] {
                    asked.ask_for(n, text.as_bytes(), &wanted);
                }
                let own = [power, 0, 0, 0];
                asked.ask_for(n, format!("({a}*x)^{power}").as_bytes(), &last_of(&inner, own));
                // With a minus in each factor, or in front of all.
                let (odd, last) = (power % 2 == 1, inner[inner.len() - 1]);
                let negative: Vec<i128> =
                    inner.iter().copied().chain(odd.then_some(-last)).collect();
                let text = format!("(-{a}*x)^{power}");
                asked.ask_for(n, text.as_bytes(), &last_of(&negative, own));
                inner.push(-last);
                let text = format!("-({a}*x)^{power}");
                asked.ask_for(n, text.as_bytes(), &last_of(&inner, own));
                inner.push(1);
                let text = format!("0*{a}^{power}{letters}+1");
                asked.ask_for(n, text.as_bytes(), &last_of(&inner, ONE));
            }
        }
        // An inner result that goes away.
        for a in NUMBERS {
            for text in [format!("{a}*0+1"), format!("0*{a}+1"), format!("y+{a}-{a}+1-y")] {
                asked.ask_for(n, text.as_bytes(), &last_of(&[a, 1], ONE));
            }
        }
        // Three numbers: a product first, and otherwise from left to right.
        let some = [0, 1, 2, 3, 1_024, 524_288, 524_289, 1_048_575, 1_048_576];
        let three = some.into_iter().flat_map(|a| some.map(|b| (a, b)));
        for ((a, b), c) in three.flat_map(|two| some.map(|c| (two, c))) {
            for (one, two) in b"+-*".iter().flat_map(|&one| b"+-*".map(|two| (one, two))) {
                let text = format!("{a}{}{b}{}{c}", one as char, two as char);
                let inner = if two == b'*' && one != b'*' {
                    vec![b * c, joined(a, one, b * c)]
                } else {
                    vec![joined(a, one, b), joined(joined(a, one, b), two, c)]
                };
                asked.ask_for(n, text.as_bytes(), &last_of(&inner, ONE));
                let text = format!("{a}{}({b}{}{c})", one as char, two as char);
                let inner = [joined(b, two, c), joined(a, one, joined(b, two, c))];
                asked.ask_for(n, text.as_bytes(), &last_of(&inner, ONE));
            }
        }
    }
    asked.met.answers.assert_met(&[0, 15]);
    let twos = 22 * 22 * 7 + 22 * 5 * 6;
    asked.met.answers.assert_totals([3 * twos + 22 * 3 + 9 * 9 * 9 * 9 * 2; 3]);
}

/// A product of letters to these powers, in their order.
fn typed_monomial(exponents: [u8; MOST]) -> String {
    let powers = LETTERS.into_iter().zip(exponents).filter(|&(_, power)| power > 0);
    let typed: Vec<String> =
        powers.map(|(letter, power)| format!("{}^{power}", letter as char)).collect();
    if typed.is_empty() {
        "1".into()
    } else {
        typed.join("*")
    }
}

/// Every two products of letters multiplied, and each to every power; beside an inner zero.
pub fn every_degree(product: &impl Product) {
    let mut asked = Asked::new(product, 217);
    let too_high = TermList::refused(15);
    let one = list(&[(1, ONE)]);
    for n in DIMENSIONS {
        for &e in exponents(n) {
            let typed = typed_monomial(e);
            for &f in exponents(n) {
                let other = typed_monomial(f);
                let mut both = e;
                both.iter_mut().zip(f).for_each(|(sum, more)| *sum += more);
                let fits = both.iter().map(|&e| e as u32).sum::<u32>() <= 4;
                let wanted = if fits { list(&[(1, both)]) } else { too_high };
                for text in [format!("{typed}*{other}"), format!("{typed}*({other})")] {
                    asked.ask_for(n, text.as_bytes(), &wanted);
                }
                // A zero in front takes every degree away, and behind it comes too late.
                asked.ask_for(n, format!("(x-x)*{typed}*{other}+1").as_bytes(), &one);
                let wanted = if fits { one } else { too_high };
                asked.ask_for(n, format!("{typed}*{other}*0+1").as_bytes(), &wanted);
            }
            for power in 0..=4 {
                let raised = e.map(|e| e * power);
                let fits = raised.iter().map(|&e| e as u32).sum::<u32>() <= 4;
                let wanted = if fits { list(&[(1, raised)]) } else { too_high };
                asked.ask_for(n, format!("({typed})^{power}").as_bytes(), &wanted);
            }
        }
    }
    asked.met.answers.assert_met(&[0, 15]);
    asked.met.answers.assert_totals([15u64, 35, 70].map(|terms| terms * (4 * terms + 5)));
}

/// Lists of every count of terms, so many of each in each dimension, typed in any order and in
/// several ways: the very list comes back.
pub fn typed_lists(product: &impl Product, seed: u64, rounds: usize) {
    let mut r = Random::new(seed);
    let mut asked = Asked::new(product, seed + 1);
    for n in DIMENSIONS {
        for count in 1..=Limits::of(n).terms {
            for _ in 0..rounds {
                let (terms, tree) = typed_list(&mut r, n, count);
                let wanted = TermList::of(
                    terms.iter().map(|term| (term.coefficient as i32, term.exponents)),
                );
                assert_eq!(wanted.count as usize, count);
                asked.ask_for(n, &tree.text(), &wanted);
            }
        }
        let counts: Vec<usize> = (1..=Limits::of(n).terms).collect();
        asked.met.terms.assert_met_in(n, &counts);
        asked.met.terms.assert_often_in(n, rounds as u64, &counts);
    }
    asked.met.answers.assert_met(&[0]);
}

fn example_jobs() -> PathBuf {
    Path::new(env!("CARGO_MANIFEST_DIR")).join("../../examples")
}

/// The polynomials of an example job.
fn example(name: &str) -> (usize, Vec<Vec<u8>>, Vec<Vec<Term>>) {
    let bytes = std::fs::read(example_jobs().join(format!("{name}.job"))).expect("a job file");
    let job = open(&bytes).expect("a job that opens");
    let body = |&(offset, length): &(usize, usize)| bytes[offset..offset + length].to_vec();
    (job.n, job.bodies[1..job.n].iter().map(body).collect(), job.polynomials)
}

/// The formulas of all example jobs give the bodies of these, and document 001's own formulas give
/// the same up to the grid steps of a unit.
pub fn examples(product: &impl Product) {
    let mut asked = Asked::new(product, 218);
    for (name, texts) in EXAMPLES {
        let (n, bodies, _) = example(name);
        assert_eq!(texts.len(), bodies.len(), "{name}");
        for (text, body) in texts.iter().zip(bodies) {
            let list = asked.ask(n, text.as_bytes());
            assert_eq!(list.refusal, 0, "known {}", shown(n as u64, text.as_bytes()));
            assert!(list.body() == body, "known {}", shown(n as u64, text.as_bytes()));
        }
    }
    // No job of document 001 is left out.
    for file in std::fs::read_dir(example_jobs()).expect("the examples") {
        let path = file.expect("a file").path();
        let name = path.file_stem().and_then(|name| name.to_str()).expect("a name");
        let known = EXAMPLES.iter().any(|(known, _)| *known == name);
        assert!(known || !name.starts_with("document_001"), "{name}");
    }
    for (name, steps, degree, text) in OF_DOCUMENT_001 {
        let (n, bodies, polynomials) = example(name);
        let found = asked.ask(n, text.as_bytes());
        let shown = shown(n as u64, text.as_bytes());
        assert_eq!(found.body().len(), bodies[0].len(), "known {shown}");
        let job = open(&job_with(n, found.body())).expect("a job that opens");
        for (own, at_steps) in job.polynomials[0].iter().zip(&polynomials[0]) {
            assert_eq!(own.exponents, at_steps.exponents, "known {shown}");
            let less = degree - own.exponents.iter().map(|&e| e as u32).sum::<u32>();
            let scaled = own.coefficient * i64::pow(*steps, less);
            assert_eq!(scaled, at_steps.coefficient, "known {shown}");
        }
    }
    for (text, refusal) in TOO_LARGE {
        asked.ask_for(2, text.as_bytes(), &TermList::refused(*refusal));
    }
    // Figure 6 of document 001, ten thousand times.
    let wanted = [
        (-664, ONE),
        (10_100, [0, 2, 0, 0]),
        (-10_000, [0, 4, 0, 0]),
        (-6_000, X),
        (6_000, [1, 2, 0, 0]),
        (10_100, [2, 0, 0, 0]),
        (-20_000, [2, 2, 0, 0]),
        (6_000, [3, 0, 0, 0]),
        (-10_000, [4, 0, 0, 0]),
    ];
    let figure_6 = b"(x^2+y^2-1)*(1000-100*(10*x-3)^2-10000*y^2)-564";
    asked.ask_for(2, figure_6, &list(&wanted));
}

/// Every n from 0 to 300, and large ones, of texts of every answer: 3 but for the three dimensions.
pub fn every_number(product: &impl Product) {
    let mut asked = Asked::new(product, 219);
    let too_deep = in_parentheses(DEEPEST + 1, "x");
    let far_too_deep = in_parentheses(1_000, "x");
    let texts = ["x*y-1", "z", "w", "", "x-", "x-x", "1048577", &too_deep, &far_too_deep];
    for n in (0..=300).chain(large_numbers()) {
        for text in texts {
            let answer = asked.ask_made_in(n, MOST, text.as_bytes());
            let is_dimension = (2..=4).contains(&n);
            assert_eq!(answer.refusal == 3, !is_dimension, "{}", shown(n, text.as_bytes()));
        }
    }
    asked.met.answers.assert_met_in(2, &[0, 14, 15]);
    asked.met.answers.assert_met_in(3, &[0, 14, 15]);
    asked.met.answers.assert_met_in(4, &[0, 3, 14, 15]);
}

/// So many texts of every kind and change. What is answered is also known for kinds that are made
/// for one answer.
pub fn any_formulas(product: &impl Product, seed: u64, count: usize, least: u64) {
    let mut r = Random::new(seed);
    let mut asked = Asked::new(product, seed + 1);
    let mut made = FormulaTally::default();
    let (mut kinds, mut changes) = (Tally::default(), Tally::default());
    for _ in 0..count {
        let any = any_formula(&mut r);
        let answer = asked.ask_made_in(any.n, any.made_in, &any.text).refusal;
        if any.change == FormulaChange::Untouched {
            let known = match any.kind {
                FormulaKind::TermList => answer == 0,
                FormulaKind::PassesInside | FormulaKind::Zero => answer == 15,
                _ => answer == 0 || answer == 15,
            };
            assert!(known, "{:?} {}", any.kind, shown(any.n, &any.text));
            kinds.count(any.made_in, (any.kind, answer));
        }
        changes.count(any.made_in, (any.change, answer));
        made.count(&any);
    }
    made.assert_all();
    asked.met.assert_often(least);
    let of_kind = |kind| match kind {
        FormulaKind::TermList => vec![(kind, 0)],
        FormulaKind::PassesInside | FormulaKind::Zero => vec![(kind, 15)],
        _ => vec![(kind, 0), (kind, 15)],
    };
    let of_kinds: Vec<_> = FormulaKind::all().into_iter().flat_map(of_kind).collect();
    kinds.assert_often(least, &of_kinds);
    // Noise is seldom 15, and any bytes are seldom in the language. A formula of dimension 2 is one
    // in each other.
    let of_change = |change| match change {
        FormulaChange::NoDimension => vec![(change, 3)],
        FormulaChange::Untouched | FormulaChange::OtherDimension => vec![(change, 0), (change, 15)],
        FormulaChange::Left | FormulaChange::AnyBytes => vec![(change, 14)],
        FormulaChange::Noise => vec![(change, 0), (change, 14)],
        _ => [0, 14, 15].map(|answer| (change, answer)).to_vec(),
    };
    let of_changes: Vec<_> = FormulaChange::all().into_iter().flat_map(of_change).collect();
    changes.assert_often(least / 4, &of_changes);
}

/// So many formulas with parentheses around most of their parts, and around all: they change nothing
/// but the depth.
pub fn more_parentheses(product: &impl Product, seed: u64, count: usize, least: u64) {
    let mut r = Random::new(seed);
    let mut asked = Asked::new(product, seed + 1);
    let mut answers = Tally::default();
    for _ in 0..count {
        let (n, kind) = (any_dimension(&mut r), r.named());
        if kind == FormulaKind::Deep {
            continue;
        }
        let tree = formula_of(&mut r, n, kind);
        let plain = asked.ask(n, &tree.text());
        for left_out in [3, 0] {
            let text = tree.with_more_parentheses(&mut r, left_out).text();
            let answer = asked.ask(n, &text);
            let depth = decide(n, &text).expect("a text of the language");
            let wanted = if depth > DEEPEST { TermList::refused(15) } else { plain };
            assert_eq!(answer, wanted, "known {}", shown(n as u64, &text));
            answers.count(n, (answer.refusal, depth > DEEPEST));
        }
    }
    answers.assert_often(least, &[(0, false), (15, false), (15, true)]);
}

/// Texts of about 100,000 bytes, one ten times as long, each also with slips at its end and at its
/// front; the same byte 20,000 times, noise and long sums with changes.
pub fn long_texts(product: &impl Product) {
    let mut asked = Asked::new(product, 220);
    let mut r = Random::new(221);
    let times = |count: usize, part: &str, joint: &str| vec![part; count].join(joint);
    let x = |count: i128| last_of(&[count], X);
    let one = list(&[(1, ONE)]);
    let too_much = TermList::refused(15);
    let known: Vec<(String, TermList)> = vec![
        (times(50_000, "x", "+"), x(50_000)),
        (times(500_000, "x", "+"), x(500_000)),
        (times(50_000, "x", "-"), x(-49_998)),
        (format!("y-{}", times(25_000, "y", "-y+")), too_much),
        (times(50_000, "1", "*"), one),
        (times(50_000, "0", "*") + "+1", one),
        (times(25_000, "2^0", "*") + "*x", x(1)),
        (format!("(y-y)*{}+1", times(50_000, "x", "*")), one),
        (times(50_000, "x", "*"), too_much),
        (times(33_000, "0^0", "+"), list(&[(33_000, ONE)])),
        // The limit is reached by the last term, and passed by one more.
        (times(16_384, "64*x", "+"), x(LARGEST)),
        (times(16_384, "64*x", "+") + "+x-x", too_much),
        (times(16_384, "64*x", "+") + "-x+x", x(LARGEST)),
        (format!("-{}", times(16_384, "64*x", "-")), x(-LARGEST)),
        (format!("-{}-x", times(16_384, "64*x", "-")), too_much),
        // Many parentheses, and few inside each other.
        (times(25_000, "(x)", "+"), x(25_000)),
        (times(3_000, &in_parentheses(DEEPEST, "x"), "+"), x(3_000)),
        (times(3_000, &in_parentheses(DEEPEST + 1, "x"), "+"), too_much),
        (in_parentheses(50_000, "x"), too_much),
        (in_parentheses(DEEPEST, &times(40_000, "x", "+")), x(40_000)),
        (in_parentheses(DEEPEST + 1, &times(40_000, "x", "+")), too_much),
        (times(12_500, "0000001*x", "+"), x(12_500)),
    ];
    // Those that are answered and those that are not, in one dimension after the other.
    let mut turns = [0, 0];
    for (text, wanted) in &known {
        let turn = &mut turns[(wanted.refusal > 0) as usize];
        let n = DIMENSIONS[*turn % DIMENSIONS.len()];
        *turn += 1;
        asked.ask_for(n, text.as_bytes(), wanted);
        asked.ask_made_in(5, n, text.as_bytes());
        let slips = [["+", "("], [")", "*"], ["x", "+"], ["^5", ")"], [" ", " "], ["(", "^"]];
        let few = if text.len() > 200_000 { 1 } else { slips.len() };
        for [behind, before] in &slips[..few] {
            let outside = TermList::refused(14);
            asked.ask_for(n, format!("{text}{behind}").as_bytes(), &outside);
            asked.ask_for(n, format!("{before}{text}").as_bytes(), &outside);
        }
    }
    // The same byte over and over, and noise.
    for byte in 0..=255 {
        asked.ask_for(2 + byte as usize % 3, &[byte; 20_000], &TermList::refused(14));
    }
    for _ in 0..20 {
        let noise: Vec<u8> = (0..100_000).map(|_| r.pick(ALPHABET)).collect();
        asked.ask_for(4, &noise, &TermList::refused(14));
    }
    // Long sums of all kinds of terms, with changes.
    for round in 0..12 {
        let n = DIMENSIONS[round % 3];
        let mut typed: Vec<String> = Vec::new();
        while typed.iter().map(|text| text.len()).sum::<usize>() < 100_000 {
            let text = typed_list(&mut r, n, 3).1.text();
            let text = String::from_utf8(text).expect("letters");
            typed.push(format!("0*({text})+{}*({text})^0", r.below(2)));
        }
        let mut text = typed.join("+").into_bytes();
        let wanted = asked.ask(n, &text);
        assert_eq!((wanted.refusal, wanted.count), (0, 1), "known {}", shown(n as u64, &text));
        for change in FormulaChange::all() {
            let mut changed = text.clone();
            change_text(&mut r, n, &mut changed, change);
            asked.ask(n, &changed);
        }
        text.truncate(99_000);
        asked.ask(n, &text);
    }
    asked.met.answers.assert_met(&[0, 3, 14, 15]);
    asked.met.answers.assert_totals([278, 253, 283]);
}

/// So many formulas whose lists become the polynomials of a job: it is written and opened by the same
/// product, which finds the lists again, and its sums are the values of the formulas.
pub fn into_a_job(product: &impl Product, seed: u64, jobs: usize) {
    let mut r = Random::new(seed);
    let mut asked = Asked::new(product, seed + 1);
    for _ in 0..jobs {
        let n = any_dimension(&mut r);
        let mut typed = Vec::new();
        while typed.len() < n - 1 {
            let kind = r.named();
            let text = formula_of(&mut r, n, kind).text();
            let list = asked.ask(n, &text);
            if list.refusal == 0 {
                typed.push((text, list));
            }
        }
        let mut loose = Loose::of(&Parts { ends: vec![(-256, 256); n], ..case_c(n) });
        for (polynomial, (_, list)) in loose.polynomials.iter_mut().zip(&typed) {
            *polynomial = list.body().to_vec();
        }
        let mut job = vec![0; 2_000];
        let shown = || shown(n as u64, &typed[0].0);
        let length = product.write_job(&loose, &mut job).expect("bodies of a job");
        job.truncate(length);
        let counts = typed.iter().map(|(_, list)| list.count as usize).collect();
        assert_eq!(product.open(&job), Ok((n, counts)), "{}", shown());
        for (k, (text, list)) in typed.iter().enumerate() {
            let (offset, length) = product.body(&job, k as u64 + 1).expect("a body");
            assert!(job[offset..offset + length] == *list.body(), "{}", shown());
            let mut vertex: Vertex = [0; MOST];
            vertex[..n].iter_mut().for_each(|x| *x = r.between(-256, 256));
            let sum = product.running_sum(&job, k as u64, &vertex, list.count);
            assert_eq!(sum, Ok(value_at(text, &vertex)), "{}", shown());
        }
    }
}

/// No list is longer than the answer has room for.
const _: () = assert!(LONGEST == 8 * 70);
