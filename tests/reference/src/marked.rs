//! "Marked cases" A to J, their like in dimension 4 and at a bias, running sums, halves of a step,
//! grounds, the small cutter, the list of seams, the order of cutting, the writer, and the wrong
//! turns, as checks of any product.

use crate::build::{case_a, case_c, exponents, gathered, place, power_of, product, term, Parts};
use crate::crossed::Term;
use crate::grid::{vertex, Place};
use crate::ground::{holds, names_the_first, says_crossed, Coefficients, Ground};
use crate::limits::{Limits, DIMENSIONS};
use crate::operations::{with_start, Move, Step, Verdict};
use crate::order::CutOrder;
use crate::product::Product;
use crate::seams::Ending;
use crate::writing::{Loose, Which};

/// The bytes of case A's job, as the paper lays them out.
pub const CASE_A: [u8; 54] = [
    1, 2, 3, 0, 16, 0, 8, 0, 24, 0, 24, 0, 48, 0, 6, 0, // contents
    255, 255, 1, 0, 255, 255, 1, 0, // box
    255, 255, 255, 255, 0, 0, 0, 0, // -1
    2, 0, 0, 0, 0, 2, 0, 0, // 2 y^2
    2, 0, 0, 0, 2, 0, 0, 0, // 2 x^2
    0, 0, 0, 0, 1, 0, // start
];

/// Lowest vertex, mask and point of case A's places, in the order printed.
pub const CASE_A_PLACES: [([i64; 2], u8, [i64; 2]); 6] = [
    ([0, 0], 1, [512, 0]),
    ([0, 0], 3, [256, 256]),
    ([0, 0], 2, [0, 512]),
    ([-1, 0], 1, [-512, 0]),
    ([-1, -1], 3, [-256, -256]),
    ([0, -1], 2, [0, -512]),
];

/// What the listing prints for case A.
pub const CASE_A_LISTING: &str = "2 loop 6
0 0 1 512 0
0 0 3 256 256
0 0 2 0 512
-1 0 1 -512 0
-1 -1 3 -256 -256
0 -1 2 0 -512
";

/// What the listing prints for case C in dimension 4.
pub const CASE_C_4_LISTING: &str = "4 edge 5
0 0 0 0 1 3 7 0 0 0 0
0 0 0 0 1 3 15 0 0 0 0
0 0 0 0 1 11 15 0 0 0 0
0 0 0 0 9 11 15 0 0 0 0
0 0 0 1 1 3 7 0 0 0 1024
";

/// Counts of 1/2048 of a unit that are halves of a step, and the steps that they give.
const HALVES: &[(i64, i64)] = &[
    (1, 0),
    (3, 2),
    (5, 2),
    (7, 4),
    (-1, 0),
    (-3, -2),
    (-5, -2),
    (-7, -4),
    (2047, 1024),
    (2045, 1022),
    (2043, 1022),
    (2041, 1020),
    (-2047, -1024),
    (-2045, -1022),
    // About 255 and -255 units.
    (522_241, 261_120),
    (522_243, 261_122),
    (522_239, 261_120),
    (522_237, 261_118),
    (-522_241, -261_120),
    (-522_243, -261_122),
];

/// Coordinates of the upright curves of each dimension, as counts of 1/2048: of each the part above
/// the unit below falls from axis to axis.
const UPRIGHT: &[&[i64]] = &[
    &[1],
    &[3],
    &[5],
    &[7],
    &[-1],
    &[-3],
    &[-5],
    &[-7],
    &[2047],
    &[2045],
    &[-2047],
    &[-2045],
    &[522_241],
    &[522_243],
    &[522_239],
    &[522_237],
    &[-522_241],
    &[-522_243],
    &[3, 1],
    &[5, 3],
    &[7, 5],
    &[-1, -3],
    &[-3, -5],
    &[-5, -7],
    &[-1, 7],
    &[522_243, 522_241],
    &[-522_241, -522_243],
    &[5, 3, 1],
    &[7, 5, 3],
    &[-1, -3, -5],
    &[-3, -5, -7],
    &[-1, 7, 3],
    &[-3, -7, 5],
    &[522_239, 522_243, 522_241],
    &[-522_241, -522_243, 1],
];

/// What the listing prints for some upright curves.
pub const UPRIGHT_LISTINGS: [(&[i64], &str); 4] = [
    (
        &[-3],
        "2 edge 3
-1 0 1 -2 0
-1 0 3 -2 1022
-1 1 1 -2 1024
",
    ),
    (
        &[3, 1],
        "3 edge 4
0 0 0 1 3 2 0 0
0 0 0 1 7 2 0 0
0 0 0 5 7 2 0 2
0 0 1 1 3 2 0 1024
",
    ),
    (
        &[5, 3, 1],
        "4 edge 5
0 0 0 0 1 3 7 2 2 0 0
0 0 0 0 1 3 15 2 2 0 0
0 0 0 0 1 11 15 2 2 0 2
0 0 0 0 9 11 15 2 2 0 2
0 0 0 1 1 3 7 2 2 0 1024
",
    ),
    (
        &[-1, -3, -5],
        "4 edge 5
-1 -1 -1 0 1 3 7 0 -2 -2 0
-1 -1 -1 0 1 3 15 0 -2 -2 1022
-1 -1 -1 0 1 11 15 0 -2 -2 1022
-1 -1 -1 0 9 11 15 0 -2 -2 1024
-1 -1 -1 1 1 3 7 0 -2 -2 1024
",
    ),
];

/// What the bytes past the last place hold before and after.
const PATTERN: u8 = 0xa5;

/// Traces into a buffer for `space` places and two bytes more.
fn traced(p: &dyn Product, job: &[u8], n: usize, space: usize) -> (Verdict, Vec<Place>) {
    let size = 3 * n;
    let mut buffer = vec![PATTERN; size * space + 2];
    let (verdict, count) = p.trace(job, &mut buffer).expect("no refusal");
    assert!(count <= space);
    assert!(buffer[size * count..].iter().all(|&b| b == PATTERN));
    let read = |k: usize| Place::read(n, &buffer[size * k..size * (k + 1)]).expect("a place");
    (verdict, (0..count).map(read).collect())
}

/// The job's trace has these places with these points and ends at the edge.
fn assert_to_the_edge(p: &dyn Product, parts: &Parts, expected: &[(Place, &[i64])]) {
    let job = parts.bytes();
    let (verdict, places) = traced(p, &job, parts.n, 9);
    assert_eq!((verdict, places.len()), (Verdict::Edge, expected.len()));
    for (k, (wanted, steps)) in expected.iter().enumerate() {
        assert_eq!(places[k], *wanted);
        assert_eq!(p.point(&job, &wanted.bytes()), Ok(vertex(steps)));
        let next = expected.get(k + 1).map_or(Step::Edge, |(place, _)| Step::Next(*place));
        assert_eq!(p.step(&job, &wanted.bytes()), Ok(next));
    }
}

/// Cases A to J.
pub fn cases(p: &dyn Product) {
    // A: the job of 54 bytes with bodies at 16, 24 and 48, and the six facets.
    let a = case_a().bytes();
    assert_eq!(a, CASE_A);
    assert_eq!(p.open(&a), Ok((2, vec![3])));
    assert_eq!(p.body(&a, 0), Ok((16, 8)));
    assert_eq!(p.body(&a, 1), Ok((24, 24)));
    assert_eq!(p.body(&a, 2), Ok((48, 6)));
    assert_eq!(p.body(&a, 3), Err(12));
    let (verdict, places) = traced(p, &a, 2, 9);
    assert_eq!((verdict, places.len()), (Verdict::Loop, 6));
    let mut written = Vec::new();
    for (found, (lowest, mask, steps)) in places.iter().zip(CASE_A_PLACES) {
        assert_eq!(found.facet, place(&lowest, &[mask], 0).facet);
        assert_eq!(p.judge(&a, &found.bytes()), Ok(true));
        assert_eq!(p.point(&a, &found.bytes()), Ok(vertex(&steps)));
        written.extend(found.bytes());
    }
    assert_eq!(p.pen(&a, &written, true, 0), Ok(Move::Lift([0.5, 0.0, 0.0])));
    assert_eq!(p.pen(&a, &written, true, 1), Ok(Move::Draw([0.25, 0.25, 0.0])));
    assert_eq!(p.pen(&a, &written, true, 6), Ok(Move::Close));
    assert_eq!(p.pen(&a, &written, false, 6), Err(12));
    assert_eq!(p.pen(&a, &written, true, 7), Err(12));
    assert_eq!(p.pen(&a, &[], true, 0), Err(12));
    // B: A with space for 6, for 5 and for 0.
    assert_eq!(traced(p, &a, 2, 6), (Verdict::Loop, places.clone()));
    assert_eq!(traced(p, &a, 2, 5), (Verdict::Full, places[..5].to_vec()));
    assert_eq!(traced(p, &a, 2, 0), (Verdict::Full, vec![]));
    // C: four places, then the edge.
    let c = case_c(3);
    let expected: [(Place, &[i64]); 4] = [
        (place(&[0, 0, 0], &[1, 3], 0), &[0, 0, 0]),
        (place(&[0, 0, 0], &[1, 7], 1), &[0, 0, 0]),
        (place(&[0, 0, 0], &[5, 7], 1), &[0, 0, 0]),
        (place(&[0, 0, 1], &[1, 3], 0), &[0, 0, 1024]),
    ];
    assert_to_the_edge(p, &c, &expected);
    // D: C's start with side 1.
    let d = Parts { start: c.start.turned(), ..c.clone() };
    assert_eq!(traced(p, &d.bytes(), 3, 9), (Verdict::Edge, vec![d.start]));
    // E: C's facet with masks 2 3.
    let e = place(&[0, 0, 0], &[2, 3], 0);
    assert_eq!(p.judge(&c.bytes(), &e.bytes()), Ok(false));
    assert_eq!(p.point(&c.bytes(), &e.bytes()), Err(11));
    // F, G, H: values 0 and 1, 0 and -1, 0 and 0.
    let along_x = place(&[0, 0], &[1], 0).bytes();
    let line = |terms| Parts { polynomials: vec![terms], ..case_a() }.bytes();
    assert_eq!(p.judge(&line(vec![term(1, &[1])]), &along_x), Ok(true));
    assert_eq!(p.judge(&line(vec![term(-1, &[1])]), &along_x), Ok(false));
    assert_eq!(p.judge(&line(vec![term(1, &[0, 1])]), &along_x), Ok(false));
    // I: 1,048,576 x^2 at 16 and at 17.
    let i = Parts {
        ends: vec![(0, 17), (0, 1)],
        polynomials: vec![vec![term(1_048_576, &[2])]],
        ..case_a()
    };
    let ending = |x: i64| place(&[x - 1, 0], &[1], 0).bytes();
    assert_eq!(p.judge(&i.bytes(), &ending(16)), Ok(false));
    assert_eq!(p.judge(&i.bytes(), &ending(17)), Err(10));
    // J: low end equal to high.
    let j = Parts { ends: vec![(-1, 1), (1, 1)], ..case_a() };
    assert_eq!(p.open(&j.bytes()), Err(6));
}

/// Request 2.12: dimension 4.
pub fn dimension_4(p: &dyn Product) {
    // Five contents entries, 12-byte places.
    let c = case_c(4);
    assert_eq!(p.open(&c.bytes()), Ok((4, vec![1, 1, 1])));
    let bodies: Vec<_> = (0..6).map(|k| p.body(&c.bytes(), k)).collect();
    assert_eq!(
        bodies,
        [Ok((24, 16)), Ok((40, 8)), Ok((48, 8)), Ok((56, 8)), Ok((64, 12)), Err(12)]
    );
    assert_eq!(c.bytes().len(), 76);
    for (length, answer) in [(9, Err(13)), (11, Err(13)), (12, Ok(true)), (13, Err(13))] {
        let mut bytes = c.start.bytes();
        bytes.resize(length, 0);
        assert_eq!(p.judge(&c.bytes(), &bytes), answer, "{length}");
    }
    // Case C goes up along axis 4, and with side 1 it is at the edge at once.
    let expected: [(Place, &[i64]); 5] = [
        (place(&[0, 0, 0, 0], &[1, 3, 7], 0), &[0, 0, 0, 0]),
        (place(&[0, 0, 0, 0], &[1, 3, 15], 1), &[0, 0, 0, 0]),
        (place(&[0, 0, 0, 0], &[1, 11, 15], 1), &[0, 0, 0, 0]),
        (place(&[0, 0, 0, 0], &[9, 11, 15], 1), &[0, 0, 0, 0]),
        (place(&[0, 0, 0, 1], &[1, 3, 7], 0), &[0, 0, 0, 1024]),
    ];
    assert_to_the_edge(p, &c, &expected);
    let d = Parts { start: c.start.turned(), ..c.clone() };
    assert_eq!(traced(p, &d.bytes(), 4, 9), (Verdict::Edge, vec![d.start]));
    let e = place(&[0, 0, 0, 0], &[2, 3, 7], 0);
    assert_eq!(p.judge(&c.bytes(), &e.bytes()), Ok(false));
    // Case A's circle with z and w is a loop of 14; with space for 13 it is full.
    let circle = Parts {
        ends: vec![(-1, 1); 4],
        polynomials: vec![
            case_a().polynomials[0].clone(),
            vec![term(1, &[0, 0, 1])],
            vec![term(1, &[0, 0, 0, 1])],
        ],
        start: place(&[0, 0, 0, 0], &[1, 5, 13], 0),
        ..case_c(4)
    };
    let (verdict, places) = traced(p, &circle.bytes(), 4, 14);
    assert_eq!((verdict, places.len()), (Verdict::Loop, 14));
    assert_eq!(traced(p, &circle.bytes(), 4, 13), (Verdict::Full, places[..13].to_vec()));
    limits_of_dimension_4(p);
    pen_in_dimension_4(p);
}

/// The pen shows axes 1 to 3 of the points (1/2, 1/2, 1/2, w).
fn pen_in_dimension_4(p: &dyn Product) {
    let mut upright = case_c(4);
    for polynomial in &mut upright.polynomials {
        *polynomial = vec![term(-1, &[]), Term { coefficient: 2, ..polynomial[0] }];
    }
    let job = upright.bytes();
    let (verdict, places) = traced(p, &job, 4, 20);
    assert_eq!((verdict, places.len()), (Verdict::Edge, 5));
    let written: Vec<u8> = places.iter().flat_map(|place| place.bytes()).collect();
    for (k, w) in [0, 512, 512, 512, 1024].into_iter().enumerate() {
        assert_eq!(p.point(&job, &places[k].bytes()), Ok([512, 512, 512, w]));
        let at = [0.5; 3];
        let wanted = if k == 0 { Move::Lift(at) } else { Move::Draw(at) };
        assert_eq!(p.pen(&job, &written, true, k as u64), Ok(wanted));
    }
    assert_eq!(p.pen(&job, &written, true, 5), Ok(Move::Close));
}

/// Refusals 3, 5, 7 and 10 as request 2.12 amends them.
fn limits_of_dimension_4(p: &dyn Product) {
    // 3: dimensions 2 to 4.
    for byte in 0..=255 {
        let mut job = case_c(4).bytes();
        job[1] = byte;
        let wanted = match byte {
            4 => Ok(4),
            2 | 3 => Err(4),
            _ => Err(3),
        };
        assert_eq!(p.open(&job).map(|(n, _)| n), wanted, "{byte}");
    }
    // 5: up to 70 terms.
    for k in 0..3 {
        let mut full = case_c(4);
        full.polynomials[k] = exponents(4).iter().map(|e| term(1, e)).collect();
        let mut counts = vec![1; 3];
        counts[k] = 70;
        assert_eq!(p.open(&full.bytes()), Ok((4, counts)));
        full.polynomials[k].push(term(1, &[4, 1]));
        assert_eq!(p.open(&full.bytes()), Err(5));
    }
    // 7: the fourth exponent is 0 in dimension 3, and counts in dimension 4.
    for n in [3, 4] {
        let mut w = case_c(n);
        w.polynomials[0] = vec![term(1, &[0, 0, 0, 1])];
        let opened = p.open(&w.bytes()).map(|(n, _)| n);
        assert_eq!(opened, if n == 4 { Ok(4) } else { Err(7) });
        w.polynomials[0] = vec![term(1, &[1, 1, 0, 2]), term(1, &[1, 1, 1, 2])];
        assert_eq!(p.open(&w.bytes()), Err(7));
    }
    // 10: 8,192 x^2 is readable at 8 and not at 9, and in dimension 3 at 9 too; 524,288 x is
    // readable from -1 to 1, and 1 more or less is not.
    let along_x = |n: usize, terms: Vec<Term>, lowest: i64| {
        let mut parts = case_c(n);
        parts.ends[0] = (-1, 9);
        parts.polynomials[0] = terms;
        parts.start.facet.lowest[0] = lowest;
        p.judge(&parts.bytes(), &parts.start.bytes())
    };
    let square = || vec![term(8_192, &[2])];
    assert_eq!(along_x(4, square(), 7), Ok(false));
    assert_eq!(along_x(4, square(), 8), Err(10));
    assert_eq!(along_x(3, square(), 8), Ok(false));
    for (size, constant, lowest, answer) in [
        (524_288, 0, 0, Ok(true)),
        (524_288, -1, 0, Ok(true)),
        (524_288, 1, 0, Err(10)),
        (524_288, 1, -1, Ok(true)),
        (524_288, -1, -1, Err(10)),
        (-524_288, -1, 0, Err(10)),
    ] {
        let terms = [(constant, 0), (size, 1)].map(|(c, e)| term(c, &[e]));
        let terms = terms.into_iter().filter(|t| t.coefficient != 0).collect();
        assert_eq!(along_x(4, terms, lowest), answer, "{size} {constant} {lowest}");
    }
}

/// Request 2.7: the bias.
pub fn bias(p: &dyn Product) {
    // Refusal 2 is for byte 0 alone; what Open and Body answer does not depend on byte 3.
    for bias in [0, 1, 255] {
        let mut job = Parts { bias, ..case_a() }.bytes();
        assert_eq!(p.open(&job), Ok((2, vec![3])));
        assert_eq!(p.body(&job, 2), Ok((48, 6)));
        job[0] = 0;
        assert_eq!(p.open(&job), Err(2));
    }
    // A: at bias 1 the values -1 and 1 of its start both count as 0.
    let a = Parts { bias: 1, ..case_a() };
    assert_eq!(p.judge(&a.bytes(), &a.start.bytes()), Ok(false));
    assert_eq!(p.trace(&a.bytes(), &mut [0; 54]), Err(11));
    for n in DIMENSIONS {
        for bias in [1, 20, 255] {
            values_around_the_bias(p, n, bias);
        }
        readable_before_the_bias(p, n);
        pieces_joined_by_the_bias(p, n);
    }
}

/// Case C with two values in place of 0 and 1.
fn case_c_between(n: usize, low: i64, high: i64) -> Parts {
    let mut parts = case_c(n);
    for polynomial in &mut parts.polynomials {
        let axis = Term { coefficient: high - low, ..polynomial[0] };
        *polynomial = gathered(&[term(low, &[]), axis]);
    }
    parts
}

/// A value of the bias's size counts as 0, on both sides, and 1 more does not: whether the start of
/// case C is crossed, and where its point lies on the axes of the polynomials.
fn values_around_the_bias(p: &dyn Product, n: usize, bias: u8) {
    let b = bias as i64;
    for (low, high, at) in [
        (-b, b + 1, Ok(0)),
        (b, b + 1, Ok(0)),
        (0, b + 1, Ok(0)),
        (-b - 1, b + 1, Ok(512)),
        (-b, b, Err(11)),
        (-b - 1, b, Err(11)),
        (-b - 1, -b, Err(11)),
        (b + 1, b + 2, Err(11)),
    ] {
        let parts = Parts { bias, ..case_c_between(n, low, high) };
        let (job, start) = (parts.bytes(), parts.start.bytes());
        assert_eq!(p.judge(&job, &start), Ok(at.is_ok()), "{low} and {high} at {bias}");
        let wanted = at.map(|steps: i64| vertex(&vec![steps; n - 1]));
        assert_eq!(p.point(&job, &start), wanted, "{low} and {high} at {bias}");
        assert_eq!(p.pen(&job, &start, false, 0), wanted.map(|v| Move::Lift(millimetres(&v))));
        // Where low counts as 0, all is as in C.
        if at == Ok(0) {
            let (verdict, places) = traced(p, &job, n, 9);
            assert_eq!((verdict, places.len()), (Verdict::Edge, n + 1));
            assert_eq!((verdict, places), traced(p, &case_c(n).bytes(), n, 9));
        }
    }
    // Without the bias, the second of them has no zero and the fifth has one.
    let plain = |low, high| case_c_between(n, low, high).bytes();
    assert_eq!(p.judge(&plain(b, b + 1), &case_c(n).start.bytes()), Ok(false));
    assert_eq!(p.judge(&plain(-b, b), &case_c(n).start.bytes()), Ok(true));
}

/// A curve along axis 1 whose first value is readable up to x = 16, at bias 0 and at the largest.
fn readable_before_the_bias(p: &dyn Product, n: usize) {
    let largest = (Limits::of(n).readable / 256) as i64;
    let mut polynomials = vec![vec![term(largest, &[2, 1])]];
    polynomials.extend((3..=n).map(|axis| vec![term(256, &power_of(axis, 1))]));
    let mut ends = vec![(0, 1); n];
    ends[0] = (14, 17);
    let masks: Vec<u8> = (1..n).map(|k| (1 << (k + 1)) - 2).collect();
    let at = |x: i64| place(&vertex(&[x])[..n], &masks, 0);
    for bias in [0, 255] {
        let polynomials = polynomials.clone();
        let parts = Parts { n, bias, ends: ends.clone(), polynomials, start: at(15) };
        let job = parts.bytes();
        assert_eq!(p.judge(&job, &at(16).bytes()), Ok(true));
        assert_eq!(p.step(&job, &at(16).bytes()), Ok(Step::Limit));
        assert_eq!(p.judge(&job, &at(17).bytes()), Err(10));
        assert_eq!(p.point(&job, &at(17).bytes()), Err(10));
        let (verdict, places) = traced(p, &job, n, 9);
        assert_eq!((verdict, places.len()), (Verdict::Limit, n + 1));
        assert_eq!(places[n], at(16));
    }
}

/// 2 x^4 - 5 x^2 + 4 y^2 + 1 is -2 at x = -1 and x = 1 on axis 1, 1 between them and at least 2
/// around: two loops, which bias 1 joins. Turning back goes the same way.
fn pieces_joined_by_the_bias(p: &dyn Product, n: usize) {
    let lobes = [(1, [0, 0]), (4, [0, 2]), (-5, [2, 0]), (2, [4, 0])];
    let mut polynomials = vec![lobes.map(|(c, exponents)| term(c, &exponents)).to_vec()];
    polynomials.extend((3..=n).map(|axis| vec![term(2, &power_of(axis, 1))]));
    let mut ends = vec![(-1, 1); n];
    ends[0] = (-2, 2);
    let start = place(&vertex(&[1])[..n], &[1, 5, 13][..n - 1], 0);
    let left = place(&vertex(&[-1])[..n], &[2, 6, 14][..n - 1], 0);
    let between = place(&[0; 4][..n], &[2, 6, 14][..n - 1], 0);
    for (bias, count) in [(0, 4 * n - 2), (1, 8 * n - 2)] {
        let (ends, polynomials) = (ends.clone(), polynomials.clone());
        let job = Parts { n, bias, ends, polynomials, start }.bytes();
        let (verdict, places) = traced(p, &job, n, 40);
        assert_eq!((verdict, places.len()), (Verdict::Loop, count));
        let joins = |other: &Place| places.iter().any(|place| place.facet == other.facet);
        assert_eq!((joins(&left), joins(&between)), (bias == 1, bias == 1));
        // The left loop is there at both, and between them is a vertex that counts as 0.
        assert_eq!(p.judge(&job, &left.bytes()), Ok(true));
        let point = if bias == 1 { Ok([0; 4]) } else { Err(11) };
        assert_eq!(p.point(&job, &between.bytes()), point);
        let back = with_start(&job, &places[count - 1].turned());
        let reversed = places.iter().rev().map(|place| place.turned()).collect();
        assert_eq!(traced(p, &back, n, count), (Verdict::Loop, reversed));
    }
}

/// Request 2.8: sums from the last term to the first.
pub fn running_sums(p: &dyn Product) {
    // A at 1 0: 2 x^2 is 2, 2 y^2 is 0, and then -1.
    let a = case_a().bytes();
    let sums = [0, 1, 2, 3, 4].map(|terms| p.running_sum(&a, 0, &[1, 0, 0, 0], terms));
    assert_eq!(sums, [Ok(0), Ok(2), Ok(2), Ok(1), Err(12)]);
    // The job is opened first.
    assert_eq!(p.running_sum(&a[..3], u64::MAX, &[2, 0, 0, 0], 4), Err(1));
    // 7 + 2 y^4 - 3 x y + 1,048,576 x^4 at x = -2, y = 3 as each of the polynomials.
    let terms = [(7, [0, 0]), (2, [0, 4]), (-3, [1, 1]), (1_048_576, [4, 0])];
    for n in DIMENSIONS {
        for number in 0..n as u64 - 1 {
            let mut parts = Parts { bias: 255, ends: vec![(-2, 3); n], ..case_c(n) };
            parts.polynomials[number as usize] = terms.map(|(c, e)| term(c, &e)).to_vec();
            running_sums_in(p, &parts, number);
        }
    }
}

/// The terms are 7, 162, 18 and 16,777,216; the last is not readable in dimension 4. The refusals
/// are 12, then 9, and what stands above axis n does not count.
fn running_sums_in(p: &dyn Product, parts: &Parts, number: u64) {
    let job = parts.bytes();
    let sum = |number, at: &[i64], terms| {
        let mut coordinates = [i64::MAX; 4];
        coordinates[..parts.n].fill(0);
        coordinates[..at.len()].copy_from_slice(at);
        p.running_sum(&job, number, &coordinates, terms)
    };
    for (k, wanted) in [0, 16_777_216, 16_777_234, 16_777_396, 16_777_403].into_iter().enumerate() {
        assert_eq!(sum(number, &[-2, 3], k as u64), Ok(wanted));
    }
    let past = parts.n as u64 - 1;
    for (number, terms) in [(past, 0), (u64::MAX, 0), (number, 5), (number, u64::MAX)] {
        assert_eq!(sum(number, &[-2, 3], terms), Err(12));
        assert_eq!(sum(number, &[-3, 3], terms), Err(12));
    }
    for outside in [[-3, 3], [4, 3], [-2, -3], [-2, 4], [i64::MIN, 3], [-2, i64::MAX]] {
        assert_eq!(sum(number, &outside, 4), Err(9));
        assert_eq!(sum(number, &outside, 0), Err(9));
    }
}

/// A job whose curve goes straight up along the last axis, the other coordinates being these counts
/// of 1/2048: polynomial k is 2048 times axis k minus its count. D is above 0, and below 0 if one
/// of the polynomials is turned.
pub fn upright(counts: &[i64], turned: Option<usize>) -> Parts {
    let n = counts.len() + 1;
    let reach = if counts.iter().all(|count| count.abs() < 2048) { 1 } else { 256 };
    let plane = |(k, &count): (usize, &i64)| {
        let sign = if turned == Some(k) { -1 } else { 1 };
        let exponents = power_of(k + 1, 1);
        vec![term(-sign * count, &[]), Term { coefficient: sign * 2048, exponents }]
    };
    let mut lowest: Vec<i64> = counts.iter().map(|count| count.div_euclid(2048)).collect();
    lowest.push(0);
    let start = place(&lowest, &case_c(n).start.facet.masks[..n - 1], 0);
    let mut ends = vec![(-reach, reach); n];
    ends[n - 1] = (-1, 1);
    Parts { n, bias: 0, ends, polynomials: counts.iter().enumerate().map(plane).collect(), start }
}

/// The steps of a count of 1/2048.
fn steps_of(count: i64) -> i64 {
    let row = HALVES.iter().find(|(halves, _)| *halves == count);
    row.unwrap_or_else(|| panic!("{count} is in the table")).1
}

/// The places of an upright curve with their points. They are those of case C: the last axis enters
/// the masks one by one from the last, where its coordinate is the part of an axis above its unit.
fn upright_places(parts: &Parts, counts: &[i64]) -> Vec<(Place, Vec<i64>)> {
    let n = parts.n;
    let mut steps: Vec<i64> = counts.iter().map(|&count| steps_of(count)).collect();
    steps.push(0);
    let mut all = vec![(parts.start, steps.clone())];
    let mut here = parts.start;
    here.side = 1;
    for k in (0..n - 1).rev() {
        here.facet.masks[k] |= 1 << (n - 1);
        steps[n - 1] = steps_of(counts[k].rem_euclid(2048));
        all.push((here, steps.clone()));
    }
    let mut last = parts.start;
    last.facet.lowest[n - 1] = 1;
    steps[n - 1] = 1024;
    all.push((last, steps));
    all
}

/// Axes 1 to 3 of a point in steps, as the pen has them.
fn millimetres(steps: &[i64]) -> [f64; 3] {
    let at = vertex(steps);
    [at[0], at[1], at[2]].map(|steps| steps as f64 / 1024.0)
}

/// The pen lifts or draws to a place of the list at exactly these floats: 0 is no -0.
fn assert_moves_to(p: &dyn Product, job: &[u8], places: &[u8], k: usize, steps: &[i64]) {
    let (is_lift, found) = match p.pen(job, places, false, k as u64) {
        Ok(Move::Lift(at)) => (true, at),
        Ok(Move::Draw(at)) => (false, at),
        other => panic!("{other:?}"),
    };
    assert_eq!(is_lift, k == 0);
    assert_eq!(found.map(f64::to_bits), millimetres(steps).map(f64::to_bits), "{steps:?}");
}

/// Request 2.5: points to the nearest step, a half to the even one.
pub fn nearest_step(p: &dyn Product) {
    for counts in UPRIGHT {
        for turned in (0..counts.len()).map(Some).chain([None]) {
            let parts = upright(counts, turned);
            let (job, places) = (parts.bytes(), upright_places(&parts, counts));
            // Facets and verdict are those of case C, whatever the rounding.
            let expected: Vec<_> = places.iter().map(|(at, steps)| (*at, &steps[..])).collect();
            assert_to_the_edge(p, &parts, &expected);
            let written: Vec<u8> = places.iter().flat_map(|(place, _)| place.bytes()).collect();
            for (k, (place, steps)) in places.iter().enumerate() {
                assert_eq!(p.judge(&job, &place.bytes()), Ok(true));
                assert_moves_to(p, &job, &written, k, steps);
            }
        }
    }
    // Case A keeps its points, and has them with its polynomial turned too.
    let mut turned = case_a();
    turned.polynomials[0].iter_mut().for_each(|t| t.coefficient = -t.coefficient);
    for job in [case_a().bytes(), turned.bytes()] {
        for (lowest, mask, steps) in CASE_A_PLACES {
            let here = place(&lowest, &[mask], 0).bytes();
            assert_eq!(p.point(&job, &here), Ok(vertex(&steps)));
            assert_moves_to(p, &job, &here, 0, &steps);
        }
    }
    close_to_halves(p);
}

/// c / q of a unit that is no half of a step, and the steps that it gives.
const CLOSE_TO_HALVES: &[(i64, i64, i64)] = &[
    // -0.3, 0.3, -0.7 and 0.7 steps.
    (-3, 10_240, 0),
    (3, 10_240, 0),
    (-7, 10_240, -1),
    (7, 10_240, 1),
    // 1/10 of a step below and above a half.
    (4, 10_240, 0),
    (6, 10_240, 1),
    (14, 10_240, 1),
    (16, 10_240, 2),
    (-4, 10_240, 0),
    (-6, 10_240, -1),
    (-14, 10_240, -1),
    (-16, 10_240, -2),
    // As close as an odd q allows: 1024 leaves (q + 1) / 2 or (q - 1) / 2.
    (1, 2_047, 1),
    (1, 2_049, 0),
    (3, 2_047, 2),
    (3, 2_049, 1),
    (-1, 2_047, -1),
    (-1, 2_049, 0),
    (-3, 2_047, -2),
    (-3, 2_049, -1),
];

/// The start of case C with q x - c in place of x, of either sign; the other coordinates are 0.
fn close_to_halves(p: &dyn Product) {
    for &(c, q, steps) in CLOSE_TO_HALVES {
        for n in DIMENSIONS {
            for sign in [1, -1] {
                let mut parts = case_c(n);
                parts.ends[0] = (-1, 1);
                parts.polynomials[0] = vec![term(-sign * c, &[]), term(sign * q, &[1])];
                parts.start.facet.lowest[0] = if c < 0 { -1 } else { 0 };
                let (job, start) = (parts.bytes(), parts.start.bytes());
                assert_eq!(p.judge(&job, &start), Ok(true), "{c} / {q}");
                assert_eq!(p.point(&job, &start), Ok(vertex(&[steps])), "{c} / {q}");
                assert_moves_to(p, &job, &start, 0, &[steps]);
            }
        }
    }
}

/// Request 2.9: Judge with its ground.
pub fn grounds(p: &dyn Product) {
    for (values, ground) in [
        // F, G, H: values 0 and 1, 0 and -1, 0 and 0; then the like the other way round.
        ([0, 1], crossed_by(&[0, 1])),
        ([0, -1], against(1, 1)),
        ([0, 0], Ground::ZeroDeterminant),
        ([1, 0], crossed_by(&[1, 0])),
        ([-1, 0], against(0, 1)),
        // No tie.
        ([-1, 1], crossed_by(&[0, 0])),
        ([1, -1], crossed_by(&[0, 0])),
        ([1, 2], against(1, 0)),
        ([2, 1], against(0, 0)),
        ([-1, -2], against(1, 0)),
        ([-2, -1], against(0, 0)),
        ([5, 5], Ground::ZeroDeterminant),
    ] {
        ground_between_two(p, 0, values, values, ground);
    }
    // At bias 1, and at bias 0: both are crossed there without a tie.
    for (values, counted, ground) in
        [([-1, 2], [0, 2], crossed_by(&[0, 1])), ([1, -2], [0, -2], against(1, 1))]
    {
        ground_between_two(p, 1, values, counted, ground);
        ground_between_two(p, 0, values, values, crossed_by(&[0, 0]));
    }
    // A: at bias 1 the values -1 and 1 of its start both count as 0, and D is 0.
    let a = Parts { bias: 1, ..case_a() };
    let judged = p.judge_ground(&a.bytes(), &a.start.bytes());
    assert_eq!(judged, Ok(Ground::ZeroDeterminant));
    grounds_of_case_c(p);
    grounds_of_ties(p);
    refusals_of_grounds(p);
}

fn against(vertex: u64, power: u64) -> Ground {
    Ground::Against { vertex, power }
}

fn crossed_by(powers: &[u64]) -> Ground {
    Ground::Crossed { powers: powers.to_vec() }
}

/// D and the coefficients by vertex and power, worked out by hand.
type ByHand<'a> = (i128, &'a [&'a [i128]]);

/// The product names the ground, which holds by D and these coefficients; Judge agrees.
fn assert_ground(
    p: &dyn Product,
    parts: &Parts,
    place: &Place,
    (d, coefficients): ByHand,
    ground: Ground,
) {
    let (job, bytes) = (parts.bytes(), place.bytes());
    assert_eq!(p.judge_ground(&job, &bytes), Ok(ground.clone()), "{place:?} in {job:?}");
    assert_eq!(p.judge(&job, &bytes), Ok(says_crossed(&ground)));
    let by_vertex = coefficients.iter().map(|of_vertex| of_vertex.to_vec()).collect();
    let by_hand = Coefficients { d, by_vertex };
    assert!(holds(&ground, &by_hand) && names_the_first(&ground, &by_hand), "{ground:?}");
    assert_eq!(Coefficients::of_facet(&parts.opened(), &place.facet), Ok(by_hand));
}

/// For n = 2 and values a, b: D is b - a. With (1, e) in place of the first column the determinant
/// is b - e, in place of the second e - a.
fn ground_between_two(
    p: &dyn Product,
    bias: u8,
    sums: [i64; 2],
    counted: [i64; 2],
    ground: Ground,
) {
    let [low, high] = sums;
    let line = gathered(&[term(low, &[]), term(high - low, &[1]), term(1, &[0, 1])]);
    let parts = Parts { bias, polynomials: vec![line], ..case_a() };
    let [a, b] = counted.map(i128::from);
    let coefficients: &[&[i128]] = &[&[b, -1], &[-a, 1]];
    assert_ground(p, &parts, &place(&[0, 0], &[1], 0), (b - a, coefficients), ground);
}

/// C's start, and E: C's facet with masks 2 3; both in dimension 4 too.
fn grounds_of_case_c(p: &dyn Product) {
    // Values 0 0, 1 0, 1 1: weights 1 - e, e - e^2, e^2.
    let start: &[&[i128]] = &[&[1, -1, 0], &[0, 1, -1], &[0, 0, 1]];
    assert_ground(p, &case_c(3), &case_c(3).start, (1, start), crossed_by(&[0, 1, 2]));
    // E. Values 0 0, 0 1, 1 1: weights 1 - e^2, e^2 - e, e, each times D.
    let e = place(&[0, 0, 0], &[2, 3], 0);
    let coefficients: &[&[i128]] = &[&[-1, 0, 1], &[0, 1, -1], &[0, -1, 0]];
    assert_ground(p, &case_c(3), &e, (-1, coefficients), against(1, 1));
    // Values 0 0 0, 1 0 0, 1 1 0, 1 1 1: weights 1 - e, e - e^2, e^2 - e^3, e^3.
    let start: &[&[i128]] = &[&[1, -1, 0, 0], &[0, 1, -1, 0], &[0, 0, 1, -1], &[0, 0, 0, 1]];
    assert_ground(p, &case_c(4), &case_c(4).start, (1, start), crossed_by(&[0, 1, 2, 3]));
    // Values 0 0 0, 0 1 0, 1 1 0, 1 1 1: weights 1 - e^2, e^2 - e, e - e^3, e^3, each times D.
    let e = place(&[0, 0, 0, 0], &[2, 3, 7], 0);
    let coefficients: &[&[i128]] =
        &[&[-1, 0, 1, 0], &[0, 1, -1, 0], &[0, -1, 0, 1], &[0, 0, 0, -1]];
    assert_ground(p, &case_c(4), &e, (-1, coefficients), against(1, 1));
}

/// The start of case C with 2 x - y - 1 in place of x and, in dimension 4, y - z in place of y,
/// each polynomial times one of the signs. With signs 1 the values are -1 0, 1 0, 0 1, and in
/// dimension 4 -1 0 0, 1 0 0, 0 1 0, 0 0 1: 0 lies between the first two.
fn tied(signs: &[i64]) -> Parts {
    let mut parts = case_c(signs.len() + 1);
    parts.polynomials[0] = vec![term(-1, &[]), term(-1, &[0, 1]), term(2, &[1])];
    if let [_, second, _] = &mut parts.polynomials[..] {
        *second = vec![term(-1, &[0, 0, 1]), term(1, &[0, 1])];
    }
    for (polynomial, sign) in parts.polynomials.iter_mut().zip(signs) {
        polynomial.iter_mut().for_each(|t| t.coefficient *= sign);
    }
    parts
}

/// Vertices 0 and 1 share what vertex 2 leaves of the weight, whose sign is by power 2; in dimension
/// 4 that of vertex 3 is by power 3.
fn grounds_of_ties(p: &dyn Product) {
    let ties: [(&[i64], ByHand, Ground); 7] = [
        (&[1, 1], (2, &[&[1, -1, -1], &[1, 1, -1], &[0, 0, 2]]), crossed_by(&[0, 0, 2])),
        (&[-1, 1], (-2, &[&[-1, -1, 1], &[-1, 1, 1], &[0, 0, -2]]), crossed_by(&[0, 0, 2])),
        (&[1, -1], (-2, &[&[-1, 1, -1], &[-1, -1, -1], &[0, 0, 2]]), against(2, 2)),
        (
            &[1, 1, 1],
            (2, &[&[1, -1, -1, -1], &[1, 1, -1, -1], &[0, 0, 2, 0], &[0, 0, 0, 2]]),
            crossed_by(&[0, 0, 2, 3]),
        ),
        (
            &[1, 1, -1],
            (-2, &[&[-1, 1, 1, -1], &[-1, -1, 1, -1], &[0, 0, -2, 0], &[0, 0, 0, 2]]),
            against(3, 3),
        ),
        (
            &[1, -1, 1],
            (-2, &[&[-1, 1, -1, 1], &[-1, -1, -1, 1], &[0, 0, 2, 0], &[0, 0, 0, -2]]),
            against(2, 2),
        ),
        // Vertex 3 is against D as well.
        (
            &[1, -1, -1],
            (2, &[&[1, -1, 1, 1], &[1, 1, 1, 1], &[0, 0, -2, 0], &[0, 0, 0, -2]]),
            against(2, 2),
        ),
    ];
    for (signs, by_hand, ground) in ties {
        let parts = tied(signs);
        assert_ground(p, &parts, &parts.start, by_hand, ground);
    }
}

/// The refusals are Judge's: Open's, then 13, 9, 10. 1,048,576 x^2 is not readable at 17.
fn refusals_of_grounds(p: &dyn Product) {
    let parts = Parts {
        ends: vec![(0, 17), (0, 1)],
        polynomials: vec![vec![term(1_048_576, &[2])]],
        ..case_a()
    };
    let job = parts.bytes();
    let along_x = |x: i64| place(&[x, 0], &[1], 0).bytes();
    let cut = &along_x(17)[..5];
    for (job, place, answer) in [
        (&job[..3], cut, Err(1)),
        (&job[..], cut, Err(13)),
        (&job[..], &place(&[17, 0], &[1], 2).bytes(), Err(13)),
        (&job[..], &place(&[17, 0], &[4], 0).bytes(), Err(13)),
        (&job[..], &along_x(17), Err(9)),
        (&job[..], &along_x(-1), Err(9)),
        (&job[..], &along_x(16), Err(10)),
        (&job[..], &place(&[17, 0], &[2], 0).bytes(), Err(10)),
        (&job[..], &along_x(15), Ok(against(1, 0))),
        (&job[..], &along_x(0), Ok(crossed_by(&[0, 1]))),
    ] {
        assert_eq!(p.judge_ground(job, place), answer, "{place:?}");
        assert_eq!(p.judge(job, place), answer.map(|ground| says_crossed(&ground)));
    }
}

/// Request 2.10: the small bench cutter.
pub fn small_cutter(p: &dyn Product) {
    // A and C, with space for all places, for one less and for none: as the full cutter has them.
    for parts in [case_a(), case_c(2), case_c(3), case_c(4)] {
        let (job, n) = (parts.bytes(), parts.n);
        assert_eq!(p.small_open(&job), p.open(&job));
        for space in [9, n + 1, n, 1, 0] {
            assert_eq!(small_traced(p, &job, n, space), Ok(traced(p, &job, n, space)));
        }
    }
    let (a, six) = (case_a().bytes(), 6);
    assert_eq!(p.small_open(&a), Ok((2, vec![3])));
    assert_eq!(small_traced(p, &a, 2, six).map(|(verdict, _)| verdict), Ok(Verdict::Loop));
    for n in DIMENSIONS {
        small_ends(p, n);
        small_terms(p, n);
        small_refusals(p, n);
    }
}

/// Small trace into a buffer for `space` places and two bytes more.
fn small_traced(
    p: &dyn Product,
    job: &[u8],
    n: usize,
    space: usize,
) -> Result<(Verdict, Vec<Place>), u8> {
    let size = 3 * n;
    let mut buffer = vec![PATTERN; size * space + 2];
    let answer = p.small_trace(job, &mut buffer);
    let written = answer.map_or(0, |(_, count)| size * count);
    assert!(buffer[written..].iter().all(|&b| b == PATTERN));
    let read = |bytes| Place::read(n, bytes).expect("a place");
    let places = buffer[..written].chunks_exact(size).map(read).collect();
    answer.map(|(verdict, _)| (verdict, places))
}

/// The small cutter turns the job away with 17; the full one opens it and traces it to the edge.
fn assert_too_large(p: &dyn Product, parts: &Parts) {
    let job = parts.bytes();
    assert_eq!(p.small_open(&job), Err(17), "{job:?}");
    assert_eq!(small_traced(p, &job, parts.n, 1_100), Err(17), "{job:?}");
    assert_eq!(p.open(&job).map(|(n, _)| n), Ok(parts.n));
    assert_eq!(traced(p, &job, parts.n, 1_100).0, Verdict::Edge);
}

/// Case C in a box from -64 to 64: from 0 it goes up the last axis, n places a unit, to 64, and
/// with side 1 down to -64. With an end of any axis at -65 or 65, and in the largest box, it is too
/// large.
fn small_ends(p: &dyn Product, n: usize) {
    let c = Parts { ends: vec![(-64, 64); n], ..case_c(n) };
    for (start, end) in [(c.start, 64), (c.start.turned(), -64)] {
        let job = Parts { start, ..c.clone() }.bytes();
        assert_eq!(p.small_open(&job), Ok((n, vec![1; n - 1])));
        let (verdict, places) = small_traced(p, &job, n, 300).expect("no refusal");
        assert_eq!((verdict, places.len()), (Verdict::Edge, 64 * n + 1));
        assert_eq!(places[64 * n].facet.lowest[n - 1], end);
        assert_eq!((verdict, places), traced(p, &job, n, 300));
    }
    for axis in 0..n {
        for ends in [(-65, 64), (-64, 65), (-65, 65), (-256, 64), (-64, 256)] {
            let mut parts = c.clone();
            parts.ends[axis] = ends;
            assert_too_large(p, &parts);
        }
        // Both ends on one side.
        for ends in [(65, 66), (-66, -65)] {
            let mut parts = c.clone();
            parts.ends[axis] = ends;
            parts.start.facet.lowest[axis] = if axis == n - 1 { ends.0 } else { 0 };
            assert_eq!(p.small_open(&parts.bytes()), Err(17));
            assert_eq!(small_traced(p, &parts.bytes(), n, 9), Err(17));
            assert!(p.open(&parts.bytes()).is_ok());
        }
    }
    assert_too_large(p, &Parts { ends: vec![(-256, 256); n], ..c });
}

/// Case C with more terms in a polynomial, all with the last axis: they are 0 on its start. 16 in
/// every polynomial are taken, 17 in one of them are too many. In dimension 2 there are no more
/// than 15.
fn small_terms(p: &dyn Product, n: usize) {
    let most = Limits::of(n).terms;
    let with_counts = |counts: &[usize]| {
        let mut parts = case_c(n);
        for (polynomial, count) in parts.polynomials.iter_mut().zip(counts) {
            let with_last = exponents(n).iter().filter(|e| e[n - 1] > 0);
            polynomial.extend(with_last.take(count - 1).map(|e| term(1, e)));
            polynomial.sort_by_key(|t| t.exponents);
        }
        parts
    };
    if n == 2 {
        let full = exponents(n).iter().map(|e| term(1, e)).collect();
        let parts = Parts { polynomials: vec![full], ..case_c(n) };
        assert_eq!(p.small_open(&parts.bytes()), Ok((2, vec![most])));
        assert_eq!(most, 15);
        return;
    }
    let parts = with_counts(&vec![16; n - 1]);
    assert_eq!(p.small_open(&parts.bytes()), Ok((n, vec![16; n - 1])));
    assert_eq!(small_traced(p, &parts.bytes(), n, 9), Ok(traced(p, &parts.bytes(), n, 9)));
    for k in 0..n - 1 {
        for others in [1, 16] {
            let mut counts = vec![others; n - 1];
            counts[k] = 17;
            assert_too_large(p, &with_counts(&counts));
        }
    }
}

/// 17 comes after 8 and before 9; a start past 64 is no 17.
fn small_refusals(p: &dyn Product, n: usize) {
    let answers = |parts: &Parts| {
        let job = parts.bytes();
        (p.small_open(&job).err(), small_traced(p, &job, n, 9).err())
    };
    for high in [64, 65] {
        let c = Parts { ends: vec![(0, high); n], ..case_c(n) };
        let past = |number| if high == 65 { Some(17) } else { number };
        // 9: the start at 66, which lies outside both boxes; 11: C's facet E.
        let mut outside = c.clone();
        outside.start.facet.lowest[0] = 66;
        assert_eq!(answers(&outside), (past(None), past(Some(9))));
        let masks = [2, 3, 7];
        let e = place(&vec![0; n], &masks[..n - 1], 0);
        assert_eq!(answers(&Parts { start: e, ..c.clone() }), (past(None), past(Some(11))));
        // 10: 1,048,576 x^2 is readable at 16 at most.
        let mut unreadable = c.clone();
        unreadable.polynomials[0] = vec![term(1_048_576, &[2])];
        unreadable.start.facet.lowest[0] = 20;
        assert_eq!(answers(&unreadable), (past(None), past(Some(10))));
        // 8, 7 and 6 come first.
        let side = Parts { start: Place { side: 2, ..c.start }, ..c.clone() };
        assert_eq!(answers(&side), (Some(8), Some(8)));
        let mut zero = side.clone();
        zero.polynomials[n - 2][0].coefficient = 0;
        assert_eq!(answers(&zero), (Some(7), Some(7)));
        zero.ends[n - 1] = (high, high);
        assert_eq!(answers(&zero), (Some(6), Some(6)));
    }
    // A start at 65, and one that ends there, in a box to 64.
    let c = Parts { ends: vec![(-64, 64); n], ..case_c(n) };
    for x in [65, 64, -65, 256, 1000, 32_767, -32_768] {
        let mut parts = c.clone();
        parts.start.facet.lowest[0] = x;
        assert_eq!(answers(&parts), (None, Some(9)), "{x}");
    }
}

/// Request 2.4: the list of seams.
pub fn seams(p: &dyn Product) {
    // A: the least of its six facets. Where the start lies does not matter, nor whether Trace takes
    // it: the facets that follow are not crossed, outside the box, far outside.
    let least = [place(&[-1, -1], &[3], 0)];
    let starts = [([0, 0], 1, 1), ([-1, -1], 1, 0), ([5, -9], 2, 0), ([-32_768, 32_767], 3, 1)];
    for (lowest, mask, side) in starts {
        let start = place(&lowest, &[mask], side);
        assert_seams(p, &Parts { start, ..case_a() }, &least);
    }
    for n in DIMENSIONS {
        // C: the trace from its start has the whole seam.
        assert_seams(p, &case_c(n), &[case_c(n).start]);
        // No seam: a polynomial without a zero.
        let mut without = case_c(n);
        without.polynomials[n - 2] = vec![term(1, &[])];
        assert_seams(p, &without, &[]);
        two_seams(p, n);
        facet_by_itself(p, n);
        seams_joined_by_the_bias(p, n);
        refusals_of_seams(p, n);
    }
    // A at bias 1 is above 0 at the four corners of the box alone, at bias 3 nowhere.
    let corners = [([-1, -1], 1), ([-1, 0], 2), ([0, -1], 1), ([0, 0], 3)];
    let around = corners.map(|(lowest, mask)| place(&lowest, &[mask], 0));
    assert_seams(p, &Parts { bias: 1, ..case_a() }, &around);
    assert_seams(p, &Parts { bias: 3, ..case_a() }, &[]);
    // No facet of the box is behind this one.
    assert_seams(p, &readable_at_the_end(), &[place(&[21, 30], &[2], 0)]);
}

/// Lists the seams into a buffer for `space` places and two bytes more.
fn listed(p: &dyn Product, job: &[u8], n: usize, space: usize) -> (Ending, Vec<Place>) {
    let size = 3 * n;
    let mut buffer = vec![PATTERN; size * space + 2];
    let (ending, count) = p.seams(job, &mut buffer).expect("no refusal");
    assert!(count <= space);
    assert!(buffer[size * count..].iter().all(|&b| b == PATTERN));
    let read = |bytes| Place::read(n, bytes).expect("a place");
    (ending, buffer.chunks_exact(size).take(count).map(read).collect())
}

/// The job has these seams: complete with space for them and for more, full with any less.
fn assert_seams(p: &dyn Product, parts: &Parts, places: &[Place]) {
    let job = parts.bytes();
    for space in 0..places.len() + 2 {
        let count = places.len().min(space);
        let ending = if count < places.len() { Ending::Full } else { Ending::Complete };
        let wanted = (ending, places[..count].to_vec());
        assert_eq!(listed(p, &job, parts.n, space), wanted, "space for {space} in {job:?}");
    }
}

/// x (x - 2) in place of x in case C is 3 at -1 and at 3, 0 at 0 and at 2 and below between: it is
/// just above 0 before 0 and behind 2.
fn before_and_behind(n: usize) -> Parts {
    let mut parts = case_c(n);
    parts.ends[0] = (-1, 3);
    parts.polynomials[0] = vec![term(-2, &[1]), term(1, &[2])];
    parts
}

/// It has a seam in each of the two. By the bytes of a place -1 comes behind 2.
fn two_seams(p: &dyn Product, n: usize) {
    let at = |x: i64| place(&vertex(&[x])[..n], &[1, 3, 7][..n - 1], 0);
    assert_seams(p, &before_and_behind(n), &[at(-1), at(2)]);
}

/// 1,048,576 x^3 times the last axis and 2 x - 41 in place of x in case C, x being 20 or 21: readable
/// where the last axis is 0, and there -1 and 1.
fn readable_at_0(n: usize) -> Parts {
    let mut parts = case_c(n);
    let mut large = power_of(n, 1);
    large[0] = 3;
    parts.polynomials[0] = gathered(&[term(1_048_576, &large), term(2, &[1]), term(-41, &[])]);
    parts.ends[0] = (20, 21);
    parts
}

/// Its facet there has no readable simplex on either side.
fn facet_by_itself(p: &dyn Product, n: usize) {
    let mut parts = readable_at_0(n);
    let alone = place(&vertex(&[20])[..n], &[1, 3, 7][..n - 1], 0);
    assert_seams(p, &parts, &[alone]);
    let from_alone = |start| traced(p, &with_start(&parts.bytes(), &start), n, 9);
    assert_eq!(from_alone(alone), (Verdict::Limit, vec![alone]));
    assert_eq!(from_alone(alone.turned()), (Verdict::Edge, vec![alone.turned()]));
    // In a box that goes on below there is a limit on both sides.
    parts.ends[n - 1] = (-1, 1);
    assert_seams(p, &parts, &[alone]);
    let below = with_start(&parts.bytes(), &alone.turned());
    assert_eq!(traced(p, &below, n, 9), (Verdict::Limit, vec![alone.turned()]));
}

/// 32,768 y^3 (x - 21) + 2 y - 61 in the box 20 to 21, 30 to 31: readable where x is 21, and there -1
/// and 1.
fn readable_at_the_end() -> Parts {
    let terms = [term(-688_128, &[0, 3]), term(32_768, &[1, 3]), term(2, &[0, 1]), term(-61, &[])];
    let ends = vec![(20, 21), (30, 31)];
    Parts { ends, polynomials: vec![gathered(&terms)], ..case_a() }
}

/// What the program that lists the seams prints for some of these.
pub fn seams_listings() -> Vec<(Parts, &'static str)> {
    vec![
        (case_a(), "2 complete 1\n-1 -1 3 0 loop 6\n"),
        (case_c(3), "3 complete 1\n0 0 0 1 3 0 edge 4\n"),
        (case_c(4), "4 complete 1\n0 0 0 0 1 3 7 0 edge 5\n"),
        (before_and_behind(2), "2 complete 2\n-1 0 1 0 edge 3\n2 0 1 0 edge 3\n"),
        (before_and_behind(3), "3 complete 2\n-1 0 0 1 3 0 edge 4\n2 0 0 1 3 0 edge 4\n"),
        (readable_at_0(2), "2 complete 1\n20 0 1 0 limit 1\n"),
        (readable_at_0(4), "4 complete 1\n20 0 0 0 1 3 7 0 limit 1\n"),
        (readable_at_the_end(), "2 complete 1\n21 30 2 0 edge 1\n"),
        // A at bias 1 is above 0 at the four corners of the box alone. The seam around the last has
        // three facets, and its place is between the others.
        (
            Parts { bias: 1, ..case_a() },
            "2 complete 4
-1 -1 1 0 edge 3
-1 0 2 0 edge 2
0 -1 1 0 edge 2
0 0 3 0 edge 2
",
        ),
        (Parts { bias: 3, ..case_a() }, "2 complete 0\n"),
    ]
}

/// The two loops of `pieces_joined_by_the_bias`, around the vertices -1 and 1 of axis 1; the least
/// facet goes up to the vertex from 1 below on axes 1 and 2.
fn seams_joined_by_the_bias(p: &dyn Product, n: usize) {
    let lobes = [(1, [0, 0]), (4, [0, 2]), (-5, [2, 0]), (2, [4, 0])];
    let mut polynomials = vec![lobes.map(|(c, exponents)| term(c, &exponents)).to_vec()];
    polynomials.extend((3..=n).map(|axis| vec![term(2, &power_of(axis, 1))]));
    let mut ends = vec![(-1, 1); n];
    ends[0] = (-2, 2);
    let up_to = |x: i64| place(&vertex(&[x - 1, -1])[..n], &[3, 7, 15][..n - 1], 0);
    let parts = Parts { ends, polynomials, ..case_c(n) };
    assert_seams(p, &parts, &[up_to(-1), up_to(1)]);
    assert_seams(p, &Parts { bias: 1, ..parts }, &[up_to(-1)]);
}

/// Those of Open, which touch no byte; and none for the start.
fn refusals_of_seams(p: &dyn Product, n: usize) {
    let refused = |job: &[u8]| {
        let mut buffer = vec![PATTERN; 3 * n * 3];
        let answer = p.seams(job, &mut buffer);
        assert!(answer.is_ok() || buffer.iter().all(|&b| b == PATTERN));
        answer.err()
    };
    let c = case_c(n);
    let job = c.bytes();
    let changed = |at: usize, byte: u8| {
        let mut other = job.clone();
        other[at] = byte;
        other
    };
    assert_eq!(refused(&job[..3]), Some(1));
    assert_eq!(refused(&changed(0, 0)), Some(2));
    assert_eq!(refused(&changed(1, 5)), Some(3));
    assert_eq!(refused(&changed(2, 0)), Some(4));
    assert_eq!(refused(&job[..job.len() - 1]), Some(5));
    let flat = Parts { ends: vec![(1, 1); n], ..c.clone() };
    assert_eq!(refused(&flat.bytes()), Some(6));
    let mut zero = c.clone();
    zero.polynomials[n - 2][0].coefficient = 0;
    assert_eq!(refused(&zero.bytes()), Some(7));
    assert_eq!(refused(&changed(job.len() - 1, 2)), Some(8));
    // Trace refuses these starts with 9, 11 and 10.
    for (lowest, masks) in [(40, [1, 3, 7]), (0, [2, 3, 7])] {
        let start = place(&vec![lowest; n], &masks[..n - 1], 0);
        let other = Parts { start, ..c.clone() };
        assert!(p.trace(&other.bytes(), &mut []).is_err());
        assert_seams(p, &other, &[c.start]);
    }
    let mut unreadable = c.clone();
    unreadable.ends[0] = (0, 30);
    unreadable.polynomials[0] = vec![term(1_048_576, &[2])];
    unreadable.start.facet.lowest[0] = 20;
    assert_eq!(p.trace(&unreadable.bytes(), &mut []), Err(10));
    assert_eq!(refused(&unreadable.bytes()), None);
}

/// (2 x^2 + 2 y^2 - 1) (x^2 + y^2 - 3): case A's loop, in one around the nine vertices whose
/// coordinates are at most 1 in size.
fn one_in_another() -> Parts {
    let inner = [term(-1, &[]), term(2, &[0, 2]), term(2, &[2])];
    let outer = [term(-3, &[]), term(1, &[0, 2]), term(1, &[2])];
    Parts { ends: vec![(-2, 2); 2], polynomials: vec![product(&inner, &outer)], ..case_a() }
}

/// (x^2 + y^2 - 15) (1 - 2 (x + y)^2) is below 0 in the circle at the five vertices from (-2, 2) to
/// (2, -2) alone, and outside it above 0 from (-6, 6) to (-3, 3) and from (3, -3) to (6, -6) alone.
/// Of these (-3, 3) and (3, -3) are beside vertices of the circle that are above 0. Each of the
/// others has a loop around it, but the two at corners of the box, which have an open curve.
fn five_in_another() -> Parts {
    let circle = [term(-15, &[]), term(1, &[0, 2]), term(1, &[2])];
    let line = [term(1, &[]), term(-2, &[0, 2]), term(-4, &[1, 1]), term(-2, &[2])];
    Parts { ends: vec![(-6, 6); 2], polynomials: vec![product(&circle, &line)], ..case_a() }
}

/// x (1 - (x + y - 2)^2) in the box from 0 to 2 is above 0 at (1, 1) and at (2, 0) alone: a loop
/// around the one, and an open curve of two facets at the other.
pub fn beside_an_open_curve() -> Parts {
    let form = [term(-2, &[]), term(1, &[0, 1]), term(1, &[1])];
    let square = product(&[term(-1, &[1])], &product(&form, &form));
    let polynomials = vec![gathered(&[&square[..], &[term(1, &[1])]].concat())];
    Parts { ends: vec![(0, 2); 2], polynomials, ..case_a() }
}

/// The answer to a list of places.
fn order_of(p: &dyn Product, job: &[u8], places: &[Place]) -> Result<CutOrder, u8> {
    p.cut_order(job, &places.iter().flat_map(|place| place.bytes()).collect::<Vec<u8>>())
}

/// Request 2.14: the order of cutting.
pub fn order(p: &dyn Product) {
    use CutOrder::{Breaks, Stands};
    // An empty list, and case A's loop by each of its places.
    let a = case_a().bytes();
    assert_eq!(order_of(p, &a, &[]), Ok(Stands));
    let of_a = CASE_A_PLACES
        .iter()
        .flat_map(|(lowest, mask, _)| [0, 1].map(|side| place(lowest, &[*mask], side)));
    for one in of_a.clone() {
        assert_eq!(order_of(p, &a, &[one]), Ok(Stands));
    }
    // One loop in another, by each place of the inner one and some of the outer.
    let nested = one_in_another().bytes();
    for (lowest, mask) in [([1, 0], 1), ([-2, 0], 1), ([-2, -2], 3), ([0, 1], 2), ([1, 1], 3)] {
        for (outer, inner) in [0, 1]
            .map(|side| place(&lowest, &[mask], side))
            .into_iter()
            .flat_map(|outer| of_a.clone().map(move |inner| (outer, inner)))
        {
            assert_eq!(order_of(p, &nested, &[inner, outer]), Ok(Stands));
            assert_eq!(order_of(p, &nested, &[outer, inner]), Ok(Breaks(0)));
            assert_eq!(order_of(p, &nested, &[outer]), Ok(Stands));
            assert_eq!(order_of(p, &nested, &[inner]), Ok(Stands));
        }
    }
    side_by_side(p);
    many_in_another(p);
    refusals_of_order(p);
}

/// The two loops of `pieces_joined_by_the_bias`: both orders stand. At bias 1 they are one loop,
/// which already came.
fn side_by_side(p: &dyn Product) {
    let lobes = [(1, [0, 0]), (4, [0, 2]), (-5, [2, 0]), (2, [4, 0])];
    let polynomials = vec![lobes.map(|(c, exponents)| term(c, &exponents)).to_vec()];
    let parts = Parts { ends: vec![(-2, 2), (-1, 1)], polynomials, ..case_a() };
    let on_left = [([-2, 0], 1), ([-1, 0], 1), ([-2, -1], 3), ([-1, -1], 2)];
    for left in on_left.map(|(lowest, mask)| place(&lowest, &[mask], 0)) {
        let mut right = left.turned();
        right.facet.lowest[0] += 2;
        let job = parts.bytes();
        assert_eq!(order_of(p, &job, &[left, right]), Ok(CutOrder::Stands));
        assert_eq!(order_of(p, &job, &[right, left]), Ok(CutOrder::Stands));
    }
    let ends = [place(&[-2, 0], &[1], 0), place(&[1, 0], &[1], 0)];
    let joined = Parts { bias: 1, ..parts }.bytes();
    assert_eq!(order_of(p, &joined, &ends[..1]), Ok(CutOrder::Stands));
    assert_eq!(order_of(p, &joined, &ends), Err(18));
}

/// Five loops in one and four beside it, all side by side: the outer one at each position, with the
/// others in front of it and behind it.
fn many_in_another(p: &dyn Product) {
    let job = five_in_another().bytes();
    // The facet that goes up to the vertex (k, -k) from 1 below on axis 1.
    let up_to = |k: i64| place(&[k - 1, -k], &[1], (k % 2 == 0) as u8);
    let outer = place(&[3, 0], &[1], 0);
    let (inner, beside) = ([-2, -1, 0, 1, 2].map(up_to), [-5, -4, 4, 5].map(up_to));
    for count in 0..=5 {
        let (before, after) = inner.split_at(count);
        let wanted = |k| if after.is_empty() { CutOrder::Stands } else { CutOrder::Breaks(k) };
        let list = [before, &[outer], after].concat();
        assert_eq!(order_of(p, &job, &list), Ok(wanted(count)));
        // Those beside it change the position alone.
        let first = [&beside[..], &list].concat();
        assert_eq!(order_of(p, &job, &first), Ok(wanted(count + 4)));
        let between = [before, &beside[..2], &[outer], &beside[2..], after].concat();
        assert_eq!(order_of(p, &job, &between), Ok(wanted(count + 2)));
        let last = [&list[..], &beside].concat();
        assert_eq!(order_of(p, &job, &last), Ok(wanted(count)));
        // One of those before once more: its loop already came.
        assert_eq!(order_of(p, &job, &[&list[..], &[outer.turned()]].concat()), Err(18));
        assert_eq!(order_of(p, &job, &[&last[..], &[beside[3]]].concat()), Err(18));
    }
    assert_eq!(order_of(p, &job, &[beside, beside].concat()), Err(18));
    // At the corners of the box.
    assert_eq!(order_of(p, &job, &[up_to(6)]), Err(18));
    assert_eq!(order_of(p, &job, &[inner[0], place(&[-6, 5], &[2], 0)]), Err(18));
}

/// Each of them, and which comes first.
fn refusals_of_order(p: &dyn Product) {
    let nested = one_in_another();
    let job = nested.bytes();
    let (inner, outer) = (place(&[0, 0], &[1], 0), place(&[1, 0], &[1], 0));
    // Open's, and 3 for another dimension, before the list is looked at.
    let changed = |at: usize, byte: u8| {
        let mut other = job.clone();
        other[at] = byte;
        other
    };
    for list in [vec![], vec![0], inner.bytes(), vec![255; 6]] {
        assert_eq!(p.cut_order(&job[..3], &list), Err(1));
        assert_eq!(p.cut_order(&changed(0, 0), &list), Err(2));
        assert_eq!(p.cut_order(&changed(1, 5), &list), Err(3));
        assert_eq!(p.cut_order(&changed(2, 0), &list), Err(4));
        assert_eq!(p.cut_order(&job[..job.len() - 1], &list), Err(5));
        let flat = Parts { ends: vec![(1, 1); 2], ..nested.clone() };
        assert_eq!(p.cut_order(&flat.bytes(), &list), Err(6));
        let mut zero = nested.clone();
        zero.polynomials[0][0].coefficient = 0;
        assert_eq!(p.cut_order(&zero.bytes(), &list), Err(7));
        assert_eq!(p.cut_order(&changed(job.len() - 1, 2), &list), Err(8));
        for n in [3, 4] {
            let mut c = case_c(n);
            assert_eq!(p.cut_order(&c.bytes(), &list), Err(3));
            assert_eq!(p.cut_order(&c.bytes(), &c.start.bytes()), Err(3));
            c.start.side = 2;
            assert_eq!(p.cut_order(&c.bytes(), &list), Err(8));
        }
    }
    // The start counts only for its form.
    let elsewhere = Parts { start: place(&[99, 99], &[2], 1), ..nested.clone() };
    assert_eq!(order_of(p, &elsewhere.bytes(), &[outer, inner]), Ok(CutOrder::Breaks(0)));
    // 13: a length that is no multiple of 6, before any place.
    for length in (0..=18).filter(|length| length % 6 != 0) {
        let places = [inner, place(&[50, 0], &[1], 0), outer].map(|place| place.bytes()).concat();
        assert_eq!(p.cut_order(&job, &places[..length]), Err(13));
    }
    // Of a place: 13, 9, 11, 18 for one that came, by itself and behind another, and 10 and 18 in
    // other jobs.
    let malformed = |mask: u8, side: u8| {
        let mut bytes = place(&[50, 0], &[1], 0).bytes();
        bytes[4..].copy_from_slice(&[mask, side]);
        bytes
    };
    let outside = place(&[2, 0], &[1], 0).bytes();
    let not_crossed = place(&[1, 0], &[2], 1).bytes();
    let again = place(&[-1, 0], &[1], 0).bytes();
    let first = inner.bytes();
    for bytes in [malformed(0, 0), malformed(4, 0), malformed(1, 2)] {
        assert_eq!(p.cut_order(&job, &bytes), Err(13));
        assert_eq!(p.cut_order(&job, &[first.clone(), bytes].concat()), Err(13));
    }
    for (bytes, refusal) in [(&outside, 9), (&not_crossed, 11)] {
        assert_eq!(p.cut_order(&job, bytes), Err(refusal));
        assert_eq!(p.cut_order(&job, &[&first[..], bytes].concat()), Err(refusal));
        assert_eq!(p.cut_order(&job, &[bytes, &first[..]].concat()), Err(refusal));
    }
    assert_eq!(p.cut_order(&job, &[&first[..], &again].concat()), Err(18));
    assert_eq!(p.cut_order(&job, &[&first[..], &first].concat()), Err(18));
    assert_eq!(p.cut_order(&job, &[&first[..], &outer.bytes(), &again].concat()), Err(18));
    // All of one position before the next.
    let refused = [(malformed(1, 2), 13), (outside, 9), (not_crossed, 11), (again, 18)];
    for (one, refusal) in &refused {
        for (other, _) in &refused {
            let list = [&first[..], one, other].concat();
            assert_eq!(p.cut_order(&job, &list), Err(*refusal));
        }
    }
    // 18: the open curve beside a loop, whose trace ends at an edge.
    let beside = beside_an_open_curve().bytes();
    let (closed, open) = (place(&[0, 0], &[3], 0), place(&[1, 0], &[1], 0));
    assert_eq!(order_of(p, &beside, &[closed]), Ok(CutOrder::Stands));
    for open in [open, open.turned()] {
        assert_eq!(order_of(p, &beside, &[open]), Err(18));
        assert_eq!(order_of(p, &beside, &[closed, open]), Err(18));
        assert_eq!(order_of(p, &beside, &[open, closed]), Err(18));
    }
    // 18: a facet by itself between two limits, or a limit and an edge. 10: the facet beside it.
    let mut alone = readable_at_0(2);
    for low in [0, -1] {
        alone.ends[1] = (low, 1);
        for side in [0, 1] {
            let facet = place(&[20, 0], &[1], side);
            assert_eq!(order_of(p, &alone.bytes(), &[facet]), Err(18));
            assert_eq!(order_of(p, &alone.bytes(), &[place(&[20, 0], &[2], side), facet]), Err(10));
            assert_eq!(order_of(p, &alone.bytes(), &[facet, place(&[20, 0], &[2], side)]), Err(18));
        }
    }
}

/// The bytes of case C's job in dimension 3, and of its like in dimension 4.
const CASE_C_3: [u8; 57] = [
    1, 3, 4, 0, 20, 0, 12, 0, 32, 0, 8, 0, 40, 0, 8, 0, 48, 0, 9, 0, // contents
    0, 0, 1, 0, 0, 0, 1, 0, 0, 0, 1, 0, // box
    1, 0, 0, 0, 1, 0, 0, 0, // x
    1, 0, 0, 0, 0, 1, 0, 0, // y
    0, 0, 0, 0, 0, 0, 1, 3, 0, // start
];
const CASE_C_4: [u8; 76] = [
    1, 4, 5, 0, 24, 0, 16, 0, 40, 0, 8, 0, 48, 0, 8, 0, 56, 0, 8, 0, 64, 0, 12, 0, // contents
    0, 0, 1, 0, 0, 0, 1, 0, 0, 0, 1, 0, 0, 0, 1, 0, // box
    1, 0, 0, 0, 1, 0, 0, 0, // x
    1, 0, 0, 0, 0, 1, 0, 0, // y
    1, 0, 0, 0, 0, 0, 1, 0, // z
    0, 0, 0, 0, 0, 0, 0, 0, 1, 3, 7, 0, // start
];

/// Writes to a buffer of this space; a refusal touches no byte, and a job none behind it.
fn written(p: &dyn Product, loose: &Loose, space: usize) -> Result<Vec<u8>, u8> {
    let mut buffer = vec![PATTERN; space];
    let answer = p.write_job(loose, &mut buffer);
    let rest = &buffer[answer.unwrap_or(0)..];
    assert!(rest.iter().all(|&b| b == PATTERN), "{answer:?} for {loose:?}");
    answer.map(|length| buffer[..length].to_vec())
}

/// Request 2.2: a job from loose bodies.
pub fn writing(p: &dyn Product) {
    let jobs = [(case_a(), &CASE_A[..]), (case_c(3), &CASE_C_3), (case_c(4), &CASE_C_4)];
    for (parts, job) in jobs {
        let loose = Loose::of(&parts);
        for space in 0..job.len() {
            assert_eq!(written(p, &loose, space), Err(16), "space {space}");
        }
        for space in [0, 1, 2, 3, 50].map(|more| job.len() + more) {
            assert_eq!(written(p, &loose, space), Ok(job.to_vec()), "space {space}");
        }
        // The bias is byte 3.
        for bias in [1, 2, 128, 255] {
            let with_bias = [&job[..3], &[bias], &job[4..]].concat();
            let biased = Loose { bias, ..loose.clone() };
            assert_eq!(written(p, &biased, job.len()), Ok(with_bias));
        }
        // What is not read changes nothing.
        for more in [vec![0], vec![255; 9], loose.polynomials[0].clone(), vec![7; 70_000]] {
            let mut other = loose.clone();
            other.polynomials[parts.n - 1..].fill(more);
            assert_eq!(written(p, &other, 80), Ok(job.to_vec()));
        }
        refusals_of_writing(p, &parts);
    }
    written_with_all_terms(p);
}

/// All 70 terms of dimension 4 in each polynomial: offsets and lengths need both of their bytes.
fn written_with_all_terms(p: &dyn Product) {
    let all: Vec<Term> = exponents(4).iter().map(|e| term(1, e)).collect();
    let loose = Loose::of(&Parts { polynomials: vec![all; 3], ..case_c(4) });
    let job = written(p, &loose, 1_732).expect("a job");
    let entries =
        [[24, 0, 16, 0], [40, 0, 48, 2], [88, 2, 48, 2], [136, 4, 48, 2], [184, 6, 12, 0]];
    assert_eq!(job[..24], [&[1, 4, 5, 0][..], &entries.concat()].concat());
    assert!(job[40..600] == loose.polynomials[0] && job[1_720..] == loose.start);
    assert_eq!(p.open(&job), Ok((4, vec![70; 3])));
    assert_eq!(written(p, &loose, 1_731), Err(16));
}

/// The refusal in a buffer that is long enough. In one without a byte it is the same, or 16.
fn refused_writing(p: &dyn Product, loose: &Loose) -> Option<u8> {
    let [none, enough] = [0, 2_000].map(|space| written(p, loose, space).err());
    assert_eq!(none, enough.or(Some(16)), "{loose:?}");
    enough
}

/// Each of them, and which comes first.
fn refusals_of_writing(p: &dyn Product, parts: &Parts) {
    let (n, loose) = (parts.n, Loose::of(parts));
    // 3: any number but the three, whatever the bodies.
    let low = n as u64;
    let empty =
        Loose { ends: vec![], polynomials: Default::default(), start: vec![], ..loose.clone() };
    for number in [0, 1, 5, 255, 256 + low, (1 << 16) + low, (1 << 32) + low, u64::MAX] {
        for bodies in [&loose, &empty] {
            let other = Loose { n: number, ..bodies.clone() };
            assert_eq!(refused_writing(p, &other), Some(3), "{number}");
        }
    }
    assert_eq!(refused_writing(p, &empty), Some(5));
    wrong_lengths(p, n, &loose);
    // 8, then with 7 too, with 6 and with 5: the least number.
    let mut worse = loose.clone();
    worse.start[3 * n - 1] = 2;
    assert_eq!(refused_writing(p, &worse), Some(8));
    worse.polynomials[n - 2][..4].fill(0);
    assert_eq!(refused_writing(p, &worse), Some(7));
    worse.ends.copy_within(4 * n - 2..4 * n, 4 * n - 4);
    assert_eq!(refused_writing(p, &worse), Some(6));
    worse.polynomials[0].push(0);
    assert_eq!(refused_writing(p, &worse), Some(5));
    assert_eq!(refused_writing(p, &Loose { n: 5, ..worse }), Some(3));
}

/// 5: the bodies of another dimension; each body empty, a byte shorter, a byte longer, and with
/// 65,536 bytes more, which is the same length in 16 bits.
fn wrong_lengths(p: &dyn Product, n: usize, loose: &Loose) {
    for other in DIMENSIONS.into_iter().filter(|&other| other != n) {
        let other = Loose { n: other as u64, ..loose.clone() };
        assert_eq!(refused_writing(p, &other), Some(5));
    }
    for which in Which::of(n) {
        let right = loose.body(which).len();
        for length in [0, right - 1, right + 1, 65_536, right + 65_536] {
            let mut other = loose.clone();
            other.body_mut(which).resize(length, 0);
            assert_eq!(refused_writing(p, &other), Some(5), "{length} bytes of {which:?}");
        }
    }
}

/// The five wrong turns.
pub fn wrong_turns(p: &dyn Product) {
    // A zero counted as both high and low: a triangle of values 0, 1, -1 has two crossed facets.
    let zero = Parts { polynomials: vec![vec![term(-1, &[0, 1]), term(1, &[1])]], ..case_a() };
    let facets = [([0, 0], 1), ([0, 0], 3), ([1, 0], 2)];
    let crossed = facets.map(|(lowest, mask)| {
        p.judge(&zero.bytes(), &place(&lowest, &[mask], 0).bytes()).expect("judged")
    });
    assert_eq!(crossed, [true, false, true]);
    // Judging by power 0 alone: in C each of these facets has weights 0, 0 and 1 at the
    // same lowest vertex, and some are crossed and some are not.
    let c = case_c(3);
    for (masks, is_crossed) in
        [([1, 3], true), ([1, 7], true), ([5, 7], true), ([2, 3], false), ([2, 7], false)]
    {
        let facet = place(&[0, 0, 0], &masks, 0);
        assert_eq!(p.judge(&c.bytes(), &facet.bytes()), Ok(is_crossed), "{masks:?}");
    }
    // The R rule at the two ends of the order replaces s0 by 2 s1 - s0, another vertex than the
    // P rule's s1 + sn - s0: by the P rule, C's curve goes straight up in a taller box.
    let taller = Parts { ends: vec![(0, 1), (0, 1), (0, 2)], ..c.clone() };
    let (verdict, places) = traced(p, &taller.bytes(), 3, 20);
    assert_eq!((verdict, places.len()), (Verdict::Edge, 7));
    assert_eq!(places[6], place(&[0, 0, 2], &[1, 3], 0));
    // Rounding -0.3 steps, which by request 2.5 is 0: 10,240 x + 3 is zero at x = -0.3 / 1024.
    let slight = Parts { polynomials: vec![vec![term(3, &[]), term(10_240, &[1])]], ..case_a() };
    let here = place(&[-1, 0], &[1], 0);
    assert_eq!(p.point(&slight.bytes(), &here.bytes()), Ok(vertex(&[0])));
    assert_moves_to(p, &slight.bytes(), &here.bytes(), 0, &[0]);
    // A full buffer when the next facet is the start: case B with space for 6.
    assert_eq!(traced(p, &case_a().bytes(), 2, 6).0, Verdict::Loop);
}
