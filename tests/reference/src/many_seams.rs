//! Jobs with hundreds or thousands of seams, one in each dimension; in dimension 3 there are more
//! than the program that lists them has space for.

use crate::build::{case_c, gathered, product, term, Parts};
use crate::crossed::Term;
use crate::limits::LARGEST_COORDINATE;

/// The polynomial with a constant more.
fn and(terms: &[Term], constant: i64) -> Vec<Term> {
    gathered(&[terms, &[term(constant, &[])]].concat())
}

/// A factor times the square of a form.
fn times_square(factor: i64, form: &[Term]) -> Vec<Term> {
    product(&[term(factor, &[])], &product(form, form))
}

/// The same polynomial less some constants, at the largest bias. The steps from vertex to vertex are
/// about as large as these: which of the polynomials pass the bias there changes at each step, and
/// most seams go around a vertex or a few.
fn ragged(n: usize, reach: i64, terms: &[Term], less: &[i64]) -> Parts {
    let polynomials = less.iter().map(|less| and(terms, -less)).collect();
    Parts { bias: 255, ends: vec![(-reach, reach); n], polynomials, ..case_c(n) }
}

/// Each of them, with how many seams it has.
pub fn many_seams() -> [(Parts, usize); 3] {
    // 300 - (37 x + 23 y)^2 is above 0 close to a line, at vertices that lie apart.
    let line = times_square(-1, &[term(37, &[1]), term(23, &[0, 1])]);
    let apart = Parts {
        ends: vec![(-LARGEST_COORDINATE, LARGEST_COORDINATE); 2],
        polynomials: vec![and(&line, 300)],
        ..case_c(2)
    };
    // 8 (x + z)^2 - 10 y^2 - 81 y + 22.
    let three = [
        times_square(8, &[term(1, &[1]), term(1, &[0, 0, 1])]),
        vec![term(-10, &[0, 2]), term(-81, &[0, 1]), term(22, &[])],
    ];
    // 20 (x + y + z)^2 - 22 w^2 + 3 z + 80 w + 22.
    let four = [
        times_square(20, &[term(1, &[1]), term(1, &[0, 1]), term(1, &[0, 0, 1])]),
        vec![term(-22, &[0, 0, 0, 2]), term(3, &[0, 0, 1]), term(80, &[0, 0, 0, 1])],
        vec![term(22, &[])],
    ];
    [
        (apart, 319),
        (ragged(3, 32, &three.concat(), &[0, 109]), 4_537),
        (ragged(4, 4, &four.concat(), &[0, 100, 200]), 852),
    ]
}
