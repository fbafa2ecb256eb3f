//! Which terms of a polynomial body are bad. The paper's words are read for every term by itself,
//! from the bytes: nothing is carried from one term to the next, and a bad term ends nothing. It
//! shares neither a way of reading with `job::read_polynomial`, which walks a body once, nor the
//! numbers of its limits, which stand here again.

use crate::named;

named! {
    /// What may be wrong with a term.
    Bad {
        /// The coefficient is 0.
        Zero: 1,
        /// The coefficient is larger in size than 1,048,576.
        Large: 1,
        /// An exponent of an axis above n is not 0.
        AboveN: 1,
        /// The sum of the exponents is above 4.
        Degree: 1,
        /// The exponents are those of the term before.
        Equal: 1,
        /// On the first axis on which they differ, the term before has the larger exponent.
        Lower: 1,
    }
}

/// A bad term and all that is wrong with it, in the order of the enum.
#[derive(Clone, PartialEq, Eq, Debug)]
pub struct BadTerm {
    pub index: usize,
    pub why: Vec<Bad>,
}

/// The least byte first; from the half of all numbers on they stand for those below 0.
fn coefficient(body: &[u8], index: usize) -> i64 {
    let byte = |k: usize| body[8 * index + k] as i64;
    let number = byte(0) + 256 * byte(1) + 65_536 * byte(2) + 16_777_216 * byte(3);
    if number < 2_147_483_648 {
        number
    } else {
        number - 4_294_967_296
    }
}

/// As a number of 32 bits, which no sum of four leaves.
fn exponent(body: &[u8], index: usize, axis: usize) -> u32 {
    body[8 * index + 3 + axis] as u32
}

/// What is wrong with the order of a term and the one before it.
fn wrong_order(body: &[u8], index: usize) -> Option<Bad> {
    for axis in 1..=4 {
        let (before, here) = (exponent(body, index - 1, axis), exponent(body, index, axis));
        if before != here {
            return (before > here).then_some(Bad::Lower);
        }
    }
    Some(Bad::Equal)
}

/// All that is wrong with a term.
fn wrong(n: usize, body: &[u8], index: usize) -> Vec<Bad> {
    let mut why = Vec::new();
    let coefficient = coefficient(body, index);
    if coefficient == 0 {
        why.push(Bad::Zero);
    }
    if !(-1_048_576..=1_048_576).contains(&coefficient) {
        why.push(Bad::Large);
    }
    if (n + 1..=4).any(|axis| exponent(body, index, axis) != 0) {
        why.push(Bad::AboveN);
    }
    if (1..=4).map(|axis| exponent(body, index, axis)).sum::<u32>() > 4 {
        why.push(Bad::Degree);
    }
    if index > 0 {
        why.extend(wrong_order(body, index));
    }
    why
}

/// All bad terms of a body, 8 bytes a term, in rising order of their index.
pub fn bad_terms(n: usize, body: &[u8]) -> Vec<BadTerm> {
    assert_eq!(body.len() % 8, 0, "whole terms");
    let each = (0..body.len() / 8).map(|index| BadTerm { index, why: wrong(n, body, index) });
    each.filter(|term| !term.why.is_empty()).collect()
}

#[cfg(test)]
mod tests {
    use super::Bad::*;
    use super::*;

    /// The bad terms of a body of these coefficients and exponents.
    fn found(n: usize, terms: &[(i32, [u8; 4])]) -> Vec<(usize, Vec<Bad>)> {
        let body: Vec<u8> =
            terms.iter().flat_map(|(c, e)| [c.to_le_bytes(), *e].concat()).collect();
        bad_terms(n, &body).into_iter().map(|term| (term.index, term.why)).collect()
    }

    #[test]
    fn limits_of_a_coefficient() {
        for c in [1, -1, 256, -256, 65_536, -65_536, 1_048_576, -1_048_576] {
            assert_eq!(found(2, &[(c, [0; 4])]), []);
        }
        for c in [1_048_577, -1_048_577, 16_777_217, -16_777_215, i32::MIN, i32::MAX] {
            assert_eq!(found(2, &[(c, [0; 4])]), [(0, vec![Large])]);
        }
        assert_eq!(found(2, &[(0, [0; 4])]), [(0, vec![Zero])]);
    }

    #[test]
    fn limits_of_exponents() {
        for e in [[0; 4], [4, 0, 0, 0], [0, 4, 0, 0], [1, 3, 0, 0]] {
            assert_eq!(found(2, &[(1, e)]), []);
        }
        assert_eq!(found(2, &[(1, [0, 0, 1, 0])]), [(0, vec![AboveN])]);
        assert_eq!(found(2, &[(1, [3, 0, 0, 1])]), [(0, vec![AboveN])]);
        assert_eq!(found(3, &[(1, [0, 0, 1, 0])]), []);
        assert_eq!(found(3, &[(1, [0, 0, 4, 255])]), [(0, vec![AboveN, Degree])]);
        assert_eq!(found(4, &[(1, [1, 1, 1, 1])]), []);
        for e in [[1, 1, 1, 2], [0, 0, 0, 5], [255, 1, 0, 0], [0, 128, 0, 128], [64; 4], [255; 4]] {
            assert_eq!(found(4, &[(1, e)]), [(0, vec![Degree])]);
        }
    }

    /// The first axis on which two terms differ decides, and each is held against the one before.
    #[test]
    fn order() {
        let rising = [[0, 0, 0, 0], [0, 0, 0, 4], [0, 0, 1, 0], [0, 3, 0, 1], [1, 0, 0, 0]];
        assert_eq!(found(4, &rising.map(|e| (1, e))), []);
        let falling = [[1, 0, 0, 0], [0, 3, 0, 1], [0, 0, 1, 0], [0, 0, 0, 4], [0, 0, 0, 0]];
        let wanted: Vec<_> = (1..5).map(|index| (index, vec![Lower])).collect();
        assert_eq!(found(4, &falling.map(|e| (1, e))), wanted);
        let saw = [[0, 1, 0, 0], [0, 1, 0, 0], [2, 0, 0, 0], [1, 0, 0, 0], [1, 1, 0, 0]];
        assert_eq!(found(2, &saw.map(|e| (1, e))), [(1, vec![Equal]), (3, vec![Lower])]);
    }

    #[test]
    fn several_at_once() {
        let terms = [
            (1, [0, 0, 0, 0]),
            (0, [0, 0, 0, 0]),
            (1_048_577, [0, 0, 5, 0]),
            (-1, [0, 0, 5, 1]),
            (i32::MIN, [0, 0, 1, 1]),
            (1, [0, 0, 2, 0]),
        ];
        let wanted = [
            (1, vec![Zero, Equal]),
            (2, vec![Large, Degree]),
            (3, vec![AboveN, Degree]),
            (4, vec![Large, AboveN, Lower]),
        ];
        assert_eq!(found(3, &terms), wanted);
    }
}
