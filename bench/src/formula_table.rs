//! Polynomials as a table of coefficients, one for each product of letters that a term of the
//! dimension may have, in the order of terms: nothing is allocated, and where a product of two terms
//! stands is looked up. For the readers of `formula_plain.rs`.

use crate::formula_plain::{formula_by, within, Exponents, FormulaAnswer, Polynomial};

const LARGEST_DEGREE: usize = 4;

/// 15, 35 or 70 terms, in dimension 2, 3 and 4.
#[derive(Clone)]
struct Table<const TERMS: usize>([i64; TERMS]);

/// What each place of a table stands for.
struct Places<const TERMS: usize> {
    exponents: [Exponents; TERMS],
    degrees: [usize; TERMS],
    letters: [usize; 4],
    /// Where the product of two places stands; 0 if its degree is too high.
    products: [[u8; TERMS]; TERMS],
}

/// Exponents as one number, by which terms rise.
const fn number_of(e: Exponents) -> usize {
    ((e[0] as usize * 5 + e[1] as usize) * 5 + e[2] as usize) * 5 + e[3] as usize
}

/// By the numbers of exponents in rising order, those above axis n being 0.
const fn places<const TERMS: usize>() -> Places<TERMS> {
    let step = match TERMS {
        15 => 25,
        35 => 5,
        _ => 1,
    };
    let mut place_of = [0; 625];
    let mut exponents = [[0; 4]; TERMS];
    let mut degrees = [0; TERMS];
    let (mut number, mut count) = (0, 0);
    while number < 625 {
        let e = [number / 125, number / 25 % 5, number / 5 % 5, number % 5];
        let degree = e[0] + e[1] + e[2] + e[3];
        if degree <= LARGEST_DEGREE {
            exponents[count] = [e[0] as u8, e[1] as u8, e[2] as u8, e[3] as u8];
            degrees[count] = degree;
            place_of[number] = count;
            count += 1;
        }
        number += step;
    }
    let mut products = [[0; TERMS]; TERMS];
    let mut i = 0;
    while i < TERMS {
        let mut j = 0;
        while j < TERMS {
            if degrees[i] + degrees[j] <= LARGEST_DEGREE {
                let product = number_of(exponents[i]) + number_of(exponents[j]);
                products[i][j] = place_of[product] as u8;
            }
            j += 1;
        }
        i += 1;
    }
    let letters = [place_of[125], place_of[25], place_of[5], place_of[1]];
    Places { exponents, degrees, letters, products }
}

impl<const TERMS: usize> Table<TERMS> {
    const PLACES: &'static Places<TERMS> = &places();

    fn is_within(&self) -> bool {
        self.0.iter().all(|&coefficient| within(coefficient).is_some())
    }
}

impl<const TERMS: usize> Polynomial for Table<TERMS> {
    fn number(value: i64) -> Self {
        let mut table = Table([0; TERMS]);
        table.0[0] = value;
        table
    }

    fn letter(axis: usize) -> Self {
        let mut table = Table([0; TERMS]);
        table.0[Self::PLACES.letters[axis]] = 1;
        table
    }

    fn negate(&mut self) {
        self.0.iter_mut().for_each(|coefficient| *coefficient = -*coefficient);
    }

    fn add(&mut self, times: i64, other: &Self) -> Option<()> {
        self.0.iter_mut().zip(&other.0).for_each(|(own, more)| *own += times * more);
        self.is_within().then_some(())
    }

    /// The highest terms of two polynomials never cancel in their product, so a degree that is too
    /// high is seen in the terms.
    fn times(self, other: &Self) -> Option<Self> {
        let places = Self::PLACES;
        let mut product = Table([0; TERMS]);
        for (i, &c) in self.0.iter().enumerate().filter(|(_, &c)| c != 0) {
            for (j, &d) in other.0.iter().enumerate().filter(|(_, &d)| d != 0) {
                if places.degrees[i] + places.degrees[j] > LARGEST_DEGREE {
                    return None;
                }
                product.0[places.products[i][j] as usize] += c * d;
            }
        }
        product.is_within().then_some(product)
    }

    fn terms(&self) -> impl Iterator<Item = (Exponents, i64)> {
        let all = Self::PLACES.exponents.iter().zip(&self.0);
        all.filter(|(_, &coefficient)| coefficient != 0).map(|(e, c)| (*e, *c))
    }
}

/// Reads a formula, with a table of coefficients.
pub fn formula(n: u64, text: &[u8]) -> FormulaAnswer {
    match n {
        2 => formula_by::<Table<15>>(n, text),
        3 => formula_by::<Table<35>>(n, text),
        _ => formula_by::<Table<70>>(n, text),
    }
}
