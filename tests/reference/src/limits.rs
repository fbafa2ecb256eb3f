//! What depends on the dimension, in one table. Everything else of the reference is over n.

/// The arrays of the reference have room for this many axes.
pub const MOST: usize = 4;

/// The limits of a dimension.
pub struct Limits {
    pub n: usize,
    /// The most terms of a polynomial.
    pub terms: usize,
    /// A value is readable from minus this to this.
    pub readable: i128,
}

/// A row for each dimension.
const TABLE: [Limits; 3] = [
    Limits { n: 2, terms: 15, readable: 268_435_456 },
    Limits { n: 3, terms: 35, readable: 268_435_456 },
    Limits { n: 4, terms: 70, readable: 524_288 },
];

/// The dimensions of the table: those that Open accepts.
pub const DIMENSIONS: [usize; TABLE.len()] = [TABLE[0].n, TABLE[1].n, TABLE[2].n];

impl Limits {
    /// The limits of a dimension of the table.
    pub fn of(n: usize) -> &'static Limits {
        TABLE.iter().find(|row| row.n == n).expect("a dimension of the table")
    }

    pub fn is_readable(&self, value: i128) -> bool {
        -self.readable <= value && value <= self.readable
    }
}

/// The largest size of a coefficient.
pub const LARGEST_COEFFICIENT: i64 = 1_048_576;
/// The largest size of a coordinate.
pub const LARGEST_COORDINATE: i64 = 256;
/// The largest sum of a term's exponents.
pub const LARGEST_DEGREE: u32 = 4;

/// The small cutter's largest size of a box end. It looks at no other coordinate.
pub const SMALL_COORDINATE: i64 = 64;
/// The small cutter's most terms of a polynomial, in each dimension.
pub const SMALL_TERMS: usize = 16;
