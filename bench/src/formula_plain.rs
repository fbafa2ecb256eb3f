//! Reading formulas in Rust, made for comparing times: four readers that call each other, with the
//! polynomials made while the text is read. Over two kinds of polynomials: terms in a row
//! (`formula`, below) and a table of coefficients (`formula_table.rs`). Unproved; compared with the
//! reference by `formula_tests.rs`.

/// The most parentheses that may stand inside each other.
const DEEPEST: usize = 16;
/// The most digits of a number.
const MOST_DIGITS: usize = 7;
/// The largest size of a coefficient.
const LARGEST: i64 = 1_048_576;
const LARGEST_DEGREE: u8 = 4;

const OUTSIDE: u8 = 14;
const BEYOND: u8 = 15;

/// Exponents by axis. Terms rise by them.
pub type Exponents = [u8; 4];

/// The answer of the C interface, which all readers hand back.
#[repr(C)]
#[derive(Clone, PartialEq, Eq)]
pub struct FormulaAnswer {
    pub refusal: u64,
    pub count: u64,
    /// 8 bytes a term; those behind the terms are 0.
    pub bytes: [u8; 560],
}

impl FormulaAnswer {
    fn refused(refusal: u8) -> FormulaAnswer {
        FormulaAnswer { refusal: refusal as u64, count: 0, bytes: [0; 560] }
    }

    /// The answer with these terms, which rise.
    fn of(terms: impl Iterator<Item = (Exponents, i64)>) -> FormulaAnswer {
        let mut answer = FormulaAnswer::refused(0);
        for (room, (exponents, coefficient)) in answer.bytes.chunks_exact_mut(8).zip(terms) {
            room[..4].copy_from_slice(&(coefficient as i32).to_le_bytes());
            room[4..].copy_from_slice(&exponents);
            answer.count += 1;
        }
        answer
    }
}

/// A coefficient within the limits.
pub fn within(coefficient: i64) -> Option<i64> {
    (-LARGEST..=LARGEST).contains(&coefficient).then_some(coefficient)
}

/// What a reader needs of polynomials. None stands for a result that breaks a limit.
pub trait Polynomial: Clone {
    /// A number that is not too large.
    fn number(value: i64) -> Self;
    /// The letter of an axis, from 0.
    fn letter(axis: usize) -> Self;
    fn negate(&mut self);
    /// Adds so many times the other: once, or minus once.
    fn add(&mut self, times: i64, other: &Self) -> Option<()>;
    fn times(self, other: &Self) -> Option<Self>;
    /// The terms, rising, with no coefficient 0.
    fn terms(&self) -> impl Iterator<Item = (Exponents, i64)>;
}

struct Reader<'a> {
    n: usize,
    rest: &'a [u8],
    open: usize,
}

impl Reader<'_> {
    /// Whether the next byte is this one, which is then read.
    fn takes(&mut self, byte: u8) -> bool {
        match self.rest {
            [next, rest @ ..] if *next == byte => {
                self.rest = rest;
                true
            }
            _ => false,
        }
    }

    fn sum<P: Polynomial>(&mut self) -> Result<P, u8> {
        let is_negative = self.takes(b'-');
        let mut sum: P = self.product()?;
        if is_negative {
            sum.negate();
        }
        loop {
            let times = match self.rest {
                [b'+', ..] => 1,
                [b'-', ..] => -1,
                _ => return Ok(sum),
            };
            self.rest = &self.rest[1..];
            sum.add(times, &self.product()?).ok_or(BEYOND)?;
        }
    }

    fn product<P: Polynomial>(&mut self) -> Result<P, u8> {
        let mut product: P = self.power()?;
        while self.takes(b'*') {
            product = product.times(&self.power()?).ok_or(BEYOND)?;
        }
        Ok(product)
    }

    fn power<P: Polynomial>(&mut self) -> Result<P, u8> {
        let atom: P = self.atom()?;
        if !self.takes(b'^') {
            return Ok(atom);
        }
        let [digit @ b'0'..=b'4', rest @ ..] = self.rest else { return Err(OUTSIDE) };
        self.rest = rest;
        if *digit == b'0' {
            return Ok(P::number(1));
        }
        // Once 1 times the atom is the atom.
        let mut power = atom.clone();
        for _ in b'1'..*digit {
            power = power.times(&atom).ok_or(BEYOND)?;
        }
        Ok(power)
    }

    fn atom<P: Polynomial>(&mut self) -> Result<P, u8> {
        let [first, rest @ ..] = self.rest else { return Err(OUTSIDE) };
        match first {
            b'(' => {
                if self.open == DEEPEST {
                    return Err(BEYOND);
                }
                self.rest = rest;
                self.open += 1;
                let sum = self.sum()?;
                self.open -= 1;
                self.takes(b')').then_some(sum).ok_or(OUTSIDE)
            }
            b'0'..=b'9' => self.number().and_then(|n| Ok(P::number(within(n).ok_or(BEYOND)?))),
            letter => {
                let axis = axis_of(self.n, *letter).ok_or(OUTSIDE)?;
                self.rest = rest;
                Ok(P::letter(axis))
            }
        }
    }

    fn number(&mut self) -> Result<i64, u8> {
        let digits = self.rest.iter().take_while(|byte| byte.is_ascii_digit()).count();
        if digits > MOST_DIGITS {
            return Err(OUTSIDE);
        }
        let (number, rest) = self.rest.split_at(digits);
        self.rest = rest;
        Ok(number.iter().fold(0, |value, digit| 10 * value + (digit - b'0') as i64))
    }
}

/// The axis of a letter in dimension n, from 0.
fn axis_of(n: usize, letter: u8) -> Option<usize> {
    b"xyzw"[..n].iter().position(|&known| known == letter)
}

/// Whether a text is in the language, at any depth of its parentheses: each byte is one that may
/// follow those before it.
fn is_formula(n: usize, text: &[u8]) -> bool {
    let mut open = 0;
    let mut before = b'(';
    let mut digits = 0;
    for (k, &byte) in text.iter().enumerate() {
        let is_exponent = before == b'^';
        // A number, a letter, an exponent or a closing parenthesis stands before.
        let is_behind = !matches!(before, b'(' | b'+' | b'-' | b'*' | b'^');
        let may_follow = match byte {
            b'0'..=b'9' if is_exponent => byte <= b'4',
            b'0'..=b'9' if digits > 0 => digits < MOST_DIGITS,
            b'0'..=b'9' => !is_behind,
            b'(' => !is_behind && !is_exponent,
            b')' => is_behind && open > 0,
            b'+' | b'*' => is_behind,
            b'-' => is_behind || before == b'(',
            b'^' => is_behind && (k < 2 || text[k - 2] != b'^'),
            letter => !is_behind && !is_exponent && axis_of(n, letter).is_some(),
        };
        if !may_follow {
            return false;
        }
        match byte {
            b'(' => open += 1,
            b')' => open -= 1,
            _ => {}
        }
        digits = if byte.is_ascii_digit() && !is_exponent { digits + 1 } else { 0 };
        before = byte;
    }
    open == 0 && !matches!(before, b'(' | b'+' | b'-' | b'*' | b'^')
}

/// The terms that a text means in dimension n, or the number of the refusal. A text may be read up
/// to where it is found to be beyond a limit; then only its language is looked at.
pub fn formula_by<P: Polynomial>(n: u64, text: &[u8]) -> FormulaAnswer {
    if !(2..=4).contains(&n) {
        return FormulaAnswer::refused(3);
    }
    let n = n as usize;
    let mut reader = Reader { n, rest: text, open: 0 };
    match reader.sum::<P>() {
        Err(BEYOND) if !is_formula(n, text) => FormulaAnswer::refused(OUTSIDE),
        Err(refusal) => FormulaAnswer::refused(refusal),
        Ok(_) if !reader.rest.is_empty() => FormulaAnswer::refused(OUTSIDE),
        Ok(sum) => match FormulaAnswer::of(sum.terms()) {
            FormulaAnswer { count: 0, .. } => FormulaAnswer::refused(BEYOND),
            answer => answer,
        },
    }
}

/// Terms in a row, which rise, with no coefficient 0.
#[derive(Clone)]
struct Terms(Vec<(Exponents, i64)>);

/// None if the degree is too high.
fn product((e, c): &(Exponents, i64), (f, d): &(Exponents, i64)) -> Option<(Exponents, i64)> {
    let exponents = [e[0] + f[0], e[1] + f[1], e[2] + f[2], e[3] + f[3]];
    (exponents.iter().sum::<u8>() <= LARGEST_DEGREE).then_some((exponents, c * d))
}

impl Polynomial for Terms {
    fn number(value: i64) -> Terms {
        Terms(if value == 0 { Vec::new() } else { vec![([0; 4], value)] })
    }

    fn letter(axis: usize) -> Terms {
        let mut exponents = [0; 4];
        exponents[axis] = 1;
        Terms(vec![(exponents, 1)])
    }

    fn negate(&mut self) {
        self.0.iter_mut().for_each(|(_, coefficient)| *coefficient = -*coefficient);
    }

    fn add(&mut self, times: i64, other: &Terms) -> Option<()> {
        for &(exponents, coefficient) in &other.0 {
            match self.0.binary_search_by(|(own, _)| own.cmp(&exponents)) {
                Err(at) => self.0.insert(at, (exponents, times * coefficient)),
                Ok(at) => match within(self.0[at].1 + times * coefficient)? {
                    0 => drop(self.0.remove(at)),
                    sum => self.0[at].1 = sum,
                },
            }
        }
        Some(())
    }

    /// The highest terms of two polynomials never cancel in their product, so a degree that is too
    /// high is seen in the terms.
    fn times(mut self, other: &Terms) -> Option<Terms> {
        if let [one] = other.0[..] {
            // By one term, the terms stay in order and none becomes 0.
            for own in &mut self.0 {
                *own = product(own, &one)?;
                within(own.1)?;
            }
            return Some(self);
        }
        let mut all = Vec::with_capacity(self.0.len() * other.0.len());
        for own in &self.0 {
            for more in &other.0 {
                all.push(product(own, more)?);
            }
        }
        all.sort_unstable_by_key(|&(exponents, _)| exponents);
        all.dedup_by(|later, earlier| {
            let is_like = later.0 == earlier.0;
            if is_like {
                earlier.1 += later.1;
            }
            is_like
        });
        all.retain(|&(_, coefficient)| coefficient != 0);
        all.iter().all(|&(_, coefficient)| within(coefficient).is_some()).then_some(Terms(all))
    }

    fn terms(&self) -> impl Iterator<Item = (Exponents, i64)> {
        self.0.iter().copied()
    }
}

/// Reads a formula, with the terms in a row.
pub fn formula(n: u64, text: &[u8]) -> FormulaAnswer {
    formula_by::<Terms>(n, text)
}
