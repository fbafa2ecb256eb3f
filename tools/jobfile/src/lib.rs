//! Readable text to the bytes of a job.
//!
//! ```text
//! # the unit circle, doubled (a line may end in a comment)
//! dimension 2
//! box -1 1 -1 1
//! polynomial
//! -1 0 0
//! 2 0 2
//! 2 2 0
//! start 0 0 masks 1 side 0
//! ```
//!
//! `dimension` is 2, 3 or 4. `box` gives the low and high end of each axis; `polynomial` is
//! followed by a line for each term, the coefficient and an exponent for each axis, in any order:
//! terms are sorted and like terms gathered. `start` gives the lowest vertex, the masks and the
//! side. A line `bias 3` makes values from -3 to 3 count as 0; the bias is 0 to 255, and 0 without
//! such a line. Only `polynomial` may come again. Numbers must fit their fields; whether the job
//! opens is for the product to say.

#[derive(Default)]
struct Text {
    dimension: Option<usize>,
    bias: Option<u8>,
    ends: Option<Vec<i64>>,
    polynomials: Vec<Vec<(Vec<u8>, i64)>>,
    start: Option<Vec<u8>>,
}

fn number(word: &str, low: i64, high: i64) -> Result<i64, String> {
    let x: i64 = word.parse().map_err(|_| format!("'{word}' is no whole number"))?;
    if x < low || x > high {
        return Err(format!("{x} does not fit its field, {low} to {high}"));
    }
    Ok(x)
}

fn numbers(words: &[&str], low: i64, high: i64) -> Result<Vec<i64>, String> {
    words.iter().map(|word| number(word, low, high)).collect()
}

/// The one number that follows a word.
fn following(words: &[&str], low: i64, high: i64) -> Result<i64, String> {
    match words {
        [_, word] => number(word, low, high),
        _ => Err(format!("'{}' is followed by one number", words[0])),
    }
}

/// Fills a field that a text gives once: of two lines none is passed over in silence.
fn fill<T>(field: &mut Option<T>, name: &str, content: T) -> Result<(), String> {
    match field.replace(content) {
        None => Ok(()),
        Some(_) => Err(format!("'{name}' is given twice")),
    }
}

fn signed_16(word: &[&str]) -> Result<Vec<i64>, String> {
    numbers(word, -32_768, 32_767)
}

impl Text {
    fn n(&self) -> Result<usize, String> {
        self.dimension.ok_or_else(|| "'dimension' comes first".to_string())
    }

    fn line(&mut self, words: &[&str]) -> Result<(), String> {
        let name = words[0];
        match name {
            "dimension" => fill(&mut self.dimension, name, following(words, 2, 4)? as usize),
            "bias" => fill(&mut self.bias, name, following(words, 0, 255)? as u8),
            "box" => {
                let ends = signed_16(&words[1..])?;
                if ends.len() != 2 * self.n()? {
                    return Err("a box has a low and a high end for each axis".to_string());
                }
                fill(&mut self.ends, name, ends)
            }
            "polynomial" => {
                self.n()?;
                self.polynomials.push(Vec::new());
                Ok(())
            }
            "start" => {
                let place = self.place(&words[1..])?;
                fill(&mut self.start, name, place)
            }
            _ => self.term(words),
        }
    }

    fn place(&self, words: &[&str]) -> Result<Vec<u8>, String> {
        let n = self.n()?;
        let form = "a start reads: start COORDINATES masks MASKS side SIDE";
        if words.len() != 2 * n + 2
            || !["mask", "masks"].contains(&words[n])
            || words[2 * n] != "side"
        {
            return Err(form.to_string());
        }
        let mut bytes = Vec::new();
        for x in signed_16(&words[..n])? {
            bytes.extend_from_slice(&(x as i16).to_le_bytes());
        }
        for mask in numbers(&words[n + 1..2 * n], 0, 255)? {
            bytes.push(mask as u8);
        }
        bytes.push(number(words[2 * n + 1], 0, 255)? as u8);
        Ok(bytes)
    }

    fn term(&mut self, words: &[&str]) -> Result<(), String> {
        let n = self.n()?;
        let terms = self.polynomials.last_mut().ok_or("a term stands under 'polynomial'")?;
        if words.len() != n + 1 {
            return Err("a term has a coefficient and an exponent for each axis".to_string());
        }
        let coefficient = number(words[0], i32::MIN as i64, i32::MAX as i64)?;
        let exponents: Vec<u8> =
            numbers(&words[1..], 0, 255)?.into_iter().map(|e| e as u8).collect();
        match terms.iter_mut().find(|(e, _)| *e == exponents) {
            Some((_, sum)) => *sum += coefficient,
            None => terms.push((exponents, coefficient)),
        }
        Ok(())
    }

    fn bytes(mut self) -> Result<Vec<u8>, String> {
        let n = self.n()?;
        if self.polynomials.len() != n - 1 {
            return Err(format!("dimension {n} has {} polynomials", n - 1));
        }
        let mut bodies = vec![Vec::new()];
        for end in self.ends.ok_or("a box is missing")? {
            bodies[0].extend_from_slice(&(end as i16).to_le_bytes());
        }
        for terms in &mut self.polynomials {
            terms.sort();
            terms.retain(|(_, coefficient)| *coefficient != 0);
            let mut body = Vec::new();
            for (exponents, coefficient) in terms {
                let sum =
                    i32::try_from(*coefficient).map_err(|_| "a sum of like terms is too large")?;
                body.extend_from_slice(&sum.to_le_bytes());
                exponents.resize(4, 0);
                body.extend_from_slice(exponents);
            }
            bodies.push(body);
        }
        bodies.push(self.start.ok_or("a start is missing")?);
        let mut job = vec![1, n as u8, n as u8 + 1, self.bias.unwrap_or(0)];
        let mut offset = 4 + 4 * bodies.len();
        for body in &bodies {
            for field in [offset, body.len()] {
                let field = u16::try_from(field).map_err(|_| "the job is too long")?;
                job.extend_from_slice(&field.to_le_bytes());
            }
            offset += body.len();
        }
        job.extend(bodies.concat());
        Ok(job)
    }
}

/// The bytes of the job that the text describes, or what is wrong and in which line.
pub fn job(text: &str) -> Result<Vec<u8>, String> {
    let mut parts = Text::default();
    for (k, line) in text.lines().enumerate() {
        let words: Vec<&str> = line.split('#').next().unwrap_or("").split_whitespace().collect();
        if !words.is_empty() {
            parts.line(&words).map_err(|message| format!("line {}: {message}", k + 1))?;
        }
    }
    parts.bytes()
}
