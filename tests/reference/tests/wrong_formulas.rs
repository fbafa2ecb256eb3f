//! Readers of formulas with one mistake each: the checks of request 2.1 must find every one. The
//! reader here is put together otherwise than the reference's: four readers call each other, and each
//! hands on a list of operations, which are done with sorted lists of terms.

use std::panic::{catch_unwind, AssertUnwindSafe};

use reference::formula::{TermList, LONGEST};
use reference::formula_checks as checks;
use reference::grid::Vertex;
use reference::ground::Ground;
use reference::limits::MOST;
use reference::named;
use reference::operations::{Move, Step, Verdict};
use reference::order::CutOrder;
use reference::product::{Product, Reference};
use reference::seams::Ending;
use reference::tally::Named;
use reference::writing::Loose;

named! {
    /// What a reader does wrong.
    Mistake {
        /// Nothing.
        Nothing: 1,
        /// The low 8 bits of n are looked at.
        NIn8Bits: 1,
        /// The low 32 bits of n are looked at.
        NIn32Bits: 1,
        /// 5 is a dimension, as 4 is.
        FiveTaken: 1,
        /// 14 comes before 3, with all letters.
        LanguageBeforeDimension: 1,
        /// A plus may stand in front of a sum.
        PlusInFront: 1,
        /// A minus may stand in front of each power.
        MinusBeforeFactors: 1,
        /// Several minus signs may stand in front of a sum.
        MinusTwice: 1,
        /// A minus may stand in front of the whole text only.
        MinusAtTheFrontOnly: 1,
        /// The empty text is 0.
        EmptyTaken: 1,
        /// Empty parentheses are 0.
        EmptyParentheses: 1,
        /// A number may be followed by a letter or by parentheses.
        NumberWithoutStar: 1,
        /// So may a letter and parentheses.
        ProductWithoutStar: 1,
        /// Blanks are left out.
        BlanksSkipped: 1,
        /// A blank or the end of a line may stand at the end.
        BlankAtTheEnd: 1,
        /// Two stars are the sign of a power, too.
        TwoStars: 1,
        /// An exponent may be 5.
        PowerFive: 1,
        /// An exponent may be any digit.
        PowersToNine: 1,
        /// An exponent may be 3 at most.
        PowersToThree: 1,
        /// An exponent may have several digits.
        ExponentOfDigits: 1,
        /// An exponent may stand in parentheses.
        ExponentInParentheses: 1,
        /// A power may have another exponent.
        PowerOfPower: 1,
        /// A number may have no exponent.
        NoPowerOfNumbers: 1,
        /// A number may have 8 digits.
        EightDigits: 1,
        /// A number may have 6 digits at most.
        SixDigits: 1,
        /// A number may have any digits.
        AnyDigits: 1,
        /// No 0 may stand in front of a number.
        NoZerosInFront: 1,
        /// Parentheses that are open at the end are closed there.
        ClosedByTheEnd: 1,
        /// A closing parenthesis may stand at the end.
        ClosingAtTheEnd: 1,
        /// A plus may stand at the end.
        PlusAtTheEnd: 1,
        /// Capital letters are taken, too.
        Capitals: 1,
        /// All four letters are taken in each dimension.
        AllLetters: 1,
        /// w is taken in dimension 3.
        WInThree: 1,
        /// w is taken in no dimension.
        NoW: 1,
        /// w is axis 1 in dimension 4, and the others come behind it.
        WFirst: 1,
        /// The length of a text is cut to 16 bits.
        LengthIn16Bits: 1,
        /// The text ends at the first byte that is 0.
        ZeroByteEnds: 1,
        /// The highest bit of a byte is not looked at.
        HighestBitDropped: 1,
        /// Square brackets are parentheses, too.
        SquareBrackets: 1,
        /// Sums go from right to left.
        SumsFromTheRight: 1,
        /// The terms of a sum are added from the last on.
        AddedFromTheLast: 1,
        /// Products go from right to left.
        ProductsFromTheRight: 1,
        /// The optional minus takes the whole sum.
        MinusTakesSum: 1,
        /// The optional minus takes the first atom.
        MinusTakesAtom: 1,
        /// The optional minus is not seen.
        MinusDropped: 1,
        /// Sums come before products.
        SumsFirst: 1,
        /// Products come before powers.
        ProductsBeforePowers: 1,
        /// Limits are tested of the result alone.
        LimitsAtTheEnd: 1,
        /// No limit is tested of a number.
        NumbersNotTested: 1,
        /// No limit is tested of a power on the way.
        PowersNotTested: 1,
        /// No limit is tested of a product.
        ProductsNotTested: 1,
        /// No limit is tested of a sum.
        SumsNotTested: 1,
        /// A power is made by squaring, and the last square is not needed.
        SquaredOnceMore: 1,
        /// A power is multiplied once more.
        OncePerExponentMore: 1,
        /// What has the exponent 0 is not tested.
        PowerZeroUntested: 1,
        /// What is multiplied by 0 is not tested.
        ZeroTimesUntested: 1,
        /// Power 0 of zero is 0.
        ZeroToZero: 1,
        /// Power 0 of zero is turned away.
        ZeroToZeroRefused: 1,
        /// Like terms are not gathered in sums.
        SumsNotGathered: 1,
        /// Like terms are not gathered in products.
        ProductsNotGathered: 1,
        /// A term that has become 0 is kept.
        ZeroKept: 1,
        /// An inner zero is turned away.
        InnerZeroRefused: 1,
        /// A result of zero is answered, with no term.
        ZeroAnswered: 1,
        /// A result of zero gets 14.
        ZeroIsOutside: 1,
        /// A coefficient of 1,048,576 in size is turned away.
        LargestRefused: 1,
        /// A coefficient of 1,048,577 in size is taken.
        OneMoreTaken: 1,
        /// A coefficient of -1,048,577 is taken.
        OneLessTaken: 1,
        /// Coefficients below 0 are not tested.
        NegativeNotTested: 1,
        /// Coefficients of the first term alone are tested.
        FirstTermTested: 1,
        /// Degree 5 is taken.
        DegreeFive: 1,
        /// Degree 4 is turned away.
        DegreeThree: 1,
        /// Each exponent is tested, and not their sum.
        DegreeOfEachAxis: 1,
        /// The degree of a sum is that of its parts, though terms may have gone.
        DegreeNotLess: 1,
        /// The degree of a product is the sum of two, though one of them may be zero.
        DegreeOfZero: 1,
        /// Each product of two terms is tested while they are gathered.
        PartsTested: 1,
        /// Coefficients have 32 bits.
        In32Bits: 1,
        /// 15 parentheses at most inside each other.
        Depth15: 1,
        /// 17 parentheses at most inside each other.
        Depth17: 1,
        /// All parentheses are counted.
        DepthCountsAll: 1,
        /// Only parentheses that are opened one right behind the other are counted.
        DepthOfRuns: 1,
        /// The depth is counted in 8 bits.
        DepthIn8Bits: 1,
        /// The depth is not tested.
        DepthNotTested: 1,
        /// Parentheses that are too deep get 14.
        DepthIsOutside: 1,
        /// Parentheses that are too deep get 15 where they are opened.
        DepthBeforeLanguage: 1,
        /// A number that is too large gets 15 where it is read.
        NumberBeforeLanguage: 1,
        /// Terms fall.
        Falling: 1,
        /// The last axis weighs most.
        LastAxisFirst: 1,
        /// Terms rise by their degree first.
        ByDegree: 1,
        /// The high byte of a coefficient comes first.
        HighByteFirst: 1,
        /// The exponents come before the coefficient.
        ExponentsFirst: 1,
        /// Coefficients have lost their sign.
        SizesOnly: 1,
        /// The count is that of the bytes.
        CountOfBytes: 1,
        /// Only 35 terms are answered.
        ThirtyFiveTerms: 1,
        /// The byte behind the last term is not 0.
        ByteBehind: 1,
        /// The last byte is not 0.
        LastByte: 1,
        /// The count beside a refusal is not 0.
        CountBesideRefusal: 1,
        /// A byte beside a refusal is not 0.
        ByteBesideRefusal: 1,
    }
}

use Mistake::*;

#[derive(Clone, Copy, PartialEq)]
enum Operation {
    Number(i128),
    Letter(usize),
    Power(u8),
    Times,
    Plus,
    Minus,
    Negate,
}

/// A list of operations, or the refusal.
type Read = Result<Vec<Operation>, u64>;

/// Deeper parentheses are left to the reference: four readers that call each other take much room.
const DEEPEST_READ: usize = 600;

struct Reader<'a> {
    mistake: Mistake,
    n: usize,
    text: &'a [u8],
    at: usize,
    open: usize,
    depth: usize,
    opened: usize,
}

impl Reader<'_> {
    fn is(&self, mistake: Mistake) -> bool {
        self.mistake == mistake
    }

    fn next(&self) -> Option<u8> {
        self.text.get(self.at).copied()
    }

    fn takes(&mut self, bytes: &[u8]) -> bool {
        let is_next = self.text[self.at..].starts_with(bytes);
        self.at += if is_next { bytes.len() } else { 0 };
        is_next
    }

    fn sum(&mut self) -> Read {
        let mut negative = false;
        if !self.is(MinusAtTheFrontOnly) || self.at == 0 {
            negative = self.takes(b"-");
        }
        while self.is(MinusTwice) && self.takes(b"-") {
            negative = !negative;
        }
        if self.is(PlusInFront) && !negative {
            self.takes(b"+");
        }
        negative &= !self.is(MinusDropped);
        let mut first = if self.is(SumsFirst) { self.power()? } else { self.product()? };
        if negative && self.is(MinusTakesAtom) {
            let atom = first.iter().position(|op| matches!(op, Operation::Power(_)));
            first.insert(atom.unwrap_or(first.len()), Operation::Negate);
        } else if negative && !self.is(MinusTakesSum) {
            first.push(Operation::Negate);
        }
        let mut all = vec![(Operation::Plus, first)];
        loop {
            let joint = match self.next() {
                Some(b'+') => Operation::Plus,
                Some(b'-') => Operation::Minus,
                _ => break,
            };
            self.at += 1;
            if self.is(PlusAtTheEnd) && joint == Operation::Plus && self.next().is_none() {
                break;
            }
            let part = if self.is(SumsFirst) { self.power()? } else { self.product()? };
            all.push((joint, part));
        }
        let mut joined = joined(self.is(SumsFromTheRight), self.is(AddedFromTheLast), all);
        if negative && self.is(MinusTakesSum) {
            joined.push(Operation::Negate);
        }
        if self.is(SumsFirst) && self.takes(b"*") {
            joined.extend(self.sum()?);
            joined.push(Operation::Times);
        }
        Ok(joined)
    }

    fn product(&mut self) -> Read {
        let mut all = vec![(Operation::Times, self.power()?)];
        let without_star = |reader: &Reader, before: u8| match reader.next() {
            Some(b'x' | b'y' | b'z' | b'w' | b'(') => {
                let of_number = reader.is(NumberWithoutStar) && before.is_ascii_digit();
                of_number || reader.is(ProductWithoutStar)
            }
            _ => false,
        };
        while self.takes(b"*") || without_star(self, self.text[self.at - 1]) {
            all.push((Operation::Times, self.power()?));
        }
        if self.is(ProductsBeforePowers) && self.next() == Some(b'^') {
            let mut joined = joined(false, false, all);
            joined.push(self.exponent()?);
            return Ok(joined);
        }
        Ok(joined(self.is(ProductsFromTheRight), false, all))
    }

    fn exponent(&mut self) -> Result<Operation, u64> {
        let most = match self.mistake {
            PowerFive => b'5',
            PowersToNine => b'9',
            PowersToThree => b'3',
            _ => b'4',
        };
        self.at += 1;
        let in_parentheses = self.is(ExponentInParentheses) && self.takes(b"(");
        let digit = self.next().filter(|digit| (b'0'..=most).contains(digit)).ok_or(14u64)?;
        self.at += 1;
        let mut power = digit - b'0';
        while self.is(ExponentOfDigits) && self.next().is_some_and(|byte| byte.is_ascii_digit()) {
            power = (10 * power + self.text[self.at] - b'0').min(20);
            self.at += 1;
        }
        if in_parentheses && !self.takes(b")") {
            return Err(14);
        }
        Ok(Operation::Power(power))
    }

    fn power(&mut self) -> Read {
        let negative = self.is(MinusBeforeFactors) && self.takes(b"-");
        let from = self.at;
        let mut all = self.atom()?;
        let is_number = self.text.get(from).is_some_and(|byte| byte.is_ascii_digit());
        while !self.is(ProductsBeforePowers) {
            if self.is(TwoStars) && self.takes(b"**") {
                self.at -= 1;
            } else if self.next() != Some(b'^') || is_number && self.is(NoPowerOfNumbers) {
                break;
            }
            all.push(self.exponent()?);
            if !self.is(PowerOfPower) {
                break;
            }
        }
        if negative {
            all.push(Operation::Negate);
        }
        Ok(all)
    }

    fn letter(&self, byte: u8) -> Option<usize> {
        let byte = if self.is(Capitals) { byte.to_ascii_lowercase() } else { byte };
        let order = if self.is(WFirst) && self.n == 4 { b"wxyz" } else { b"xyzw" };
        let axis = 1 + order.iter().position(|&letter| letter == byte)?;
        let taken = match self.mistake {
            AllLetters => true,
            WInThree if self.n == 3 => true,
            NoW => axis <= self.n && byte != b'w',
            _ => axis <= self.n,
        };
        taken.then_some(axis)
    }

    fn atom(&mut self) -> Read {
        let byte = self.next().ok_or(14u64)?;
        if let Some(axis) = self.letter(byte) {
            self.at += 1;
            return Ok(vec![Operation::Letter(axis)]);
        }
        if byte == b'(' {
            return self.parentheses();
        }
        let rest = &self.text[self.at..];
        let digits = rest.iter().take_while(|byte| byte.is_ascii_digit()).count();
        let most = match self.mistake {
            EightDigits => 8,
            SixDigits => 6,
            AnyDigits => usize::MAX,
            _ => 7,
        };
        let zeros = self.is(NoZerosInFront) && digits > 1 && byte == b'0';
        if digits == 0 || digits > most || zeros {
            return Err(14);
        }
        let digit = |value: i128, byte: &u8| (10 * value + (byte - b'0') as i128).min(1 << 60);
        let value = rest[..digits].iter().fold(0, digit);
        if self.is(NumberBeforeLanguage) && value > 1_048_576 {
            return Err(15);
        }
        self.at += digits;
        Ok(vec![Operation::Number(value)])
    }

    fn parentheses(&mut self) -> Read {
        self.at += 1;
        (self.open, self.opened) = (self.open + 1, self.opened + 1);
        self.depth = self.depth.max(self.open);
        if self.is(DepthBeforeLanguage) && self.open > 16 {
            return Err(15);
        }
        if self.is(EmptyParentheses) && self.takes(b")") {
            self.open -= 1;
            return Ok(vec![Operation::Number(0)]);
        }
        let inside = self.sum()?;
        self.open -= 1;
        let closed = self.takes(b")") || self.is(ClosedByTheEnd) && self.next().is_none();
        if closed {
            Ok(inside)
        } else {
            Err(14)
        }
    }
}

/// The operations of parts that are joined from left to right, or otherwise.
fn joined(
    from_the_right: bool,
    from_the_last: bool,
    mut parts: Vec<(Operation, Vec<Operation>)>,
) -> Vec<Operation> {
    if from_the_last {
        // Each with its own sign, the last first.
        parts.reverse();
        let signed = |(joint, mut part): (Operation, Vec<Operation>)| {
            if joint == Operation::Minus {
                part.push(Operation::Negate);
            }
            part
        };
        let mut parts = parts.into_iter().map(signed);
        let first = parts.next().expect("a part");
        return parts.fold(first, |all, part| [all, part, vec![Operation::Plus]].concat());
    }
    if from_the_right {
        let mut joints: Vec<Operation> = parts.iter().skip(1).map(|(joint, _)| *joint).collect();
        joints.reverse();
        let all: Vec<Operation> = parts.into_iter().flat_map(|(_, part)| part).collect();
        return [all, joints].concat();
    }
    let mut parts = parts.into_iter();
    let mut all = parts.next().expect("a part").1;
    for (joint, part) in parts {
        all.extend(part);
        all.push(joint);
    }
    all
}

/// Sorted terms, and the degree as some mistakes have it.
#[derive(Clone)]
struct Sorted {
    terms: Vec<([u16; MOST], i128)>,
    degree: u32,
}

fn degree_of(exponents: &[u16; MOST]) -> u32 {
    exponents.iter().map(|&e| e as u32).sum()
}

struct Evaluation {
    mistake: Mistake,
}

impl Evaluation {
    fn is(&self, mistake: Mistake) -> bool {
        self.mistake == mistake
    }

    fn with(&self, terms: Vec<([u16; MOST], i128)>) -> Sorted {
        let degree = terms.iter().map(|(e, _)| degree_of(e)).max().unwrap_or(0);
        Sorted { terms, degree }
    }

    /// Sorted, like terms gathered and zeros left out.
    fn gathered(
        &self,
        keep: bool,
        mut terms: Vec<([u16; MOST], i128)>,
    ) -> Vec<([u16; MOST], i128)> {
        terms.sort_by_key(|(e, _)| *e);
        if keep {
            return terms;
        }
        let mut all: Vec<([u16; MOST], i128)> = Vec::new();
        for (e, c) in terms {
            match all.last_mut().filter(|(last, _)| *last == e) {
                Some((_, sum)) => *sum = sum.saturating_add(c),
                None => all.push((e, c)),
            }
        }
        if self.is(In32Bits) {
            all.iter_mut().for_each(|(_, c)| *c = *c as i32 as i128);
        }
        if !self.is(ZeroKept) {
            all.retain(|(_, c)| *c != 0);
        }
        all
    }

    fn plus(&self, one: Sorted, sign: i128, other: Sorted) -> Sorted {
        let signed = other.terms.into_iter().map(|(e, c)| (e, c.saturating_mul(sign)));
        let terms = one.terms.into_iter().chain(signed).collect();
        let sum = self.with(self.gathered(self.is(SumsNotGathered), terms));
        let degree = if self.is(DegreeNotLess) { one.degree.max(other.degree) } else { sum.degree };
        Sorted { degree, ..sum }
    }

    fn times(&self, one: &Sorted, other: &Sorted) -> Result<Sorted, u64> {
        let mut terms: Vec<([u16; MOST], i128)> = Vec::new();
        for (e, c) in &one.terms {
            for (f, d) in &other.terms {
                let mut exponents = *e;
                exponents
                    .iter_mut()
                    .zip(f)
                    .for_each(|(sum, more)| *sum = sum.saturating_add(*more));
                terms.push((exponents, c.saturating_mul(*d)));
                if self.is(PartsTested) {
                    let like = terms.iter().filter(|(e, _)| *e == exponents);
                    let sum: i128 = like.map(|(_, c)| c).sum();
                    if sum.abs() > 1_048_576 {
                        return Err(15);
                    }
                }
            }
        }
        let keep = self.is(ProductsNotGathered);
        let product = self.with(self.gathered(keep, terms));
        // Without a limit there is no end.
        if product.terms.len() > 300 {
            return Err(15);
        }
        let adds = self.is(DegreeNotLess) || self.is(DegreeOfZero);
        let degree = if adds { one.degree + other.degree } else { product.degree };
        Ok(Sorted { degree, ..product })
    }

    fn tested(&self, result: Sorted) -> Result<Sorted, u64> {
        let (least, most) = match self.mistake {
            LargestRefused => (-1_048_575, 1_048_575),
            OneMoreTaken => (-1_048_577, 1_048_577),
            OneLessTaken => (-1_048_577, 1_048_576),
            NegativeNotTested => (i32::MIN as i128, 1_048_576),
            _ => (-1_048_576, 1_048_576),
        };
        let degree = match self.mistake {
            DegreeFive => 5,
            DegreeThree => 3,
            _ => 4,
        };
        let looked_at = if self.is(FirstTermTested) { 1 } else { result.terms.len() };
        let fits = |(e, c): &([u16; MOST], i128)| {
            let of_degree = match self.mistake {
                DegreeOfEachAxis => e.iter().all(|&e| e <= 4),
                _ => degree_of(e) <= degree,
            };
            of_degree && (least..=most).contains(c)
        };
        let by_degree = self.is(DegreeNotLess) || self.is(DegreeOfZero);
        let zero = self.is(InnerZeroRefused) && result.terms.is_empty();
        if result.terms.iter().take(looked_at).all(fits)
            && (!by_degree || result.degree <= 4)
            && !zero
        {
            return Ok(result);
        }
        Err(15)
    }

    fn constant(&self, value: i128) -> Sorted {
        self.with(self.gathered(false, vec![([0; MOST], value)]))
    }

    fn power(&self, atom: Sorted, power: u8) -> Result<Sorted, u64> {
        let is_zero = atom.terms.iter().all(|(_, c)| *c == 0);
        if power == 0 && is_zero && self.is(ZeroToZero) {
            return Ok(atom);
        }
        if power == 0 && is_zero && self.is(ZeroToZeroRefused) {
            return Err(15);
        }
        let mut result = self.constant(1);
        if self.is(SquaredOnceMore) {
            let (mut square, mut left) = (atom, power);
            while left > 0 {
                if left % 2 == 1 {
                    result = self.tested(self.times(&result, &square)?)?;
                }
                square = self.tested(self.times(&square, &square)?)?;
                left /= 2;
            }
            return Ok(result);
        }
        let more = (self.is(OncePerExponentMore) && power > 0) as u8;
        for _ in 0..power + more {
            result = self.times(&result, &atom)?;
            if !self.is(PowersNotTested) && !self.is(LimitsAtTheEnd) {
                result = self.tested(result)?;
            }
        }
        Ok(result)
    }

    /// The result, which is zero if there are no terms.
    fn run(&self, operations: &[Operation]) -> Result<Sorted, u64> {
        // A result, or a refusal that is not yet looked at.
        let mut list: Vec<Result<Sorted, u64>> = Vec::new();
        for operation in operations {
            let mut take = || list.pop().expect("what is operated on");
            let untested = match operation {
                Operation::Number(_) => NumbersNotTested,
                Operation::Times => ProductsNotTested,
                Operation::Plus | Operation::Minus => SumsNotTested,
                Operation::Power(_) => PowersNotTested,
                _ => Nothing,
            };
            let result = match *operation {
                Operation::Number(value) => Ok(self.constant(value)),
                Operation::Letter(axis) => {
                    let mut exponents = [0; MOST];
                    exponents[axis - 1] = 1;
                    Ok(self.with(vec![(exponents, 1)]))
                }
                Operation::Power(0) if self.is(PowerZeroUntested) => {
                    take().ok();
                    Ok(self.constant(1))
                }
                Operation::Power(power) => take().and_then(|atom| self.power(atom, power)),
                Operation::Times => {
                    let (other, one) = (take(), take());
                    match (one, other) {
                        (Ok(one), Err(_)) if self.is(ZeroTimesUntested) && one.terms.is_empty() => {
                            Ok(one)
                        }
                        (one, other) => one.and_then(|one| self.times(&one, &other?)),
                    }
                }
                Operation::Plus | Operation::Minus => {
                    let sign = if *operation == Operation::Plus { 1 } else { -1 };
                    let (other, one) = (take(), take());
                    one.and_then(|one| Ok(self.plus(one, sign, other?)))
                }
                Operation::Negate => take().map(|one| self.plus(self.with(vec![]), -1, one)),
            };
            list.push(match result {
                Ok(result) if !self.is(LimitsAtTheEnd) && !self.is(untested) => self.tested(result),
                Ok(result) if self.is(NegativeNotTested) => self.tested(result),
                other => other,
            });
        }
        let result = list.pop().expect("a result")?;
        // What no answer has room for.
        let result = Evaluation { mistake: self.mistake }.tested_at_the_end(result)?;
        Ok(result)
    }

    fn tested_at_the_end(&self, result: Sorted) -> Result<Sorted, u64> {
        let untested = [NumbersNotTested, PowersNotTested, ProductsNotTested, SumsNotTested];
        match self.mistake {
            LimitsAtTheEnd => self.tested(result),
            _ if untested.contains(&self.mistake) => self.tested(result),
            _ => Ok(result),
        }
    }
}

/// What the reader takes for the text that it is handed.
fn taken(mistake: Mistake, text: &[u8]) -> Vec<u8> {
    let mut text = text.to_vec();
    match mistake {
        BlanksSkipped => text.retain(|byte| *byte != b' '),
        BlankAtTheEnd if matches!(text.last(), Some(b' ' | b'\n')) => drop(text.pop()),
        ZeroByteEnds => text.truncate(text.iter().position(|&b| b == 0).unwrap_or(text.len())),
        LengthIn16Bits => text.truncate(text.len() % 65_536),
        HighestBitDropped => text.iter_mut().for_each(|byte| *byte &= 127),
        SquareBrackets => text.iter_mut().for_each(|byte| match byte {
            b'[' => *byte = b'(',
            b']' => *byte = b')',
            _ => {}
        }),
        ClosingAtTheEnd if text.len() > 1 && text.ends_with(b")") => {
            let count = |wanted: u8| text.iter().filter(|&&byte| byte == wanted).count();
            if count(b')') == count(b'(') + 1 {
                text.pop();
            }
        }
        _ => {}
    }
    text
}

/// How deep parentheses nest at most, whatever else the text has.
fn deepest(text: &[u8]) -> usize {
    let (mut open, mut deepest) = (0usize, 0);
    for byte in text {
        match byte {
            b'(' => open += 1,
            b')' => open = open.saturating_sub(1),
            _ => {}
        }
        deepest = deepest.max(open);
    }
    deepest
}

/// The terms, or the refusal.
fn terms_of(mistake: Mistake, n: u64, text: &[u8]) -> Result<Vec<([u16; MOST], i128)>, u64> {
    let n = match mistake {
        NIn8Bits => n % (1 << 8),
        NIn32Bits => n % (1 << 32),
        FiveTaken if n == 5 => 4,
        _ => n,
    };
    if !(2..=4).contains(&n) {
        let outside =
            mistake == LanguageBeforeDimension && Reference.formula(4, text).refusal == 14;
        return Err(if outside { 14 } else { 3 });
    }
    let text = &taken(mistake, text)[..];
    if deepest(text) > DEEPEST_READ {
        return Err(Reference.formula(n, text).refusal);
    }
    let n = n as usize;
    let mut reader = Reader { mistake, n, text, at: 0, open: 0, depth: 0, opened: 0 };
    if mistake == EmptyTaken && text.is_empty() {
        return Err(15);
    }
    let operations = reader.sum()?;
    if reader.at < text.len() {
        return Err(14);
    }
    let depth = match mistake {
        DepthCountsAll => reader.opened,
        DepthOfRuns => {
            let runs = text.split(|&byte| byte != b'(').map(|run| run.len());
            runs.max().unwrap_or(0)
        }
        DepthIn8Bits => reader.depth % 256,
        DepthNotTested => 0,
        _ => reader.depth,
    };
    let most = match mistake {
        Depth15 => 15,
        Depth17 => 17,
        _ => 16,
    };
    if depth > most {
        return Err(if mistake == DepthIsOutside { 14 } else { 15 });
    }
    let result = Evaluation { mistake }.run(&operations)?;
    if result.terms.iter().all(|(_, c)| *c == 0) && mistake != ZeroAnswered {
        return Err(if mistake == ZeroIsOutside { 14 } else { 15 });
    }
    Ok(result.terms)
}

/// The reader with a mistake.
fn formula(mistake: Mistake, n: u64, text: &[u8]) -> TermList {
    let mut terms = match terms_of(mistake, n, text) {
        Ok(terms) => terms,
        Err(refusal) => {
            let mut list = TermList::refused(refusal);
            match mistake {
                CountBesideRefusal => list.count = (refusal == 15) as u64,
                ByteBesideRefusal => list.bytes[0] = (refusal == 15) as u8,
                _ => {}
            }
            return list;
        }
    };
    match mistake {
        Falling => terms.reverse(),
        LastAxisFirst => terms.sort_by_key(|(e, _)| [e[3], e[2], e[1], e[0]]),
        ByDegree => terms.sort_by_key(|(e, _)| (degree_of(e), *e)),
        _ => {}
    }
    terms.truncate(if mistake == ThirtyFiveTerms { 35 } else { LONGEST / 8 });
    let mut list = TermList::refused(0);
    list.count = terms.len() as u64;
    for (place, (exponents, coefficient)) in list.bytes.chunks_exact_mut(8).zip(&terms) {
        let mut coefficient = *coefficient as i32;
        if mistake == SizesOnly {
            coefficient = coefficient.abs();
        }
        let bytes = match mistake {
            HighByteFirst => coefficient.to_be_bytes(),
            _ => coefficient.to_le_bytes(),
        };
        let exponents = exponents.map(|e| e as u8);
        let both = if mistake == ExponentsFirst { [exponents, bytes] } else { [bytes, exponents] };
        place.copy_from_slice(&both.concat());
    }
    match mistake {
        CountOfBytes => list.count *= 8,
        ByteBehind if terms.len() < LONGEST / 8 => list.bytes[8 * terms.len()] = 1,
        LastByte if terms.len() < LONGEST / 8 => list.bytes[LONGEST - 1] = 1,
        _ => {}
    }
    list
}

/// The reference, but for the formulas.
struct Wrong(Mistake);

impl Product for Wrong {
    fn open(&self, job: &[u8]) -> Result<(usize, Vec<usize>), u8> {
        Reference.open(job)
    }
    fn body(&self, job: &[u8], index: u64) -> Result<(usize, usize), u8> {
        Reference.body(job, index)
    }
    fn judge(&self, job: &[u8], place: &[u8]) -> Result<bool, u8> {
        Reference.judge(job, place)
    }
    fn judge_ground(&self, job: &[u8], place: &[u8]) -> Result<Ground, u8> {
        Reference.judge_ground(job, place)
    }
    fn point(&self, job: &[u8], place: &[u8]) -> Result<Vertex, u8> {
        Reference.point(job, place)
    }
    fn step(&self, job: &[u8], place: &[u8]) -> Result<Step, u8> {
        Reference.step(job, place)
    }
    fn trace(&self, job: &[u8], buffer: &mut [u8]) -> Result<(Verdict, usize), u8> {
        Reference.trace(job, buffer)
    }
    fn pen(&self, job: &[u8], places: &[u8], closed: bool, k: u64) -> Result<Move, u8> {
        Reference.pen(job, places, closed, k)
    }
    fn running_sum(
        &self,
        job: &[u8],
        polynomial: u64,
        coordinates: &[i64; MOST],
        terms: u64,
    ) -> Result<i128, u8> {
        Reference.running_sum(job, polynomial, coordinates, terms)
    }
    fn small_open(&self, job: &[u8]) -> Result<(usize, Vec<usize>), u8> {
        Reference.small_open(job)
    }
    fn small_trace(&self, job: &[u8], buffer: &mut [u8]) -> Result<(Verdict, usize), u8> {
        Reference.small_trace(job, buffer)
    }
    fn seams(&self, job: &[u8], buffer: &mut [u8]) -> Result<(Ending, usize), u8> {
        Reference.seams(job, buffer)
    }
    fn cut_order(&self, job: &[u8], list: &[u8]) -> Result<CutOrder, u8> {
        Reference.cut_order(job, list)
    }
    fn write_job(&self, loose: &Loose, buffer: &mut [u8]) -> Result<usize, u8> {
        Reference.write_job(loose, buffer)
    }
    fn formula(&self, n: u64, text: &[u8]) -> TermList {
        formula(self.0, n, text)
    }
}

/// The check of this name, with as many inputs as the counts that it asserts need.
fn run(name: &str, p: &Wrong) {
    match name {
        "facts" => checks::facts(p),
        "all_short_texts" => checks::all_short_texts(p),
        "every_byte" => checks::every_byte(p),
        "every_way_out" => checks::every_way_out(p),
        "every_depth" => checks::every_depth(p),
        "every_coefficient" => checks::every_coefficient(p),
        "every_degree" => checks::every_degree(p),
        "typed_lists" => checks::typed_lists(p, 240, 4),
        "examples" => checks::examples(p),
        "every_number" => checks::every_number(p),
        "any_formulas" => checks::any_formulas(p, 242, 60_000, 4),
        "more_parentheses" => checks::more_parentheses(p, 244, 4_000, 40),
        "long_texts" => checks::long_texts(p),
        "into_a_job" => checks::into_a_job(p, 246, 500),
        _ => panic!("no check {name}"),
    }
}

const CHECKS: [&str; 14] = [
    "facts",
    "all_short_texts",
    "every_byte",
    "every_way_out",
    "every_depth",
    "every_coefficient",
    "every_degree",
    "typed_lists",
    "examples",
    "every_number",
    "any_formulas",
    "more_parentheses",
    "long_texts",
    "into_a_job",
];

/// Whether a check fails by what the reader answered, which it then says, and not by a count or by a
/// slip of the wrong reader itself.
fn finds(name: &str, mistake: Mistake) -> bool {
    match catch_unwind(AssertUnwindSafe(|| run(name, &Wrong(mistake)))) {
        Ok(()) => false,
        Err(why) => {
            let said = why.downcast_ref::<String>().expect("what it says");
            assert!(said.contains(" and the text "), "{name} of {mistake:?}: {said}");
            true
        }
    }
}

/// Checks that must find the mistake, besides that of any formulas.
fn finders(mistake: Mistake) -> &'static [&'static str] {
    match mistake {
        Nothing => panic!("there is nothing to find"),
        NIn8Bits | NIn32Bits | FiveTaken | LanguageBeforeDimension => &["every_number"],
        LengthIn16Bits => &["long_texts", "every_depth"],
        EmptyTaken | WInThree => &["facts", "every_number"],
        MinusTwice | NumberWithoutStar | ProductWithoutStar | TwoStars | ExponentOfDigits
        | PowerOfPower => &["all_short_texts", "every_way_out"],
        ExponentInParentheses => &["facts", "all_short_texts"],
        PlusInFront | MinusBeforeFactors | EmptyParentheses | PowerFive | PowersToNine
        | ClosedByTheEnd | ClosingAtTheEnd | PlusAtTheEnd => &["all_short_texts", "every_depth"],
        BlanksSkipped | BlankAtTheEnd | EightDigits | AnyDigits => {
            &["every_way_out", "every_depth"]
        }
        Capitals | ZeroByteEnds | SquareBrackets => &["facts", "every_byte"],
        HighestBitDropped => &["every_byte"],
        AllLetters => &["every_way_out", "every_number"],
        SixDigits | NoZerosInFront | PowersToThree | MinusAtTheFrontOnly | NoW => {
            &["every_byte", "typed_lists"]
        }
        NoPowerOfNumbers => &["every_coefficient", "examples"],
        WFirst => &["every_degree", "examples"],
        SumsFromTheRight | MinusTakesSum | MinusTakesAtom | MinusDropped => {
            &["all_short_texts", "more_parentheses"]
        }
        AddedFromTheLast | NumbersNotTested | PowersNotTested | SumsNotTested
        | PowerZeroUntested | ZeroTimesUntested => &["facts", "every_coefficient"],
        In32Bits => &["facts", "every_coefficient"],
        ProductsFromTheRight | LimitsAtTheEnd | ProductsNotTested | DegreeNotLess
        | DegreeOfZero => &["every_degree", "more_parentheses"],
        SquaredOnceMore | OncePerExponentMore => &["every_degree", "examples"],
        ZeroToZero | ZeroToZeroRefused | InnerZeroRefused | ZeroAnswered | ZeroIsOutside => {
            &["all_short_texts", "every_coefficient"]
        }
        ProductsNotGathered => &["facts", "examples"],
        LargestRefused | OneMoreTaken | OneLessTaken | NegativeNotTested => {
            &["every_coefficient", "into_a_job"]
        }
        FirstTermTested => &["facts", "examples"],
        DegreeFive | DegreeThree | DegreeOfEachAxis => &["every_degree", "into_a_job"],
        PartsTested => &["facts", "into_a_job"],
        Depth15 | Depth17 | DepthNotTested | DepthIsOutside | DepthCountsAll => {
            &["every_depth", "more_parentheses"]
        }
        DepthOfRuns | DepthIn8Bits => &["every_depth"],
        DepthBeforeLanguage => &["every_way_out", "every_depth"],
        NumberBeforeLanguage => &["facts", "every_way_out"],
        ThirtyFiveTerms => &["typed_lists", "more_parentheses"],
        CountBesideRefusal | ByteBesideRefusal => &["every_number", "every_degree"],
        // The rest shows in most lists.
        _ => &["typed_lists", "examples"],
    }
}

/// No text of any formulas is so long or so deep.
const PAST_ANY: [Mistake; 2] = [LengthIn16Bits, DepthIn8Bits];

#[test]
fn each_mistake_is_found() {
    for mistake in Mistake::all().into_iter().filter(|&mistake| mistake != Nothing) {
        let any = (!PAST_ANY.contains(&mistake)).then_some("any_formulas");
        for name in finders(mistake).iter().copied().chain(any) {
            assert!(finds(name, mistake), "{name} does not find {mistake:?}");
        }
    }
}

/// Without a mistake all checks pass, and each check finds one.
#[test]
fn nothing_is_found_where_nothing_is_wrong() {
    for name in CHECKS {
        run(name, &Wrong(Nothing));
        assert!(finds(name, CountOfBytes));
    }
}
