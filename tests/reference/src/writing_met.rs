//! What is wrong with loose bodies that a job is to be written from, and counts of it. It is found
//! in the bytes, each body by itself, without a job: a second reading of what refuses them, whose
//! numbers of the paper stand here again.

use std::collections::BTreeSet;

use crate::bad_terms::{bad_terms, Bad};
use crate::limits::{DIMENSIONS, MOST};
use crate::named;
use crate::tally::{Named, Tally};
use crate::writing::{Loose, Which};

named! {
    /// A number that is no dimension.
    WrongDimension {
        /// 0 or 1.
        Under: 1,
        /// Above 4, and so are its low 8 bits, or under 2.
        Over: 1,
        /// Its low 8 bits are a dimension, and no more of them.
        LowByte: 1,
        /// Its low 16 bits are a dimension, and no more of them.
        Low16: 1,
        /// Its low 32 bits are a dimension.
        Low32: 1,
    }
}

named! {
    /// A length that is wrong for its kind.
    WrongLength {
        /// No byte.
        Empty: 1,
        /// Fewer bytes than it may have.
        Short: 1,
        /// Of a polynomial, no whole terms.
        NotWhole: 1,
        /// More bytes than it may have, which its entry holds.
        Long: 1,
        /// Over 65,535 bytes.
        PastEntry: 1,
    }
}

named! {
    /// What is wrong with the ends of an axis.
    WrongEnds {
        /// The low end is under -256.
        LowUnder: 1,
        /// The low end is over 256.
        LowOver: 1,
        /// The high end is under -256.
        HighUnder: 1,
        /// The high end is over 256.
        HighOver: 1,
        /// They are equal.
        Equal: 1,
        /// The low end is over the high end.
        Exchanged: 1,
    }
}

named! {
    /// What is wrong with a start.
    WrongStart {
        /// The first mask is 0.
        ZeroMask: 1,
        /// A mask is the one before.
        SameMask: 1,
        /// A mask does not hold the one before.
        NotHolding: 1,
        /// A mask has an axis above n.
        AboveN: 1,
        /// The side is neither 0 nor 1.
        Side: 1,
    }
}

named! {
    /// A buffer that is shorter than the job.
    WrongSpace {
        /// It has no byte.
        Empty: 1,
        /// It does not hold the contents.
        UnderContents: 1,
        /// It holds the contents, and misses some bytes of the bodies.
        UnderBodies: 1,
        /// It misses one byte.
        OneShort: 1,
    }
}

/// A way to a refusal.
#[derive(Clone, Copy, PartialEq, Eq, PartialOrd, Ord, Debug)]
pub enum Way {
    Dimension(WrongDimension),
    Length(Which, WrongLength),
    /// By axis, from 1.
    Ends(usize, WrongEnds),
    /// By polynomial, from 1.
    Term(usize, Bad),
    Start(WrongStart),
    Space(WrongSpace),
}

/// The refusals of the writer.
pub const REFUSALS: [u8; 6] = [3, 5, 6, 7, 8, 16];

/// What the writer answers: a refusal, or none if a job is written.
pub fn answers() -> Vec<Option<u8>> {
    REFUSALS.into_iter().map(Some).chain([None]).collect()
}

impl Way {
    pub fn refusal(self) -> u8 {
        match self {
            Way::Dimension(_) => 3,
            Way::Length(..) => 5,
            Way::Ends(..) => 6,
            Way::Term(..) => 7,
            Way::Start(_) => 8,
            Way::Space(_) => 16,
        }
    }

    /// Every way that there is in a dimension: box and start have no terms, dimension 2 has one
    /// mask, and dimension 4 no axis above n.
    pub fn all(n: usize) -> Vec<Way> {
        let mut all: Vec<Way> = WrongDimension::all().into_iter().map(Way::Dimension).collect();
        for which in Which::of(n) {
            let has_terms = matches!(which, Which::Polynomial(_));
            let lengths = WrongLength::all().into_iter();
            let lengths = lengths.filter(|&wrong| has_terms || wrong != WrongLength::NotWhole);
            all.extend(lengths.map(|wrong| Way::Length(which, wrong)));
        }
        let of_axis = |axis| WrongEnds::all().into_iter().map(move |wrong| Way::Ends(axis, wrong));
        all.extend((1..=n).flat_map(of_axis));
        let bad = || Bad::all().into_iter().filter(|&bad| bad != Bad::AboveN || n < MOST);
        all.extend((1..n).flat_map(|k| bad().map(move |bad| Way::Term(k, bad))));
        let one_mask = [WrongStart::ZeroMask, WrongStart::AboveN, WrongStart::Side];
        let starts = WrongStart::all().into_iter();
        all.extend(starts.filter(|wrong| n > 2 || one_mask.contains(wrong)).map(Way::Start));
        all.extend(WrongSpace::all().into_iter().map(Way::Space));
        all
    }
}

/// Why a number is no dimension.
pub fn wrong_dimension(n: u64) -> Option<WrongDimension> {
    let is_one = |n: u64| (2..=4).contains(&n);
    match n {
        2..=4 => None,
        0 | 1 => Some(WrongDimension::Under),
        _ if is_one(n % (1 << 32)) => Some(WrongDimension::Low32),
        _ if is_one(n % (1 << 16)) => Some(WrongDimension::Low16),
        _ if is_one(n % (1 << 8)) => Some(WrongDimension::LowByte),
        _ => Some(WrongDimension::Over),
    }
}

/// The least and the greatest length of a body.
pub fn lengths_of(n: usize, which: Which) -> (usize, usize) {
    match which {
        Which::Box => (4 * n, 4 * n),
        Which::Polynomial(_) => (8, 8 * [15, 35, 70][n - 2]),
        Which::Start => (3 * n, 3 * n),
    }
}

/// What is wrong with the length of a body.
pub fn wrong_length(n: usize, which: Which, length: usize) -> Option<WrongLength> {
    let (least, most) = lengths_of(n, which);
    if length > 65_535 {
        Some(WrongLength::PastEntry)
    } else if length > most {
        Some(WrongLength::Long)
    } else if length == 0 {
        Some(WrongLength::Empty)
    } else if length < least {
        Some(WrongLength::Short)
    } else if matches!(which, Which::Polynomial(_)) && length % 8 != 0 {
        Some(WrongLength::NotWhole)
    } else {
        None
    }
}

/// A number of 16 bits with a sign, the least byte first.
fn signed(low: u8, high: u8) -> i64 {
    let number = low as i64 + 256 * high as i64;
    if number < 32_768 {
        number
    } else {
        number - 65_536
    }
}

fn wrong_ends(bytes: &[u8]) -> Vec<WrongEnds> {
    let (low, high) = (signed(bytes[0], bytes[1]), signed(bytes[2], bytes[3]));
    let found = [
        (low < -256, WrongEnds::LowUnder),
        (low > 256, WrongEnds::LowOver),
        (high < -256, WrongEnds::HighUnder),
        (high > 256, WrongEnds::HighOver),
        (low == high, WrongEnds::Equal),
        (low > high, WrongEnds::Exchanged),
    ];
    found.into_iter().filter(|(is_so, _)| *is_so).map(|(_, wrong)| wrong).collect()
}

fn wrong_start(n: usize, body: &[u8]) -> Vec<WrongStart> {
    let (masks, side) = (&body[2 * n..3 * n - 1], body[3 * n - 1]);
    let mut found = Vec::new();
    for (k, &mask) in masks.iter().enumerate() {
        let before = if k == 0 { 0 } else { masks[k - 1] };
        if mask == before {
            found.push(if k == 0 { WrongStart::ZeroMask } else { WrongStart::SameMask });
        }
        if mask | before != mask {
            found.push(WrongStart::NotHolding);
        }
        if (n..8).any(|bit| mask >> bit & 1 == 1) {
            found.push(WrongStart::AboveN);
        }
    }
    if side > 1 {
        found.push(WrongStart::Side);
    }
    found
}

/// The length of the contents and of these bodies together.
pub fn length_of(n: usize, loose: &Loose) -> usize {
    let bodies = Which::of(n).into_iter().map(|which| loose.body(which).len());
    4 + 4 * (n + 1) + bodies.sum::<usize>()
}

fn wrong_space(n: usize, loose: &Loose, space: usize) -> Option<WrongSpace> {
    let length = length_of(n, loose);
    match space {
        _ if space >= length => None,
        0 => Some(WrongSpace::Empty),
        _ if space + 1 == length => Some(WrongSpace::OneShort),
        _ if space < 4 + 4 * (n + 1) => Some(WrongSpace::UnderContents),
        _ => Some(WrongSpace::UnderBodies),
    }
}

/// The dimension of what is handed over; the other if its number is none.
pub fn dimension_of(loose: &Loose, other: usize) -> usize {
    DIMENSIONS.into_iter().find(|&n| n as u64 == loose.n).unwrap_or(other)
}

/// All that is wrong with loose bodies and a buffer of this space; if n is no dimension, the bodies
/// are looked at for the other one. What is in a body is looked at if its length is right.
pub fn ways(loose: &Loose, other: usize, space: usize) -> BTreeSet<Way> {
    let n = dimension_of(loose, other);
    let mut found = BTreeSet::new();
    found.extend(wrong_dimension(loose.n).map(Way::Dimension));
    for which in Which::of(n) {
        let body = loose.body(which);
        if let Some(wrong) = wrong_length(n, which, body.len()) {
            found.insert(Way::Length(which, wrong));
            continue;
        }
        match which {
            Which::Box => {
                for (axis, bytes) in (1..).zip(body.chunks_exact(4)) {
                    found.extend(wrong_ends(bytes).into_iter().map(|w| Way::Ends(axis, w)));
                }
            }
            Which::Polynomial(k) => {
                let all = bad_terms(n, body).into_iter().flat_map(|term| term.why);
                found.extend(all.map(|bad| Way::Term(k, bad)));
            }
            Which::Start => found.extend(wrong_start(n, body).into_iter().map(Way::Start)),
        }
    }
    found.extend(wrong_space(n, loose, space).map(Way::Space));
    found
}

named! {
    /// A buffer that holds the job.
    Space {
        /// No byte more.
        Exact: 1,
        /// One byte more.
        OneMore: 1,
        /// More.
        More: 1,
    }
}

named! {
    /// A polynomial that is not read.
    NotRead {
        /// No byte.
        Empty: 1,
        /// It would be a polynomial of the job's dimension.
        Good: 1,
        /// It would not.
        Bad: 1,
        /// Over 65,535 bytes.
        PastEntry: 1,
    }
}

fn not_read(n: usize, body: &[u8]) -> NotRead {
    match wrong_length(n, Which::Polynomial(n), body.len()) {
        Some(WrongLength::Empty) => NotRead::Empty,
        Some(WrongLength::PastEntry) => NotRead::PastEntry,
        None if bad_terms(n, body).is_empty() => NotRead::Good,
        _ => NotRead::Bad,
    }
}

/// What the writer was asked for.
#[derive(Default)]
pub struct WritingMet {
    /// The refusals; none if a job was written.
    pub answers: Tally<Option<u8>>,
    /// The ways to the refusal that was answered.
    pub ways: Tally<Way>,
    /// The refusal that was answered, and one that comes after it and was there too.
    pub two: Tally<(u8, u8)>,
    /// Of a job that was written: its buffer, and whether the bias is above 0.
    pub written: Tally<(Space, bool)>,
    /// The polynomials that were not read, from 1, and whether a job was written.
    pub not_read: Tally<(usize, NotRead, bool)>,
}

impl WritingMet {
    /// Counts what was asked with all that is wrong with it; gives the least number of its ways.
    pub fn count(&mut self, loose: &Loose, other: usize, space: usize) -> Option<u8> {
        let n = dimension_of(loose, other);
        let ways = ways(loose, other, space);
        let refusals: BTreeSet<u8> = ways.iter().map(|way| way.refusal()).collect();
        let least = refusals.first().copied();
        self.answers.count(n, least);
        match least {
            None => self.count_written(n, loose, space),
            Some(least) => {
                let of_least = ways.into_iter().filter(|way| way.refusal() == least);
                of_least.for_each(|way| self.ways.count(n, way));
                let later = refusals.into_iter().skip(1);
                later.for_each(|refusal| self.two.count(n, (least, refusal)));
            }
        }
        for k in n..MOST {
            let kind = not_read(n, &loose.polynomials[k - 1]);
            self.not_read.count(n, (k, kind, least.is_none()));
        }
        least
    }

    fn count_written(&mut self, n: usize, loose: &Loose, space: usize) {
        let kind = match space - length_of(n, loose) {
            0 => Space::Exact,
            1 => Space::OneMore,
            _ => Space::More,
        };
        self.written.count(n, (kind, loose.bias > 0));
    }

    /// Fails unless each was met at least so often in each dimension: every way; and three times as
    /// often every answer, every two refusals, every buffer with and without a bias, every kind of
    /// polynomial that is not read, beside a job and beside a refusal.
    pub fn assert_often(&self, least: u64) {
        self.answers.assert_met(&answers());
        self.answers.assert_often(3 * least, &answers());
        let pair = |(k, &one): (usize, &u8)| REFUSALS[k + 1..].iter().map(move |&o| (one, o));
        let pairs: Vec<(u8, u8)> = REFUSALS.iter().enumerate().flat_map(pair).collect();
        self.two.assert_often(3 * least, &pairs);
        let with_bias = |space| [(space, false), (space, true)];
        let written: Vec<_> = Space::all().into_iter().flat_map(with_bias).collect();
        self.written.assert_often(3 * least, &written);
        for n in DIMENSIONS {
            self.ways.assert_met_in(n, &Way::all(n));
            self.ways.assert_often_in(n, least, &Way::all(n));
        }
        for n in DIMENSIONS.into_iter().filter(|&n| n < MOST) {
            let of_kind = |k| NotRead::all().into_iter().map(move |kind| (k, kind));
            let both = |(k, kind)| [(k, kind, false), (k, kind, true)];
            let not_read: Vec<_> = (n..MOST).flat_map(of_kind).flat_map(both).collect();
            self.not_read.assert_often_in(n, 3 * least, &not_read);
        }
    }
}

#[cfg(test)]
mod tests {
    use super::*;
    use crate::build::{case_a, case_c};

    /// How many ways there are.
    #[test]
    fn ways_are_all() {
        assert_eq!(DIMENSIONS.map(|n| Way::all(n).len()), [43, 62, 76]);
        for n in DIMENSIONS {
            let refusals: BTreeSet<u8> = Way::all(n).iter().map(|way| way.refusal()).collect();
            assert_eq!(refusals, REFUSALS.into_iter().collect());
        }
    }

    /// All that is wrong at once, by hand.
    #[test]
    fn several_at_once() {
        let right = Loose::of(&case_a());
        assert_eq!(ways(&right, 2, 54), BTreeSet::new());
        let mut loose = right.clone();
        loose.n = 258;
        loose.ends[..4].copy_from_slice(&[1, 1, 255, 254]);
        loose.polynomials[0].truncate(7);
        loose.start[4..].copy_from_slice(&[0, 2]);
        let wanted = [
            Way::Dimension(WrongDimension::LowByte),
            Way::Length(Which::Polynomial(1), WrongLength::Short),
            Way::Ends(1, WrongEnds::LowOver),
            Way::Ends(1, WrongEnds::HighUnder),
            Way::Ends(1, WrongEnds::Exchanged),
            Way::Start(WrongStart::ZeroMask),
            Way::Start(WrongStart::Side),
            Way::Space(WrongSpace::OneShort),
        ];
        assert_eq!(ways(&loose, 2, 36), wanted.into_iter().collect());
        // Another dimension, the polynomials that are not read in 3 empty.
        let other = Loose { n: 3, ..right };
        let wanted = [
            Way::Length(Which::Box, WrongLength::Short),
            Way::Length(Which::Polynomial(2), WrongLength::Empty),
            Way::Length(Which::Start, WrongLength::Short),
            Way::Space(WrongSpace::Empty),
        ];
        assert_eq!(ways(&other, 2, 0), wanted.into_iter().collect());
    }

    /// Masks that do not rise, by hand.
    #[test]
    fn masks() {
        let found = |n: usize, masks: &[u8], side: u8| {
            let body = [&vec![0; 2 * n][..], masks, &[side]].concat();
            wrong_start(n, &body)
        };
        assert_eq!(found(4, &[1, 3, 7], 1), []);
        assert_eq!(found(4, &[2, 10, 15], 0), []);
        assert_eq!(found(4, &[1, 1, 7], 0), [WrongStart::SameMask]);
        assert_eq!(found(4, &[1, 2, 7], 0), [WrongStart::NotHolding]);
        assert_eq!(found(4, &[1, 3, 19], 0), [WrongStart::AboveN]);
        assert_eq!(
            found(3, &[0, 8], 2),
            [WrongStart::ZeroMask, WrongStart::AboveN, WrongStart::Side]
        );
    }

    /// The bodies of case C are right in their own dimension.
    #[test]
    fn right_ones() {
        for n in DIMENSIONS {
            let loose = Loose::of(&case_c(n));
            assert_eq!(ways(&loose, n, length_of(n, &loose)), BTreeSet::new());
        }
    }
}
