//! Any bytes to hand to Open: jobs that open, jobs changed so that they may not, and noise.

use super::kinds::{valid_of_any, Made};
use super::random::Random;
use crate::build::{assemble, exponents, Parts};
use crate::limits::{Limits, DIMENSIONS};
use crate::named;
use crate::tally::Tally;

named! {
    /// What becomes of a job that opens.
    Change {
        /// Nothing.
        Untouched: 1000,
        /// One damage.
        DamagedOnce: 1400,
        /// Two or three damages.
        DamagedMore: 600,
        /// Its end is cut off, more often close to the front.
        Cut: 200,
        /// Up to 12 bytes follow it.
        Lengthened: 200,
        /// 65,536 bytes follow it: the same length in 16 bits.
        LengthenedBy65536: 10,
        /// A polynomial has a count of terms at or over a limit, the contents in keeping.
        OtherTermCount: 150,
        /// A body is some bytes shorter or longer, the contents in keeping.
        OtherBodyLength: 50,
        /// Any bytes instead of it.
        Noise: 200,
        /// Any bytes behind a part that is kept.
        NoiseBehind: 200,
    }
}

named! {
    /// A damage of one field. Where it is not said otherwise, the field takes a value at the
    /// limits that Open tests.
    Damage {
        /// Any byte becomes any other.
        AnyByte: 4,
        /// Any byte becomes 1 or 128 more or 1 less.
        ByteNearby: 2,
        /// One of the first four bytes.
        FirstFour: 2,
        /// An offset or a length of the contents.
        ContentsField: 4,
        /// A length and the next offset grow or fall together, modulo 65,536.
        LengthAndNextOffset: 2,
        /// An end of the box, also one at or beside the other end.
        BoxEnd: 4,
        /// A coefficient.
        Coefficient: 4,
        /// An exponent.
        Exponent: 2,
        /// Two terms are exchanged.
        TermsExchanged: 1,
        /// A term takes the exponents of another.
        ExponentsRepeated: 1,
        /// A coordinate of the start.
        StartCoordinate: 2,
        /// A mask of the start.
        StartMask: 2,
        /// The side of the start.
        StartSide: 2,
    }
}

/// Values of a field at its limits and beyond.
pub const COORDINATES: &[i64] = &[-256, 256, -257, 257, -32_768, 32_767, 0, 1, -1, 255, -255, 16];
pub const MASKS: &[u8] =
    &[0, 1, 2, 3, 4, 5, 6, 7, 8, 9, 10, 11, 12, 13, 14, 15, 16, 24, 31, 128, 255];
pub const SIDES: &[u8] = &[0, 1, 2, 3, 128, 255];
const FIRST_FOUR: &[u8] = &[0, 1, 2, 3, 4, 5, 6, 255];
const COEFFICIENTS: &[i32] =
    &[1_048_576, -1_048_576, 1_048_577, -1_048_577, 0, i32::MIN, i32::MAX, 1, -1, 256];
const EXPONENTS: &[u8] = &[255, 254, 252, 251, 128, 5, 4, 3, 2, 1, 0];

fn set_16(job: &mut [u8], at: usize, x: i64) {
    job[at..at + 2].copy_from_slice(&(x as u16).to_le_bytes());
}

fn get_16(job: &[u8], at: usize) -> i64 {
    u16::from_le_bytes([job[at], job[at + 1]]) as i64
}

/// Where the fields of a job that opens stand.
struct Layout {
    n: usize,
    /// Offset and length of each body.
    bodies: Vec<(usize, usize)>,
}

impl Layout {
    fn of(parts: &Parts) -> Layout {
        let mut offset = 4 + 4 * (parts.n + 1);
        let mut bodies = Vec::new();
        for body in parts.bodies() {
            bodies.push((offset, body.len()));
            offset += body.len();
        }
        Layout { n: parts.n, bodies }
    }

    /// A term of one of the polynomials, and a term of the same, perhaps another.
    fn two_terms(&self, r: &mut Random) -> (usize, usize) {
        let (offset, length) = self.bodies[1 + r.index(self.n - 1)];
        let count = length / 8;
        (offset + 8 * r.index(count), offset + 8 * r.index(count))
    }

    fn contents_field(&self, r: &mut Random, job: &mut [u8]) {
        let at = 4 + 2 * r.index(2 * (self.n + 1));
        let x = get_16(job, at);
        let values = [x + 1, x - 1, x + 8, x - 8, x + 256, 0, 65_535, 65_528, 65_534];
        set_16(job, at, r.pick(&values));
    }

    fn length_and_next_offset(&self, r: &mut Random, job: &mut [u8]) {
        let length = 4 + 4 * r.index(self.n) + 2;
        let by = r.pick(&[8, -8, 65_535, 65_528, 4, 1]);
        for at in [length, length + 2] {
            set_16(job, at, get_16(job, at) + by);
        }
    }

    fn box_end(&self, r: &mut Random, job: &mut [u8]) {
        let (axis, end) = (r.index(self.n), r.index(2));
        let at = |end: usize| self.bodies[0].0 + 4 * axis + 2 * end;
        let other = get_16(job, at(1 - end));
        let near = [other, other, other + 1, other - 1];
        set_16(job, at(end), r.pick(&[COORDINATES, &near[..]].concat()));
    }

    fn damage(&self, r: &mut Random, job: &mut [u8], damage: Damage) {
        let n = self.n;
        let any = r.index(job.len());
        let (one, other) = self.two_terms(r);
        let (start, start_length) = self.bodies[n];
        match damage {
            Damage::AnyByte => job[any] = r.byte(),
            Damage::ByteNearby => job[any] = job[any].wrapping_add(r.pick(&[1, 255, 128])),
            Damage::FirstFour => job[r.index(4)] = r.pick(FIRST_FOUR),
            Damage::ContentsField => self.contents_field(r, job),
            Damage::LengthAndNextOffset => self.length_and_next_offset(r, job),
            Damage::BoxEnd => self.box_end(r, job),
            Damage::Coefficient => {
                job[one..one + 4].copy_from_slice(&r.pick(COEFFICIENTS).to_le_bytes())
            }
            Damage::Exponent => job[one + 4 + r.index(4)] = r.pick(EXPONENTS),
            Damage::TermsExchanged => (0..8).for_each(|k| job.swap(one + k, other + k)),
            Damage::ExponentsRepeated => job.copy_within(other + 4..other + 8, one + 4),
            Damage::StartCoordinate => set_16(job, start + 2 * r.index(n), r.pick(COORDINATES)),
            Damage::StartMask => job[start + 2 * n + r.index(n - 1)] = r.pick(MASKS),
            Damage::StartSide => job[start + start_length - 1] = r.pick(SIDES),
        }
    }
}

/// The job with a count of terms around the limits of the dimensions in one of its polynomials;
/// the terms are good as far as there are any.
fn other_term_count(r: &mut Random, parts: &Parts) -> Vec<u8> {
    let n = parts.n;
    let mut counts = vec![0, 1];
    for limits in DIMENSIONS.into_iter().chain([n]).map(Limits::of) {
        counts.extend([limits.terms - 1, limits.terms, limits.terms + 1]);
    }
    let all = exponents(n).iter().copied().chain(std::iter::repeat([5, 0, 0, 0]));
    let mut bodies = parts.bodies();
    bodies[1 + r.index(n - 1)] =
        all.take(r.pick(&counts)).flat_map(|e| [[1, 0, 0, 0], e].concat()).collect();
    assemble(n, parts.bias, &bodies)
}

/// The job with one of its bodies some bytes shorter or longer.
fn other_body_length(r: &mut Random, parts: &Parts) -> Vec<u8> {
    let mut bodies = parts.bodies();
    let body = &mut bodies[r.index(parts.n + 1)];
    let length = body.len() as i64 + r.pick(&[-1, 1, -4, 4, -8, 8, 2]);
    body.resize(length.max(0) as usize, 0);
    assemble(parts.n, parts.bias, &bodies)
}

/// The bytes of a job after a change, with these damages.
fn changed(r: &mut Random, parts: &Parts, change: Change, damages: &[Damage]) -> Vec<u8> {
    let mut bytes = parts.bytes();
    match change {
        Change::Untouched => {}
        Change::DamagedOnce | Change::DamagedMore => {
            let layout = Layout::of(parts);
            for &damage in damages {
                layout.damage(r, &mut bytes, damage);
            }
        }
        Change::Cut => {
            let near_the_front = r.once_in(2);
            let most = if near_the_front { 28 } else { bytes.len() };
            bytes.truncate(r.index(most));
        }
        Change::Lengthened => {
            let more = 1 + r.index(12);
            bytes.resize(bytes.len() + more, r.pick(&[0, 1, 255]));
        }
        Change::LengthenedBy65536 => bytes.resize(bytes.len() + 65_536, 0),
        Change::OtherTermCount => bytes = other_term_count(r, parts),
        Change::OtherBodyLength => bytes = other_body_length(r, parts),
        Change::Noise => bytes = (0..r.below(60)).map(|_| r.byte()).collect(),
        Change::NoiseBehind => {
            let kept = r.index(bytes.len());
            bytes[kept..].fill_with(|| r.byte());
        }
    }
    bytes
}

/// Bytes to hand to Open, and how they were made.
pub struct AnyJob {
    pub bytes: Vec<u8>,
    /// The dimension of the job that they were made of.
    pub made_in: usize,
    /// The names of that job.
    pub made: Made,
    pub change: Change,
    /// For a damaged job, in the order in which they were done.
    pub damages: Vec<Damage>,
}

impl AnyJob {
    /// The dimension in byte 1, or that of the job that they were made of if there is none.
    pub fn n(&self) -> usize {
        dimension_written(&self.bytes, self.made_in)
    }
}

/// The dimension in byte 1, or the other if there is none.
pub fn dimension_written(job: &[u8], other: usize) -> usize {
    let written = job.get(1).map(|&byte| byte as usize);
    written.filter(|n| DIMENSIONS.contains(n)).unwrap_or(other)
}

/// The bytes of a job after any change, which it names, with its damages.
pub fn any_change(r: &mut Random, parts: &Parts) -> (Vec<u8>, Change, Vec<Damage>) {
    let change = r.named();
    let count = match change {
        Change::DamagedOnce => 1,
        Change::DamagedMore => 2 + r.below(2),
        _ => 0,
    };
    let damages: Vec<Damage> = (0..count).map(|_| r.named()).collect();
    (changed(r, parts, change, &damages), change, damages)
}

/// Any bytes to hand to Open.
pub fn any_job(r: &mut Random) -> AnyJob {
    let search = r.once_in(4);
    let (made, parts) = valid_of_any(r, search);
    let (bytes, change, damages) = any_change(r, &parts);
    AnyJob { bytes, made_in: parts.n, made, change, damages }
}

/// Counts of how jobs were made.
#[derive(Default)]
pub struct JobTally {
    made: Tally<Made>,
    changes: Tally<Change>,
    damages: Tally<Damage>,
}

impl JobTally {
    pub fn count(&mut self, job: &AnyJob) {
        self.made.count(job.made_in, job.made);
        self.changes.count(job.made_in, job.change);
        for &damage in &job.damages {
            self.damages.count(job.made_in, damage);
        }
    }

    /// Fails unless each kind with each bias, each change and each damage was met in each
    /// dimension.
    pub fn assert_all(&self) {
        self.made.assert_all();
        self.changes.assert_all();
        self.damages.assert_all();
    }
}

#[cfg(test)]
mod tests {
    use super::*;
    use crate::job::open;
    use crate::tally::{Answer, Named};
    use std::collections::BTreeMap;

    const OPENS: Answer = Ok("opens");

    fn opened(bytes: &[u8]) -> Answer {
        open(bytes).map(|_| "opens")
    }

    /// Every answer to a job that has at least 4 bytes.
    fn any() -> Vec<Answer> {
        (2..=8).map(Err).chain([OPENS]).collect()
    }

    /// What Open answers to each damage alone: these answers, each of them.
    #[test]
    fn each_damage_reaches_its_refusals() {
        for damage in Damage::all() {
            let wanted = match damage {
                Damage::AnyByte | Damage::ByteNearby => any(),
                Damage::FirstFour => vec![Err(2), Err(3), Err(4), OPENS],
                Damage::ContentsField | Damage::LengthAndNextOffset => vec![Err(5)],
                Damage::BoxEnd => vec![Err(6), OPENS],
                Damage::Coefficient => vec![Err(7), OPENS],
                Damage::Exponent => vec![Err(7), OPENS],
                Damage::TermsExchanged => vec![Err(7), OPENS],
                Damage::ExponentsRepeated => vec![Err(7), OPENS],
                Damage::StartCoordinate => vec![OPENS],
                Damage::StartMask => vec![Err(8), OPENS],
                Damage::StartSide => vec![Err(8), OPENS],
            };
            let mut r = Random::new(4);
            let mut met = Tally::default();
            for _ in 0..9_000 {
                let (_, parts) = valid_of_any(&mut r, false);
                let mut bytes = parts.bytes();
                Layout::of(&parts).damage(&mut r, &mut bytes, damage);
                met.count(parts.n, opened(&bytes));
            }
            println!("{damage:?}");
            met.assert_met(&wanted);
        }
    }

    /// What Open answers to each change.
    #[test]
    fn each_change_reaches_its_refusals() {
        let mut r = Random::new(5);
        let mut made = JobTally::default();
        let mut met: BTreeMap<Change, Tally<Answer>> = BTreeMap::new();
        for _ in 0..60_000 {
            let job = any_job(&mut r);
            made.count(&job);
            met.entry(job.change).or_default().count(job.n(), opened(&job.bytes));
        }
        made.assert_all();
        for (change, met) in met {
            println!("{change:?}");
            match change {
                Change::Untouched => met.assert_met(&[OPENS]),
                Change::Cut => met.assert_met(&[Err(1), Err(5)]),
                Change::Lengthened | Change::LengthenedBy65536 => met.assert_met(&[Err(5)]),
                Change::OtherTermCount => met.assert_met(&[Err(5), OPENS]),
                Change::OtherBodyLength => met.assert_met(&[Err(5), Err(7), OPENS]),
                Change::DamagedOnce => met.assert_met(&any()),
                Change::DamagedMore => met.assert_met(&any()),
                Change::NoiseBehind => met.assert_includes(&[2, 5, 6, 7, 8].map(Err)),
                Change::Noise => met.assert_includes(&[Err(1), Err(2)]),
            }
        }
    }
}
