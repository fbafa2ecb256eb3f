//! Request 2.10, the small bench cutter, as checks of any product. Its entries must answer what the
//! reference answers, and what the full entries of the same product promise: what the small cutter
//! accepts the full one opens to the same answer and bodies and traces to the same list; 17 comes
//! from the small entries alone, and only for what the full ones open. In jobs made for its limits,
//! what must be answered is also known from how they were made.

use std::collections::BTreeSet;

use crate::build::{case_c, exponents, place, power_of, term, Parts};
use crate::crossed::Term;
use crate::generate::{
    any_change, any_job, dimension_written, for_small_cutter, for_small_trace, short, valid,
    JobTally, Random, SmallKind,
};
use crate::grid::Place;
use crate::limits::{Limits, DIMENSIONS, SMALL_TERMS};
use crate::named;
use crate::operations::Verdict;
use crate::product::{Product, Reference};
use crate::tally::{Answer, Named, Tally};
use crate::term_checks::{spoiled, OTHER_REFUSALS};

/// One of the two entries on a product.
pub trait Entry {
    /// Compares its answer as is said above; gives the refusal.
    fn answer(&mut self, job: &[u8]) -> Result<(), u8>;

    /// The refusal of opening: what the start is refused for does not count.
    fn opening(&mut self, job: &[u8]) -> Result<(), u8> {
        match self.answer(job) {
            Err(9..=11) => Ok(()),
            answer => answer,
        }
    }
}

/// Small open.
pub struct SmallOpen<'a, P>(pub &'a P);

impl<P: Product> Entry for SmallOpen<'_, P> {
    fn answer(&mut self, job: &[u8]) -> Result<(), u8> {
        check_open(self.0, job).map(|_| ())
    }
}

/// Small trace, with space for two places and a byte more.
pub struct SmallTrace<'a, P> {
    product: &'a P,
    r: Random,
}

impl<'a, P: Product> SmallTrace<'a, P> {
    pub fn new(product: &'a P) -> Self {
        SmallTrace { product, r: Random::new(48) }
    }
}

impl<P: Product> Entry for SmallTrace<'_, P> {
    fn answer(&mut self, job: &[u8]) -> Result<(), u8> {
        let size = job.get(1).map_or(0, |&n| 3 * n as usize);
        check_trace(self.product, &mut self.r, job, 2 * size + 1).0.map(|_| ())
    }
}

/// Small open against the reference and against the full cutter.
fn check_open(product: &impl Product, job: &[u8]) -> Result<(usize, Vec<usize>), u8> {
    let answer = product.small_open(job);
    assert_eq!(answer, Reference.small_open(job), "{job:?}");
    let full = product.open(job);
    match &answer {
        Err(17) => {
            assert!(full.is_ok(), "{full:?} for {job:?}");
            check_other_full(product, job);
        }
        _ => assert_eq!(answer, full, "{job:?}"),
    }
    if let Ok((n, _)) = full {
        for index in 0..=n as u64 + 1 {
            assert_eq!(product.body(job, index), Reference.body(job, index), "{job:?}");
        }
    }
    answer
}

/// The operations of the full cutter that take a place, at the start of a job that opens.
fn check_other_full(product: &impl Product, job: &[u8]) {
    let start = &job[job.len() - 3 * job[1] as usize..];
    assert_eq!(product.judge(job, start), Reference.judge(job, start), "{job:?}");
    assert_eq!(product.point(job, start), Reference.point(job, start), "{job:?}");
    assert_eq!(product.step(job, start), Reference.step(job, start), "{job:?}");
}

/// Answer and buffer of a trace.
type Traced = (Result<(Verdict, usize), u8>, Vec<u8>);

/// Small trace and the full one, each into a copy of the same noise. Where the small one does not
/// answer 17, both answer and write the same; a refusal leaves the buffer as it was.
fn both_traces(product: &impl Product, job: &[u8], before: &[u8]) -> Traced {
    let (mut buffer, mut full_buffer) = (before.to_vec(), before.to_vec());
    let answer = product.small_trace(job, &mut buffer);
    let full = product.trace(job, &mut full_buffer);
    if answer == Err(17) {
        assert!(!matches!(full, Err(1..=8 | 17)), "{full:?} for {job:?}");
    } else {
        assert_eq!(answer, full, "{} bytes for {job:?}", before.len());
        assert!(buffer == full_buffer, "other bytes: {} bytes for {job:?}", before.len());
    }
    assert!(answer.is_ok() || buffer == before, "a refusal that writes: {job:?}");
    (answer, buffer)
}

/// Both traces, and the small one against the reference.
fn check_trace(product: &impl Product, r: &mut Random, job: &[u8], length: usize) -> Traced {
    let before = r.bytes(length);
    let mut wanted_buffer = before.clone();
    let wanted = Reference.small_trace(job, &mut wanted_buffer);
    let (answer, buffer) = both_traces(product, job, &before);
    assert_eq!(answer, wanted, "{length} bytes for {job:?}");
    assert!(buffer == wanted_buffer, "other bytes: {length} bytes for {job:?}");
    (answer, buffer)
}

/// The boxes around a limit that is tried: well inside the limits, and at them on every axis.
const BOXES: [(i64, i64); 2] = [(-1, 1), (-64, 64)];

named! {
    /// How the ends of an axis lie.
    AxisEnds {
        /// Both from -64 to 64.
        Inside: 1,
        /// The low end alone is outside.
        LowOutside: 1,
        /// The high end alone is outside.
        HighOutside: 1,
        /// The low end is under -64 and the high end over 64.
        Around: 1,
        /// Both are under -64.
        BothUnder: 1,
        /// Both are over 64.
        BothOver: 1,
        /// One is beyond 256 in size, or low is not under high.
        Refused: 1,
    }
}

impl AxisEnds {
    fn of(low: i64, high: i64) -> AxisEnds {
        if low < -256 || high > 256 || low >= high {
            return AxisEnds::Refused;
        }
        match (low, high) {
            (-64.., ..=64) => AxisEnds::Inside,
            (65.., _) => AxisEnds::BothOver,
            (_, ..=-65) => AxisEnds::BothUnder,
            (-64.., _) => AxisEnds::HighOutside,
            (_, ..=64) => AxisEnds::LowOutside,
            _ => AxisEnds::Around,
        }
    }

    /// What small open answers if all else is within the limits.
    fn opening(self) -> Result<(), u8> {
        match self {
            AxisEnds::Inside => Ok(()),
            AxisEnds::Refused => Err(6),
            _ => Err(17),
        }
    }
}

/// Every value from -258 to 258 of each end, beside others; and every two of the values around the
/// limits of both cutters.
fn ends_to_try() -> Vec<(i64, i64)> {
    let beside = |v: i64| [(v, v + 1), (v - 1, v), (v, 64), (-64, v), (v, 256), (-256, v)];
    let mut all: Vec<(i64, i64)> = (-258..=258).flat_map(beside).collect();
    let around = [-257, -256, -255, -66, -65, -64, -63, -1, 0, 1, 63, 64, 65, 66, 255, 256, 257];
    all.extend(around.iter().flat_map(|&low| around.map(|high| (low, high))));
    all
}

/// The ends of each axis by themselves, in both boxes.
pub fn each_end(entry: &mut impl Entry) {
    let mut met = Tally::default();
    for n in DIMENSIONS {
        for (axis, others) in (0..n).flat_map(|axis| BOXES.map(|others| (axis, others))) {
            for (low, high) in ends_to_try() {
                let mut parts = Parts { ends: vec![others; n], ..case_c(n) };
                parts.ends[axis] = (low, high);
                let ends = AxisEnds::of(low, high);
                let answer = entry.opening(&parts.bytes());
                assert_eq!(answer, ends.opening(), "{:?}", parts.ends);
                met.count(n, (axis, others, ends));
            }
        }
        let on_axis = |axis| BOXES.map(|others| (axis, others));
        let with_each =
            |(axis, others)| AxisEnds::all().into_iter().map(move |e| (axis, others, e));
        let wanted: Vec<_> = (0..n).flat_map(on_axis).flat_map(with_each).collect();
        met.assert_met_in(n, &wanted);
        met.assert_often_in(n, 300, &wanted);
    }
    met.assert_totals([13_564, 20_346, 27_128]);
}

/// Each count of terms in each polynomial, beside others of one term and of 16, or as many as there
/// are; in both boxes.
pub fn each_count_of_terms(entry: &mut impl Entry) {
    let mut met = Tally::default();
    for n in DIMENSIONS {
        let most = Limits::of(n).terms;
        let all = exponents(n);
        let mut wanted = Vec::new();
        for (polynomial, count) in (1..n).flat_map(|k| (1..=most).map(move |count| (k, count))) {
            for (others, ends) in [1, most.min(16)].into_iter().flat_map(|o| BOXES.map(|b| (o, b)))
            {
                for body in short(n, count) {
                    let other = all[..others].iter().map(|e| term(1, e)).collect();
                    let mut parts =
                        Parts { ends: vec![ends; n], polynomials: vec![other; n - 1], ..case_c(n) };
                    parts.polynomials[polynomial - 1] = body;
                    let answer = entry.opening(&parts.bytes());
                    assert_eq!(answer, if count > 16 { Err(17) } else { Ok(()) }, "{count} terms");
                    met.count(n, (polynomial, others, ends, count));
                }
                wanted.push((polynomial, others, ends, count));
            }
        }
        met.assert_met_in(n, &wanted);
    }
    met.assert_totals([180, 840, 2_520]);
}

/// What breaks one limit of the small cutter and none of the full one.
#[derive(Clone, Copy, PartialEq, Eq, PartialOrd, Ord, Debug)]
pub enum Breach {
    /// The low end of this axis is -65.
    Low(usize),
    /// The high end of this axis is 65.
    High(usize),
    /// The ends of this axis are -66 and -65.
    Under(usize),
    /// The ends of this axis are 65 and 66.
    Over(usize),
    /// This polynomial has 17 terms.
    Terms(usize),
}

impl Breach {
    /// Every one that there is in a dimension: in dimension 2 a polynomial has at most 15 terms.
    pub fn all(n: usize) -> Vec<Breach> {
        let of_axis = |k| [Breach::Low(k), Breach::High(k), Breach::Under(k), Breach::Over(k)];
        let mut all: Vec<Breach> = (0..n).flat_map(of_axis).collect();
        if Limits::of(n).terms > 16 {
            all.extend((0..n - 1).map(Breach::Terms));
        }
        all
    }

    /// Puts it into a job. The terms that come in have the last axis: they are 0 on the start of
    /// case C.
    pub fn put(self, parts: &mut Parts) {
        match self {
            Breach::Low(axis) => parts.ends[axis] = (-65, parts.ends[axis].1.max(-64)),
            Breach::High(axis) => parts.ends[axis] = (parts.ends[axis].0.min(64), 65),
            Breach::Under(axis) => parts.ends[axis] = (-66, -65),
            Breach::Over(axis) => parts.ends[axis] = (65, 66),
            Breach::Terms(k) => fill(parts.n, &mut parts.polynomials[k], 17),
        }
    }
}

/// Adds terms with the last axis to a polynomial until it has so many.
fn fill(n: usize, polynomial: &mut Vec<Term>, count: usize) {
    let with_last = exponents(n).iter().filter(|e| e[n - 1] > 0);
    let missing = with_last.filter(|e| polynomial.iter().all(|t| t.exponents != **e));
    let more: Vec<Term> = missing.take(count - polynomial.len()).map(|e| term(1, e)).collect();
    polynomial.extend(more);
    polynomial.sort_by_key(|t| t.exponents);
    assert_eq!(polynomial.len(), count);
}

/// Each breach alone and every two of them, in both boxes; without one the job opens, also with 64
/// at every end and 16 terms in every polynomial at once.
pub fn breaches_by_two(entry: &mut impl Entry) {
    let mut met = Tally::default();
    for n in DIMENSIONS {
        let all = Breach::all(n);
        let mut wanted = Vec::new();
        for ends in BOXES {
            let mut parts = Parts { ends: vec![ends; n], ..case_c(n) };
            assert_eq!(entry.answer(&parts.bytes()), Ok(()));
            for (&one, &other) in all.iter().flat_map(|one| all.iter().map(move |o| (one, o))) {
                let mut parts = parts.clone();
                one.put(&mut parts);
                if one != other {
                    other.put(&mut parts);
                }
                assert_eq!(entry.answer(&parts.bytes()), Err(17), "{one:?} and {other:?}");
                met.count(n, (ends, one, other));
                wanted.push((ends, one, other));
            }
            if n > 2 {
                parts.polynomials.iter_mut().for_each(|polynomial| fill(n, polynomial, 16));
                assert_eq!(entry.answer(&parts.bytes()), Ok(()));
            }
        }
        met.assert_met_in(n, &wanted);
    }
    met.assert_totals([128, 392, 722]);
}

/// Each breach, and none, together with every choice of the refusals 2 to 8, each by one of the
/// ways to it in turn, and cut to under 4 bytes: the least number is the answer, and 17 comes
/// after 8.
pub fn least_number_is_answered(entry: &mut impl Entry) {
    let mut met = Tally::default();
    for n in DIMENSIONS {
        let mut wanted = Vec::new();
        let breaches = Breach::all(n).into_iter().map(Some).chain([None]);
        for breach in breaches {
            // In 12 turns each way comes up with each choice.
            for turn in 0..12 {
                for choice in 0..1 << (OTHER_REFUSALS.len() + 1) {
                    let (least, way) = check_least(entry, n, breach, turn, choice);
                    met.count(n, (breach, least, way));
                }
            }
            let own = breach.map_or(0, |_| 17);
            let others = OTHER_REFUSALS.into_iter().chain([(1, 1), (7, 1), (own, 1)]);
            let ways = |(least, count)| (0..count).map(move |way| (breach, least, way));
            wanted.extend(others.flat_map(ways));
            let mut parts = case_c(n);
            breach.iter().for_each(|breach| breach.put(&mut parts));
            for cut in 0..4 {
                assert_eq!(entry.answer(&parts.bytes()[..cut]), Err(1));
                met.count(n, (breach, 1, 0));
            }
        }
        met.assert_met_in(n, &wanted);
    }
    met.assert_totals([13_860, 23_100, 30_800]);
}

/// A job with the breach, of the refusals those of the choice: its last bit is for 7. Gives the
/// least number, 0 for none, and which way led to it.
fn check_least(
    entry: &mut impl Entry,
    n: usize,
    breach: Option<Breach>,
    turn: usize,
    choice: usize,
) -> (u8, usize) {
    let chosen = OTHER_REFUSALS.iter().enumerate().filter(|(k, _)| choice >> k & 1 == 1);
    let ways: Vec<(u8, usize)> =
        chosen.map(|(_, &(refusal, count))| (refusal, turn % count)).collect();
    let mut parts = case_c(n);
    breach.iter().for_each(|breach| breach.put(&mut parts));
    let polynomial = 1 + turn % (n - 1);
    let seven = choice >> OTHER_REFUSALS.len() == 1;
    if seven {
        let terms = &mut parts.polynomials[polynomial - 1];
        terms.last_mut().expect("a term").coefficient = 0;
    }
    let refusals = ways.iter().copied().chain(seven.then_some((7, 0)));
    let least = refusals.min().or(breach.map(|_| (17, 0)));
    let job = spoiled(&parts, polynomial, &ways);
    let wanted = least.map(|(refusal, _)| refusal);
    assert_eq!(entry.answer(&job).err(), wanted, "{breach:?} with {ways:?} in {job:?}");
    least.unwrap_or((0, 0))
}

named! {
    /// What a trace finds at the start.
    AtStart {
        /// It lies outside the box: 9.
        Outside: 1,
        /// A value is not readable: 10.
        NotReadable: 1,
        /// It is not crossed: 11.
        NotCrossed: 1,
        /// It is crossed.
        Crossed: 1,
    }
}

impl AtStart {
    /// A job with such a start in the box 0 to 30; in the box, it has 0 on the last axis.
    fn parts(self, n: usize) -> Parts {
        let mut parts = Parts { ends: vec![(0, 30); n], ..case_c(n) };
        match self {
            AtStart::Outside => parts.start.facet.lowest[..n].fill(40),
            AtStart::NotReadable => {
                parts.polynomials[0] = vec![term(1_048_576, &[2])];
                parts.start.facet.lowest[0] = 20;
            }
            AtStart::NotCrossed => parts.polynomials[0] = vec![term(1, &[])],
            AtStart::Crossed => {}
        }
        parts
    }

    /// What Trace answers.
    fn answer(self) -> Result<(), u8> {
        match self {
            AtStart::Outside => Err(9),
            AtStart::NotReadable => Err(10),
            AtStart::NotCrossed => Err(11),
            AtStart::Crossed => Ok(()),
        }
    }
}

/// 17 comes before what the start is refused for: each breach with each start. The full cutter
/// looks at the start, which is outside a box that lies elsewhere; so does small trace without a
/// breach, and small open does not.
pub fn small_trace_before_the_start(product: &impl Product) {
    let mut r = Random::new(49);
    let mut met = Tally::default();
    for n in DIMENSIONS {
        let mut wanted = Vec::new();
        let breaches = Breach::all(n).into_iter().map(Some).chain([None]);
        for (at, breach) in breaches.flat_map(|b| AtStart::all().into_iter().map(move |at| (at, b)))
        {
            let mut parts = at.parts(n);
            breach.iter().for_each(|breach| breach.put(&mut parts));
            let job = parts.bytes();
            let by_start = match breach {
                Some(Breach::Under(_) | Breach::Over(_)) => Err(9),
                _ => at.answer(),
            };
            let (answer, _) = check_trace(product, &mut r, &job, 3 * n * 4);
            let own = if breach.is_some() { Err(17) } else { by_start };
            assert_eq!(answer.map(|_| ()), own, "{breach:?} in {job:?}");
            let full = product.trace(&job, &mut vec![0; 3 * n * 4]);
            assert_eq!(full.map(|_| ()), by_start, "{breach:?} in {job:?}");
            met.count(n, (at, breach));
            wanted.push((at, breach));
        }
        met.assert_met_in(n, &wanted);
    }
    met.assert_totals([36, 60, 80]);
}

/// The same starts, which small open does not look at.
pub fn small_open_before_the_start(product: &impl Product) {
    for n in DIMENSIONS {
        for at in AtStart::all() {
            assert!(check_open(product, &at.parts(n).bytes()).is_ok());
            for breach in Breach::all(n) {
                let mut parts = at.parts(n);
                breach.put(&mut parts);
                assert_eq!(check_open(product, &parts.bytes()), Err(17));
            }
        }
    }
}

/// Coordinates of a start that are past the small cutter's limit for box ends.
const FAR: [i64; 12] = [65, 66, 127, 128, 256, 257, 1000, 32_767, -65, -66, -257, -32_768];

/// The start alone lies past 64, on each axis. Small open takes it, and small trace refuses it for
/// the start.
pub fn far_starts(entry: &mut impl Entry, wanted: Result<(), u8>) {
    for n in DIMENSIONS {
        for (axis, ends) in (0..n).flat_map(|axis| BOXES.map(|ends| (axis, ends))) {
            for x in FAR {
                let mut parts = Parts { ends: vec![ends; n], ..case_c(n) };
                parts.start.facet.lowest[axis] = x;
                assert_eq!(entry.answer(&parts.bytes()), wanted, "{x} on axis {axis}");
            }
        }
    }
}

/// Open's refusals and 17.
fn of_opening() -> Vec<Answer> {
    (1..=8).chain([17]).map(Err).collect()
}

/// Jobs of every kind, bias, change and damage.
pub fn any_jobs_open(product: &impl Product, seed: u64, jobs: usize) {
    let mut r = Random::new(seed);
    let (mut made, mut answers) = (JobTally::default(), Tally::default());
    for _ in 0..jobs {
        let job = any_job(&mut r);
        answers.count(job.n(), check_open(product, &job.bytes).map(|_| "opens"));
        made.count(&job);
    }
    made.assert_all();
    answers.assert_met(&[of_opening(), vec![Ok("opens")]].concat());
}

/// Jobs at the limits of the small cutter, as they are and changed.
pub fn small_jobs_open(product: &impl Product, seed: u64, jobs: usize) {
    let mut r = Random::new(seed);
    let mut made = Tally::default();
    let (mut as_made, mut after_change) = (Tally::default(), Tally::default());
    for _ in 0..jobs {
        let (kind, parts) = for_small_cutter(&mut r);
        made.count(parts.n, kind);
        let answer: Answer = check_open(product, &parts.bytes()).map(|_| "opens");
        as_made.count(parts.n, (kind, answer));
        let (bytes, _, _) = any_change(&mut r, &parts);
        let answer: Answer = check_open(product, &bytes).map(|_| "opens");
        after_change.count(dimension_written(&bytes, parts.n), answer);
    }
    made.assert_all();
    as_made.assert_met(&[
        (SmallKind::FewTerms, Ok("opens")),
        (SmallKind::ManyTerms, Ok("opens")),
        (SmallKind::Closed, Ok("opens")),
        (SmallKind::IntoReadableLimit, Ok("opens")),
        (SmallKind::AroundLimits, Ok("opens")),
        (SmallKind::AroundLimits, Err(17)),
    ]);
    after_change.assert_met(&[of_opening(), vec![Ok("opens")]].concat());
}

/// What Trace answers to a job that opens.
const OF_TRACE: [Answer; 7] =
    [Err(9), Err(10), Err(11), Ok("loop"), Ok("edge"), Ok("limit"), Ok("full")];

/// Each of these answers at bias 0 and above.
fn with_and_without_bias(answers: &[Answer]) -> Vec<(bool, Answer)> {
    [false, true].into_iter().flat_map(|bias| answers.iter().map(move |&a| (bias, a))).collect()
}

/// An answer by its name.
fn name(answer: Result<(Verdict, usize), u8>) -> Answer {
    answer.map(|(verdict, _)| verdict.word())
}

/// Jobs of every kind, bias, change and damage, into buffers of any length.
pub fn any_jobs_trace(product: &impl Product, seed: u64, jobs: usize) {
    let mut r = Random::new(seed);
    let (mut made, mut answers) = (JobTally::default(), Tally::default());
    for _ in 0..jobs {
        let job = any_job(&mut r);
        let length = r.index(200);
        let (answer, _) = check_trace(product, &mut r, &job.bytes, length);
        answers.count(job.n(), name(answer));
        made.count(&job);
    }
    made.assert_all();
    answers.assert_met(&[&of_opening()[..], &OF_TRACE].concat());
}

/// Jobs that open, of every kind: also such as the full cutter traces and the small one turns away.
pub fn valid_jobs_trace(product: &impl Product, seed: u64, jobs: usize) {
    let mut r = Random::new(seed);
    let (mut made, mut answers, mut away) = (Tally::default(), Tally::default(), Tally::default());
    for _ in 0..jobs {
        let (names, parts) = valid(&mut r);
        made.count(parts.n, names);
        let answer = check_spaces(product, &mut r, &parts, 60).0;
        answers.count(parts.n, (parts.bias > 0, name(answer)));
        if answer == Err(17) {
            let full = product.trace(&parts.bytes(), &mut vec![0; 3 * parts.n * 60]);
            away.count(parts.n, name(full));
        }
    }
    made.assert_all();
    answers.assert_met(&with_and_without_bias(&[&OF_TRACE[..], &[Err(17)]].concat()));
    away.assert_includes(&[Ok("edge"), Ok("full"), Err(11)]);
}

/// Traces with much space, and then with every space around the count of places and with none: with
/// less space than places the verdict is full, and what is written is the beginning of the list.
fn check_spaces(product: &impl Product, r: &mut Random, parts: &Parts, much: usize) -> Traced {
    let (job, size) = (parts.bytes(), 3 * parts.n);
    let (answer, list) = check_trace(product, r, &job, size * much);
    let count = answer.map_or(0, |(_, count)| count);
    for space in [0, 1, count.max(1) - 1, count, count + 1] {
        // With more space than before the list may be longer.
        if space > much {
            continue;
        }
        let wanted = answer.map(|whole| if space < count { (Verdict::Full, space) } else { whole });
        let length = size * space + r.pick(&[0, 1, size - 1]);
        let before = r.bytes(length);
        let (found, buffer) = both_traces(product, &job, &before);
        assert_eq!(found, wanted, "space for {space} in {job:?}");
        let written = wanted.map_or(0, |(_, written)| size * written);
        assert!(buffer[..written] == list[..written], "another list: {job:?}");
        assert!(buffer[written..] == before[written..], "bytes behind the list: {job:?}");
    }
    (answer, list)
}

/// The coordinates at the limit that a trace comes to, by axis.
fn at_limit(n: usize, places: impl Iterator<Item = Place>) -> BTreeSet<(usize, i64)> {
    let mut found = BTreeSet::new();
    for v in places.flat_map(|place| place.facet.vertices().into_iter().take(n)) {
        let at = v[..n].iter().enumerate().filter(|(_, x)| x.abs() == 64);
        found.extend(at.map(|(k, &x)| (k + 1, x)));
    }
    found
}

/// Jobs at the limits of the small cutter: traces come to 64 and to -64 on every axis, each at
/// least so often, traces of polynomials with 16 terms come to an edge and back to the start a
/// tenth as often, and every answer comes up at bias 0 and above.
pub fn small_jobs_trace(product: &impl Product, seed: u64, jobs: usize, least: u64) {
    let mut r = Random::new(seed);
    let (mut made, mut answers, mut met) = (Tally::default(), Tally::default(), Tally::default());
    let mut terms = Tally::default();
    for _ in 0..jobs {
        let (kind, parts) = for_small_trace(&mut r);
        let (n, size) = (parts.n, 3 * parts.n);
        made.count(n, kind);
        let (answer, list) = check_spaces(product, &mut r, &parts, 80);
        answers.count(n, (parts.bias > 0, name(answer)));
        let Ok((_, count)) = answer else { continue };
        let places = list.chunks_exact(size).take(count);
        let read = |bytes| Place::read(n, bytes).expect("a place");
        at_limit(n, places.map(read)).into_iter().for_each(|at| met.count(n, at));
        if parts.polynomials.iter().any(|polynomial| polynomial.len() == SMALL_TERMS) {
            terms.count(n, name(answer));
        }
    }
    made.assert_all();
    answers.assert_met(&with_and_without_bias(&[&OF_TRACE[..], &[Err(17)]].concat()));
    for n in DIMENSIONS {
        let wanted: Vec<_> = (1..=n).flat_map(|axis| [(axis, 64), (axis, -64)]).collect();
        met.assert_often_in(n, least, &wanted);
        if Limits::of(n).terms > SMALL_TERMS {
            terms.assert_often_in(n, least / 10, &[Ok("edge"), Ok("loop")]);
        }
    }
}

/// A straight curve from end to end of a box from -64 to 64, along each axis: the small cutter goes
/// up to 64 and down to -64.
pub fn whole_axes(product: &impl Product) {
    let mut r = Random::new(50);
    for n in DIMENSIONS {
        for axis in 1..=n {
            let mut parts = Parts { ends: vec![(-64, 64); n], ..case_c(n) };
            let others: Vec<usize> = (1..=n).filter(|&other| other != axis).collect();
            let along = |&other: &usize| vec![term(1, &power_of(other, 1))];
            parts.polynomials = others.iter().map(along).collect();
            let masks: Vec<u8> =
                (1..n).map(|k| others[..k].iter().map(|other| 1 << (other - 1)).sum()).collect();
            for (low, side) in [(-64, 0), (64, 1)] {
                let mut lowest = vec![0; n];
                lowest[axis - 1] = low;
                parts.start = place(&lowest, &masks, side);
                let (answer, list) = check_spaces(product, &mut r, &parts, 130 * n);
                assert_eq!(answer, Ok((Verdict::Edge, 128 * n + 1)));
                let places = list.chunks_exact(3 * n).take(128 * n + 1);
                let last = places.last().and_then(|bytes| Place::read(n, bytes)).expect("a place");
                assert_eq!(last.facet.lowest[axis - 1], -low);
            }
        }
    }
}
