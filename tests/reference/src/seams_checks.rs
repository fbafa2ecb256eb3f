//! Request 2.4, the list of seams, as checks of any product. Answer and every byte of the buffer
//! must be what the flood fill over the box says, whatever the start; and the seams listed must be
//! what Judge and Trace of the same product say of the box.

use std::collections::BTreeMap;

use crate::build::{case_c, gathered, power_of, product as product_of, term, Parts};
use crate::cartesian::cartesian;
use crate::crossed::Term;
use crate::curve::vertices_of_box;
use crate::generate::{
    any_job_in_small_box, any_outlines, outlines_of, through_cube, vertex_in, JobTally, Random,
    Size,
};
use crate::grid::{chains, Facet, Place};
use crate::job::{open, Job};
use crate::limits::{DIMENSIONS, LARGEST_COORDINATE};
use crate::long_curves::long_curves;
use crate::many_seams::many_seams;
use crate::named;
use crate::operations::{facet_columns, facet_is_crossed, with_start, Verdict};
use crate::product::{Product, Reference};
use crate::seams::{seams_of, Ending, Seam};
use crate::seams_met::SeamsMet;
use crate::sums_met::{SumsMet, AROUND_BIAS};
use crate::tally::{Answer, ByDimension, Named, Tally};
use crate::term_checks::{spoiled, OTHER_REFUSALS};

/// A job that opens, and its seams by the flood fill.
struct Case {
    job: Job,
    bytes: Vec<u8>,
    seams: Vec<Seam>,
    /// The bytes of their places, one after another.
    list: Vec<u8>,
}

impl Case {
    fn of(parts: &Parts) -> Case {
        let (job, bytes) = (parts.opened(), parts.bytes());
        let seams = seams_of(&job);
        let list = seams.iter().flat_map(|seam| seam.place().bytes()).collect();
        Case { job, bytes, seams, list }
    }

    /// The bytes of a place.
    fn size(&self) -> usize {
        3 * self.job.n
    }

    /// Lists the seams in a buffer of so many bytes. The start may be another than the job's.
    fn check_with(&self, product: &impl Product, r: &mut Random, start: &Place, length: usize) {
        let job = with_start(&self.bytes, start);
        let before = r.bytes(length);
        let mut buffer = before.clone();
        let answer = product.seams(&job, &mut buffer);
        let space = length / self.size();
        let ending = if self.seams.len() > space { Ending::Full } else { Ending::Complete };
        let count = self.seams.len().min(space);
        assert_eq!(answer, Ok((ending, count)), "{length} bytes for {job:?}");
        let (written, kept) = buffer.split_at(self.size() * count);
        assert!(written == &self.list[..written.len()], "another list: {length} bytes for {job:?}");
        let is_kept = kept == &before[written.len()..];
        assert!(is_kept, "bytes behind the list: {length} bytes for {job:?}");
    }

    fn check(&self, product: &impl Product, r: &mut Random, length: usize) {
        self.check_with(product, r, &self.job.start, length);
    }
}

named! {
    /// Where the start of a job lies, which does not matter.
    StartKind {
        /// On a facet of a seam; anywhere in the box if there is none.
        OnSeam: 2,
        /// At a vertex of the box.
        InBox: 2,
        /// At a high end of the box, or just outside.
        Beside: 1,
        /// At the ends of 16 bits, or just behind the largest coordinates of a box.
        FarOut: 1,
    }
}

/// A well-formed start of that kind, with any side.
fn start_of(r: &mut Random, case: &Case, kind: StartKind) -> Place {
    let (n, ends) = (case.job.n, &case.job.ends);
    let mut facet = Facet { n, lowest: vertex_in(r, ends), masks: r.pick(chains(n)) };
    let k = r.index(n);
    let (low, high) = ends[k];
    match kind {
        StartKind::OnSeam if !case.seams.is_empty() => {
            let seam = &case.seams[r.index(case.seams.len())];
            facet = r.pick(&seam.facets);
        }
        StartKind::OnSeam | StartKind::InBox => {}
        StartKind::Beside => facet.lowest[k] = r.pick(&[low - 1, high, high + 1]),
        StartKind::FarOut => facet.lowest[k] = r.pick(&[-32_768, 32_767, -257, 257]),
    }
    Place { facet, side: r.below(2) as u8 }
}

/// What Trace may find at a start.
const AT_START: [Answer; 4] = [Err(9), Err(10), Err(11), Ok("crossed")];

/// What it finds there.
fn at_start(job: &Job, start: &Place) -> Answer {
    facet_columns(job, &start.facet)?;
    if facet_is_crossed(job, &start.facet) {
        Ok("crossed")
    } else {
        Err(11)
    }
}

/// How often each of what is counted must come up, by dimension.
pub struct Least {
    pub listed: ByDimension,
    pub runs: ByDimension,
    pub standing: ByDimension,
    pub orders: ByDimension,
    pub chains: ByDimension,
    pub lies: ByDimension,
    pub starts: u64,
}

/// So many jobs in small boxes, with any start; each with space for all its seams or a little more
/// and, if it has some, with any space that is no larger.
pub fn small_boxes(product: &impl Product, seed: u64, jobs: usize, least: Least) {
    let mut r = Random::new(seed);
    let (mut made, mut starts) = (Tally::default(), Tally::default());
    let (mut met, mut sums) = (SeamsMet::default(), SumsMet::default());
    for k in 0..jobs {
        let (kind, parts) = any_outlines(&mut r);
        let case = Case::of(&parts);
        let (count, size) = (case.seams.len(), case.size());
        let kind_of_start = r.named();
        let start = start_of(&mut r, &case, kind_of_start);
        let spaces = [count + r.index(3), r.index(count + 1)];
        for &space in &spaces[..1 + (count > 0) as usize] {
            let rest = r.index(size);
            let length = size * space + r.pick(&[0, 0, rest]);
            case.check_with(product, &mut r, &start, length);
            met.count_answer(&case.job, &case.seams, space);
        }
        made.count(parts.n, kind);
        starts.count(parts.n, at_start(&case.job, &start));
        met.count_seams(&case.job, &case.seams);
        // Of the values at the places a part is enough.
        if k % 8 == 0 {
            case.seams.iter().for_each(|seam| sums.count(&case.job, &seam.place()));
        }
    }
    made.assert_all();
    starts.assert_often(least.starts, &AT_START);
    sums.assert_includes(&[AROUND_BIAS]);
    met.assert_listed(least.listed);
    met.assert_runs(least.runs);
    met.assert_standing(least.standing);
    met.assert_orders(least.orders);
    met.assert_chains(least.chains);
    met.assert_lies(least.lies);
}

/// So many jobs, each with every space from none to one more than it has seams, with no byte more
/// and with some that are no place.
pub fn every_space(product: &impl Product, seed: u64, jobs: usize, least: ByDimension) {
    let mut r = Random::new(seed);
    let mut met = SeamsMet::default();
    for _ in 0..jobs {
        let case = Case::of(&any_outlines(&mut r).1);
        for space in 0..=case.seams.len() + 1 {
            for rest in [0, 1 + r.index(case.size() - 1)] {
                case.check(product, &mut r, case.size() * space + rest);
            }
            met.count_answer(&case.job, &case.seams, space);
        }
    }
    met.assert_listed(least);
}

/// So many jobs, each with two starts of each kind: the answer is the same.
pub fn any_start(product: &impl Product, seed: u64, jobs: usize, least: u64) {
    let mut r = Random::new(seed);
    let (mut kinds, mut answers) = (Tally::default(), Tally::default());
    for _ in 0..jobs {
        let case = Case::of(&any_outlines(&mut r).1);
        let length = case.size() * r.index(case.seams.len() + 2);
        for kind in StartKind::all().into_iter().flat_map(|kind| [kind; 2]) {
            let start = start_of(&mut r, &case, kind);
            case.check_with(product, &mut r, &start, length);
            kinds.count(case.job.n, kind);
            answers.count(case.job.n, at_start(&case.job, &start));
        }
    }
    kinds.assert_all();
    answers.assert_met(&AT_START);
    answers.assert_often(least, &AT_START);
}

/// How the list differs from that of the same job at bias 0.
const BY_BIAS: [&str; 4] = ["the same", "as many seams", "fewer", "more"];

/// So many jobs with a bias above 0: it changes lists in each way.
pub fn goes_by_the_bias(product: &impl Product, seed: u64, jobs: usize, least: ByDimension) {
    let mut r = Random::new(seed);
    let mut met = Tally::default();
    for _ in 0..jobs {
        let parts = loop {
            let (_, parts) = any_outlines(&mut r);
            if parts.bias > 0 {
                break parts;
            }
        };
        let [biased, plain] =
            [parts.bias, 0].map(|bias| Case::of(&Parts { bias, ..parts.clone() }));
        for case in [&biased, &plain] {
            case.check(product, &mut r, case.size() * (case.seams.len() + 1));
        }
        let [same, as_many, fewer, more] = BY_BIAS;
        let (one, other) = (biased.seams.len(), plain.seams.len());
        met.count(
            parts.n,
            match one.cmp(&other) {
                std::cmp::Ordering::Less => fewer,
                std::cmp::Ordering::Greater => more,
                std::cmp::Ordering::Equal if biased.list == plain.list => same,
                std::cmp::Ordering::Equal => as_many,
            },
        );
    }
    for (n, least) in DIMENSIONS.into_iter().zip(least) {
        met.assert_often_in(n, least, &BY_BIAS);
    }
}

/// Whether a box can be looked at whole in little time.
pub fn is_small(job: &Job) -> bool {
    let vertices: i64 = job.ends.iter().map(|(low, high)| high - low + 1).product();
    vertices * (chains(job.n).len() as i64) < 20_000
}

/// Jobs of every kind, bias, change and damage, in buffers of any length: answers and buffers are
/// the reference's, and a refusal leaves the buffer as it was. Where a change has made the box
/// large, which is seldom, nothing is asked.
pub fn any_jobs(product: &impl Product, seed: u64, jobs: usize) {
    let mut r = Random::new(seed);
    let (mut made, mut answers, mut large) = (JobTally::default(), Tally::default(), 0);
    for _ in 0..jobs {
        let job = any_job_in_small_box(&mut r);
        made.count(&job);
        if open(&job.bytes).is_ok_and(|opened| !is_small(&opened)) {
            large += 1;
            continue;
        }
        let length = r.index(50);
        let before = r.bytes(length);
        let (mut buffer, mut wanted_buffer) = (before.clone(), before.clone());
        let answer = product.seams(&job.bytes, &mut buffer);
        let wanted = Reference.seams(&job.bytes, &mut wanted_buffer);
        assert_eq!(answer, wanted, "{length} bytes for {:?}", job.bytes);
        assert!(buffer == wanted_buffer, "other bytes: {length} bytes for {:?}", job.bytes);
        assert!(answer.is_ok() || buffer == before, "a refusal that writes: {:?}", job.bytes);
        answers.count(job.n(), answer.map(|(ending, _)| ending.word()));
    }
    made.assert_all();
    let own = [Ok(Ending::Complete.word()), Ok(Ending::Full.word())];
    answers.assert_met(&(1..=8).map(Err).chain(own).collect::<Vec<Answer>>());
    println!("{large} large boxes");
    assert!(large < jobs / 20);
}

/// Every choice of the refusals 2 to 8, each by one of the ways to it in turn, and cut to under 4
/// bytes: the least number is the answer, and no byte is touched.
pub fn least_number_is_answered(product: &impl Product) {
    let mut r = Random::new(66);
    let mut met = Tally::default();
    let mut check = |n: usize, job: &[u8], least: Option<u8>| {
        let before = r.bytes(3 * n + 1);
        let mut buffer = before.clone();
        assert_eq!(product.seams(job, &mut buffer).err(), least, "{job:?}");
        assert!(least.is_none() || buffer == before, "a refusal that writes: {job:?}");
        met.count(n, least);
    };
    for n in DIMENSIONS {
        // In 12 turns each way comes up with each choice.
        for (turn, choice) in (0..12).flat_map(|turn| (0..1 << 7).map(move |c| (turn, c))) {
            let mut parts = case_c(n);
            let seven = choice >> OTHER_REFUSALS.len() == 1;
            if seven {
                parts.polynomials[turn % (n - 1)][0].coefficient = 0;
            }
            let chosen = OTHER_REFUSALS.iter().enumerate().filter(|(k, _)| choice >> k & 1 == 1);
            let ways: Vec<(u8, usize)> =
                chosen.map(|(_, &(refusal, count))| (refusal, turn % count)).collect();
            let refusals = ways.iter().map(|(refusal, _)| *refusal).chain(seven.then_some(7));
            check(n, &spoiled(&parts, 1 + turn % (n - 1), &ways), refusals.min());
        }
        (0..4).for_each(|cut| check(n, &case_c(n).bytes()[..cut], Some(1)));
    }
    met.assert_met(&[None, Some(1), Some(2), Some(3), Some(4), Some(5), Some(6), Some(7), Some(8)]);
}

/// So many jobs of each dimension in larger boxes, with space for all their seams, for one less and
/// for any number.
pub fn larger_boxes(product: &impl Product, seed: u64, jobs: ByDimension) {
    let mut met = Tally::default();
    for (n, jobs) in DIMENSIONS.into_iter().zip(jobs) {
        let mut r = Random::new(seed);
        let (mut facets, mut longest) = (0, 0);
        for _ in 0..jobs {
            let kind = r.named();
            let case = Case::of(&outlines_of(&mut r, n, kind, Size::Large));
            let count = case.seams.len();
            for space in [count + 1, count, count.max(1) - 1, r.index(count + 1)] {
                case.check(product, &mut r, case.size() * space);
            }
            let lengths = case.seams.iter().map(|seam| seam.facets.len());
            facets += lengths.clone().sum::<usize>();
            longest = longest.max(lengths.max().unwrap_or(0));
            met.count(n, count.min(4));
        }
        println!("{n}: {facets} facets, the longest seam has {longest}");
        assert!(facets as u64 > 10 * jobs && longest > 25);
    }
    met.assert_includes(&[0, 1, 2, 4]);
}

/// A line along an axis of a box that is as long as a box may be, and as narrow on the others; and
/// so many jobs with planes across such a box.
pub fn long_boxes(product: &impl Product, seed: u64, jobs: usize) {
    let mut r = Random::new(seed);
    let mut met = Tally::default();
    for (n, axis) in DIMENSIONS.into_iter().flat_map(|n| (1..=n).map(move |axis| (n, axis))) {
        let (most, others) = (LARGEST_COORDINATE, (1..=n).filter(move |&other| other != axis));
        let mut parts = Parts { ends: vec![(0, 1); n], ..case_c(n) };
        parts.ends[axis - 1] = (-most, most);
        let plane = |other| vec![term(1, &power_of(other, 1))];
        parts.polynomials = others.map(plane).collect();
        let line = Case::of(&parts);
        line.check(product, &mut r, 2 * line.size());
        assert_eq!(line.seams.len(), 1);
        assert_eq!(line.seams[0].facets.len(), 2 * most as usize * n + 1);
        assert_eq!(line.seams[0].least().lowest[axis - 1], -most);
        for _ in 0..jobs {
            // Close to a vertex, and more often at an end of the box.
            let mut at = vertex_in(&mut r, &parts.ends);
            at[axis - 1] = r.pick(&[-most, most, most - 1, at[axis - 1]]);
            let form = |r: &mut Random| {
                let terms: Vec<Term> = (1..=n)
                    .map(|k| Term {
                        coefficient: r.pick(&[2, 1, -1, -2]),
                        exponents: power_of(k, 1),
                    })
                    .collect();
                let there: i64 = terms.iter().zip(at).map(|(t, x)| t.coefficient * x).sum();
                gathered(&[&terms[..], &[term(r.between(-1, 1) - there, &[])]].concat())
            };
            parts.polynomials = (1..n).map(|_| form(&mut r)).collect();
            let case = Case::of(&parts);
            case.check(product, &mut r, case.size() * (case.seams.len() + 1));
            met.count(n, (axis, !case.seams.is_empty()));
        }
    }
    for n in DIMENSIONS {
        let wanted: Vec<_> = (1..=n).map(|axis| (axis, true)).collect();
        met.assert_often_in(n, jobs as u64 / 8, &wanted);
    }
}

/// The long closed curve of dimension 2, in the largest box.
pub fn long_seam(product: &impl Product) {
    let [(parts, count), ..] = long_curves();
    let case = Case::of(&parts);
    assert_eq!(case.seams.iter().map(|seam| seam.facets.len()).max(), Some(count));
    case.check(product, &mut Random::new(67), case.size() * (case.seams.len() + 1));
}

/// Twice the quadratic polynomial of an axis that is 1 at -1, 0 or 1 and 0 at the other two.
fn one_at(axis: usize, x: i64) -> Vec<Term> {
    let own = |coefficient, e| Term { coefficient, exponents: power_of(axis, e) };
    match x {
        0 => vec![term(2, &[]), own(-2, 2)],
        _ => vec![own(x, 1), own(1, 2)],
    }
}

/// Every choice of signs at the nine vertices of a square of four in dimension 2, and at the eight
/// of a cube, for both polynomials, in dimension 3; with space for all seams and for one less.
pub fn all_signs(product: &impl Product) {
    let mut r = Random::new(64);
    let mut met = Tally::default();
    let mut check = |n: usize, ends: (i64, i64), polynomials: Vec<Vec<Term>>| {
        let case = Case::of(&Parts { ends: vec![ends; n], polynomials, ..case_c(n) });
        let count = case.seams.len();
        for space in [count, count.max(1) - 1] {
            case.check(product, &mut r, case.size() * space);
        }
        met.count(n, count);
    };
    let signs = |choice: usize, k: usize| if choice >> k & 1 == 1 { 1 } else { -1 };
    let vertices: Vec<[i64; 2]> = cartesian(&vec![vec![-1, 0, 1]; 2]);
    for choice in 0..1 << vertices.len() {
        let mut terms = Vec::new();
        for (k, [x, y]) in vertices.iter().enumerate() {
            let there = product_of(&one_at(1, *x), &one_at(2, *y));
            terms.extend(product_of(&[term(signs(choice, k), &[])], &there));
        }
        check(2, (-1, 1), vec![gathered(&terms)]);
    }
    for choice in 0..1 << 16 {
        let at = |from: usize| (from..from + 8).map(|k| signs(choice, k)).collect::<Vec<i64>>();
        check(3, (0, 1), [0, 8].map(|from| through_cube(&[0; 4], &at(from))).to_vec());
    }
    met.assert_met_in(2, &[0, 1, 2, 3, 4]);
    met.assert_met_in(3, &[0, 1, 2, 3, 4, 6]);
}

/// Jobs with hundreds or thousands of seams, with space for all, for one less and, where there are
/// more, for as many as the program has space for.
pub fn with_many_seams(product: &impl Product) {
    let mut r = Random::new(65);
    for (parts, count) in many_seams() {
        let case = Case::of(&parts);
        assert_eq!(case.seams.len(), count);
        for space in [count + 1, count - 1] {
            case.check(product, &mut r, case.size() * space + 1);
        }
    }
}

/// The facets of the traces from a place and from the place turned, and their verdicts.
fn traced(product: &impl Product, job: &[u8], place: &Place) -> (Vec<Facet>, [Verdict; 2]) {
    let size = place.bytes().len();
    let mut facets = Vec::new();
    let verdicts = [*place, place.turned()].map(|start| {
        let mut buffer = vec![0; size * 10_000];
        let answer = product.trace(&with_start(job, &start), &mut buffer);
        let (verdict, count) = answer.expect("a crossed facet");
        let read = |bytes| Place::read(place.facet.n, bytes).expect("a place").facet;
        facets.extend(buffer.chunks_exact(size).take(count).map(read));
        verdict
    });
    (facets, verdicts)
}

/// So many jobs of each dimension, by Judge and Trace of the same product alone: the places rise
/// strictly and have side 0; each is the least facet of the two traces from it; and each facet of the
/// box is crossed, with readable values, exactly if it is on the traces from one place, and then it
/// is on those of no other.
pub fn each_facet_in_one_seam(product: &impl Product, seed: u64, jobs: ByDimension) {
    let mut met = Tally::default();
    for (n, jobs) in DIMENSIONS.into_iter().zip(jobs) {
        let mut r = Random::new(seed);
        for _ in 0..jobs {
            let kind = r.named();
            let parts = outlines_of(&mut r, n, kind, Size::Small);
            let (job, size) = (parts.bytes(), 3 * n);
            let mut buffer = vec![0; size * 100];
            let (ending, count) = product.seams(&job, &mut buffer).expect("a job that opens");
            assert_eq!(ending, Ending::Complete);
            let read = |bytes| Place::read(n, bytes).expect("a place");
            let places: Vec<Place> = buffer.chunks_exact(size).take(count).map(read).collect();
            let key = |facet: &Facet| (facet.lowest, facet.masks);
            let rises = |pair: &[Place]| key(&pair[0].facet) < key(&pair[1].facet);
            assert!(places.windows(2).all(rises), "{job:?}");
            let mut seam_of: BTreeMap<Facet, usize> = BTreeMap::new();
            for (number, place) in places.iter().enumerate() {
                assert_eq!(place.side, 0, "{job:?}");
                let (facets, verdicts) = traced(product, &job, place);
                for facet in &facets {
                    assert!(key(facet) >= key(&place.facet), "{facet:?} in {job:?}");
                    let before = seam_of.insert(*facet, number);
                    assert!(before.is_none_or(|other| other == number), "{facet:?} in {job:?}");
                }
                let is_alone = facets.iter().all(|facet| *facet == place.facet);
                met.count(n, (verdicts[0], is_alone));
            }
            for lowest in vertices_of_box(&parts.opened()) {
                for &masks in chains(n) {
                    let facet = Facet { n, lowest, masks };
                    let judged = product.judge(&job, &Place { facet, side: 0 }.bytes());
                    let is_crossed = judged == Ok(true);
                    assert_eq!(is_crossed, seam_of.contains_key(&facet), "{facet:?} in {job:?}");
                }
            }
        }
    }
    met.assert_met(&[
        (Verdict::Loop, false),
        (Verdict::Edge, false),
        (Verdict::Edge, true),
        (Verdict::Limit, false),
        (Verdict::Limit, true),
    ]);
}
