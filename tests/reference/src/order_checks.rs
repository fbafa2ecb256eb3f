//! Request 2.14, the order of cutting, as checks of any product. Answers must be the reference's,
//! which finds the curves of a job once for all of its lists; where a list was made to be refused,
//! with the number that it was made for.

use std::collections::HashSet;

use crate::build::{case_c, gathered, place, product as product_of, term, Parts};
use crate::generate::{
    any_change, any_place, nest_of, valid, AnyJob, JobTally, Nest, PlaceTally, Random,
};
use crate::grid::{vertex, Facet, Place};
use crate::job::open;
use crate::limits::{DIMENSIONS, LARGEST_COORDINATE};
use crate::long_curves::long_curves;
use crate::many_seams::many_seams;
use crate::operations::{with_start, Verdict};
use crate::order::{Curves, CutOrder, Values};
use crate::order_lists::{
    any_fault, bytes_of, nest, with_case, with_faults, At, Case, Fault, ListKind, N, OF_A_PLACE,
    SIZE,
};
use crate::order_met::{OrderMet, LIES};
use crate::product::{Product, Reference};
use crate::tally::{Answer, Named, Tally};
use crate::term_checks::{spoiled, OTHER_REFUSALS};

/// Names for the answers; the positions from 4 on have one together.
const ANSWERS: [Answer; 6] = [Ok("stands"), Ok("0"), Ok("1"), Ok("2"), Ok("3"), Ok("later")];

fn named_answer(answer: Result<CutOrder, u8>) -> Answer {
    answer.and_then(|order| match order {
        CutOrder::Stands => ANSWERS[0],
        CutOrder::Breaks(k) => ANSWERS[1 + k.min(4)],
    })
}

/// How often each of what is counted must come up.
pub struct Least {
    /// Each answer that is no refusal, at bias 0 and above.
    pub answers: u64,
    /// The positions 0 to 3, at any bias.
    pub positions: u64,
    /// Each fault of a place, at each position.
    pub faults: u64,
    /// Two refusals, of an earlier and of a later position.
    pub two_refusals: u64,
    /// So many loops inside one, which stand or do not.
    pub inner: u64,
    /// The rest; a quarter of it over vertices that are not readable, a fortieth with three edges
    /// passed.
    pub others: u64,
}

/// So many jobs with several loops, each with lists of every kind.
pub fn any_lists(product: &impl Product, seed: u64, jobs: usize, least: Least) {
    let mut r = Random::new(seed);
    let (mut made, mut kinds) = (Tally::default(), Tally::default());
    let (mut answers, mut positions) = (Tally::default(), Tally::default());
    let (mut faults_met, mut two) = (Tally::default(), Tally::default());
    let mut met = OrderMet::default();
    for _ in 0..jobs {
        let nest_kind: Nest = r.named();
        let parts = nest_of(&mut r, nest_kind);
        made.count(N, nest_kind);
        with_case(&parts, |case| {
            for k in 0..case.lists() {
                let kind: ListKind = r.named();
                let most = r.pick(&[0, 1, 2, 3, 4, 5, 8]);
                let some = case.some_loops(&mut r, most);
                let (list, wanted) = match kind {
                    ListKind::Loops => (bytes_of(&case.places_on(&mut r, &some)), None),
                    ListKind::OuterBefore | ListKind::OuterBehind => {
                        let before = kind == ListKind::OuterBefore;
                        let chosen = nest(&mut r, case, before).unwrap_or(some);
                        (bytes_of(&case.places_on(&mut r, &chosen)), None)
                    }
                    ListKind::OneFault => {
                        let fault = any_fault(&mut r, case);
                        let made = with_faults(&mut r, case, &some, &[fault]);
                        let Some((list, at)) = made else { continue };
                        faults_met.count(N, (fault, at[0]));
                        (list, Some(fault.refusal()))
                    }
                    ListKind::TwoFaults => {
                        let faults = [(); 2].map(|()| any_fault(&mut r, case));
                        let made = with_faults(&mut r, case, &some, &faults);
                        let Some((list, _)) = made else { continue };
                        two.count(N, faults.map(|fault| fault.refusal()));
                        (list, Some(faults[0].refusal()))
                    }
                    ListKind::OtherLength => {
                        let fault = any_fault(&mut r, case);
                        let made = with_faults(&mut r, case, &some, &[fault]);
                        let mut list = made.map_or(Vec::new(), |(list, _)| list);
                        let length = list.len() + 1 + r.index(SIZE - 1);
                        list.resize(length, r.pick(&[0, 1]));
                        (list, Some(13))
                    }
                    ListKind::Noise => {
                        let length = r.pick(&[0, 1, 2, 3, 5, 6, 6, 7, 11, 12, 12, 13, 18, 24]);
                        (r.bytes(length), None)
                    }
                };
                let answer = case.ask(product, &list);
                if let Some(wanted) = wanted {
                    assert_eq!(answer, Err(wanted), "{list:?} for {:?}", case.bytes);
                }
                kinds.count(N, (kind, answer.is_ok()));
                answers.count(N, (case.job.bias > 0, named_answer(answer)));
                positions.count(N, named_answer(answer));
                // Of what lists had a part is enough.
                if let (Ok(order), true) = (answer, k % 5 == 0) {
                    let read = |bytes| Place::read(N, bytes).expect("a place");
                    let places: Vec<Place> = list.chunks_exact(SIZE).map(read).collect();
                    met.count(case, &places, order == CutOrder::Stands);
                }
            }
        });
    }
    made.assert_often_in(N, 1, &Nest::all());
    let accepted = [ListKind::Loops, ListKind::OuterBefore, ListKind::OuterBehind, ListKind::Noise];
    let refused = [ListKind::OneFault, ListKind::TwoFaults, ListKind::OtherLength, ListKind::Noise];
    let of_kinds = accepted.map(|kind| (kind, true)).into_iter();
    kinds.assert_met_in(N, &of_kinds.chain(refused.map(|kind| (kind, false))).collect::<Vec<_>>());
    let each = |bias| ANSWERS.map(|answer| (bias, answer));
    answers.assert_often_in(N, least.answers, &[false, true].map(each).concat());
    let refusals = OF_A_PLACE.map(Err);
    positions.assert_met_in(N, &[&ANSWERS[..], &refusals].concat());
    positions.assert_often_in(N, least.positions, &ANSWERS[..5]);
    let mut wanted = Vec::new();
    for fault in Fault::all() {
        let at = [At::Between, At::Last].into_iter();
        let early = [At::Only, At::First].into_iter().filter(|_| !fault.is_for_a_later_one());
        wanted.extend(at.chain(early).map(|at| (fault, at)));
    }
    faults_met.assert_met_in(N, &wanted);
    faults_met.assert_often_in(N, least.faults, &wanted);
    let pairs = OF_A_PLACE.into_iter().flat_map(|one| OF_A_PLACE.map(|other| [one, other]));
    two.assert_often_in(N, least.two_refusals, &pairs.collect::<Vec<_>>());
    let inner =
        (0..=5).flat_map(|count| [(count, true), (count, false)]).filter(|c| *c != (0, false));
    met.inner.assert_often_in(N, least.inner, &inner.collect::<Vec<_>>());
    met.lengths.assert_often_in(N, least.others, &[0, 1, 2, 3, 4, 5, 6, 7]);
    met.passed.assert_often_in(N, least.others, &[0, 1, 2]);
    met.passed.assert_often_in(N, least.others / 40, &[3]);
    met.over_unreadable.assert_often_in(N, least.others / 4, &[false, true]);
    met.sharing.assert_often_in(N, least.others, &[false, true]);
    let of_mask = |mask| LIES.map(|lies| [(mask, 0, lies), (mask, 1, lies)]).concat();
    met.places.assert_often_in(N, least.others, &[1, 2, 3].map(of_mask).concat());
}

/// All orders of the numbers under a count.
fn all_orders(count: usize) -> Vec<Vec<usize>> {
    let mut all = vec![Vec::new()];
    for next in 0..count {
        let with_next = |order: &Vec<usize>| {
            let order = order.clone();
            (0..=order.len()).map(move |k| {
                let mut longer = order.clone();
                longer.insert(k, next);
                longer
            })
        };
        all = all.iter().flat_map(with_next).collect();
    }
    all
}

/// What the answer is by which loop is inside which, whatever the places.
fn by_loops(case: &Case, indices: &[usize]) -> CutOrder {
    let has_later_inside =
        |k: &usize| indices[k + 1..].iter().any(|&later| case.inside[later][indices[*k]]);
    (0..indices.len()).find(has_later_inside).map_or(CutOrder::Stands, CutOrder::Breaks)
}

/// So many jobs with two loops or more: up to five of them, with one that has others inside if
/// there is one, in every order. Some order stands; where one loop is inside another, some other
/// does not.
pub fn every_order(product: &impl Product, seed: u64, jobs: usize, least: u64) {
    let mut r = Random::new(seed);
    let (mut met, mut standing) = (Tally::default(), Tally::default());
    let mut asked = 0;
    while asked < jobs {
        let kind = r.pick(&[Nest::Row, Nest::Studded, Nest::Wells, Nest::IntoLimit, Nest::Rounds]);
        let parts = nest_of(&mut r, kind);
        with_case(&parts, |case| {
            let mut chosen = case.all_loops(&mut r);
            if chosen.len() < 2 {
                return;
            }
            asked += 1;
            if let Some(one) = case.outer().first() {
                // That loop first and one inside it, then the others as they come.
                let inner = r.pick(&case.inside_of(*one));
                chosen.sort_by_key(|index| (index != one, *index != inner));
            }
            chosen.truncate(r.pick(&[2, 3, 4, 5, 5]));
            let places = case.places_on(&mut r, &chosen);
            let mut stand = 0;
            let orders = all_orders(chosen.len());
            for order in &orders {
                let indices: Vec<usize> = order.iter().map(|&k| chosen[k]).collect();
                let list: Vec<Place> = order.iter().map(|&k| places[k]).collect();
                let answer = case.ask(product, &bytes_of(&list));
                assert_eq!(answer, Ok(by_loops(case, &indices)), "{list:?} for {:?}", case.bytes);
                stand += (answer == Ok(CutOrder::Stands)) as usize;
                met.count(N, (chosen.len(), named_answer(answer)));
            }
            let nested = chosen.iter().any(|&a| chosen.iter().any(|&b| case.inside[a][b]));
            assert!(stand > 0 && nested == (stand < orders.len()), "{:?}", case.bytes);
            standing.count(N, (chosen.len(), orders.len() / stand));
        });
    }
    let wanted = (2..=5).flat_map(|count| ANSWERS[..count].iter().map(move |&a| (count, a)));
    met.assert_met_in(N, &wanted.clone().collect::<Vec<_>>());
    met.assert_often_in(N, least, &wanted.collect::<Vec<_>>());
    // One loop with k of the others inside comes last of these in one of k + 1 orders.
    let shares = (2..=5).flat_map(|count| (1..=count).map(move |share| (count, share)));
    standing.assert_met_in(N, &shares.collect::<Vec<_>>());
}

/// So many jobs with a loop inside another, and as many with two side by side: every facet and side
/// of each of the two, with any place on the other, in both orders. The answer does not depend on
/// them.
pub fn every_place(product: &impl Product, seed: u64, jobs: usize) {
    let mut r = Random::new(seed);
    let mut met = Tally::default();
    let mut asked = [0; 2];
    while asked.iter().any(|&count| count < jobs) {
        let kind = r.named();
        let parts = nest_of(&mut r, kind);
        with_case(&parts, |case| {
            let all = case.all_loops(&mut r);
            let pairs: Vec<[usize; 2]> =
                all.iter().flat_map(|&a| all.iter().map(move |&b| [a, b])).collect();
            for nested in [false, true] {
                let fits = |&&[a, b]: &&[usize; 2]| {
                    a != b && case.inside[a][b] == nested && !case.inside[b][a]
                };
                let found = pairs.iter().find(fits);
                let Some(&[a, b]) = found.filter(|_| asked[nested as usize] < jobs) else {
                    continue;
                };
                asked[nested as usize] += 1;
                for (all_of, other) in [(a, b), (b, a)] {
                    let facets = case.curve(case.loops[all_of]).facets.clone();
                    for (facet, side) in facets.iter().flat_map(|f| [(f, 0), (f, 1)]) {
                        let one = Place { facet: *facet, side };
                        let two = [one, case.place_on(&mut r, other)];
                        let of_a_first = if all_of == a { two } else { [two[1], two[0]] };
                        let of_b_first = [of_a_first[1], of_a_first[0]];
                        let first = case.ask(product, &bytes_of(&of_a_first));
                        assert_eq!(first, Ok(CutOrder::Stands), "{:?}", case.bytes);
                        let second = case.ask(product, &bytes_of(&of_b_first));
                        let wanted = if nested { CutOrder::Breaks(0) } else { CutOrder::Stands };
                        assert_eq!(second, Ok(wanted), "{:?}", case.bytes);
                        met.count(N, (nested, all_of == a));
                    }
                }
            }
        });
    }
    met.assert_often_in(
        N,
        10 * jobs as u64,
        &[(false, false), (false, true), (true, false), (true, true)],
    );
}

/// What Point and Trace of the same product say of a list: the refusal, or the facets of each loop.
fn traced(product: &impl Product, job: &[u8], list: &[u8]) -> Result<Vec<HashSet<Facet>>, u8> {
    let mut loops: Vec<HashSet<Facet>> = Vec::new();
    for bytes in list.chunks_exact(SIZE) {
        product.point(job, bytes)?;
        let start = Place::read(N, bytes).expect("a place");
        let mut buffer = vec![0; SIZE * 1_000];
        let (verdict, count) = product.trace(&with_start(job, &start), &mut buffer)?;
        if verdict != Verdict::Loop || loops.iter().any(|facets| facets.contains(&start.facet)) {
            assert_ne!(verdict, Verdict::Full);
            return Err(18);
        }
        let read = |bytes| Place::read(N, bytes).expect("a place").facet;
        loops.push(buffer.chunks_exact(SIZE).take(count).map(read).collect());
    }
    Ok(loops)
}

/// So many jobs with five lists each, by Point and Trace of the same product alone: the refusal is
/// Point's, or 18 as Trace has it; inside is counted on the places that Trace wrote.
pub fn as_trace_says(product: &impl Product, seed: u64, jobs: usize) {
    let mut r = Random::new(seed);
    let mut met = Tally::default();
    for _ in 0..jobs {
        let kind: Nest = r.named();
        let parts = nest_of(&mut r, kind);
        with_case(&parts, |case| {
            for k in 0..5 {
                let some = case.some_loops(&mut r, 5);
                let fault = any_fault(&mut r, case);
                let made = with_faults(&mut r, case, &some, &[fault]).filter(|_| k == 0);
                let before = r.once_in(2);
                let chosen = nest(&mut r, case, before).unwrap_or(some);
                let list =
                    made.map_or(bytes_of(&case.places_on(&mut r, &chosen)), |(list, _)| list);
                let wanted = traced(product, &case.bytes, &list).map(|loops| {
                    let high = case.job.ends[0].1;
                    let is_inside = |later: usize, k: usize| {
                        let bytes = &list[SIZE * later..SIZE * (later + 1)];
                        let v = Place::read(N, bytes).expect("a place").facet.lowest;
                        let edge = |x: &i64| loops[k].contains(&place(&[*x, v[1]], &[1], 0).facet);
                        (v[0]..high).filter(edge).count() % 2 == 1
                    };
                    let breaks = |k: &usize| (k + 1..loops.len()).any(|later| is_inside(later, *k));
                    (0..loops.len()).find(breaks).map_or(CutOrder::Stands, CutOrder::Breaks)
                });
                let answer = product.cut_order(&case.bytes, &list);
                assert_eq!(answer, wanted, "{list:?} for {:?}", case.bytes);
                met.count(N, named_answer(answer));
            }
        });
    }
    met.assert_met_in(N, &[&ANSWERS[..], &OF_A_PLACE.map(Err)].concat());
}

/// From what to what the bias changes the answer to a list; the last two are rare.
const BY_BIAS: [(&str, &str); 6] = [
    ("refused", "stands"),
    ("refused", "breaks"),
    ("stands", "refused"),
    ("breaks", "refused"),
    ("stands", "breaks"),
    ("breaks", "stands"),
];

/// So many jobs with a bias above 0, each with lists made for it and for the same at bias 0: the
/// bias changes answers in each way.
pub fn goes_by_the_bias(product: &impl Product, seed: u64, jobs: usize, least: u64) {
    let mut r = Random::new(seed);
    let mut met = Tally::default();
    let word = |answer: Result<CutOrder, u8>| match answer {
        Ok(CutOrder::Stands) => "stands",
        Ok(CutOrder::Breaks(_)) => "breaks",
        Err(_) => "refused",
    };
    for _ in 0..jobs {
        let parts = loop {
            let kind = r.named();
            let parts = nest_of(&mut r, kind);
            if parts.bias > 0 {
                break parts;
            }
        };
        let plain = Parts { bias: 0, ..parts.clone() };
        for (one, other) in [(&parts, &plain), (&plain, &parts)] {
            let lists = with_case(one, |case| {
                let mut lists = Vec::new();
                for _ in 0..3 {
                    let most = r.pick(&[1, 2, 2, 3]);
                    let some = case.some_loops(&mut r, most);
                    let before = r.once_in(2);
                    let chosen = nest(&mut r, case, before).unwrap_or(some);
                    let list = bytes_of(&case.places_on(&mut r, &chosen));
                    lists.push((case.ask(product, &list), list));
                }
                lists
            });
            with_case(other, |case| {
                for (answer, list) in &lists {
                    let there = case.ask(product, list);
                    let (plain, biased) =
                        if one.bias == 0 { (*answer, there) } else { (there, *answer) };
                    met.count(N, (word(plain), word(biased)));
                }
            });
        }
    }
    met.assert_often_in(N, least, &BY_BIAS[..4]);
    met.assert_often_in(N, least / 50, &BY_BIAS[4..]);
}

/// Jobs of every kind, bias, change and damage, with up to four places made for the job before the
/// change: those of dimension 3 and 4 that open are refused with 3, whatever the list.
pub fn any_jobs(product: &impl Product, seed: u64, jobs: usize) {
    let mut r = Random::new(seed);
    let (mut made, mut places) = (JobTally::default(), PlaceTally::default());
    let (mut answers, mut opened) = (Tally::default(), Tally::default());
    for _ in 0..jobs {
        let (names, parts) = valid(&mut r);
        let (bytes, change, damages) = any_change(&mut r, &parts);
        let job = AnyJob { bytes, made_in: parts.n, made: names, change, damages };
        let mut list = Vec::new();
        for _ in 0..r.pick(&[0, 1, 1, 1, 2, 3, 4]) {
            let next = any_place(&mut r, &parts);
            list.extend_from_slice(&next.bytes);
            places.count(&next);
        }
        let answer = product.cut_order(&job.bytes, &list);
        assert_eq!(answer, Reference.cut_order(&job.bytes, &list), "{list:?} for {:?}", job.bytes);
        let is_opened = open(&job.bytes).is_ok();
        opened.count(job.n(), (is_opened, answer.is_ok(), answer == Err(3)));
        answers.count(job.n(), named_answer(answer));
        made.count(&job);
    }
    made.assert_all();
    places.assert_all();
    let of_open: Vec<Answer> = (1..=8).map(Err).collect();
    let own = [Err(13), Err(9), Err(10), Err(11), Err(18), Ok("stands")];
    answers.assert_often_in(2, 5, &[&of_open[..], &own].concat());
    for n in DIMENSIONS.into_iter().filter(|&n| n != N) {
        answers.assert_met_in(n, &of_open);
        opened
            .assert_met_in(n, &[(false, false, false), (false, false, true), (true, false, true)]);
    }
}

/// Every choice of the refusals 2 to 8, each by one of the ways to it in turn, and cut to under 4
/// bytes, with lists that are refused and that are not: the least number is the answer, and where
/// there is none 3 in dimension 3 and 4.
pub fn least_number_is_answered(product: &impl Product) {
    let mut met = Tally::default();
    for n in DIMENSIONS {
        // Empty; a byte too many; two places of the dimension, one of them malformed; one outside.
        let far = Place {
            facet: Facet { lowest: vertex(&vec![9; n]), ..case_c(n).start.facet },
            side: 0,
        };
        let malformed = [case_c(n).start.bytes(), vec![255; 3 * n]].concat();
        let lists =
            [(vec![], None), (vec![0], Some(13)), (malformed, Some(18)), (far.bytes(), Some(9))];
        let mut check = |job: &[u8], least: Option<u8>| {
            for (list, own) in &lists {
                let own = if n == N { *own } else { Some(3) };
                let wanted = least.or(own).map_or(Ok(CutOrder::Stands), Err);
                assert_eq!(product.cut_order(job, list), wanted, "{list:?} for {job:?}");
                met.count(n, wanted.err());
            }
        };
        // In 12 turns each way comes up with each choice.
        for (turn, choice) in (0..12).flat_map(|turn| (0..1 << 7).map(move |c| (turn, c))) {
            let mut parts = case_c(n);
            let seven = choice >> OTHER_REFUSALS.len() == 1;
            if seven {
                parts.polynomials[turn % (n - 1)][0].coefficient = 0;
            }
            let chosen = OTHER_REFUSALS.iter().enumerate().filter(|(k, _)| choice >> k & 1 == 1);
            let ways: Vec<(u8, usize)> =
                chosen.map(|(_, &(refusal, count))| (refusal, turn % count)).collect();
            let refusals = ways.iter().map(|(refusal, _)| *refusal).chain(seven.then_some(7));
            check(&spoiled(&parts, 1 + turn % (n - 1), &ways), refusals.min());
        }
        (0..4).for_each(|cut| check(&case_c(n).bytes()[..cut], Some(1)));
    }
    let of_open: Vec<Option<u8>> = (1..=8).map(Some).collect();
    met.assert_met_in(N, &[&of_open[..], &[None, Some(9), Some(13), Some(18)]].concat());
    (3..=4).for_each(|n| met.assert_met_in(n, &of_open));
}

/// (x^2 + y^2 - r) (1 - 2 (x + y)^2) in a box: the circle has a loop, with one around each vertex
/// of the line x + y = 0 in it, and there are more such outside.
fn around_a_row(reach: i64, square: i64) -> Parts {
    let round = [term(1, &[2]), term(1, &[0, 2]), term(-square, &[])];
    let form = [term(1, &[1]), term(1, &[0, 1])];
    let line = product_of(&[term(-2, &[])], &product_of(&form, &form));
    let line = gathered(&[&line[..], &[term(1, &[])]].concat());
    let polynomials = vec![product_of(&gathered(&round), &line)];
    Parts { ends: vec![(-reach, reach); 2], polynomials, ..case_c(2) }
}

/// Places on loops, each by its number.
fn on_loops(r: &mut Random, curves: &Curves<Values>, numbers: &[usize]) -> Vec<u8> {
    let mut on_loop = |&number: &usize| {
        let facet = r.pick(&curves.found()[number].facets);
        Place { facet, side: r.below(2) as u8 }.bytes()
    };
    numbers.iter().flat_map(&mut on_loop).collect()
}

/// Asks for a list of loops by their numbers; and once more with one of them again, which is 18.
fn ask_twice(
    product: &impl Product,
    r: &mut Random,
    (job, curves): (&[u8], &mut Curves<Values>),
    numbers: &[usize],
    wanted: CutOrder,
) {
    let mut list = on_loops(r, curves, numbers);
    assert_eq!(curves.cut_order(&list), Ok(wanted));
    assert_eq!(product.cut_order(job, &list), Ok(wanted));
    let again = r.pick(numbers);
    list.extend(on_loops(r, curves, &[again]));
    assert_eq!(product.cut_order(job, &list), Err(18));
}

/// Long lists: one loop with so many others inside, at positions from the first to the last; and
/// 120 of hundreds of loops side by side in the largest box.
pub fn long_lists(product: &impl Product) {
    let mut r = Random::new(97);
    // The half of a side, the square of the radius, the loops inside, those listed, how many lists.
    for (reach, square, inside, most, turns) in
        [(8, 15, 5, 5, 30), (40, 900, 41, 41, 8), (LARGEST_COORDINATE, 14_400, 169, 50, 2)]
    {
        let parts = around_a_row(reach, square);
        let (job, values) = (parts.bytes(), Values::of(&parts.opened()));
        let mut curves = Curves::all(&values);
        let numbers = 0..curves.found().len();
        let loops = numbers.filter(|&number| curves.found()[number].closes());
        let outer = loops.clone().max_by_key(|&number| curves.found()[number].facets.len());
        let outer = outer.expect("a loop");
        let is_inside = |number: &usize| {
            let v = curves.found()[*number].facets[0].lowest;
            *number != outer && curves.is_inside(&v, outer)
        };
        let (mut inner, others): (Vec<usize>, Vec<usize>) = loops.partition(is_inside);
        assert_eq!(inner.len(), inside);
        for turn in 0..=turns {
            // Those inside in any order, and as many others of those outside as are listed of them.
            r.shuffle(&mut inner);
            let mut chosen = inner[..most].to_vec();
            chosen.extend(others.iter().copied().filter(|&number| number != outer).take(most));
            r.shuffle(&mut chosen);
            let k = chosen.len() * turn / turns;
            let last = chosen.iter().rposition(|number| inner.contains(number));
            let stands = last.expect("one inside") < k;
            chosen.insert(k, outer);
            let wanted = if stands { CutOrder::Stands } else { CutOrder::Breaks(k) };
            ask_twice(product, &mut r, (&job, &mut curves), &chosen, wanted);
        }
    }
    let [(parts, _), ..] = many_seams();
    let (job, values) = (parts.bytes(), Values::of(&parts.opened()));
    let mut curves = Curves::all(&values);
    let numbers = 0..curves.found().len();
    let mut loops: Vec<usize> = numbers.filter(|&number| curves.found()[number].closes()).collect();
    assert!(loops.len() > 300);
    r.shuffle(&mut loops);
    ask_twice(product, &mut r, (&job, &mut curves), &loops[..120], CutOrder::Stands);
}

/// The long closed curve of dimension 2, in the largest box: by itself, and twice, from either
/// side.
pub fn long_loop(product: &impl Product) {
    let [(parts, count), ..] = long_curves();
    let job = parts.bytes();
    let opened = parts.opened();
    let mut curves = Curves::of(&opened);
    let number = curves.number_of(&parts.start.facet);
    let facets = curves.found()[number].facets.clone();
    assert_eq!(facets.len(), count);
    let mut r = Random::new(98);
    for _ in 0..10 {
        let on_it = |r: &mut Random| Place { facet: r.pick(&facets), side: r.below(2) as u8 };
        let (one, other) = (on_it(&mut r), on_it(&mut r));
        assert_eq!(product.cut_order(&job, &one.bytes()), Ok(CutOrder::Stands));
        for second in [other, one, one.turned()] {
            let list = bytes_of(&[one, second]);
            assert_eq!(product.cut_order(&job, &list), Err(18));
        }
    }
}
