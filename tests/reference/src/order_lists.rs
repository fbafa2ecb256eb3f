//! Lists of places for the order of cutting, request 2.14: on the loops of a job in any order, and
//! with places that are refused.

use std::collections::HashSet;

use crate::build::Parts;
use crate::generate::{vertex_in, Random};
use crate::grid::{chains, Facet, Place, Vertex};
use crate::job::Job;
use crate::named;
use crate::operations::{trace_places, Verdict};
use crate::order::{judge, Curve, Curves, CutOrder, Field, Values};
use crate::product::Product;

/// The dimension of all lists that are not refused.
pub const N: usize = 2;
/// The bytes of a place.
pub const SIZE: usize = 3 * N;

/// A job with all its curves, and which loop is inside which.
pub struct Case<'a> {
    pub job: &'a Job,
    pub bytes: Vec<u8>,
    pub values: &'a Values,
    pub curves: Curves<'a, Values>,
    /// The numbers of the curves that close.
    pub loops: Vec<usize>,
    /// The numbers of the others.
    open: Vec<usize>,
    /// By two indices of loops, whether the first is inside the second.
    pub inside: Vec<Vec<bool>>,
}

impl<'a> Case<'a> {
    pub fn of(parts: &Parts, job: &'a Job, values: &'a Values) -> Case<'a> {
        let curves = Curves::all(values);
        let numbers = 0..curves.found().len();
        let (loops, open): (Vec<usize>, Vec<usize>) =
            numbers.partition(|&number| curves.found()[number].closes());
        let is_inside =
            |a: usize, b: usize| a != b && curves.is_inside(&curves.found()[a].facets[0].lowest, b);
        let inside = loops.iter().map(|&a| loops.iter().map(|&b| is_inside(a, b)).collect());
        let inside = inside.collect();
        Case { job, bytes: parts.bytes(), values, curves, loops, open, inside }
    }

    pub fn curve(&self, number: usize) -> &Curve {
        &self.curves.found()[number]
    }

    /// The indices of the loops that have others inside.
    pub fn outer(&self) -> Vec<usize> {
        (0..self.loops.len()).filter(|&b| !self.inside_of(b).is_empty()).collect()
    }

    /// The loops that are inside that of an index.
    pub fn inside_of(&self, b: usize) -> Vec<usize> {
        (0..self.loops.len()).filter(|&a| self.inside[a][b]).collect()
    }

    /// Any facet of the loop of that index, with any side.
    pub fn place_on(&self, r: &mut Random, index: usize) -> Place {
        let facet = r.pick(&self.curve(self.loops[index]).facets);
        Place { facet, side: r.below(2) as u8 }
    }

    pub fn places_on(&self, r: &mut Random, indices: &[usize]) -> Vec<Place> {
        indices.iter().map(|&index| self.place_on(r, index)).collect()
    }

    /// The indices of all loops, in any order.
    pub fn all_loops(&self, r: &mut Random) -> Vec<usize> {
        let mut indices: Vec<usize> = (0..self.loops.len()).collect();
        r.shuffle(&mut indices);
        indices
    }

    /// Some of them, at most so many.
    pub fn some_loops(&self, r: &mut Random, most: usize) -> Vec<usize> {
        let mut indices = self.all_loops(r);
        indices.truncate(r.index(most + 1));
        indices
    }

    /// Whether two curves share a vertex.
    pub fn share_a_vertex(&self, a: usize, b: usize) -> bool {
        let vertices = |number: usize| {
            self.curve(number).facets.iter().flat_map(|facet| facet.vertices()[..N].to_vec())
        };
        let of_one: HashSet<Vertex> = vertices(a).collect();
        vertices(b).any(|v| of_one.contains(&v))
    }

    /// Whether a curve ends at a limit.
    fn has_limits(&self) -> bool {
        self.open.iter().any(|&number| self.curve(number).limits > 0)
    }

    /// How many lists it is good for: more with a loop that has others inside, with many loops, and
    /// with curves that end at a limit.
    pub fn lists(&self) -> usize {
        match (self.loops.len(), self.outer().is_empty()) {
            (0, _) => 4,
            (1, true) if self.has_limits() => 40,
            (_, true) if self.has_limits() => 150,
            (_, true) => 8,
            (2..=4, false) => 20,
            (_, false) => 100,
        }
    }

    /// Asks the product, and the reference.
    pub fn ask(&mut self, product: &impl Product, list: &[u8]) -> Result<CutOrder, u8> {
        let wanted = self.curves.cut_order(list);
        assert_eq!(product.cut_order(&self.bytes, list), wanted, "{list:?} for {:?}", self.bytes);
        wanted
    }
}

/// Does something with a case of the parts.
pub fn with_case<T>(parts: &Parts, does: impl FnOnce(&mut Case) -> T) -> T {
    let job = parts.opened();
    let values = Values::of(&job);
    does(&mut Case::of(parts, &job, &values))
}

/// The bytes of a list.
pub fn bytes_of(places: &[Place]) -> Vec<u8> {
    places.iter().flat_map(|place| place.bytes()).collect()
}

named! {
    /// What is wrong with a place of a list.
    Fault {
        /// 13: the mask or the side.
        Malformed: 3,
        /// 13: the same in a place outside the box.
        MalformedOutside: 1,
        /// 9: a vertex outside the box.
        Outside: 3,
        /// 9: the same, and the other vertex is not readable.
        OutsideUnreadable: 3,
        /// 10: a value that is not readable.
        Unreadable: 3,
        /// 11.
        NotCrossed: 3,
        /// 18: its trace ends at an edge.
        ToEdge: 3,
        /// 18: its trace ends at a limit.
        ToLimit: 4,
        /// 18: an earlier place once more.
        SamePlace: 2,
        /// 18: an earlier place turned.
        OtherSide: 2,
        /// 18: another facet of an earlier place's loop.
        Elsewhere: 2,
    }
}

/// The refusals of a place.
pub const OF_A_PLACE: [u8; 5] = [13, 9, 10, 11, 18];

impl Fault {
    pub fn refusal(self) -> u8 {
        match self {
            Fault::Malformed | Fault::MalformedOutside => 13,
            Fault::Outside | Fault::OutsideUnreadable => 9,
            Fault::Unreadable => 10,
            Fault::NotCrossed => 11,
            _ => 18,
        }
    }

    /// Whether it needs an earlier position.
    pub fn is_for_a_later_one(self) -> bool {
        matches!(self, Fault::SamePlace | Fault::OtherSide | Fault::Elsewhere)
    }
}

/// Any facet with its lowest vertex in the box.
fn any_facet(r: &mut Random, case: &Case) -> Facet {
    Facet { n: N, lowest: vertex_in(r, &case.job.ends), masks: r.pick(chains(N)) }
}

/// A facet of the box that is judged so, if one is found soon.
fn judged(r: &mut Random, case: &Case, wanted: Result<bool, u8>) -> Option<Facet> {
    (0..12).map(|_| any_facet(r, case)).find(|facet| judge(case.values, facet) == wanted)
}

/// A facet with a vertex outside the box.
fn outside(r: &mut Random, case: &Case) -> Facet {
    let mut facet = any_facet(r, case);
    let k = r.index(N);
    let (low, high) = case.job.ends[k];
    // With lowest vertex at the high end, it is outside if it has the axis.
    facet.masks[0] |= 1 << k;
    facet.lowest[k] = r.pick(&[low - 1, high, high, high + 1, -32_768, 32_767, -257, 257]);
    facet
}

/// The verdict of the trace from a place on an open curve.
fn verdict(case: &Case, curve: &Curve, start: Place) -> Verdict {
    match (curve.edges, curve.limits) {
        (2, 0) => Verdict::Edge,
        (0, 2) => Verdict::Limit,
        _ => {
            let from_place = Job { start, ..case.job.clone() };
            trace_places(&from_place, usize::MAX).expect("a crossed facet").0
        }
    }
}

/// A place on an open curve whose trace ends so, if one is found soon.
fn on_open(r: &mut Random, case: &Case, wanted: Verdict) -> Option<Place> {
    if case.open.is_empty() {
        return None;
    }
    let with_limit = |number: &usize| case.curve(*number).limits > 0;
    let limited: Vec<usize> = case.open.iter().copied().filter(with_limit).collect();
    (0..4).find_map(|_| {
        let from = if wanted == Verdict::Limit { &limited } else { &case.open };
        let curve = case.curve(*from.get(r.index(from.len().max(1)))?);
        let place = Place { facet: r.pick(&curve.facets), side: r.below(2) as u8 };
        (verdict(case, curve, place) == wanted).then_some(place)
    })
}

/// The bytes of a place with that fault, behind these on loops; none if the job has no such place.
fn faulty(r: &mut Random, case: &mut Case, fault: Fault, earlier: &[Place]) -> Option<Vec<u8>> {
    let side = r.below(2) as u8;
    let with_side = |facet: Facet| Place { facet, side };
    let before = if earlier.is_empty() { None } else { Some(r.pick(earlier)) };
    let place = match fault {
        Fault::Malformed | Fault::MalformedOutside => {
            let is_inside = fault == Fault::Malformed;
            let facet = if is_inside { any_facet(r, case) } else { outside(r, case) };
            let mut bytes = with_side(facet).bytes();
            if r.once_in(2) {
                bytes[SIZE - 2] = r.pick(&[0, 4, 5, 6, 7, 8, 128, 255]);
            } else {
                bytes[SIZE - 1] = r.pick(&[2, 3, 128, 255]);
            }
            return Some(bytes);
        }
        Fault::Outside => with_side(outside(r, case)),
        Fault::OutsideUnreadable => {
            let is_unreadable = |v: &Vertex| {
                let is_inside = case.values.in_box(v);
                is_inside && case.values.column(v).is_none()
            };
            let has_one = |facet: &Facet| facet.vertices()[..N].iter().any(is_unreadable);
            with_side((0..20).map(|_| outside(r, case)).find(has_one)?)
        }
        Fault::Unreadable => with_side(judged(r, case, Err(10))?),
        Fault::NotCrossed => with_side(judged(r, case, Ok(false))?),
        Fault::ToEdge => on_open(r, case, Verdict::Edge)?,
        Fault::ToLimit => on_open(r, case, Verdict::Limit)?,
        Fault::SamePlace => before?,
        Fault::OtherSide => before?.turned(),
        Fault::Elsewhere => {
            let facet = before?.facet;
            let number = case.curves.number_of(&facet);
            let facets = case.curve(number).facets.iter().copied();
            let others: Vec<Facet> = facets.filter(|other| *other != facet).collect();
            with_side(r.pick(&others))
        }
    };
    Some(place.bytes())
}

/// Where in a list a place stands.
#[derive(Clone, Copy, PartialEq, Eq, PartialOrd, Ord, Debug)]
pub enum At {
    Only,
    First,
    Between,
    Last,
}

impl At {
    pub fn of(k: usize, count: usize) -> At {
        match (k, count - 1 - k) {
            (0, 0) => At::Only,
            (0, _) => At::First,
            (_, 0) => At::Last,
            _ => At::Between,
        }
    }
}

/// Places on these loops, and between them one with each of the faults, which come in this order;
/// the bytes, and where the faults are. None if the job has no such place.
pub fn with_faults(
    r: &mut Random,
    case: &mut Case,
    loops: &[usize],
    faults: &[Fault],
) -> Option<(Vec<u8>, Vec<At>)> {
    let count = loops.len() + faults.len();
    let mut positions: Vec<usize> = (0..count).collect();
    r.shuffle(&mut positions);
    // A loop can have come only if there is one before.
    let first_later = faults.iter().position(|fault| fault.is_for_a_later_one());
    positions.truncate(faults.len());
    positions.sort();
    if first_later == Some(0) && positions[0] == 0 {
        return None;
    }
    let (mut list, mut good, mut at) = (Vec::new(), Vec::new(), Vec::new());
    let mut next = loops.iter();
    for k in 0..count {
        match positions.iter().position(|&position| position == k) {
            Some(number) => {
                list.extend(faulty(r, case, faults[number], &good)?);
                at.push(At::of(k, count));
            }
            None => {
                let place = case.place_on(r, *next.next().expect("a loop"));
                good.push(place);
                list.extend(place.bytes());
            }
        }
    }
    Some((list, at))
}

named! {
    /// The kinds of lists.
    ListKind {
        /// Some loops in any order.
        Loops: 4,
        /// A loop before one that is inside it; if there is none, some loops.
        OuterBefore: 8,
        /// A loop behind all listed ones inside it; if there is none, some loops.
        OuterBehind: 3,
        /// One place with a fault.
        OneFault: 6,
        /// Two places with a fault each.
        TwoFaults: 5,
        /// Bytes less or more than a place has.
        OtherLength: 1,
        /// Any bytes.
        Noise: 1,
    }
}

/// The indices of some loops with one that has others inside, and one of these; none if there are
/// no such loops.
pub fn nest(r: &mut Random, case: &Case, before: bool) -> Option<Vec<usize>> {
    let outer = case.outer();
    let one = *outer.get(r.index(outer.len().max(1)))?;
    let inner = r.pick(&case.inside_of(one));
    let most = r.pick(&[1, 2, 3, 4, 5, 6, 7]);
    let mut list = case.all_loops(r);
    list.truncate(most);
    if r.once_in(2) {
        // Those inside it come first.
        list.extend(case.inside_of(one));
        list.sort_by_key(|&index| (!case.inside[index][one], index));
        list.dedup();
        list.truncate(most);
        r.shuffle(&mut list);
    }
    list.retain(|&index| index != one && index != inner);
    if before {
        let k = r.index(list.len() + 1);
        list.insert(k, one);
        list.insert(k + 1 + r.index(list.len() - k), inner);
    } else {
        list.insert(r.index(list.len() + 1), inner);
        let last = list.iter().rposition(|&index| case.inside[index][one]).expect("the inner one");
        list.insert(last + 1 + r.index(list.len() - last), one);
    }
    Some(list)
}

/// Any fault; if a curve ends at a limit, more often such a place.
pub fn any_fault(r: &mut Random, case: &Case) -> Fault {
    if case.has_limits() && r.once_in(3) {
        Fault::ToLimit
    } else {
        r.named()
    }
}
