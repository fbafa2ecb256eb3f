//! Counts of what lists of seams had in them, so that a test can say that it met each.

use crate::grid::{chains, Facet, Masks, Place};
use crate::job::Job;
use crate::limits::{DIMENSIONS, LARGEST_COORDINATE, MOST};
use crate::named;
use crate::operations::trace_places;
use crate::seams::Seam;
use crate::tally::{ByDimension, Named, Tally};

named! {
    /// What is answered; one answer may be several of these.
    Listed {
        /// Complete: the box has no seam.
        None: 1,
        /// Complete with one.
        One: 1,
        /// Complete with two.
        Two: 1,
        /// Complete with three.
        Three: 1,
        /// Complete with more.
        More: 1,
        /// Complete with no space.
        NoneInNoSpace: 1,
        /// Complete, and the last place takes the last space.
        JustEnough: 1,
        /// Full, and nothing is written.
        FullWithNothing: 1,
        /// Full behind some places.
        FullWithSome: 1,
        /// Full, and only one seam remains.
        FullByOne: 1,
    }
}

impl Listed {
    /// What the answer is, for so many seams and so much space.
    fn of(seams: usize, space: usize) -> Vec<Listed> {
        let by_count = [Listed::None, Listed::One, Listed::Two, Listed::Three, Listed::More];
        let complete = by_count[seams.min(4)];
        let cases = [
            (seams <= space, complete),
            (seams == 0 && space == 0, Listed::NoneInNoSpace),
            (seams > 0 && seams == space, Listed::JustEnough),
            (seams > 0 && space == 0, Listed::FullWithNothing),
            (seams > space && space > 0, Listed::FullWithSome),
            (seams == space + 1, Listed::FullByOne),
        ];
        cases.into_iter().filter(|(holds, _)| *holds).map(|(_, listed)| listed).collect()
    }
}

named! {
    /// How a seam ends. Both ends of a facet by itself cannot be edges: no box is flat.
    Run {
        /// It closes.
        Closed: 1,
        /// Open, with an edge at both ends.
        EdgeToEdge: 1,
        /// Open, with an edge and a limit.
        EdgeToLimit: 1,
        /// Open, with a limit at both ends.
        LimitToLimit: 1,
        /// One facet, with an edge and a limit.
        AloneAtEdge: 1,
        /// One facet, with a limit on both sides.
        AloneInside: 1,
    }
}

impl Run {
    pub fn of(seam: &Seam) -> Run {
        match (seam.facets.len(), seam.edges, seam.limits) {
            (_, 0, 0) => Run::Closed,
            (1, 1, 1) => Run::AloneAtEdge,
            (1, 0, 2) => Run::AloneInside,
            (2.., 2, 0) => Run::EdgeToEdge,
            (2.., 1, 1) => Run::EdgeToLimit,
            (2.., 0, 2) => Run::LimitToLimit,
            _ => panic!("a seam closes or has two ends: {seam:?}"),
        }
    }
}

named! {
    /// Where the place of an open seam of several facets stands in it.
    Standing {
        /// At an end: its side 0 leads along the whole seam.
        LeadingAlong: 1,
        /// At an end: its side 0 leads out of it.
        LeadingOut: 1,
        /// Between the ends: the trace from it has only a part of the seam.
        Between: 1,
    }
}

impl Standing {
    fn of(job: &Job, place: Place) -> Standing {
        let goes_on = |start| {
            let from_place = Job { start, ..job.clone() };
            trace_places(&from_place, 2).expect("a crossed facet").1.len() == 2
        };
        match (goes_on(place), goes_on(place.turned())) {
            (true, false) => Standing::LeadingAlong,
            (false, true) => Standing::LeadingOut,
            (true, true) => Standing::Between,
            (false, false) => panic!("a facet by itself"),
        }
    }
}

named! {
    /// Orders of facets that are not the request's.
    OtherOrder {
        /// By the bytes of a place from the first on.
        ByBytes: 1,
        /// Coordinates as 16-bit numbers without a sign.
        Unsigned: 1,
        /// Coordinates by their size.
        BySize: 1,
        /// The last axis weighs most.
        LastAxisFirst: 1,
        /// The masks before the coordinates.
        MasksFirst: 1,
        /// The last mask before the first.
        LastMaskFirst: 1,
        /// The greatest facet is the least.
        Greatest: 1,
    }
}

impl OtherOrder {
    /// What facets are compared by, from the first entry on.
    fn key(self, facet: &Facet) -> [i64; 2 * MOST - 1] {
        let n = facet.n;
        let coordinate = |x: i64| match self {
            OtherOrder::ByBytes => (x as i16 as u16).swap_bytes() as i64,
            OtherOrder::Unsigned => x as i16 as u16 as i64,
            OtherOrder::BySize => x.abs(),
            OtherOrder::Greatest => -x,
            _ => x,
        };
        let mut coordinates: Vec<i64> = facet.lowest[..n].iter().map(|&x| coordinate(x)).collect();
        let sign = if self == OtherOrder::Greatest { -1 } else { 1 };
        let mut masks: Vec<i64> = facet.masks[..n - 1].iter().map(|&m| sign * m as i64).collect();
        match self {
            OtherOrder::LastAxisFirst => coordinates.reverse(),
            OtherOrder::LastMaskFirst => masks.reverse(),
            OtherOrder::MasksFirst => std::mem::swap(&mut coordinates, &mut masks),
            _ => {}
        }
        let mut key = [0; 2 * MOST - 1];
        key.iter_mut().zip(coordinates.iter().chain(&masks)).for_each(|(to, from)| *to = *from);
        key
    }
}

/// What another order changes: the place of a seam, or the sequence of the places.
pub const CHANGES: [&str; 2] = ["a place", "the sequence"];

/// Which of these it changes.
fn changes(order: OtherOrder, seams: &[Seam]) -> Vec<&'static str> {
    let least = |seam: &Seam| seam.facets.iter().map(|f| order.key(f)).min();
    let is_other_place = |seam: &Seam| least(seam) != Some(order.key(&seam.least()));
    let keys: Vec<_> = seams.iter().map(|seam| order.key(&seam.least())).collect();
    let found = [seams.iter().any(is_other_place), keys.windows(2).any(|pair| pair[0] > pair[1])];
    CHANGES.into_iter().zip(found).filter(|(_, is_so)| *is_so).map(|(change, _)| change).collect()
}

/// Where in its box the place of a seam lies.
#[derive(Clone, Copy, PartialEq, Eq, PartialOrd, Ord, Debug)]
pub enum Lies {
    /// The lowest vertex is at the low end of this axis.
    Low(usize),
    /// The lowest vertex is at the high end of this axis: such a facet is by itself.
    High(usize),
    /// It is the first facet of the box.
    First,
    /// It is the last facet of the box, which is by itself.
    Last,
    /// Behind it no facet of the box is crossed, and it is by itself.
    LastCrossed,
    /// The lowest vertex has the least coordinate on this axis that a box may have.
    Least(usize),
    /// It has the largest: the facet is by itself.
    Largest(usize),
    /// A vertex of the seam has the largest.
    Reaches(usize),
}

impl Lies {
    /// Each that there is in a dimension.
    pub fn all(n: usize) -> Vec<Lies> {
        let of_axis =
            |k| [Lies::Low(k), Lies::High(k), Lies::Least(k), Lies::Largest(k), Lies::Reaches(k)];
        let of_axes = (1..=n).flat_map(of_axis);
        of_axes.chain([Lies::First, Lies::Last, Lies::LastCrossed]).collect()
    }
}

/// The first facet of the box and the last, in the order of places: the last begins at the high end
/// of axis 1, so it misses that axis and has all others.
pub fn first_and_last(job: &Job) -> (Facet, Facet) {
    let n = job.n;
    let mut lowest = [[0; MOST]; 2];
    for (k, &(low, high)) in job.ends.iter().enumerate() {
        lowest[0][k] = low;
        lowest[1][k] = if k == 0 { high } else { high - 1 };
    }
    let misses_axis_1 = |masks: &&Masks| masks[n - 2] == (1 << n) - 2;
    let last = chains(n).iter().rfind(misses_axis_1).expect("a chain");
    let first = Facet { n, lowest: lowest[0], masks: chains(n)[0] };
    (first, Facet { n, lowest: lowest[1], masks: *last })
}

/// Where the place of a seam lies.
fn lies(job: &Job, seam: &Seam, last_crossed: Option<Facet>) -> Vec<Lies> {
    let least = seam.least();
    let (first, last) = first_and_last(job);
    let is_alone = seam.facets.len() == 1;
    let mut cases = vec![
        (least == first, Lies::First),
        (least == last, Lies::Last),
        (is_alone && Some(least) == last_crossed, Lies::LastCrossed),
    ];
    for (k, &(low, high)) in job.ends.iter().enumerate() {
        let (axis, x) = (k + 1, least.lowest[k]);
        let reaches = |facet: &Facet| facet.vertices()[job.n - 1][k] == LARGEST_COORDINATE;
        let is_far = high == LARGEST_COORDINATE;
        assert!(is_alone || x < high, "a seam of several facets begins below each high end");
        cases.extend([
            (x == low, Lies::Low(axis)),
            (x == high, Lies::High(axis)),
            (x == -LARGEST_COORDINATE, Lies::Least(axis)),
            (x == LARGEST_COORDINATE, Lies::Largest(axis)),
            (is_far && seam.facets.iter().any(reaches), Lies::Reaches(axis)),
        ]);
    }
    cases.into_iter().filter(|(holds, _)| *holds).map(|(_, lies)| lies).collect()
}

/// Counts of what lists had; what has a flag is counted apart at bias 0 and above.
#[derive(Default)]
pub struct SeamsMet {
    listed: Tally<(bool, Listed)>,
    runs: Tally<(bool, Run)>,
    standing: Tally<Standing>,
    orders: Tally<(OtherOrder, &'static str)>,
    /// The masks of places, and whether the facet is by itself.
    chains: Tally<(Masks, bool)>,
    lies: Tally<Lies>,
}

/// Each case at bias 0 and above.
fn with_and_without_bias<T: Named>() -> Vec<(bool, T)> {
    [false, true]
        .into_iter()
        .flat_map(|bias| T::all().into_iter().map(move |c| (bias, c)))
        .collect()
}

impl SeamsMet {
    /// An answer for so much space.
    pub fn count_answer(&mut self, job: &Job, seams: &[Seam], space: usize) {
        for listed in Listed::of(seams.len(), space) {
            self.listed.count(job.n, (job.bias > 0, listed));
        }
    }

    /// The seams of a job.
    pub fn count_seams(&mut self, job: &Job, seams: &[Seam]) {
        let n = job.n;
        let facets = seams.iter().flat_map(|seam| &seam.facets);
        let last_crossed = facets.max_by_key(|facet| (facet.lowest, facet.masks)).copied();
        for seam in seams {
            let run = Run::of(seam);
            let is_alone = matches!(run, Run::AloneAtEdge | Run::AloneInside);
            self.runs.count(n, (job.bias > 0, run));
            self.chains.count(n, (seam.least().masks, is_alone));
            if run != Run::Closed && !is_alone {
                self.standing.count(n, Standing::of(job, seam.place()));
            }
            for lies in lies(job, seam, last_crossed) {
                self.lies.count(n, lies);
            }
        }
        for order in OtherOrder::all() {
            for change in changes(order, seams) {
                self.orders.count(n, (order, change));
            }
        }
    }

    /// Fails unless each answer was met so often, at bias 0 and above.
    pub fn assert_listed(&self, least: ByDimension) {
        for (n, least) in DIMENSIONS.into_iter().zip(least) {
            self.listed.assert_often_in(n, least, &with_and_without_bias());
        }
    }

    /// Fails unless each way to end was met so often, at bias 0 and above.
    pub fn assert_runs(&self, least: ByDimension) {
        for (n, least) in DIMENSIONS.into_iter().zip(least) {
            self.runs.assert_often_in(n, least, &with_and_without_bias());
        }
    }

    /// Fails unless places stood in each way so often.
    pub fn assert_standing(&self, least: ByDimension) {
        for (n, least) in DIMENSIONS.into_iter().zip(least) {
            self.standing.assert_often_in(n, least, &Standing::all());
        }
    }

    /// Fails unless each other order would have changed a place so often, and the sequence of the
    /// places. In dimension 2 there is one mask.
    pub fn assert_orders(&self, least: ByDimension) {
        for (n, least) in DIMENSIONS.into_iter().zip(least) {
            let all = OtherOrder::all().into_iter();
            let some = all.filter(|&order| n > 2 || order != OtherOrder::LastMaskFirst);
            let wanted = some.flat_map(|order| CHANGES.map(|change| (order, change)));
            self.orders.assert_often_in(n, least, &wanted.collect::<Vec<_>>());
        }
    }

    /// Fails unless each chain was that of a place so often, of a facet by itself and of others.
    pub fn assert_chains(&self, least: ByDimension) {
        for (n, least) in DIMENSIONS.into_iter().zip(least) {
            let each = chains(n).iter().flat_map(|&masks| [(masks, true), (masks, false)]);
            self.chains.assert_often_in(n, least, &each.collect::<Vec<_>>());
        }
    }

    /// Fails unless places lay so often wherever they can.
    pub fn assert_lies(&self, least: ByDimension) {
        for (n, least) in DIMENSIONS.into_iter().zip(least) {
            self.lies.assert_often_in(n, least, &Lies::all(n));
        }
    }
}

#[cfg(test)]
mod tests {
    use super::*;
    use crate::curve::vertices_of_box;
    use crate::generate::{any_outlines, Random};

    /// Of all facets of a box, sorted.
    #[test]
    fn first_and_last_are_found() {
        let mut r = Random::new(62);
        for _ in 0..300 {
            let job = any_outlines(&mut r).1.opened();
            let inside = |facet: &Facet| {
                let highest = facet.vertices()[job.n - 1];
                job.ends.iter().zip(highest).all(|(&(_, high), x)| x <= high)
            };
            let lowest = vertices_of_box(&job).into_iter();
            let n = job.n;
            let all = lowest
                .flat_map(|lowest| chains(n).iter().map(move |&masks| Facet { n, lowest, masks }));
            let mut all: Vec<Facet> = all.filter(inside).collect();
            all.sort_by_key(|facet| (facet.lowest, facet.masks));
            assert_eq!(first_and_last(&job), (all[0], all[all.len() - 1]));
        }
    }
}
