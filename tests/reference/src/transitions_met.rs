//! Counts of the ways that traces go through simplices, of the ties that decide by which facet they
//! leave one, and of where they end. A trace may carry the values of the vertices along from one
//! simplex to the next: then it can go wrong at a single one of these.

use std::collections::BTreeSet;
use std::fmt::{Debug, Formatter, Result};

use crate::crossed::{coefficient, column, determinant, Column};
use crate::grid::{orders, Facet, Place, Vertex};
use crate::job::Job;
use crate::limits::{DIMENSIONS, MOST};
use crate::operations::Verdict;
use crate::tally::{ByDimension, Tally};

/// The axes in the order of a simplex; entries above n are 0.
type Order = [usize; MOST];

fn order_of(axes: &[usize]) -> Order {
    let mut order = [0; MOST];
    order[..axes.len()].copy_from_slice(axes);
    order
}

/// A way through a simplex.
#[derive(Clone, Copy, PartialEq, Eq, PartialOrd, Ord)]
struct Transition {
    order: Order,
    /// The vertex that the entered facet leaves out.
    entered: usize,
    /// The vertex that the facet of the exit leaves out.
    exit: usize,
}

/// Short, for the lists of what was met.
impl Debug for Transition {
    fn fmt(&self, f: &mut Formatter) -> Result {
        write!(f, "{:?} {}>{}", self.order, self.entered, self.exit)
    }
}

/// The vertices of a simplex of dimension n but one.
fn others(n: usize, but: usize) -> impl Iterator<Item = usize> {
    (0..=n).filter(move |&i| i != but)
}

/// Every way of dimension n.
fn each_transition(n: usize) -> Vec<Transition> {
    let mut all = Vec::new();
    for axes in orders(n) {
        for entered in 0..=n {
            let order = order_of(axes);
            all.extend(others(n, entered).map(|exit| Transition { order, entered, exit }));
        }
    }
    all
}

/// The vertex that the facet of an exit leaves out of the simplex behind it, by the P rule.
fn entered_behind(n: usize, exit: usize) -> usize {
    if exit == 0 || exit == n {
        n - exit
    } else {
        exit
    }
}

/// The simplex between two facets that follow each other in a trace, by its vertices, and the way
/// through it. It has the vertices of both facets and no others.
fn between(from: &Facet, to: &Facet) -> (Vec<Vertex>, Transition) {
    let n = from.n;
    let (own, next) = (&from.vertices()[..n], &to.vertices()[..n]);
    let mut all = own.to_vec();
    all.extend(next.iter().filter(|v| !own.contains(v)));
    assert_eq!(all.len(), n + 1, "two facets of a simplex");
    all.sort_by_key(|v| v.iter().sum::<i64>());
    let mut order = [0; MOST];
    for (axis, pair) in order.iter_mut().zip(all.windows(2)) {
        *axis = 1 + (0..n).find(|&k| pair[1][k] > pair[0][k]).expect("an axis that rises");
    }
    let left_out = |facet: &[Vertex]| all.iter().position(|v| !facet.contains(v)).expect("one");
    let (entered, exit) = (left_out(own), left_out(next));
    (all, Transition { order, entered, exit })
}

/// The columns without that of vertex i.
fn without(columns: &[Column], i: usize) -> Vec<Column> {
    [&columns[..i], &columns[i + 1..]].concat()
}

/// How vertices i and j of a simplex are told apart: in the facet without j, with (1, e, .., e to
/// the n-1) in place of the column of i, the first power whose coefficient is not 0, and its sign.
/// For j and i it is the same but for the sign, as the n - 1 other columns are. Power n and sign 0
/// if all are 0.
fn told_apart(columns: &[Column], i: usize, j: usize) -> (usize, i128) {
    let (facet, at) = (without(columns, j), if i < j { i } else { i - 1 });
    let n = facet.len();
    let mut signs = (0..n).map(|power| (power, coefficient(&facet, at, power).signum()));
    signs.find(|&(_, sign)| sign != 0).unwrap_or((n, 0))
}

/// The powers above 0 at which two vertices of the entered facet are told apart, each once: at
/// power 0 they are tied.
fn ties(columns: &[Column], entered: usize) -> Vec<usize> {
    let n = columns.len() - 1;
    let pairs = others(n, entered).flat_map(|j| others(n, entered).map(move |i| (i, j)));
    let mut powers: Vec<usize> =
        pairs.filter(|(i, j)| i < j).map(|(i, j)| told_apart(columns, i, j).0).collect();
    powers.retain(|&power| power > 0);
    powers.sort();
    powers.dedup();
    powers
}

/// Each vertex j, with a power above 0, for which one sign alone keeps the facet without j from
/// being crossed: that of the vertex which the exit leaves out, by which the two are told apart at
/// that power. Decided the other way, the trace would leave the simplex by the facet without j.
fn deciding_ties(columns: &[Column], transition: &Transition) -> Vec<(usize, usize)> {
    let (n, exit) = (columns.len() - 1, transition.exit);
    let mut found = Vec::new();
    for j in others(n, transition.entered).filter(|&j| j != exit) {
        let (power, sign) = told_apart(columns, exit, j);
        let d = determinant(&without(columns, j)).signum();
        let agrees = |i: usize| told_apart(columns, i, j).1 == d;
        if power > 0 && sign == -d && others(n, j).filter(|&i| i != exit).all(agrees) {
            found.push((j, power));
        }
    }
    found
}

/// A transition, the sign of D of the entered facet, and whether the bias is above 0.
type Signed = (Transition, i128, bool);
/// A tie by which it is decided where a trace leaves a simplex: the vertices that the entered facet
/// and the exit leave out, the other one, the power, and the sign of D of the entered facet.
type Deciding = (usize, usize, usize, usize, i128);
/// Edge or limit, the order of the simplex that is not entered, and its vertex besides the facet's.
type End = (Verdict, Order, usize);

/// Every one of dimension n. In dimension 2 the exit leaves out the low vertex of the entered
/// facet, since the tied value 0 is low: so D is above 0 exactly if that vertex comes first.
fn each_deciding(n: usize) -> Vec<Deciding> {
    let mut all = Vec::new();
    for entered in 0..=n {
        for exit in others(n, entered) {
            for j in others(n, entered).filter(|&j| j != exit) {
                let powers = (1..n).flat_map(|power| [(power, -1), (power, 1)]);
                all.extend(powers.map(|(power, d)| (entered, exit, j, power, d)));
            }
        }
    }
    all.retain(|&(_, exit, j, _, d)| n > 2 || (d > 0) == (exit < j));
    all
}

/// Every one of dimension n. Behind a bent facet no vertex lies outside the box.
fn each_end(n: usize) -> Vec<End> {
    let mut all = Vec::new();
    for order in orders(n).iter().map(|axes| order_of(axes)) {
        all.extend([0, n].map(|besides| (Verdict::Edge, order, besides)));
        all.extend((0..=n).map(|besides| (Verdict::Limit, order, besides)));
    }
    all
}

/// Counts along traces.
#[derive(Default)]
pub struct TransitionsMet {
    /// From the start.
    first: Tally<Transition>,
    /// From the other places.
    later: Tally<Signed>,
    /// With the exit of the simplex behind.
    following: Tally<(Transition, usize)>,
    /// The vertices that the entered facet and the exit leave out, and the power.
    ties: Tally<(usize, usize, usize)>,
    deciding: Tally<Deciding>,
    ends: Tally<End>,
}

impl TransitionsMet {
    /// Counts a trace, up to the start's facet again if it is a loop.
    pub fn count(&mut self, job: &Job, verdict: Verdict, places: &[Place]) {
        let mut facets: Vec<Facet> = places.iter().map(|place| place.facet).collect();
        match verdict {
            Verdict::Loop => facets.push(facets[0]),
            Verdict::Edge | Verdict::Limit => {
                let (simplex, besides) = places[places.len() - 1].simplex();
                self.ends.count(job.n, (verdict, order_of(simplex.order), besides));
            }
            Verdict::Full => {}
        }
        let mut before = None;
        for pair in facets.windows(2) {
            let (vertices, transition) = between(&pair[0], &pair[1]);
            let d = self.count_ties(job, &vertices, &transition);
            match before {
                None => self.first.count(job.n, transition),
                Some(before) => {
                    self.later.count(job.n, (transition, d, job.bias > 0));
                    self.following.count(job.n, (before, transition.exit));
                }
            }
            before = Some(transition);
        }
    }

    /// Gives the sign of D of the entered facet.
    fn count_ties(&mut self, job: &Job, vertices: &[Vertex], transition: &Transition) -> i128 {
        let Transition { entered, exit, .. } = *transition;
        let at = |v| column(&job.polynomials, job.bias, v).expect("readable values");
        let columns: Vec<Column> = vertices.iter().map(at).collect();
        let d = determinant(&without(&columns, entered)).signum();
        for power in ties(&columns, entered) {
            self.ties.count(job.n, (entered, exit, power));
        }
        for (other, power) in deciding_ties(&columns, transition) {
            self.deciding.count(job.n, (entered, exit, other, power, d));
        }
        d
    }

    /// Fails unless each transition was met at least so often from a start.
    pub fn assert_first(&self, least: ByDimension) {
        for (n, least) in DIMENSIONS.into_iter().zip(least) {
            self.first.assert_often_in(n, least, &each_transition(n));
        }
    }

    /// Fails unless each was met at least so often from another place, with each sign of D, at bias
    /// 0 and above.
    pub fn assert_later(&self, least: ByDimension) {
        let signed = |transition| {
            let signs = [(-1, false), (-1, true), (1, false), (1, true)];
            signs.map(|(d, has_bias)| (transition, d, has_bias))
        };
        for (n, least) in DIMENSIONS.into_iter().zip(least) {
            let wanted: Vec<Signed> = each_transition(n).into_iter().flat_map(signed).collect();
            self.later.assert_often_in(n, least, &wanted);
        }
    }

    /// Fails unless each was met at least so often with each exit of the simplex behind.
    pub fn assert_following(&self, least: ByDimension) {
        for (n, least) in DIMENSIONS.into_iter().zip(least) {
            let next = |t: &Transition| others(n, entered_behind(n, t.exit));
            let and_next = |t: Transition| next(&t).map(move |exit| (t, exit));
            let wanted: Vec<_> = each_transition(n).into_iter().flat_map(and_next).collect();
            self.following.assert_often_in(n, least, &wanted);
        }
    }

    /// Fails unless ties that are decided at each power, and above dimension 2 such as no power
    /// decides, were met at least so often with each vertex left out by the entered facet and each
    /// by the exit.
    pub fn assert_ties(&self, least: ByDimension) {
        for (n, least) in DIMENSIONS.into_iter().zip(least) {
            let powers = if n > 2 { 1..n + 1 } else { 1..n };
            let with_each = |t: Transition| powers.clone().map(move |p| (t.entered, t.exit, p));
            let wanted: BTreeSet<_> = each_transition(n).into_iter().flat_map(with_each).collect();
            self.ties.assert_often_in(n, least, &wanted.into_iter().collect::<Vec<_>>());
        }
    }

    /// Fails unless each tie that decides was met at least so often.
    pub fn assert_deciding(&self, least: ByDimension) {
        for (n, least) in DIMENSIONS.into_iter().zip(least) {
            self.deciding.assert_often_in(n, least, &each_deciding(n));
        }
    }

    /// Fails unless each end was met at least so often.
    pub fn assert_ends(&self, least: ByDimension) {
        for (n, least) in DIMENSIONS.into_iter().zip(least) {
            self.ends.assert_often_in(n, least, &each_end(n));
        }
    }
}

#[cfg(test)]
mod tests {
    use super::*;
    use crate::build::case_c;
    use crate::cartesian::cartesian;
    use crate::crossed::is_crossed;
    use crate::generate::Random;
    use crate::grid::{vertex, Simplex};
    use crate::operations::trace_places;

    /// Every one is found again between two facets of a simplex, and the simplex behind the exit
    /// has its vertex besides the facet's where the P rule says.
    #[test]
    fn each_transition_is_found() {
        for (n, count) in DIMENSIONS.into_iter().zip([12, 72, 480]) {
            let all = each_transition(n);
            assert_eq!(all.len(), count);
            assert_eq!(all.iter().collect::<BTreeSet<_>>().len(), count);
            for transition in all {
                let Transition { order, entered, exit } = transition;
                let axes = orders(n).iter().find(|axes| order_of(axes) == order).expect("an order");
                let simplex = Simplex { corner: vertex(&[5, -3, 0, 8][..n]), order: axes };
                let (vertices, found) = between(&simplex.facet(entered), &simplex.facet(exit));
                assert_eq!((&vertices[..], found), (&simplex.vertices()[..=n], transition));
                let (_, behind) = Place::out_of(&simplex, exit).simplex();
                assert_eq!(behind, entered_behind(n, exit));
            }
        }
    }

    /// Two vertices are told apart at the same power either way round, and at any power.
    #[test]
    fn told_apart_either_way() {
        for n in DIMENSIONS {
            let mut r = Random::new(43);
            let mut powers = BTreeSet::new();
            for _ in 0..2_000 {
                let mut at =
                    || std::array::from_fn(|row| if row == 0 { 1 } else { r.pick(&[-1, 0, 1]) });
                let columns: Vec<Column> = (0..=n).map(|_| at()).collect();
                for (i, j) in [(0, 1), (0, n), (1, n)] {
                    let (power, sign) = told_apart(&columns, i, j);
                    let (other_power, other_sign) = told_apart(&columns, j, i);
                    assert_eq!((power, sign.abs()), (other_power, other_sign.abs()));
                    powers.insert(power);
                }
            }
            let most = if n > 2 { n } else { n - 1 };
            assert_eq!(powers, (0..=most).collect());
        }
    }

    /// For n = 2: a tie is a value 0 at the vertex besides the entered facet. It decides if the
    /// value at the vertex that the exit leaves out is below 0: were the 0 above, the trace would
    /// leave between these two.
    #[test]
    fn ties_in_dimension_two() {
        let all: Vec<[i128; 3]> = cartesian(&vec![(-2..=2).collect(); 3]);
        for values in all {
            let columns = values.map(|value| [1, value, 0, 0]);
            let is_crossed = |i: &usize| is_crossed(&without(&columns, *i));
            let [one, other] = (0..3).filter(is_crossed).collect::<Vec<_>>()[..] else { continue };
            for (entered, exit) in [(one, other), (other, one)] {
                let transition = Transition { order: [1, 2, 0, 0], entered, exit };
                let is_tie = values[entered] == 0;
                assert_eq!(ties(&columns, entered), vec![1; is_tie as usize]);
                let decides = is_tie && values[exit] < 0;
                let third = vec![(3 - entered - exit, 1); decides as usize];
                assert_eq!(deciding_ties(&columns, &transition), third, "{values:?}");
            }
        }
    }

    /// Case C goes along axis 3 for n = 3: by simplices in which two vertices have the same values,
    /// so that no power tells the two others apart.
    #[test]
    fn ties_of_case_c() {
        let job = case_c(3).opened();
        let (_, places) = trace_places(&job, 9).expect("a trace");
        let found = places.windows(2).map(|pair| {
            let (vertices, transition) = between(&pair[0].facet, &pair[1].facet);
            let columns: Vec<Column> =
                vertices.iter().map(|v| [1, v[0].into(), v[1].into(), 0]).collect();
            assert_eq!(deciding_ties(&columns, &transition), []);
            let Transition { order, entered, exit } = transition;
            (order, entered, exit, ties(&columns, entered))
        });
        let wanted = [
            ([1, 2, 3, 0], 3, 2, vec![1, 3]),
            ([1, 3, 2, 0], 2, 1, vec![2, 3]),
            ([3, 1, 2, 0], 1, 0, vec![1, 2, 3]),
        ];
        assert_eq!(found.collect::<Vec<_>>(), wanted);
    }

    /// For n = 3: the values of vertices 2 and 3 lie on opposite sides of (0, 0), on one axis or
    /// the other. (e, e^2) lies on the side of vertex 1, by its first power or its second: so the
    /// exit leaves out vertex 0 and not vertex 1.
    #[test]
    fn ties_that_decide() {
        for (values, power) in
            [([[-1, 1], [1, 1], [0, -1], [0, 1]], 1), ([[1, -1], [1, 1], [-1, 0], [1, 0]], 2)]
        {
            let columns = values.map(|[first, second]| [1, first, second, 0]);
            let crossed: Vec<usize> =
                (0..4).filter(|&i| is_crossed(&without(&columns, i))).collect();
            assert_eq!(crossed, [0, 3]);
            let transition = Transition { order: [1, 2, 3, 0], entered: 3, exit: 0 };
            assert_eq!(deciding_ties(&columns, &transition), [(1, power)]);
            assert_eq!(told_apart(&columns, 0, 1).0, power);
        }
    }
}
