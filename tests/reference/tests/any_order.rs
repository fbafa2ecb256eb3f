//! The order of a sum cannot matter, and no partial sum leaves 64 bits: request 2.8, for any list
//! of no more terms than a body may hold, each within the limits, at any vertex that a box may
//! have. Such a list need not be a body: its terms may repeat, and stand in any order.

use reference::build::{exponents, power_of};
use reference::crossed::{running_sums, sum, Term};
use reference::generate::Random;
use reference::grid::Vertex;
use reference::limits::{
    Limits, DIMENSIONS, LARGEST_COEFFICIENT, LARGEST_COORDINATE, LARGEST_DEGREE, MOST,
};
use reference::named;
use reference::tally::{Named, Tally};

named! {
    /// Lists of terms, with the vertices at which they are summed.
    List {
        /// Any terms at any vertex.
        Any: 2,
        /// Terms of the largest coefficient and degree, of both signs, where each coordinate has
        /// the largest size.
        Largest: 2,
        /// Copies of one such term, at such a vertex.
        Copies: 1,
    }
}

/// How many lists are made in a dimension, and how many orders of each are summed.
const LISTS: usize = 3_000;
const ORDERS: usize = 50;

/// As many terms as a body may hold, of 2 to the 20th times 256 to the 4th each.
fn bound(n: usize) -> i128 {
    (Limits::of(n).terms as i128) << 52
}

fn any_term(r: &mut Random, n: usize) -> Term {
    let size = r.between(1, LARGEST_COEFFICIENT);
    let coefficient = r.pick(&[size, -size, LARGEST_COEFFICIENT, -LARGEST_COEFFICIENT, 1, -1]);
    Term { coefficient, exponents: r.pick(exponents(n)) }
}

/// A term of the largest coefficient and degree.
fn largest_term(r: &mut Random, n: usize) -> Term {
    let degree = |e: &[u8; MOST]| e.iter().map(|&power| power as u32).sum::<u32>();
    let largest: Vec<[u8; MOST]> =
        exponents(n).iter().copied().filter(|e| degree(e) == LARGEST_DEGREE).collect();
    let coefficient = r.pick(&[LARGEST_COEFFICIENT, -LARGEST_COEFFICIENT]);
    Term { coefficient, exponents: r.pick(&largest) }
}

/// A list of that kind, with a vertex.
fn any_list(r: &mut Random, n: usize, kind: List) -> (Vec<Term>, Vertex) {
    let most = Limits::of(n).terms;
    let count = if r.once_in(2) { most } else { r.index(most + 1) };
    let copied = largest_term(r, n);
    let list = (0..count).map(|_| match kind {
        List::Any => any_term(r, n),
        List::Largest => largest_term(r, n),
        List::Copies => copied,
    });
    let list = list.collect();
    let mut v = [0; MOST];
    for x in &mut v[..n] {
        let any = r.between(-LARGEST_COORDINATE, LARGEST_COORDINATE);
        let largest = r.pick(&[LARGEST_COORDINATE, -LARGEST_COORDINATE]);
        *x = if kind == List::Any { any } else { largest };
    }
    (list, v)
}

/// What orders of a list may have.
const MET: [&str; 4] =
    ["other partial sums", "a partial sum larger than the whole", "the bound", "minus the bound"];

/// Sums the list in so many orders: the whole is always the same, and each partial sum is within
/// the bound. In the last of these orders each is also that of the last terms.
fn check_orders(r: &mut Random, n: usize, mut list: Vec<Term>, v: &Vertex, met: &mut Tally<&str>) {
    let (whole, first) = (sum(&list, v), running_sums(&list, v));
    for _ in 0..ORDERS {
        r.shuffle(&mut list);
        let sums = running_sums(&list, v);
        assert_eq!(sums.last(), Some(&whole), "{list:?} at {v:?}");
        assert!(sums.iter().all(|sum| sum.abs() <= bound(n)), "{list:?} at {v:?}");
        let larger = sums.iter().any(|sum| sum.abs() > whole.abs());
        let holds = [sums != first, larger, whole == bound(n), whole == -bound(n)];
        MET.iter().zip(holds).filter(|(_, holds)| *holds).for_each(|(name, _)| met.count(n, name));
    }
    let last = |k: usize| sum(&list[list.len() - k..], v);
    let wanted: Vec<i128> = (0..=list.len()).map(last).collect();
    assert_eq!(running_sums(&list, v), wanted, "{list:?} at {v:?}");
}

#[test]
fn every_order_has_the_same_sum() {
    let mut r = Random::new(10);
    let (mut lists, mut lengths) = (Tally::default(), Tally::default());
    let mut met = Tally::default();
    for n in DIMENSIONS {
        for _ in 0..LISTS {
            let kind = r.named();
            let (list, v) = any_list(&mut r, n, kind);
            lists.count(n, kind);
            lengths.count(n, list.len());
            check_orders(&mut r, n, list, &v, &mut met);
        }
        lengths.assert_met_in(n, &(0..=Limits::of(n).terms).collect::<Vec<_>>());
    }
    lists.assert_met(&List::all());
    met.assert_met(&MET);
}

/// As many copies of 1,048,576 x^4 as a body may hold reach the bound at 256, and 64 bits hold it.
#[test]
fn the_bound_is_reached() {
    for n in DIMENSIONS {
        for coefficient in [LARGEST_COEFFICIENT, -LARGEST_COEFFICIENT] {
            let largest = Term { coefficient, exponents: power_of(1, 4) };
            let sums = running_sums(&vec![largest; Limits::of(n).terms], &[256, 0, 0, 0]);
            let reached = sums[Limits::of(n).terms];
            assert_eq!(reached, bound(n) * coefficient.signum() as i128);
            i64::try_from(reached).expect("a number of 64 bits");
        }
    }
}
