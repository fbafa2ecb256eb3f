//! Counts of what lists had that the order of cutting, request 2.14, was asked for.

use crate::grid::{vertex, Place};
use crate::order::Field;
use crate::order_lists::{Case, N};
use crate::tally::Tally;

/// What lists that are not refused had.
#[derive(Default)]
pub struct OrderMet {
    /// How many places, up to 7.
    pub lengths: Tally<usize>,
    /// The most listed loops inside one, up to 5, and whether the order stands.
    pub inner: Tally<(usize, bool)>,
    /// Two loops by how many edges of the second were passed from the place on the first.
    pub passed: Tally<usize>,
    /// The same, with a vertex passed that is not readable, and whether it is inside.
    pub over_unreadable: Tally<bool>,
    /// Two loops that share a vertex, and whether one is inside the other.
    pub sharing: Tally<bool>,
    /// Masks and sides of places, and whether the loop is inside another, has others inside, or
    /// none.
    pub places: Tally<(u8, u8, &'static str)>,
}

/// How a loop lies to the other listed ones.
pub const LIES: [&str; 3] = ["inside", "around", "beside"];

impl OrderMet {
    /// A list that is not refused.
    pub fn count(&mut self, case: &mut Case, places: &[Place], stands: bool) {
        let numbers: Vec<usize> =
            places.iter().map(|place| case.curves.number_of(&place.facet)).collect();
        self.lengths.count(N, places.len().min(7));
        let mut inside_of = vec![0; places.len()];
        let mut is_inside = vec![false; places.len()];
        for (a, place) in places.iter().enumerate() {
            for b in (0..places.len()).filter(|&b| b != a) {
                let v = place.facet.lowest;
                let passed = case.curves.passed(&v, numbers[b]);
                self.passed.count(N, passed);
                let high = case.job.ends[0].1;
                let on_the_way = |x: i64| vertex(&[x, v[1]]);
                if (v[0]..=high).any(|x| case.values.column(&on_the_way(x)).is_none()) {
                    self.over_unreadable.count(N, passed % 2 == 1);
                }
                if passed % 2 == 1 {
                    inside_of[b] += 1;
                    is_inside[a] = true;
                }
                if a < b && case.share_a_vertex(numbers[a], numbers[b]) {
                    let is_inside = |a: usize, b: usize| {
                        case.curves.is_inside(&places[a].facet.lowest, numbers[b])
                    };
                    self.sharing.count(N, is_inside(a, b) || is_inside(b, a));
                }
            }
        }
        if places.len() > 1 {
            self.inner.count(N, (inside_of.iter().copied().max().unwrap_or(0).min(5), stands));
        }
        for (k, place) in places.iter().enumerate() {
            let lies = if is_inside[k] { 0 } else { 2 - (inside_of[k] > 0) as usize };
            self.places.count(N, (place.facet.masks[0], place.side, LIES[lies]));
        }
    }
}
