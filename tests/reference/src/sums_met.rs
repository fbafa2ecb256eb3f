//! Counts of the sums that are easy to misjudge: at the readable limit and at the bias.

use crate::grid::{Place, Vertex};
use crate::job::Job;
use crate::limits::Limits;
use crate::operations::{facet_is_crossed, sums};
use crate::tally::Tally;

/// What one of some sums can be if all are readable and the bias is above 0.
pub const AROUND_BIAS: &[&str] = &["bias", "-bias", "bias + 1", "-(bias + 1)"];
/// One of the sums is not readable, and the bias is above 0.
pub const NOT_READABLE: &[&str] = &["not readable at a bias"];
/// What the largest of some sums can be, by size.
pub const AT_LIMIT: &[&str] = &["at the limit", "1 past the limit"];

/// Which of them stand at the vertices; none if one of these lies outside the box.
fn found(job: &Job, vertices: &[Vertex]) -> Vec<&'static str> {
    let Some(sums) = sums(job, vertices) else { return Vec::new() };
    let largest = sums.iter().map(|sum| sum.abs()).max().expect("a sum");
    let past = largest - Limits::of(job.n).readable;
    let mut found = Vec::new();
    if let 0 | 1 = past {
        found.push(AT_LIMIT[past as usize]);
    }
    let bias = job.bias as i128;
    if bias > 0 && past > 0 {
        found.push(NOT_READABLE[0]);
    } else if bias > 0 {
        let named = AROUND_BIAS.iter().zip([bias, -bias, bias + 1, -bias - 1]);
        found.extend(named.filter(|(_, sum)| sums.contains(sum)).map(|(name, _)| name));
    }
    found
}

/// Counts of these sums on the facets of places, and at the vertex that the place's side adds if
/// its facet is crossed.
#[derive(Default)]
pub struct SumsMet {
    facets: Tally<&'static str>,
    added: Tally<&'static str>,
}

impl SumsMet {
    pub fn count(&mut self, job: &Job, place: &Place) {
        for name in found(job, &place.facet.vertices()[..job.n]) {
            self.facets.count(job.n, name);
        }
        if facet_is_crossed(job, &place.facet) {
            let (simplex, extra) = place.simplex();
            for name in found(job, &[simplex.vertices()[extra]]) {
                self.added.count(job.n, name);
            }
        }
    }

    /// Fails unless each of these was met, on a facet and at an added vertex, in each dimension.
    pub fn assert_includes(&self, wanted: &[&[&'static str]]) {
        self.facets.assert_includes(&wanted.concat());
        self.added.assert_includes(&wanted.concat());
    }
}
