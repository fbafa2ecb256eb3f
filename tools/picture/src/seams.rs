//! Every seam of a job's box, as the reference of the tests finds them by brute force.

use reference::curve::Joints;
use reference::grid::{Place, Vertex};
use reference::job::open;
use reference::operations::{point, trace_places, with_start, Verdict};

use crate::listing::Curve;

/// A seam as a curve, and which of its points is that of its place.
#[derive(Debug)]
pub struct Seam {
    pub curve: Curve,
    pub place: usize,
}

/// Every seam in the order of the places, or the number of the job's refusal.
pub fn seams(bytes: &[u8]) -> Result<Vec<Seam>, u8> {
    let joints = Joints::of(&open(bytes)?);
    let mut least: Vec<_> =
        joints.curves().iter().map(|curve| *curve.iter().min().expect("a facet")).collect();
    least.sort();
    least.into_iter().map(|facet| seam(bytes, Place { facet, side: 0 })).collect()
}

/// The trace from a place, whole.
fn traced(bytes: &[u8], place: &Place) -> Result<(Verdict, Vec<Place>), u8> {
    trace_places(&open(&with_start(bytes, place))?, usize::MAX)
}

/// A seam around from its place, or from one end to the other.
fn seam(bytes: &[u8], place: Place) -> Result<Seam, u8> {
    let (verdict, mut places) = traced(bytes, &place)?;
    let closed = verdict == Verdict::Loop;
    let mut at = 0;
    if !closed {
        // Turned, from the other end to the place, which stands in both.
        let mut whole = traced(bytes, &place.turned())?.1;
        whole.reverse();
        at = whole.len() - 1;
        whole.extend(places.drain(1..));
        places = whole;
    }
    let n = place.facet.n;
    let units = |steps: Vertex| steps[..n].iter().map(|&x| x as f64 / 1024.0).collect();
    let points = places.iter().map(|p| point(bytes, &p.bytes()).map(units));
    Ok(Seam { curve: Curve { closed, points: points.collect::<Result<_, u8>>()? }, place: at })
}

#[cfg(test)]
mod tests {
    use super::*;

    /// The example with a seam of each kind, against the lines that the program in C prints: the
    /// places in order, loops once around, others from end to end.
    #[test]
    fn seams_of_the_example() {
        let job = include_bytes!("../../../examples/several_outlines.job");
        let expected = include_str!("../../../examples/every_seam.expected");
        let lines: Vec<&str> = expected.lines().filter(|line| !line.starts_with("space")).collect();
        let all = seams(job).expect("a job that opens");
        assert_eq!(all.len(), lines.len());
        for (Seam { curve, place }, line) in all.iter().zip(lines) {
            let answers = line.split(": ").nth(1).expect("what its traces answer");
            let counts: Vec<usize> = answers
                .split(", turned ")
                .map(|answer| answer.split(' ').nth(1).expect("a count").parse().expect("a number"))
                .collect();
            assert_eq!(curve.closed, answers.starts_with("loop"), "{line}");
            // The place stands in both traces.
            let (back, facets) = match counts[..] {
                [around] => (1, around),
                [forth, back] => (back, back + forth - 1),
                _ => panic!("{line}"),
            };
            assert_eq!((*place + 1, curve.points.len()), (back, facets), "{line}");
        }
        assert_eq!(seams(&job[..20]).unwrap_err(), 5);
    }
}
