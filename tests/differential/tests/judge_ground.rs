//! Judge with its ground against the reference, and against Judge.

use library::ffi::Library;
use library::on_places::OnPlaces;
use reference::generate::{with_many_ties, Random};
use reference::grid::{chains, facets_of_cube, Facet, Masks, Place};
use reference::ground::{holds, names_the_first, says_crossed, Coefficients, Ground};
use reference::grounds_met::GroundsMet;
use reference::job::Job;
use reference::limits::DIMENSIONS;
use reference::product::{Product, Reference};
use reference::tally::Tally;

/// The library's answer, which the library's Judge agrees with: crossed, not crossed or refused.
fn judged(job: &[u8], place: &[u8]) -> Result<Ground, u8> {
    let answer = Library.judge_ground(job, place);
    let says = answer.as_ref().map(says_crossed).map_err(|number| *number);
    assert_eq!(says, Library.judge(job, place), "{place:?} in {job:?}");
    answer
}

const JUDGE_GROUND: OnPlaces<Ground> = OnPlaces {
    library: judged,
    reference: |job, place| Reference.judge_ground(job, place),
    name: |ground| match ground {
        Ground::ZeroDeterminant => "D is 0",
        Ground::Against { .. } => "against D",
        Ground::Crossed { .. } => "crossed",
    },
    own: &[Err(13), Err(9), Err(10), Ok("D is 0"), Ok("against D"), Ok("crossed")],
    changed: &[
        (Ok("against D"), Ok("against D")),
        (Ok("against D"), Ok("D is 0")),
        (Ok("against D"), Ok("crossed")),
        (Ok("crossed"), Ok("crossed")),
        (Ok("crossed"), Ok("D is 0")),
        (Ok("crossed"), Ok("against D")),
    ],
};

/// D and the coefficients of the facet: by them the ground holds, and no vertex before the one that
/// it names is against D.
fn read_again(job: &Job, facet: &Facet, ground: &Ground) -> Coefficients {
    let read = Coefficients::of_facet(job, facet).expect("a facet that is judged");
    assert!(holds(ground, &read), "{ground:?} of {facet:?} in {job:?}");
    assert!(names_the_first(ground, &read), "{ground:?} of {facet:?} in {job:?}");
    read
}

#[test]
fn judge_ground_is_the_reference() {
    JUDGE_GROUND.valid_jobs_and(45, 25_000, 8, |job, place, ground| {
        read_again(job, &place.facet, ground);
    });
}

/// The job is opened first, whatever the place.
#[test]
fn judge_ground_opens_first() {
    JUDGE_GROUND.any_jobs(46, 20_000);
}

/// Counts of the grounds of facets.
#[derive(Default)]
struct Met {
    places: Tally<()>,
    grounds: GroundsMet,
    /// The masks, and the vertex that is against D; none if the facet is crossed.
    chains: Tally<(Masks, Option<u64>)>,
}

impl Met {
    /// Compares every facet of a cube with many ties.
    fn compare_cube(&mut self, r: &mut Random, n: usize) {
        let (corner, parts) = with_many_ties(r, n);
        let (job, opened) = (parts.bytes(), parts.opened());
        for facet in facets_of_cube(n, &corner) {
            let place = Place { facet, side: r.below(2) as u8 };
            let answer = JUDGE_GROUND.compare(&job, &place.bytes());
            self.places.count(n, ());
            let Ok(ground) = answer else { continue };
            self.grounds.count(parts.bias, &ground, &read_again(&opened, &facet, &ground));
            match ground {
                Ground::ZeroDeterminant => {}
                Ground::Against { vertex, .. } => self.chains.count(n, (facet.masks, Some(vertex))),
                Ground::Crossed { .. } => self.chains.count(n, (facet.masks, None)),
            }
        }
    }

    /// Fails unless each chain was met at least so often with each vertex, and crossed.
    fn assert_chains(&self, least: u64) {
        for n in DIMENSIONS {
            let named = |masks| (0..n as u64).map(Some).chain([None]).map(move |v| (masks, v));
            let wanted: Vec<_> = chains(n).iter().flat_map(|&masks| named(masks)).collect();
            self.chains.assert_often_in(n, least, &wanted);
        }
    }
}

/// Each ground that can come up, with each sign of D, at bias 0 and above.
#[test]
fn each_ground_comes_up() {
    let mut met = Met::default();
    for (n, cubes) in DIMENSIONS.into_iter().zip([30_000, 10_000, 8_000]) {
        let mut r = Random::new(47);
        (0..cubes).for_each(|_| met.compare_cube(&mut r, n));
    }
    met.places.assert_often(150_000, &[()]);
    met.places.assert_most_in_largest();
    met.grounds.assert_no_other();
    met.grounds.assert_zero([10_000, 20_000, 50_000]);
    met.grounds.assert_against([200, 400, 400]);
    met.grounds.assert_crossed([2_000, 100, 8]);
    met.assert_chains(200);
}
