//! Point against the reference.

use library::ffi::Library;
use library::on_places::OnPlaces;
use reference::generate::{valid_for_rounding, Random};
use reference::grid::Vertex;
use reference::operations::trace_places;
use reference::product::{Product, Reference};
use reference::roundings_met::RoundingsMet;

const POINT: OnPlaces<Vertex> = OnPlaces {
    library: |job, place| Library.point(job, place),
    reference: |job, place| Reference.point(job, place),
    name: |steps| if steps.iter().all(|s| s % 1024 == 0) { "on the grid" } else { "off the grid" },
    own: &[Err(13), Err(9), Err(10), Err(11), Ok("on the grid"), Ok("off the grid")],
    changed: &[
        (Ok("off the grid"), Ok("on the grid")),
        (Ok("off the grid"), Err(11)),
        (Err(11), Ok("on the grid")),
    ],
};

#[test]
fn point_is_the_reference() {
    let mut roundings = RoundingsMet::default();
    POINT.valid_jobs_and(15, 25_000, 8, |job, place, steps| {
        roundings.count(job, &place.facet, steps);
    });
    roundings.assert_often(20);
    roundings.assert_halves(100);
}

/// Along curves that are made for it, with many halves of a step.
#[test]
fn point_goes_to_the_nearest_step() {
    let mut r = Random::new(30);
    let mut roundings = RoundingsMet::default();
    for _ in 0..30_000 {
        let (_, parts) = valid_for_rounding(&mut r);
        let (job, opened) = (parts.bytes(), parts.opened());
        let Ok((_, places)) = trace_places(&opened, 10) else { continue };
        for place in places {
            let wanted = Reference.point(&job, &place.bytes());
            assert_eq!(Library.point(&job, &place.bytes()), wanted, "{place:?} in {job:?}");
            roundings.count(&opened, &place.facet, &wanted.expect("a crossed facet"));
        }
    }
    roundings.assert_often(200);
    roundings.assert_halves(1_000);
}

/// The job is opened first, whatever the place.
#[test]
fn point_opens_first() {
    POINT.any_jobs(16, 20_000);
}
