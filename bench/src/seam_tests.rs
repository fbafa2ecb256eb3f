//! The listers of seams against brute force over the box, which knows no step and no trace.

use reference::build::{gathered, place, power_of, term, Parts};
use reference::crossed::{column, Term};
use reference::curve::{vertices_of_box, Joints};
use reference::generate::{valid, Random};
use reference::grid::{Place, Vertex};
use reference::job::open;
use reference::limits::{Limits, DIMENSIONS};
use reference::tally::Tally;

use crate::seam_jobs::{facets_of_box, seam_jobs};
use crate::seams_plain::{seams_with, Listed};
use crate::{seams_careful, seams_plain};

/// The seams of a job by brute force: the place of each, how many facets it has and whether it
/// closes.
fn by_brute_force(job: &[u8]) -> Vec<(Place, usize, bool)> {
    let joints = Joints::of(&open(job).expect("a job that opens"));
    let mut all: Vec<_> = joints
        .curves()
        .iter()
        .map(|curve| {
            let least = *curve.iter().min().expect("a facet");
            (Place { facet: least, side: 0 }, curve.len(), joints.closes(curve))
        })
        .collect();
    all.sort();
    all
}

/// Fails unless both listers write these places, and nothing else, to a buffer of that length.
fn compare(job: &[u8], places: &[Place], length: usize) -> Listed {
    let size = 3 * job[1] as usize;
    let count = places.len().min(length / size);
    let wanted = Listed { full: count < places.len(), count };
    let mut wanted_buffer = vec![0x5a; length];
    for (out, place) in wanted_buffer.chunks_exact_mut(size).zip(places) {
        out.copy_from_slice(&place.bytes());
    }
    for list in [seams_plain::seams, seams_careful::seams] {
        let mut buffer = vec![0x5a; length];
        assert_eq!(list(job, &mut buffer), wanted, "{job:?}");
        assert!(buffer == wanted_buffer, "{job:?}");
    }
    wanted
}

/// With no space, with one place too few, with just enough and with more; gives the seams.
fn compare_in_all_spaces(job: &[u8]) -> Vec<(Place, usize, bool)> {
    let seams = by_brute_force(job);
    let places: Vec<Place> = seams.iter().map(|(place, ..)| *place).collect();
    let size = 3 * job[1] as usize;
    let mut spaces = vec![0, 1, places.len().saturating_sub(1), places.len(), places.len() + 7];
    spaces.dedup();
    for space in spaces {
        for more in [0, size - 1] {
            compare(job, &places, size * space + more);
        }
    }
    seams
}

/// The crossed facets and the steps that the plain lister counts.
fn walked(job: &[u8]) -> (u64, u64) {
    let (mut crossed, mut steps) = (0, 0);
    seams_with(job, &mut [0; 12_000], |more| {
        crossed += 1;
        steps += more;
    });
    (crossed, steps)
}

/// The job in a box of so few units around its start that brute force takes not long.
fn cut(mut parts: Parts) -> Parts {
    let reach = [8, 3, 2][parts.n - 2];
    for (k, ends) in parts.ends.iter_mut().enumerate() {
        let (low, high) = *ends;
        let at = parts.start.facet.lowest[k].clamp(low, high);
        *ends = (low.max(at - reach), high.min(at + reach));
    }
    parts
}

/// A job whose values are so steep that many next to the curve are not readable: polynomials
/// x² (a (x - 250) + b y + .. + c) around x = 250, with steps of up to the limit.
fn steep(r: &mut Random, n: usize) -> Parts {
    let most = (Limits::of(n).readable / 62_500) as i64;
    let polynomial = |r: &mut Random| {
        let a = r.between(1, most.min(4_000)) * r.pick(&[1, -1]);
        let mut terms = vec![term(a, &[3]), term(r.between(-most, most) - 250 * a, &[2])];
        for axis in 2..=n {
            let mut exponents = power_of(axis, 1);
            exponents[0] = 2;
            terms.push(Term { coefficient: r.between(-most, most), exponents });
        }
        gathered(&terms)
    };
    let mut ends = vec![(-1, r.between(1, 4 - n as i64 / 2)); n];
    ends[0] = (249, 250 + ends[0].1);
    let polynomials = (1..n).map(|_| polynomial(r)).collect();
    let masks: Vec<u8> = (1..n).map(|k| (1 << k) - 1).collect();
    Parts { n, bias: 0, ends, polynomials, start: place(&vec![0; n], &masks, 0) }
}

#[test]
fn both_list_what_brute_force_finds() {
    let mut r = Random::new(41);
    let mut met = Tally::default();
    let mut jobs: Vec<Parts> = (0..900).map(|_| cut(valid(&mut r).1)).collect();
    for n in DIMENSIONS {
        jobs.extend((0..300).map(|_| steep(&mut r, n)));
    }
    for parts in jobs {
        let job = parts.bytes();
        let seams = compare_in_all_spaces(&job);
        met.count(parts.n, ["no seam", "one", "several"][seams.len().min(2)]);
        for &(_, facets, closes) in &seams {
            met.count(parts.n, if closes { "loop" } else { "open" });
            if facets == 1 {
                met.count(parts.n, "a facet by itself");
            }
        }
        let crossed: usize = seams.iter().map(|(_, facets, _)| facets).sum();
        assert_eq!(walked(&job).0, crossed as u64, "{parts:?}");
    }
    met.assert_met(&["no seam", "one", "several", "loop", "open", "a facet by itself"]);
}

/// 2x - 1 in a box of 1 by 2 units, whose facets are counted by hand: one seam across all edges
/// along axis 1 and the diagonals.
#[test]
fn facets_of_a_box() {
    let parts = Parts {
        n: 2,
        bias: 0,
        ends: vec![(0, 1), (-1, 1)],
        polynomials: vec![vec![term(-1, &[]), term(2, &[1])]],
        start: place(&[0, 0], &[1], 0),
    };
    // Three edges along axis 1, four along axis 2, two diagonals.
    assert_eq!(facets_of_box(&parts.opened()), 9);
    let seams = compare_in_all_spaces(&parts.bytes());
    assert_eq!(seams, [(place(&[0, -1], &[1], 0), 5, false)]);
}

/// Name, crossed facets and seams of every job that is timed.
const TIMED: &[(&str, u64, usize)] = &[
    ("circle_64_2", 430, 1),
    ("oval_and_branch_64_2", 385, 2),
    ("three_lines_64_2", 291, 3),
    ("bends_64_2", 417, 1),
    ("quarters_64_2", 566, 4),
    ("circle_128_2", 854, 1),
    ("oval_and_branch_128_2", 759, 2),
    ("three_lines_128_2", 579, 3),
    ("bends_128_2", 829, 1),
    ("quarters_128_2", 1_202, 4),
    ("circle_256_2", 1_702, 1),
    ("oval_and_branch_256_2", 1_521, 2),
    ("three_lines_256_2", 1_155, 3),
    ("bends_256_2", 1_657, 1),
    ("quarters_256_2", 2_502, 4),
    ("circle_512_2", 3_410, 1),
    ("oval_and_branch_512_2", 3_035, 2),
    ("three_lines_512_2", 2_307, 3),
    ("bends_512_2", 3_313, 1),
    ("circle_16_3", 204, 1),
    ("six_circles_16_3", 892, 6),
    ("nine_lines_16_3", 775, 9),
    ("angles_16_3", 384, 1),
    ("circle_32_3", 408, 1),
    ("six_circles_32_3", 1_760, 6),
    ("nine_lines_32_3", 1_511, 9),
    ("angles_32_3", 780, 1),
    ("circle_64_3", 820, 1),
    ("six_circles_64_3", 3_496, 6),
    ("nine_lines_64_3", 3_003, 9),
    ("angles_64_3", 1_548, 1),
    ("circle_8_4", 142, 1),
    ("four_circles_8_4", 408, 4),
    ("eight_lines_8_4", 412, 8),
    ("angles_8_4", 672, 2),
    ("circle_16_4", 282, 1),
    ("four_circles_16_4", 768, 4),
    ("eight_lines_16_4", 832, 8),
    ("angles_16_4", 1_492, 2),
];

/// Both listers find them; brute force too, up to the boxes 256², 16³ and 8⁴. All is readable.
#[test]
fn timed_jobs_have_these_seams() {
    let mut found = Vec::new();
    for timed in seam_jobs() {
        let (name, job) = (timed.name(), &timed.job);
        let opened = open(job).expect("a job that opens");
        let readable = |v: &Vertex| column(&opened.polynomials, 0, v).is_some();
        assert!(vertices_of_box(&opened).iter().all(readable), "{name}");
        let places: Vec<Place> = if facets_of_box(&opened) < 260_000 {
            by_brute_force(job).iter().map(|(place, ..)| *place).collect()
        } else {
            let (mut buffer, size) = ([0; 1_200], 3 * timed.n);
            let count = seams_careful::seams(job, &mut buffer).count;
            let written = buffer[..size * count].chunks_exact(size);
            written.map(|bytes| Place::read(timed.n, bytes).expect("a place")).collect()
        };
        let seams = compare(job, &places, 1_200).count;
        found.push((name, walked(job).0, seams));
    }
    let wanted: Vec<_> = TIMED.iter().map(|(name, f, s)| (name.to_string(), *f, *s)).collect();
    assert_eq!(found, wanted);
}
