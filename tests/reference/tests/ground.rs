//! The grounds of Judge (request 2.9) in the reference, for all small values: in dimension 2 from -3
//! to 3, in dimension 3 from -2 to 2, in dimension 4 from -1 to 1.

use std::collections::BTreeSet;

use reference::cartesian::cartesian;
use reference::crossed::{is_crossed, Column};
use reference::ground::{ground, holds, names_the_first, says_crossed, Coefficients, Ground};
use reference::grounds_met::{each_against, each_crossed, SignedGround};
use reference::limits::{DIMENSIONS, MOST};

/// The largest size of a value in each dimension.
const SIZES: [i128; DIMENSIONS.len()] = [3, 2, 1];

/// Every facet of dimension n whose values are from -size to size, by the columns of its vertices.
fn each_facet(n: usize, size: i128, mut and: impl FnMut(&[Column])) {
    let mut rows = vec![(-size..=size).collect(); n];
    rows[0] = vec![1];
    let columns: Vec<Column> = cartesian(&rows);
    let mut chosen = [0; MOST];
    loop {
        let facet = chosen.map(|k| columns[k]);
        and(&facet[..n]);
        let Some(at) = chosen[..n].iter().rposition(|&k| k + 1 < columns.len()) else { return };
        chosen[at] += 1;
        chosen[at + 1..].fill(0);
    }
}

/// Every ground that names vertices and powers from 0 to n, one more than there are; and lists with
/// one power more or less.
fn every_ground(n: usize) -> Vec<Ground> {
    let mut all = vec![Ground::ZeroDeterminant];
    for vertex in 0..=n as u64 {
        all.extend((0..=n as u64).map(|power| Ground::Against { vertex, power }));
    }
    let lists: Vec<[u64; MOST + 1]> = cartesian(&vec![(0..=n as u64).collect(); n]);
    for count in [n - 1, n, n + 1] {
        let powers: BTreeSet<&[u64]> = lists.iter().map(|list| &list[..count]).collect();
        all.extend(powers.iter().map(|powers| Ground::Crossed { powers: powers.to_vec() }));
    }
    all
}

/// The ground holds, names the first vertex against D, and says what Judge says. With D not 0 each
/// vertex has a power to name.
#[test]
fn grounds_hold() {
    for ((n, size), count) in DIMENSIONS.into_iter().zip(SIZES).zip([49, 15_625, 531_441]) {
        let mut facets = 0;
        each_facet(n, size, |columns| {
            let (named, facet) = (ground(columns), Coefficients::of_columns(columns));
            assert!(holds(&named, &facet), "{named:?} of {columns:?}");
            assert!(names_the_first(&named, &facet), "{named:?} of {columns:?}");
            assert_eq!(says_crossed(&named), is_crossed(columns), "{named:?} of {columns:?}");
            let has_a_power = |row: &Vec<i128>| row.iter().any(|&a| a != 0);
            assert!(facet.d == 0 || facet.by_vertex.iter().all(has_a_power), "{columns:?}");
            facets += 1;
        });
        assert_eq!(facets, count);
    }
}

/// Of all grounds that hold and name the first vertex there is one. All that hold, those too that
/// name a later vertex, say what Judge says. In dimension 4 this is tried on some facets.
#[test]
fn no_other_ground_holds() {
    let tried = DIMENSIONS.into_iter().zip(SIZES).zip([1, 1, 53]).zip([0, 1_000, 500]);
    for (((n, size), step), least) in tried {
        let candidates = every_ground(n);
        let (mut number, mut with_later) = (0, 0);
        each_facet(n, size, |columns| {
            number += 1;
            if number % step != 0 {
                return;
            }
            let facet = Coefficients::of_columns(columns);
            let mut all: Vec<&Ground> = candidates.iter().filter(|g| holds(g, &facet)).collect();
            assert!(all.iter().all(|g| says_crossed(g) == is_crossed(columns)), "{columns:?}");
            with_later += (all.len() > 1) as u32;
            all.retain(|g| names_the_first(g, &facet));
            assert_eq!(all, [&ground(columns)], "{columns:?}");
        });
        println!("{n}: {with_later} facets with a later vertex against D");
        assert!(with_later >= least);
        // In dimension 2 the two determinants sum to D for every e, so not both are against it.
        assert!(n > 2 || with_later == 0);
    }
}

/// Those that can come up are the lists that the comparisons count by.
#[test]
fn each_ground_that_can_come_up() {
    let counts = [(6, 4), (18, 26), (32, 226)];
    for ((n, size), counts) in DIMENSIONS.into_iter().zip(SIZES).zip(counts) {
        let mut met = BTreeSet::new();
        each_facet(n, size, |columns| {
            let d = Coefficients::of_columns(columns).d;
            met.insert(SignedGround::of(&ground(columns), d));
        });
        let (against, crossed) = (each_against(n), each_crossed(n));
        assert_eq!((against.len(), crossed.len()), counts);
        let zero = [SignedGround::ZeroDeterminant];
        assert_eq!(met, zero.into_iter().chain(against).chain(crossed).collect());
    }
}

/// The power that a vertex's sign is taken from, and whether the sign is that of D.
type Sign = (u64, bool);

/// The ground by these signs, D not looked at.
fn by_signs(signs: &[Sign], mut order: impl Iterator<Item = usize>) -> Ground {
    match order.find(|&vertex| !signs[vertex].1) {
        Some(vertex) => Ground::Against { vertex: vertex as u64, power: signs[vertex].0 },
        None => Ground::Crossed { powers: signs.iter().map(|&(power, _)| power).collect() },
    }
}

/// The sign of each vertex by its coefficients.
fn signs(facet: &Coefficients, sign: impl Fn(&[i128]) -> Sign) -> Vec<Sign> {
    facet.by_vertex.iter().map(|row| sign(row)).collect()
}

/// The sign by the first power whose coefficient is not 0; power 0 if all are 0.
fn by_first(facet: &Coefficients) -> Vec<Sign> {
    let first = |row: &[i128]| row.iter().position(|&a| a != 0).unwrap_or(0);
    signs(facet, |row| (first(row) as u64, row[first(row)].signum() == facet.d.signum()))
}

/// The sign by the last such power.
fn by_last(facet: &Coefficients) -> Vec<Sign> {
    let last = |row: &[i128]| row.iter().rposition(|&a| a != 0).unwrap_or(0);
    signs(facet, |row| (last(row) as u64, row[last(row)].signum() == facet.d.signum()))
}

/// The sign of power 0 alone; a 0 agrees with D or does not.
fn by_power_0(facet: &Coefficients, zero_agrees: bool) -> Vec<Sign> {
    let agrees = |a: i128| if a == 0 { zero_agrees } else { a.signum() == facet.d.signum() };
    signs(facet, |row| (0, agrees(row[0])))
}

/// The ground by these signs, D looked at first.
fn judged_by(facet: &Coefficients, signs: &[Sign]) -> Ground {
    match facet.d {
        0 => Ground::ZeroDeterminant,
        _ => by_signs(signs, 0..signs.len()),
    }
}

/// The right ground with other numbers named.
fn renamed(
    facet: &Coefficients,
    against: impl Fn(u64, u64) -> (u64, u64),
    crossed: impl Fn(&mut Vec<u64>),
) -> Ground {
    match judged_by(facet, &by_first(facet)) {
        Ground::ZeroDeterminant => Ground::ZeroDeterminant,
        Ground::Against { vertex, power } => {
            let (vertex, power) = against(vertex, power);
            Ground::Against { vertex, power }
        }
        Ground::Crossed { mut powers } => {
            crossed(&mut powers);
            Ground::Crossed { powers }
        }
    }
}

/// A wrong reading, and on how many facets it must differ from the right one in each dimension.
type Wrong = (&'static str, fn(&Coefficients) -> Ground, [u32; DIMENSIONS.len()]);

/// In dimension 2 no two vertices are against D.
const WRONG: [Wrong; 12] = [
    ("the last vertex against D", last_vertex, [0, 1_000, 50_000]),
    ("vertices numbered from the last", numbered_from_the_last, [20, 5_000, 200_000]),
    ("vertices numbered from 1", vertices_from_1, [15, 5_000, 200_000]),
    ("powers numbered from 1", powers_from_1, [40, 10_000, 300_000]),
    ("the last power named", last_power, [30, 5_000, 100_000]),
    ("the power of the vertex behind", power_of_another, [10, 2_000, 50_000]),
    ("two powers exchanged", two_powers_exchanged, [5, 1_000, 10_000]),
    ("the sign by the last power", |facet| judged_by(facet, &by_last(facet)), [30, 5_000, 100_000]),
    (
        "power 0, where 0 agrees",
        |facet| judged_by(facet, &by_power_0(facet, true)),
        [10, 2_000, 50_000],
    ),
    (
        "power 0, where 0 does not",
        |facet| judged_by(facet, &by_power_0(facet, false)),
        [10, 2_000, 50_000],
    ),
    (
        "D not looked at",
        |facet| by_signs(&by_first(facet), 0..facet.by_vertex.len()),
        [5, 2_000, 100_000],
    ),
    ("above 0, not as D", above_zero, [20, 5_000, 100_000]),
];

fn last_vertex(facet: &Coefficients) -> Ground {
    match facet.d {
        0 => Ground::ZeroDeterminant,
        _ => by_signs(&by_first(facet), (0..facet.by_vertex.len()).rev()),
    }
}

fn numbered_from_the_last(facet: &Coefficients) -> Ground {
    let last = facet.by_vertex.len() as u64 - 1;
    renamed(facet, |vertex, power| (last - vertex, power), |powers| powers.reverse())
}

fn vertices_from_1(facet: &Coefficients) -> Ground {
    renamed(facet, |vertex, power| (vertex + 1, power), |_| {})
}

fn powers_from_1(facet: &Coefficients) -> Ground {
    let one_more = |powers: &mut Vec<u64>| powers.iter_mut().for_each(|power| *power += 1);
    renamed(facet, |vertex, power| (vertex, power + 1), one_more)
}

fn last_power(facet: &Coefficients) -> Ground {
    let last: Vec<u64> = by_last(facet).iter().map(|&(power, _)| power).collect();
    let named = |vertex: u64, _| (vertex, last[vertex as usize]);
    renamed(facet, named, |powers| *powers = last.clone())
}

fn power_of_another(facet: &Coefficients) -> Ground {
    let powers = by_first(facet);
    let behind = |vertex: u64| powers[(vertex as usize + 1) % powers.len()].0;
    renamed(facet, |vertex, _| (vertex, behind(vertex)), |powers| powers.rotate_left(1))
}

fn two_powers_exchanged(facet: &Coefficients) -> Ground {
    renamed(facet, |vertex, power| (vertex, power), |powers| powers.swap(0, 1))
}

fn above_zero(facet: &Coefficients) -> Ground {
    let first = by_first(facet);
    let is_above = |(power, agrees): &Sign| (*power, *agrees == (facet.d > 0));
    judged_by(facet, &first.iter().map(is_above).collect::<Vec<_>>())
}

/// Each wrong reading differs from the right one, and where it does the second reader turns it down.
#[test]
fn wrong_readings_are_told_apart() {
    for (at, (n, size)) in DIMENSIONS.into_iter().zip(SIZES).enumerate() {
        let mut differ = [0; WRONG.len()];
        each_facet(n, size, |columns| {
            let (right, facet) = (ground(columns), Coefficients::of_columns(columns));
            for (count, (name, wrong, _)) in differ.iter_mut().zip(&WRONG) {
                let found = wrong(&facet);
                if found != right {
                    let stands = holds(&found, &facet) && names_the_first(&found, &facet);
                    assert!(!stands, "{name}: {found:?} of {columns:?}");
                    *count += 1;
                }
            }
        });
        for (count, (name, _, least)) in differ.iter().zip(&WRONG) {
            println!("{n}: {name} differs on {count}");
            assert!(*count >= least[at], "{name} in dimension {n}");
        }
    }
}
