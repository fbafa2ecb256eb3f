//! Request 2.9: Judge in a second form, which names its ground; and a second reader, which tells
//! whether a ground holds. The reader looks at D, at what the ground names, and at the coefficients
//! that it is handed.

use crate::crossed::{coefficient, determinant, Column};
use crate::grid::{Facet, Place};
use crate::job::{open, Job};
use crate::operations::facet_columns;

/// Why a facet is crossed or not. Vertices are numbered from 0 in chain order, powers from 0.
#[derive(Clone, PartialEq, Eq, PartialOrd, Ord, Debug)]
pub enum Ground {
    /// Not crossed: D is 0.
    ZeroDeterminant,
    /// Not crossed: the first vertex whose sign is against D, and the power whose coefficient
    /// decided it.
    Against { vertex: u64, power: u64 },
    /// Crossed: for each vertex the power whose coefficient decided.
    Crossed { powers: Vec<u64> },
}

/// The first power whose coefficient is not 0, with that coefficient. There is one if D is not 0:
/// the other columns are then independent, so with some column in place of that of the vertex the
/// determinant is not 0.
fn decided(columns: &[Column], vertex: usize) -> (usize, i128) {
    let by_power = |power| (power, coefficient(columns, vertex, power));
    let first = (0..columns.len()).map(by_power).find(|&(_, a)| a != 0);
    first.expect("a coefficient that is not 0")
}

/// The ground of a facet with these columns.
pub fn ground(columns: &[Column]) -> Ground {
    let d = determinant(columns);
    if d == 0 {
        return Ground::ZeroDeterminant;
    }
    let mut powers = Vec::new();
    for vertex in 0..columns.len() {
        let (power, first) = decided(columns, vertex);
        if first.signum() != d.signum() {
            return Ground::Against { vertex: vertex as u64, power: power as u64 };
        }
        powers.push(power as u64);
    }
    Ground::Crossed { powers }
}

/// **Judge with its ground.** 13, 9, 10, as Judge; else the ground.
pub fn judge_ground(job: &[u8], place: &[u8]) -> Result<Ground, u8> {
    let job = open(job)?;
    let place = Place::read(job.n, place).ok_or(13)?;
    let columns = facet_columns(&job, &place.facet)?;
    Ok(ground(&columns[..job.n]))
}

/// What a ground is checked with: D, and the coefficients by vertex and power.
#[derive(Clone, PartialEq, Eq, Debug)]
pub struct Coefficients {
    pub d: i128,
    pub by_vertex: Vec<Vec<i128>>,
}

impl Coefficients {
    pub fn of_columns(columns: &[Column]) -> Coefficients {
        let n = columns.len();
        let row = |i: usize| (0..n).map(|power| coefficient(columns, i, power)).collect();
        Coefficients { d: determinant(columns), by_vertex: (0..n).map(row).collect() }
    }

    /// Those of a facet that Judge answers for; the refusal of another.
    pub fn of_facet(job: &Job, facet: &Facet) -> Result<Coefficients, u8> {
        facet_columns(job, facet).map(|columns| Coefficients::of_columns(&columns[..job.n]))
    }
}

/// The sign that a vertex has by a named power; none if the power may not be named: a lower
/// coefficient is not 0, or its own is 0.
fn sign_by(coefficients: &[i128], power: u64) -> Option<i128> {
    let own = *coefficients.get(power as usize)?;
    let lower_are_zero = coefficients[..power as usize].iter().all(|&lower| lower == 0);
    (lower_are_zero && own != 0).then(|| own.signum())
}

/// Whether the ground holds.
pub fn holds(ground: &Ground, facet: &Coefficients) -> bool {
    let Coefficients { d, by_vertex } = facet;
    match ground {
        Ground::ZeroDeterminant => *d == 0,
        Ground::Against { vertex, power } => {
            let named = by_vertex.get(*vertex as usize);
            let sign = named.and_then(|coefficients| sign_by(coefficients, *power));
            *d != 0 && sign == Some(-d.signum())
        }
        Ground::Crossed { powers } => {
            let mut named = by_vertex.iter().zip(powers);
            let agrees = |(coefficients, &power): (&Vec<i128>, &u64)| {
                sign_by(coefficients, power) == Some(d.signum())
            };
            *d != 0 && powers.len() == by_vertex.len() && named.all(agrees)
        }
    }
}

/// Whether no vertex before the one that the ground names is against D.
pub fn names_the_first(ground: &Ground, facet: &Coefficients) -> bool {
    let Ground::Against { vertex, .. } = ground else { return true };
    let is_against = |coefficients: &Vec<i128>| {
        let first = coefficients.iter().find(|&&a| a != 0);
        first.is_some_and(|&a| (a < 0) != (facet.d < 0))
    };
    !facet.by_vertex.iter().take(*vertex as usize).any(is_against)
}

/// What a ground says of its facet.
pub fn says_crossed(ground: &Ground) -> bool {
    matches!(ground, Ground::Crossed { .. })
}
