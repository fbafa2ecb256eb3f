//! Places to judge and to step from.

use super::changes::{COORDINATES, MASKS, SIDES};
use super::kinds::{facet_near, vertex_in};
use super::random::Random;
use crate::build::Parts;
use crate::grid::{chains, Facet, Place};
use crate::named;
use crate::operations::trace_places;
use crate::tally::Tally;

named! {
    /// Where a place lies.
    PlaceKind {
        /// The job's start.
        Start: 1,
        /// Some steps along the curve or at its end, now and then turned.
        OnCurve: 2,
        /// A facet of a simplex that the curve goes through.
        BesideCurve: 2,
        /// At most 1 from the start on each axis.
        NearStart: 2,
        /// At most 1 from a vertex of the box.
        NearBox: 1,
        /// At, before or behind a face of the box.
        AtFace: 1,
        /// A coordinate at the limits of its field.
        FarOut: 1,
    }
}

named! {
    /// What is wrong with the bytes of a place, or may be.
    PlaceDamage {
        /// Nothing.
        Untouched: 28,
        /// The side is any number.
        Side: 1,
        /// A mask is any number.
        Mask: 1,
        /// Fewer than 3n bytes.
        Cut: 1,
        /// More than 3n bytes.
        Lengthened: 1,
    }
}

/// Some steps along the curve or at its end; the start if it is not crossed.
fn on_curve(r: &mut Random, parts: &Parts) -> Place {
    let traced = trace_places(&parts.opened(), r.pick(&[1, 2, 3, 5, 40]));
    traced.map_or(parts.start, |(_, places)| places[places.len() - 1])
}

/// A well-formed place for a job made of these parts.
fn place_of(r: &mut Random, parts: &Parts, kind: PlaceKind) -> Place {
    let n = parts.n;
    let in_box = vertex_in(r, &parts.ends);
    let mut at = Facet { n, lowest: in_box, masks: r.pick(chains(n)) };
    match kind {
        PlaceKind::Start => return parts.start,
        PlaceKind::OnCurve => {
            let here = on_curve(r, parts);
            return if r.once_in(3) { here.turned() } else { here };
        }
        PlaceKind::BesideCurve => at = on_curve(r, parts).simplex().0.facet(r.index(n + 1)),
        PlaceKind::NearStart => at = facet_near(r, n, &parts.start.facet.lowest),
        PlaceKind::NearBox => at = facet_near(r, n, &in_box),
        PlaceKind::AtFace => {
            let k = r.index(n);
            let (low, high) = parts.ends[k];
            at.lowest[k] = r.pick(&[low - 1, low, high - 1, high, high + 1]);
        }
        PlaceKind::FarOut => at.lowest[r.index(n)] = r.pick(COORDINATES),
    }
    Place { facet: at, side: r.below(2) as u8 }
}

fn damage(r: &mut Random, n: usize, bytes: &mut Vec<u8>, damage: PlaceDamage) {
    match damage {
        PlaceDamage::Untouched => {}
        PlaceDamage::Side => bytes[3 * n - 1] = r.pick(SIDES),
        PlaceDamage::Mask => bytes[2 * n + r.index(n - 1)] = r.pick(MASKS),
        PlaceDamage::Cut => bytes.truncate(r.index(3 * n)),
        PlaceDamage::Lengthened => bytes.resize(3 * n + 1 + r.index(9), 0),
    }
}

/// The bytes of a place, and how they were made.
pub struct AnyPlace {
    pub bytes: Vec<u8>,
    /// The dimension of the job that it was made for.
    pub made_in: usize,
    pub kind: PlaceKind,
    pub damage: PlaceDamage,
}

/// A place to judge or to step from, for a job made of these parts.
pub fn any_place(r: &mut Random, parts: &Parts) -> AnyPlace {
    let kind = r.named();
    let mut bytes = place_of(r, parts, kind).bytes();
    let damage_done = r.named();
    damage(r, parts.n, &mut bytes, damage_done);
    AnyPlace { bytes, made_in: parts.n, kind, damage: damage_done }
}

/// Counts of how places were made.
#[derive(Default)]
pub struct PlaceTally {
    kinds: Tally<PlaceKind>,
    damages: Tally<PlaceDamage>,
}

impl PlaceTally {
    pub fn count(&mut self, place: &AnyPlace) {
        self.kinds.count(place.made_in, place.kind);
        self.damages.count(place.made_in, place.damage);
    }

    /// Fails unless each kind and each damage was met in each dimension.
    pub fn assert_all(&self) {
        self.kinds.assert_all();
        self.damages.assert_all();
    }
}

#[cfg(test)]
mod tests {
    use super::*;
    use crate::generate::valid;
    use crate::operations::judge;
    use crate::tally::Answer;
    use std::collections::BTreeMap;

    /// What Judge answers to places of each kind, and to each damage of a place.
    #[test]
    fn each_place_reaches_its_answers() {
        let mut r = Random::new(6);
        let mut made = PlaceTally::default();
        let mut malformed = Tally::default();
        let mut met: BTreeMap<PlaceKind, Tally<Answer>> = BTreeMap::new();
        for _ in 0..4_000 {
            let (_, parts) = valid(&mut r);
            for _ in 0..4 {
                let place = any_place(&mut r, &parts);
                let judged = judge(&parts.bytes(), &place.bytes);
                let answer: Answer = judged.map(|yes| if yes { "crossed" } else { "not crossed" });
                made.count(&place);
                malformed.count(parts.n, (place.damage, answer == Err(13)));
                if answer != Err(13) {
                    met.entry(place.kind).or_default().count(parts.n, answer);
                }
            }
        }
        made.assert_all();
        malformed.assert_met(&[
            (PlaceDamage::Untouched, false),
            (PlaceDamage::Side, false),
            (PlaceDamage::Side, true),
            (PlaceDamage::Mask, false),
            (PlaceDamage::Mask, true),
            (PlaceDamage::Cut, true),
            (PlaceDamage::Lengthened, true),
        ]);
        for (kind, met) in met {
            println!("{kind:?}");
            match kind {
                PlaceKind::Start | PlaceKind::OnCurve => met.assert_includes(&[Ok("crossed")]),
                PlaceKind::BesideCurve => {
                    met.assert_met(&[Ok("crossed"), Ok("not crossed"), Err(9), Err(10)])
                }
                PlaceKind::NearStart | PlaceKind::NearBox | PlaceKind::AtFace => {
                    met.assert_includes(&[Ok("not crossed"), Err(9), Err(10)])
                }
                PlaceKind::FarOut => met.assert_includes(&[Err(9)]),
            }
        }
    }
}
