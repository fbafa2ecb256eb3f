//! "The grid": masks, vertices, simplices, facets, places, over any n up to `MOST`.

use std::collections::BTreeSet;
use std::sync::OnceLock;

use crate::cartesian::cartesian;
use crate::limits::MOST;

/// Whole coordinates by axis; entries above axis n are 0.
pub type Vertex = [i64; MOST];

/// The n - 1 masks of a facet; the entries behind them are 0.
pub type Masks = [u8; MOST - 1];

/// The vertex of the coordinates given, from axis 1 on.
pub fn vertex(coordinates: &[i64]) -> Vertex {
    let mut v = [0; MOST];
    v[..coordinates.len()].copy_from_slice(coordinates);
    v
}

/// Whether the mask has the axis (axes are numbered from 1).
pub fn has(mask: u8, axis: usize) -> bool {
    mask >> (axis - 1) & 1 == 1
}

/// The vertex that lies by the mask above `lowest`.
pub fn above(lowest: &Vertex, mask: u8) -> Vertex {
    let mut v = *lowest;
    for axis in 1..=MOST {
        v[axis - 1] += has(mask, axis) as i64;
    }
    v
}

/// All orders of the axes given, the first axis in rising order.
fn orders_of(axes: &[usize]) -> Vec<Vec<usize>> {
    if axes.is_empty() {
        return vec![Vec::new()];
    }
    let mut all = Vec::new();
    for &first in axes {
        let others: Vec<usize> = axes.iter().copied().filter(|&axis| axis != first).collect();
        all.extend(orders_of(&others).into_iter().map(|order| [&[first], &order[..]].concat()));
    }
    all
}

/// The fixed table of orders of the n axes.
pub fn orders(n: usize) -> &'static [Vec<usize>] {
    static TABLES: [OnceLock<Vec<Vec<usize>>>; MOST + 1] = [const { OnceLock::new() }; MOST + 1];
    TABLES[n].get_or_init(|| orders_of(&(1..=n).collect::<Vec<_>>()))
}

/// A corner and an order of the n axes.
#[derive(Clone, Copy, PartialEq, Eq, Hash, Debug)]
pub struct Simplex {
    pub corner: Vertex,
    pub order: &'static [usize],
}

impl Simplex {
    pub fn n(&self) -> usize {
        self.order.len()
    }

    /// v0 .. vn (the first n + 1 entries): each later vertex adds 1 on the next axis.
    pub fn vertices(&self) -> [Vertex; MOST + 1] {
        let mut all = [self.corner; MOST + 1];
        for i in 1..=self.n() {
            all[i] = all[i - 1];
            all[i][self.order[i - 1] - 1] += 1;
        }
        all
    }

    /// The simplex without vertex i.
    pub fn facet(&self, i: usize) -> Facet {
        let n = self.n();
        let all = self.vertices();
        let left = |k: usize| if k < i { all[k] } else { all[k + 1] };
        let lowest = left(0);
        let mut masks = [0; MOST - 1];
        for k in 1..n {
            for axis in 1..=n {
                match left(k)[axis - 1] - lowest[axis - 1] {
                    0 => {}
                    1 => masks[k - 1] |= 1 << (axis - 1),
                    _ => panic!("a vertex more than 1 above the lowest"),
                }
            }
        }
        Facet { n, lowest, masks }
    }
}

/// A lowest vertex and n - 1 masks.
#[derive(Clone, Copy, PartialEq, Eq, Hash, PartialOrd, Ord, Debug)]
pub struct Facet {
    pub n: usize,
    pub lowest: Vertex,
    pub masks: Masks,
}

/// Each mask is non-zero and strictly holds the one before; bits for axes above n are 0.
pub fn is_chain(n: usize, masks: &[u8]) -> bool {
    let mut before = 0u8;
    for &mask in masks {
        let bits_of_axes = mask >> n == 0;
        let holds = mask & before == before && mask != before;
        if !bits_of_axes || mask == 0 || !holds {
            return false;
        }
        before = mask;
    }
    true
}

/// Every chain of n - 1 masks that a facet can have, in rising order.
pub fn chains(n: usize) -> &'static [Masks] {
    static TABLES: [OnceLock<Vec<Masks>>; MOST + 1] = [const { OnceLock::new() }; MOST + 1];
    TABLES[n].get_or_init(|| {
        let mut all: Vec<Masks> = cartesian(&vec![(1..1 << n).collect(); n - 1]);
        all.retain(|masks| is_chain(n, &masks[..n - 1]));
        all
    })
}

/// Every facet of the simplices of a unit cube, by the cube's lowest vertex.
pub fn facets_of_cube(n: usize, corner: &Vertex) -> BTreeSet<Facet> {
    let simplices = orders(n).iter().map(|order| Simplex { corner: *corner, order });
    simplices.flat_map(|simplex| (0..=n).map(move |i| simplex.facet(i))).collect()
}

impl Facet {
    /// w0 .. w(n-1) (the first n entries).
    pub fn vertices(&self) -> [Vertex; MOST] {
        let mut all = [self.lowest; MOST];
        for i in 1..self.n {
            all[i] = above(&self.lowest, self.mask(i));
        }
        all
    }

    /// The mask of vertex i; 0 for the lowest.
    pub fn mask(&self, i: usize) -> u8 {
        if i == 0 {
            0
        } else {
            self.masks[i - 1]
        }
    }

    /// The last mask has n - 1 ones (flat) or n ones (bent).
    pub fn is_flat(&self) -> bool {
        self.mask(self.n - 1).count_ones() as usize == self.n - 1
    }

    /// Every simplex that has this facet, with the index of the vertex that it has besides:
    /// found by looking at all simplices whose corner is the lowest vertex or 1 below it on
    /// one axis.
    pub fn simplices(&self) -> Vec<(Simplex, usize)> {
        let own = self.vertices();
        let mut found = Vec::with_capacity(2);
        for lower in 0..=self.n {
            let mut corner = self.lowest;
            if lower > 0 {
                corner[lower - 1] -= 1;
            }
            for order in orders(self.n) {
                let simplex = Simplex { corner, order };
                let all = simplex.vertices();
                for i in 0..=self.n {
                    // The simplex without vertex i has the vertices of this facet.
                    if (0..self.n).all(|k| all[if k < i { k } else { k + 1 }] == own[k]) {
                        found.push((simplex, i));
                    }
                }
            }
        }
        found
    }
}

/// A facet with a side.
#[derive(Clone, Copy, PartialEq, Eq, Hash, PartialOrd, Ord, Debug)]
pub struct Place {
    pub facet: Facet,
    pub side: u8,
}

/// The side on which a simplex lies of its facet without vertex i.
fn side_of(simplex: &Simplex, i: usize) -> u8 {
    let n = simplex.n();
    if simplex.facet(i).is_flat() {
        // Side 0: the extra vertex is the highest; side 1: it is the lowest.
        if i == n {
            0
        } else if i == 0 {
            1
        } else {
            panic!("a flat facet leaves out the first or the last vertex")
        }
    } else {
        // Side 0 adds the lower-numbered of the two axes first; side 1 the higher.
        let first = simplex.order[i - 1];
        let second = simplex.order[i];
        if first < second {
            0
        } else {
            1
        }
    }
}

impl Place {
    /// The same facet with the other side.
    pub fn turned(&self) -> Place {
        Place { facet: self.facet, side: 1 - self.side }
    }

    /// The simplex on the place's side, with the index of its extra vertex.
    pub fn simplex(&self) -> (Simplex, usize) {
        let mut found = None;
        for (simplex, i) in self.facet.simplices() {
            if side_of(&simplex, i) == self.side {
                assert!(found.is_none(), "two simplices on one side");
                found = Some((simplex, i));
            }
        }
        found.expect("a simplex on each side")
    }

    /// The place of a facet of `simplex` (the one without vertex i) whose side leads out of it.
    pub fn out_of(simplex: &Simplex, i: usize) -> Place {
        Place { facet: simplex.facet(i), side: 1 - side_of(simplex, i) }
    }

    /// 3n bytes: n signed 16-bit coordinates, n - 1 masks, the side.
    pub fn bytes(&self) -> Vec<u8> {
        let n = self.facet.n;
        let mut out = Vec::with_capacity(3 * n);
        for x in &self.facet.lowest[..n] {
            let x = i16::try_from(*x).expect("a 16-bit coordinate");
            out.extend_from_slice(&x.to_le_bytes());
        }
        out.extend_from_slice(&self.facet.masks[..n - 1]);
        out.push(self.side);
        out
    }

    /// Reads a place; none if it is not 3n bytes or its chain or side is malformed.
    pub fn read(n: usize, bytes: &[u8]) -> Option<Place> {
        if bytes.len() != 3 * n {
            return None;
        }
        let mut lowest = [0; MOST];
        for (x, field) in lowest.iter_mut().zip(bytes[..2 * n].chunks_exact(2)) {
            *x = i16::from_le_bytes([field[0], field[1]]) as i64;
        }
        let chain = &bytes[2 * n..3 * n - 1];
        let side = bytes[3 * n - 1];
        if !is_chain(n, chain) || side > 1 {
            return None;
        }
        let mut masks = [0; MOST - 1];
        masks[..n - 1].copy_from_slice(chain);
        Some(Place { facet: Facet { n, lowest, masks }, side })
    }
}

#[cfg(test)]
mod tests {
    use super::*;
    use crate::limits::DIMENSIONS;

    /// A vertex away from the origin.
    fn somewhere(n: usize) -> Vertex {
        vertex(&[5, -3, 0, 8][..n])
    }

    /// n! orders, each of all the axes.
    #[test]
    fn orders_are_all() {
        for (n, count) in DIMENSIONS.into_iter().zip([2, 6, 24]) {
            let all: BTreeSet<&Vec<usize>> = orders(n).iter().collect();
            assert_eq!((orders(n).len(), all.len()), (count, count));
            for order in orders(n) {
                let mut axes = order.clone();
                axes.sort();
                assert_eq!(axes, (1..=n).collect::<Vec<_>>());
            }
        }
    }

    /// The chains are those of the facets of all simplices, and no other bytes are a chain.
    #[test]
    fn chains_are_all() {
        let bytes: Vec<u8> = (0..32).chain([64, 128, 255]).collect();
        for (n, count) in DIMENSIONS.into_iter().zip([3, 12, 60]) {
            assert_eq!(chains(n).len(), count);
            let corner = somewhere(n);
            let simplices = orders(n).iter().map(|order| Simplex { corner, order });
            let facets = simplices.flat_map(|s| (0..=n).map(move |i| s.facet(i).masks));
            assert_eq!(facets.collect::<BTreeSet<_>>(), chains(n).iter().copied().collect());
            let lists: Vec<Masks> = cartesian(&vec![bytes.clone(); n - 1]);
            assert_eq!(lists.iter().filter(|list| is_chain(n, &list[..n - 1])).count(), count);
        }
    }

    /// The facets of a cube are those whose vertices are vertices of the cube.
    #[test]
    fn facets_of_a_cube_are_all() {
        for (n, count) in DIMENSIONS.into_iter().zip([5, 18, 84]) {
            let corner = somewhere(n);
            let all = facets_of_cube(n, &corner);
            assert_eq!(all.len(), count);
            let lowest = (0..1 << n).map(|mask| above(&corner, mask));
            let facets = lowest
                .flat_map(|lowest| chains(n).iter().map(move |&masks| Facet { n, lowest, masks }));
            let in_cube = |v: &Vertex| (0..n).all(|k| v[k] - corner[k] <= 1);
            let inside = facets.filter(|facet| facet.vertices()[..n].iter().all(in_cube));
            assert_eq!(inside.collect::<BTreeSet<_>>(), all);
        }
    }

    /// Each facet has two simplices, one on each side, and the second is the first with one
    /// vertex replaced by the P rule, indices modulo n + 1.
    #[test]
    fn two_sides_by_the_p_rule() {
        for n in DIMENSIONS {
            for &masks in chains(n) {
                let facet = Facet { n, lowest: somewhere(n), masks };
                assert_eq!(facet.simplices().len(), 2);
                for side in 0..2 {
                    let place = Place { facet, side };
                    let (simplex, i) = place.simplex();
                    assert_eq!(Place::out_of(&simplex, i), place.turned());
                    let s = simplex.vertices();
                    let (before, after) = (s[(i + n) % (n + 1)], s[(i + 1) % (n + 1)]);
                    let new: Vec<i64> = (0..MOST).map(|a| before[a] + after[a] - s[i][a]).collect();
                    let (other, k) = place.turned().simplex();
                    assert_eq!(other.vertices()[k], new[..]);
                }
            }
        }
    }

    /// The three cases of the neighbour, in the words of the paper.
    #[test]
    fn neighbours_by_order() {
        for n in DIMENSIONS {
            for order in orders(n) {
                let simplex = Simplex { corner: somewhere(n), order };
                for i in 0..=n {
                    let (next, _) = Place::out_of(&simplex, i).simplex();
                    let mut corner = simplex.corner;
                    let mut axes = order.clone();
                    if i == 0 {
                        corner[axes[0] - 1] += 1;
                        axes.rotate_left(1);
                    } else if i == n {
                        corner[axes[n - 1] - 1] -= 1;
                        axes.rotate_right(1);
                    } else {
                        axes.swap(i - 1, i);
                    }
                    assert_eq!((next.corner, next.order), (corner, &axes[..]));
                }
            }
        }
    }

    /// A place read from its bytes is the place.
    #[test]
    fn places_are_read_back() {
        for n in DIMENSIONS {
            for &masks in chains(n) {
                let facet = Facet { n, lowest: somewhere(n), masks };
                for side in 0..2 {
                    let place = Place { facet, side };
                    assert_eq!(Place::read(n, &place.bytes()), Some(place));
                }
            }
        }
    }
}
