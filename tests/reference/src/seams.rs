//! Request 2.4, "Every seam in a box", by a flood fill over the whole box: every vertex, every facet
//! and every simplex of it is looked at, with no use of Step or Trace. Which facets are joined is
//! read off the simplices, and the least of a seam is looked for among all its facets.
//!
//! Vertices and facets are numbered and kept in lists, so that small boxes take little time; `curve`
//! has the same by sets.

use std::sync::OnceLock;

use crate::crossed::{column, is_crossed, Column};
use crate::curve::vertices_of_box;
use crate::grid::{chains, orders, Facet, Place, Simplex, Vertex};
use crate::job::{open, Job};
use crate::limits::MOST;

/// How a list of seams ends.
#[derive(Clone, Copy, PartialEq, Eq, PartialOrd, Ord, Debug)]
pub enum Ending {
    /// Every seam is listed.
    Complete,
    /// One more seam remains and no space does.
    Full,
}

impl Ending {
    pub fn word(&self) -> &'static str {
        match self {
            Ending::Complete => "complete",
            Ending::Full => "full",
        }
    }
}

/// A crossed facet of the box with readable values, and all that are joined to it.
#[derive(Clone, Debug)]
pub struct Seam {
    pub facets: Vec<Facet>,
    /// On how many sides of its facets the simplex leaves the box.
    pub edges: usize,
    /// On how many it lies in the box and is not readable.
    pub limits: usize,
}

impl Seam {
    /// The least facet, by the lowest vertex, axis 1 weighing most, and then by the masks in order.
    pub fn least(&self) -> Facet {
        let key = |facet: &&Facet| (facet.lowest, facet.masks);
        *self.facets.iter().min_by_key(key).expect("a seam has a facet")
    }

    /// The place that stands for it in a list.
    pub fn place(&self) -> Place {
        Place { facet: self.least(), side: 0 }
    }

    /// Whether the simplices on both sides of each of its facets are readable.
    pub fn closes(&self) -> bool {
        self.edges == 0 && self.limits == 0
    }
}

/// The facets of the simplices of one order: without vertex i, the mask of the lowest vertex above
/// the corner and the number of the chain. And the masks of the simplex's vertices.
struct OfOrder {
    facets: Vec<(u8, usize)>,
    vertices: Vec<u8>,
}

/// The facets by order, as in the table of orders.
fn of_orders(n: usize) -> &'static [OfOrder] {
    static TABLES: [OnceLock<Vec<OfOrder>>; MOST + 1] = [const { OnceLock::new() }; MOST + 1];
    let mask = |v: &Vertex| (0..n).map(|k| (v[k] as u8) << k).sum::<u8>();
    let numbered = |facet: Facet| {
        let number = chains(n).iter().position(|masks| *masks == facet.masks);
        (mask(&facet.lowest), number.expect("a chain"))
    };
    let of_order = |order: &'static Vec<usize>| {
        let simplex = Simplex { corner: [0; MOST], order };
        OfOrder {
            facets: (0..=n).map(|i| numbered(simplex.facet(i))).collect(),
            vertices: simplex.vertices()[..=n].iter().map(mask).collect(),
        }
    };
    TABLES[n].get_or_init(|| orders(n).iter().map(of_order).collect())
}

/// Whether each polynomial has a value above 0 and one that is not. A facet is crossed only then, and
/// this is found sooner.
fn has_both_signs(columns: &[Column]) -> bool {
    (1..columns.len()).all(|k| {
        let above = columns.iter().filter(|column| column[k] > 0).count();
        0 < above && above < columns.len()
    })
}

/// The vertices of a box, numbered in rising order, axis 1 weighing most.
struct Vertices {
    all: Vec<Vertex>,
    /// What the values at each count as; none if one is not readable.
    columns: Vec<Option<Column>>,
    /// The axes on which each lies below the high end of the box.
    room: Vec<u8>,
    /// By mask, how much higher the number of the vertex above another by that mask is.
    higher: [usize; 1 << MOST],
}

impl Vertices {
    fn of(job: &Job) -> Vertices {
        let all = vertices_of_box(job);
        let room = |v: &Vertex| {
            let below = (0..job.n).filter(|&k| v[k] < job.ends[k].1);
            below.map(|k| 1 << k).sum::<u8>()
        };
        let mut higher = [0; 1 << MOST];
        let mut stride = 1;
        for (k, &(low, high)) in job.ends.iter().enumerate().rev() {
            for mask in (0..higher.len()).filter(|mask| mask >> k & 1 == 1) {
                higher[mask] += stride;
            }
            stride *= (high - low + 1) as usize;
        }
        Vertices {
            columns: all.iter().map(|v| column(&job.polynomials, job.bias, v)).collect(),
            room: all.iter().map(room).collect(),
            all,
            higher,
        }
    }

    /// The number of the vertex above another by a mask; none outside the box.
    fn above(&self, number: usize, mask: u8) -> Option<usize> {
        (mask & !self.room[number] == 0).then(|| number + self.higher[mask as usize])
    }

    /// Whether the facet lies in the box with readable values and is crossed.
    fn is_crossed(&self, n: usize, lowest: usize, facet: &Facet) -> bool {
        let mut columns = [[0; MOST]; MOST];
        for (i, here) in columns[..n].iter_mut().enumerate() {
            match self.above(lowest, facet.mask(i)).and_then(|number| self.columns[number]) {
                Some(column) => *here = column,
                None => return false,
            }
        }
        has_both_signs(&columns[..n]) && is_crossed(&columns[..n])
    }
}

/// A crossed facet of the box with readable values.
struct Crossed {
    facet: Facet,
    /// Those that share a readable simplex with it, by their numbers among the crossed.
    sharing: Vec<usize>,
    /// How many simplices of the box have it.
    inside: usize,
}

/// All of them, with what they share.
fn crossed_facets(job: &Job) -> Vec<Crossed> {
    let n = job.n;
    let vertices = Vertices::of(job);
    let mut crossed: Vec<Crossed> = Vec::new();
    // By lowest vertex and chain, the number among the crossed.
    let mut numbers: Vec<Option<usize>> = Vec::new();
    for (number, &lowest) in vertices.all.iter().enumerate() {
        for &masks in chains(n) {
            let facet = Facet { n, lowest, masks };
            let is_crossed = vertices.is_crossed(n, number, &facet);
            numbers.push(is_crossed.then_some(crossed.len()));
            if is_crossed {
                crossed.push(Crossed { facet, sharing: Vec::new(), inside: 0 });
            }
        }
    }
    for corner in 0..vertices.all.len() {
        let highest = (1 << n) - 1;
        if vertices.above(corner, highest).is_none() {
            continue;
        }
        for of_order in of_orders(n) {
            let at = |mask: u8| vertices.above(corner, mask).expect("a vertex of the box");
            let number = |&(mask, chain): &(u8, usize)| numbers[at(mask) * chains(n).len() + chain];
            let two: Vec<usize> = of_order.facets.iter().filter_map(number).collect();
            two.iter().for_each(|&one| crossed[one].inside += 1);
            if of_order.vertices.iter().all(|&mask| vertices.columns[at(mask)].is_some()) {
                match two[..] {
                    [] => {}
                    [one, other] => {
                        crossed[one].sharing.push(other);
                        crossed[other].sharing.push(one);
                    }
                    _ => panic!("a readable simplex has no crossed facet or two"),
                }
            }
        }
    }
    crossed
}

/// Every seam of the box, each once, in the order of their places.
pub fn seams_of(job: &Job) -> Vec<Seam> {
    let crossed = crossed_facets(job);
    let mut seen = vec![false; crossed.len()];
    let mut seams = Vec::new();
    for first in 0..crossed.len() {
        if seen[first] {
            continue;
        }
        seen[first] = true;
        let mut seam = Seam { facets: Vec::new(), edges: 0, limits: 0 };
        let mut waiting = vec![first];
        while let Some(number) = waiting.pop() {
            let here = &crossed[number];
            seam.facets.push(here.facet);
            // A facet has two sides; each simplex that is readable has one facet more to share.
            seam.edges += 2 - here.inside;
            seam.limits += here.inside - here.sharing.len();
            for &next in &here.sharing {
                if !seen[next] {
                    seen[next] = true;
                    waiting.push(next);
                }
            }
        }
        seams.push(seam);
    }
    seams.sort_by_key(|seam| (seam.least().lowest, seam.least().masks));
    seams
}

/// **Seams.** Open's refusals, and none for the start; else the places of the seams one after
/// another in the buffer, as many as it has space for, and how the list ends and their count. Bytes
/// past the last place written keep their values.
pub fn seams(job: &[u8], buffer: &mut [u8]) -> Result<(Ending, usize), u8> {
    let job = open(job)?;
    let size = 3 * job.n;
    let (all, space) = (seams_of(&job), buffer.len() / size);
    let count = all.len().min(space);
    for (k, seam) in all[..count].iter().enumerate() {
        buffer[size * k..size * (k + 1)].copy_from_slice(&seam.place().bytes());
    }
    Ok((if all.len() > space { Ending::Full } else { Ending::Complete }, count))
}

#[cfg(test)]
mod tests {
    use super::*;
    use crate::cartesian::cartesian;
    use crate::generate::{any_outlines, Random};
    use crate::grid::above;
    use crate::limits::DIMENSIONS;

    /// For all values from -2 to 2 in dimension 2, else from -1 to 1.
    #[test]
    fn crossed_facets_have_both_signs() {
        for (n, size) in DIMENSIONS.into_iter().zip([2, 1, 1]) {
            let mut rows = vec![(-size..=size).collect(); n];
            rows[0] = vec![1];
            let columns: Vec<Column> = cartesian(&rows);
            let mut with_both = 0;
            for list in cartesian::<Column, MOST>(&vec![columns; n]) {
                let has_both = has_both_signs(&list[..n]);
                assert!(has_both || !is_crossed(&list[..n]), "{list:?}");
                with_both += has_both as usize;
            }
            assert!(with_both > 0);
        }
    }

    /// The number that stands for a vertex above another is that of the vertex.
    #[test]
    fn vertices_by_their_numbers() {
        let mut r = Random::new(63);
        for _ in 0..200 {
            let job = any_outlines(&mut r).1.opened();
            let vertices = Vertices::of(&job);
            for (number, lowest) in vertices.all.iter().enumerate() {
                for mask in 0..1 << job.n {
                    let wanted = above(lowest, mask);
                    let found = vertices.above(number, mask).map(|there| vertices.all[there]);
                    let inside = job.ends.iter().zip(wanted).all(|(&(_, high), x)| x <= high);
                    assert_eq!(found, inside.then_some(wanted));
                }
            }
        }
    }
}
