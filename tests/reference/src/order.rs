//! Request 2.14, "Inner loops before outer", from its words: the curve of a place by a flood fill
//! over joined facets, without Step and Trace, and inside by going along the row, edge by edge.
//!
//! Curves are over a field: a box and what its vertices count as. That is a job, or for tests any
//! choice of values, since a polynomial changes its sign at most four times along a row, and so a
//! job has no three loops each inside the next.

use std::collections::HashMap;

use crate::crossed::{column, is_crossed, Column};
use crate::curve::vertices_of_box;
use crate::grid::{chains, vertex, Facet, Place, Simplex, Vertex};
use crate::job::{open, Job};

/// The dimension that has an order of cutting.
const N: usize = 2;

/// Whether a proposed order of cutting stands.
#[derive(Clone, Copy, PartialEq, Eq, PartialOrd, Ord, Debug)]
pub enum CutOrder {
    /// Each loop comes after all listed loops inside it.
    Stands,
    /// The first position, counted from 0, whose loop has a later listed loop inside it.
    Breaks(usize),
}

/// A box of dimension 2 and what its vertices count as.
pub trait Field {
    /// Per axis the low and high end.
    fn ends(&self) -> &[(i64, i64)];

    /// What a vertex of the box counts as; none if it is not readable.
    fn column(&self, v: &Vertex) -> Option<Column>;

    fn in_box(&self, v: &Vertex) -> bool {
        self.ends().iter().zip(v).all(|((low, high), x)| low <= x && x <= high)
    }
}

impl Field for Job {
    fn ends(&self) -> &[(i64, i64)] {
        &self.ends
    }

    fn column(&self, v: &Vertex) -> Option<Column> {
        column(&self.polynomials, self.bias, v)
    }
}

/// A box with its values at hand, in the order of its vertices, axis 1 weighing most.
pub struct Values {
    pub ends: Vec<(i64, i64)>,
    pub columns: Vec<Option<Column>>,
}

impl Values {
    /// Those of a job: what is asked often is summed once.
    pub fn of(job: &Job) -> Values {
        let columns = vertices_of_box(job).iter().map(|v| job.column(v)).collect();
        Values { ends: job.ends.clone(), columns }
    }
}

impl Field for Values {
    fn ends(&self) -> &[(i64, i64)] {
        &self.ends
    }

    fn column(&self, v: &Vertex) -> Option<Column> {
        let [(x, _), (y, high)] = [self.ends[0], self.ends[1]];
        self.columns[((v[0] - x) * (high - y + 1) + v[1] - y) as usize]
    }
}

/// A curve: all facets that are joined to one.
#[derive(Clone, Debug)]
pub struct Curve {
    pub facets: Vec<Facet>,
    /// On how many sides of its facets the simplex leaves the box.
    pub edges: usize,
    /// On how many it lies in the box and is not readable.
    pub limits: usize,
}

impl Curve {
    /// Whether the simplices on both sides of each facet are readable.
    pub fn closes(&self) -> bool {
        self.edges == 0 && self.limits == 0
    }
}

/// Why vertices have no columns, as Judge has it.
const OUTSIDE: u8 = 9;
const UNREADABLE: u8 = 10;

/// The columns of some vertices: 9 if one lies outside the box, 10 if one is not readable.
fn columns(field: &impl Field, vertices: &[Vertex]) -> Result<Vec<Column>, u8> {
    if !vertices.iter().all(|v| field.in_box(v)) {
        return Err(OUTSIDE);
    }
    vertices.iter().map(|v| field.column(v).ok_or(UNREADABLE)).collect()
}

/// Whether a facet is crossed; 9 or 10.
pub fn judge(field: &impl Field, facet: &Facet) -> Result<bool, u8> {
    Ok(is_crossed(&columns(field, &facet.vertices()[..N])?))
}

/// The crossed facets of a simplex; 9 or 10.
fn crossed_facets(field: &impl Field, simplex: &Simplex) -> Result<Vec<Facet>, u8> {
    let all = columns(field, &simplex.vertices()[..=N])?;
    let without = |i: usize| [&all[..i], &all[i + 1..]].concat();
    Ok((0..=N).filter(|&i| is_crossed(&without(i))).map(|i| simplex.facet(i)).collect())
}

/// The curves of a field that were asked for so far, numbered in that order.
pub struct Curves<'a, F> {
    field: &'a F,
    curves: Vec<Curve>,
    /// The number of the curve of each of their facets.
    numbers: HashMap<Facet, usize>,
}

impl<'a, F: Field> Curves<'a, F> {
    pub fn of(field: &'a F) -> Self {
        Curves { field, curves: Vec::new(), numbers: HashMap::new() }
    }

    /// Every curve of the box.
    pub fn all(field: &'a F) -> Self {
        let mut curves = Curves::of(field);
        let [xs, ys] = [field.ends()[0], field.ends()[1]];
        for (x, y) in (xs.0..=xs.1).flat_map(|x| (ys.0..=ys.1).map(move |y| (x, y))) {
            for &masks in chains(N) {
                let facet = Facet { n: N, lowest: vertex(&[x, y]), masks };
                if judge(field, &facet) == Ok(true) {
                    curves.number_of(&facet);
                }
            }
        }
        curves
    }

    /// The number of the curve of a crossed facet.
    pub fn number_of(&mut self, facet: &Facet) -> usize {
        if let Some(&number) = self.numbers.get(facet) {
            return number;
        }
        let number = self.curves.len();
        let mut curve = Curve { facets: Vec::new(), edges: 0, limits: 0 };
        self.numbers.insert(*facet, number);
        let mut waiting = vec![*facet];
        while let Some(here) = waiting.pop() {
            curve.facets.push(here);
            for (simplex, _) in here.simplices() {
                match crossed_facets(self.field, &simplex) {
                    Err(OUTSIDE) => curve.edges += 1,
                    Err(_) => curve.limits += 1,
                    Ok(sharing) => {
                        for next in sharing {
                            if self.numbers.insert(next, number).is_none() {
                                waiting.push(next);
                            }
                        }
                    }
                }
            }
        }
        self.curves.push(curve);
        number
    }

    /// The curves found so far, by their numbers.
    pub fn found(&self) -> &[Curve] {
        &self.curves
    }

    /// The edges passed, going from a vertex along axis 1 to the high end of the box.
    fn edges_passed(&self, v: &Vertex) -> impl Iterator<Item = Facet> {
        let (v, high) = (*v, self.field.ends()[0].1);
        (v[0]..high).map(move |x| {
            let mut lowest = v;
            lowest[0] = x;
            Facet { n: N, lowest, masks: [1, 0, 0] }
        })
    }

    /// How many of the edges passed are facets of the curve of that number.
    pub fn passed(&self, v: &Vertex, number: usize) -> usize {
        let of_it = |edge: &Facet| self.numbers.get(edge) == Some(&number);
        self.edges_passed(v).filter(of_it).count()
    }

    /// Whether a vertex is inside the curve of that number.
    pub fn is_inside(&self, v: &Vertex, number: usize) -> bool {
        self.passed(v, number) % 2 == 1
    }

    /// What the place at the next position is refused for, behind those at the earlier positions;
    /// else the place.
    fn next_place(&mut self, earlier: &[Place], bytes: &[u8]) -> Result<Place, u8> {
        let place = Place::read(N, bytes).ok_or(13)?;
        if !judge(self.field, &place.facet)? {
            return Err(11);
        }
        let number = self.number_of(&place.facet);
        let came = earlier.iter().any(|before| self.number_of(&before.facet) == number);
        if came || !self.curves[number].closes() {
            return Err(18);
        }
        Ok(place)
    }

    /// Whether the order of these places stands, each on a loop of its own.
    fn order_of(&mut self, places: &[Place]) -> CutOrder {
        let loops: Vec<usize> = places.iter().map(|place| self.number_of(&place.facet)).collect();
        let has_later_inside = |k: &usize| {
            let mut later = places[k + 1..].iter();
            later.any(|place| self.is_inside(&place.facet.lowest, loops[*k]))
        };
        match (0..places.len()).find(has_later_inside) {
            Some(k) => CutOrder::Breaks(k),
            None => CutOrder::Stands,
        }
    }

    /// The answer to a list of places on this field. What is found of its curves is kept, so that
    /// more lists on the same take less time.
    pub fn cut_order(&mut self, list: &[u8]) -> Result<CutOrder, u8> {
        if list.len() % (3 * N) != 0 {
            return Err(13);
        }
        let mut places = Vec::new();
        for bytes in list.chunks_exact(3 * N) {
            places.push(self.next_place(&places, bytes)?);
        }
        Ok(self.order_of(&places))
    }
}

/// **Cut order.** 3 if the dimension is not 2; 13 if the list's length is not a multiple of 3n;
/// then position by position 13, 9, 10, 11 and 18 if the place's trace is no loop or its loop
/// already came. Else whether the order stands.
pub fn cut_order(job: &[u8], list: &[u8]) -> Result<CutOrder, u8> {
    let job = open(job)?;
    if job.n != N {
        return Err(3);
    }
    Curves::of(&job).cut_order(list)
}
