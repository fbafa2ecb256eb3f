//! Joined facets and the curve of a facet, by brute force over the box: every vertex, every facet
//! and every simplex is looked at once, with no use of Step or Trace.

use std::collections::{HashMap, HashSet};

use crate::cartesian::cartesian;
use crate::crossed::{column, is_crossed, Column};
use crate::grid::{chains, orders, Facet, Place, Simplex, Vertex};
use crate::job::Job;
use crate::limits::MOST;

/// Every lattice vertex of the box.
pub fn vertices_of_box(job: &Job) -> Vec<Vertex> {
    cartesian(&job.ends.iter().map(|&(low, high)| (low..=high).collect()).collect::<Vec<_>>())
}

/// The crossed facets of a box, each with those that share a readable simplex with it.
pub struct Joints {
    n: usize,
    /// The vertices of the box with readable values, and what these count as.
    readable: HashMap<Vertex, Column>,
    shares: HashMap<Facet, Vec<Facet>>,
}

impl Joints {
    pub fn of(job: &Job) -> Joints {
        let vertices = vertices_of_box(job);
        let with_column = |v: &Vertex| Some((*v, column(&job.polynomials, job.bias, v)?));
        let readable = vertices.iter().filter_map(with_column).collect();
        let mut joints = Joints { n: job.n, readable, shares: HashMap::new() };
        for &lowest in &vertices {
            for &masks in chains(job.n) {
                let facet = Facet { n: job.n, lowest, masks };
                if joints.is_crossed(&facet) {
                    joints.shares.insert(facet, Vec::new());
                }
            }
        }
        for &corner in &vertices {
            for order in orders(job.n) {
                joints.join(&Simplex { corner, order });
            }
        }
        joints
    }

    /// Whether the facet lies in the box with readable values and is crossed.
    fn is_crossed(&self, facet: &Facet) -> bool {
        let mut columns = [[0; MOST]; MOST];
        for (here, v) in columns.iter_mut().zip(&facet.vertices()[..self.n]) {
            match self.readable.get(v) {
                Some(column) => *here = *column,
                None => return false,
            }
        }
        is_crossed(&columns[..self.n])
    }

    fn is_readable(&self, simplex: &Simplex) -> bool {
        simplex.vertices()[..=self.n].iter().all(|v| self.readable.contains_key(v))
    }

    /// Joins the two crossed facets of a readable simplex, if it has any.
    fn join(&mut self, simplex: &Simplex) {
        if !self.is_readable(simplex) {
            return;
        }
        let facets = (0..=self.n).map(|i| simplex.facet(i));
        let crossed: Vec<Facet> = facets.filter(|f| self.shares.contains_key(f)).collect();
        match crossed[..] {
            [] => {}
            [one, other] => {
                self.shares.entry(one).or_default().push(other);
                self.shares.entry(other).or_default().push(one);
            }
            _ => panic!("a simplex has no crossed facet or two"),
        }
    }

    /// The curve of a crossed facet: all the facets joined to it.
    pub fn curve(&self, facet: &Facet) -> HashSet<Facet> {
        let mut seen = HashSet::from([*facet]);
        let mut waiting = vec![*facet];
        while let Some(here) = waiting.pop() {
            for next in &self.shares[&here] {
                if seen.insert(*next) {
                    waiting.push(*next);
                }
            }
        }
        seen
    }

    /// All curves of the box, each once.
    pub fn curves(&self) -> Vec<HashSet<Facet>> {
        let mut facets: Vec<Facet> = self.shares.keys().copied().collect();
        facets.sort();
        let mut seen: HashSet<Facet> = HashSet::new();
        let mut all = Vec::new();
        for facet in facets {
            if !seen.contains(&facet) {
                let curve = self.curve(&facet);
                seen.extend(curve.iter().copied());
                all.push(curve);
            }
        }
        all
    }

    /// Whether, for each facet of the curve, the simplices on both its sides are readable.
    pub fn closes(&self, curve: &HashSet<Facet>) -> bool {
        curve
            .iter()
            .all(|&facet| (0..2).all(|side| self.is_readable(&Place { facet, side }.simplex().0)))
    }
}
