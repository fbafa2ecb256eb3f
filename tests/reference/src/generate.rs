//! Jobs, places, buffers and formulas to try, from a fixed seed: the same on every run.
//!
//! Valid jobs (`kinds`) lean to what is easy to get wrong: small boxes with many exact zeros at
//! grid points, values at the readable limit, the largest coefficients and boxes, closed curves,
//! all terms that a body may hold, sheets that almost touch, points halfway between two steps
//! (`halves`). Each has a bias (`biases`), and sums at the bias and 1 past it. Their starts are
//! searched for, so that most are crossed and traces are long. Other jobs (`changes`) are valid
//! ones changed at the limits of a field, cut, lengthened or rebuilt; and plain noise. `directions`
//! has jobs for how traces go from one simplex to the next, and cubes with many ties, `outlines` has
//! jobs for the list of seams, `nests` has jobs for the order of cutting, `small_cutter` has jobs at
//! the limits of the small cutter, `places` has places to judge and to step from, `sums` has running
//! sums to ask for, `bodies` has polynomials with bad terms, `term_faults` what makes a term bad,
//! `loose` has loose bodies to write a job from, and what is wrong with them, `formulas` has formulas
//! to type, which are trees (`trees`), and what may go wrong with them.
//!
//! What is tried has a name, and each input says by which names it was made: a test counts them.

mod biases;
mod bodies;
mod changes;
mod directions;
mod formulas;
mod halves;
mod kinds;
mod loose;
mod nests;
mod outlines;
mod places;
mod random;
mod small_cutter;
mod sums;
mod term_faults;
mod trees;

pub use biases::Bias;
pub use bodies::{any_bodies, AnyBodies, BodyKind, TermChange};
pub use changes::{any_change, any_job, dimension_written, AnyJob, Change, Damage, JobTally};
pub use directions::{of_any_course, of_course, through_cube, with_many_ties, Course};
pub use formulas::{
    any_formula, change_text, formula_of, nested, typed_list, AnyFormula, FormulaChange,
    FormulaKind, FormulaTally, ALPHABET,
};
pub use kinds::{
    any_dimension, valid, valid_for_rounding, valid_of_any, valid_small, vertex_in, Kind, Made,
};
pub use loose::{
    any_loose, resize, with_loose_faults, AnyLoose, EndsFault, Fault as LooseFault, LengthFault,
    LooseKind, LooseTally, StartFault, TermFault, Unread,
};
pub use nests::{nest_of, Nest};
pub use outlines::{any_job_in_small_box, any_outlines, outlines_of, Outline, Size};
pub use places::{any_place, AnyPlace, PlaceDamage, PlaceKind, PlaceTally};
pub use random::Random;
pub use small_cutter::{for_small_cutter, for_small_trace, SmallKind};
pub use sums::{any_sum, with_largest_terms, AnySum, CountKind, NumberKind, SumKinds, VertexKind};
pub use term_faults::{
    every_second, full, short, terms_of, with_fault, Behind, LimitFault, GOOD_COEFFICIENTS,
};
pub use trees::Tree;
