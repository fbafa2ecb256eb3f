//! An order of cutting in Rust with a table, made for comparing times: each loop is walked once, and
//! its edges along axis 1 are kept by row. A place's row then tells which earlier loops it is inside,
//! and the first edge of its own walk whether its loop already came. So k loops take k walks, by the
//! same parts as the narrow ones of `order_plain.rs`. It takes a job that opens and tests nothing of
//! it but the dimension. Unproved; compared with the reference by `order_tests.rs`.

use reference::operations::Verdict;
use reference::order::CutOrder;

use crate::order_plain::{listed, refuse, walk, Listed, N, SIZE};
use crate::plain::{read, signed_16, Job};

/// An edge along axis 1: the lower x of the two, and the position of its loop.
struct Edge {
    x: i64,
    position: usize,
}

/// The edges along axis 1 of all loops so far, by row.
struct Table {
    low: i64,
    rows: Vec<Vec<Edge>>,
}

impl Table {
    fn of(job: &Job<N, 1>) -> Table {
        let (low, high) = job.ends[1];
        Table { low, rows: (low..=high).map(|_| Vec::new()).collect() }
    }

    fn row(&mut self, y: i64) -> &mut Vec<Edge> {
        &mut self.rows[(y - self.low) as usize]
    }

    /// The first position whose loop has the vertex inside, if one does. A row has few edges: at most
    /// four, since a polynomial changes its sign no more often.
    fn first_around(&mut self, v: &[i64; N]) -> Option<usize> {
        let row = self.row(v[1]);
        let ahead = || row.iter().filter(|edge| v[0] <= edge.x).map(|edge| edge.position);
        let is_around = |k: &usize| ahead().filter(|position| position == k).count() % 2 == 1;
        ahead().filter(is_around).min()
    }
}

/// The edges along axis 1 of a place's loop, as x and y; 18 if the trace is no loop.
fn edges(job: &Job<N, 1>, place: &Listed<N, 1>, edges: &mut Vec<[i64; N]>) -> Result<(), u8> {
    edges.clear();
    let end = walk::<N, 1, 3, ()>(job, place, |here| {
        if here[2 * N] == 1 {
            edges.push([signed_16(here), signed_16(&here[2..])]);
        }
        None
    });
    if end != Ok(Verdict::Loop) {
        return Err(18);
    }
    Ok(())
}

/// Whether the order of a list stands, in a job that opens.
pub fn cut_order(bytes: &[u8], list: &[u8]) -> Result<CutOrder, u8> {
    refuse(bytes, list)?;
    let (job, _) = read::<N, 1>(bytes);
    let count = list.len() / SIZE;
    let mut table = Table::of(&job);
    let (mut own, mut first) = (Vec::new(), count);
    for (position, bytes) in list.chunks_exact(SIZE).enumerate() {
        let place = listed(&job, bytes)?;
        edges(&job, &place, &mut own)?;
        // Every loop passes edges along axis 1, where its x is greatest for one.
        let [x, y] = own[0];
        if table.row(y).iter().any(|edge| edge.x == x) {
            return Err(18);
        }
        if let Some(outer) = table.first_around(&place.lowest) {
            first = first.min(outer);
        }
        for &[x, y] in &own {
            table.row(y).push(Edge { x, position });
        }
    }
    Ok(if first < count { CutOrder::Breaks(first) } else { CutOrder::Stands })
}
