//! The grid of a job of dimension 2: its triangles, the lattice vertices that count as 0, and those
//! whose value is not readable.

use crate::Ends;

/// In a larger box the lines of the grid would leave no white between them.
const MOST_UNITS: f64 = 40.0;
/// The largest size of a readable value.
const READABLE: u64 = 268_435_456;

/// The two ends of a line.
pub type Line = [[f64; 2]; 2];

/// The axes of a box of dimension 2 that is small enough for its grid to be shown.
pub fn shown(ends: &[Ends]) -> Option<[Ends; 2]> {
    let ends: [Ends; 2] = ends.try_into().ok()?;
    ends.iter().all(|(low, high)| high - low <= MOST_UNITS).then_some(ends)
}

/// Every whole number of an axis.
fn whole((low, high): Ends) -> impl Iterator<Item = f64> {
    (low as i64..=high as i64).map(|x| x as f64)
}

/// The lines of the grid: unit squares, each with the diagonal from its lowest to its highest
/// vertex.
pub fn lines([across, up]: [Ends; 2]) -> Vec<Line> {
    let ((left, right), (bottom, top)) = (across, up);
    let upright = whole(across).map(|x| [[x, bottom], [x, top]]);
    let level = whole(up).map(|y| [[left, y], [right, y]]);
    // On a diagonal the difference y - x stays the same; it ends where it meets the box.
    let diagonal = whole((bottom - right + 1.0, top - left - 1.0)).map(|rise| {
        let ends = [left.max(bottom - rise), right.min(top - rise)];
        ends.map(|x| [x, x + rise])
    });
    upright.chain(level).chain(diagonal).collect()
}

/// The sum of a polynomial's terms. It wraps around only in a job that does not open.
fn value(terms: &[u8], x: i64, y: i64) -> i64 {
    let product = |t: &[u8]| {
        let coefficient = i32::from_le_bytes([t[0], t[1], t[2], t[3]]) as i64;
        let powers = x.wrapping_pow(t[4] as u32).wrapping_mul(y.wrapping_pow(t[5] as u32));
        coefficient.wrapping_mul(powers)
    };
    terms.chunks_exact(8).map(product).fold(0, i64::wrapping_add)
}

/// The lattice vertices of the box whose value is of a size for which the test holds.
fn vertices(
    job: &[u8],
    [across, up]: [Ends; 2],
    test: impl Fn(u64) -> bool,
) -> Option<Vec<[f64; 2]>> {
    let field = |at: usize| Some(u16::from_le_bytes([*job.get(at)?, *job.get(at + 1)?]) as usize);
    let (offset, length) = (field(8)?, field(10)?);
    let terms = job.get(offset..offset + length)?;
    let passes = |v: &[f64; 2]| test(value(terms, v[0] as i64, v[1] as i64).unsigned_abs());
    let vertices = whole(across).flat_map(|x| whole(up).map(move |y| [x, y]));
    Some(vertices.filter(passes).collect())
}

/// The lattice vertices of the box whose value is no larger in size than the job's bias.
pub fn zeros(job: &[u8], axes: [Ends; 2]) -> Option<Vec<[f64; 2]>> {
    let bias = *job.get(3)?;
    vertices(job, axes, |size| size <= bias as u64)
}

/// The lattice vertices of the box whose value is not readable.
pub fn unreadable(job: &[u8], axes: [Ends; 2]) -> Option<Vec<[f64; 2]>> {
    vertices(job, axes, |size| size > READABLE)
}

#[cfg(test)]
mod tests {
    use super::*;

    const ENDS: [Ends; 2] = [(-1.0, 2.0), (0.0, 2.0)];

    /// 3 by 2 squares, 4 diagonals.
    #[test]
    fn lines_of_the_published_grid() {
        let all = lines(ENDS);
        assert_eq!(all.len(), 4 + 3 + 4);
        assert_eq!(all[0], [[-1.0, 0.0], [-1.0, 2.0]]);
        assert_eq!(all[4], [[-1.0, 0.0], [2.0, 0.0]]);
        let diagonals = [
            [[1.0, 0.0], [2.0, 1.0]],
            [[0.0, 0.0], [2.0, 2.0]],
            [[-1.0, 0.0], [1.0, 2.0]],
            [[-1.0, 1.0], [0.0, 2.0]],
        ];
        assert_eq!(all[7..], diagonals);
    }

    #[test]
    fn only_small_boxes_of_dimension_2() {
        assert_eq!(shown(&ENDS), Some(ENDS));
        assert_eq!(shown(&[(-20.0, 20.0), (0.0, 1.0)]), Some([(-20.0, 20.0), (0.0, 1.0)]));
        assert_eq!(shown(&[(-20.0, 21.0), (0.0, 1.0)]), None);
        assert_eq!(shown(&[(0.0, 1.0); 3]), None);
    }

    /// x * y - 2 x: at a bias of 1 the vertices of value 1 and -1 join those of value 0.
    #[test]
    fn vertices_that_count_as_0() {
        let mut job = vec![1, 2, 3, 0, 16, 0, 8, 0, 24, 0, 16, 0, 40, 0, 6, 0];
        job.resize(24, 0);
        job.extend([254, 255, 255, 255, 1, 0, 0, 0, 1, 0, 0, 0, 1, 1, 0, 0]);
        let exact = [[-1.0, 2.0], [0.0, 0.0], [0.0, 1.0], [0.0, 2.0], [1.0, 2.0], [2.0, 2.0]];
        assert_eq!(zeros(&job, ENDS), Some(exact.to_vec()));
        job[3] = 1;
        let biased = zeros(&job, ENDS).expect("vertices");
        let more: Vec<_> = biased.iter().filter(|v| !exact.contains(v)).collect();
        assert_eq!((biased.len(), more), (8, vec![&[-1.0, 1.0], &[1.0, 1.0]]));
        assert_eq!(zeros(&job[..39], ENDS), None);
        assert_eq!(unreadable(&job, ENDS), Some(Vec::new()));
    }

    /// Case I: 1,048,576 x squared at 16 is readable, at 17 not.
    #[test]
    fn vertices_that_are_not_readable() {
        let mut job = vec![1, 2, 3, 0, 16, 0, 8, 0, 24, 0, 8, 0, 32, 0, 6, 0];
        job.resize(24, 0);
        job.extend([0, 0, 16, 0, 2, 0, 0, 0]);
        let found = unreadable(&job, [(-17.0, 16.0), (0.0, 1.0)]);
        assert_eq!(found, Some(vec![[-17.0, 0.0], [-17.0, 1.0]]));
    }
}
