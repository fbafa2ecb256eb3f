//! Reads listings.

/// What a listing draws: whether its verdict is loop, and its points in grid units.
#[derive(Debug)]
pub struct Curve {
    pub closed: bool,
    pub points: Vec<Vec<f64>>,
}

/// Whether the verdict is loop, and the count, of the first line of a listing. No listing is
/// without places.
fn head(line: &str, n: usize) -> Option<(bool, usize)> {
    let words: Vec<&str> = line.split(' ').collect();
    let [dimension, verdict, count] = words[..] else { return None };
    let count = count.parse().ok()?;
    (dimension.parse() == Ok(n) && count > 0).then_some((verdict == "loop", count))
}

/// The point of a place's line: its last n numbers.
fn point(line: &str, n: usize) -> Option<Vec<f64>> {
    let words: Vec<&str> = line.split(' ').collect();
    if words.len() != 3 * n - 1 {
        return None;
    }
    words[2 * n - 1..].iter().map(|w| Some(w.parse::<f64>().ok()? / 1024.0)).collect()
}

/// The listings of a text in dimension n, one after another; or the line that is out of place.
pub fn curves(text: &str, n: usize) -> Result<Vec<Curve>, String> {
    let mut all = Vec::new();
    let mut lines = text.lines();
    while let Some(first) = lines.next() {
        let (closed, count) = head(first, n).ok_or(first)?;
        let next = |_| {
            let line = lines.next().ok_or("a place is missing at the end")?;
            point(line, n).ok_or(line)
        };
        let points = (0..count).map(next).collect::<Result<_, &str>>()?;
        all.push(Curve { closed, points });
    }
    Ok(all)
}

#[cfg(test)]
mod tests {
    use super::*;

    #[test]
    fn one_after_another() {
        let one = "2 edge 1\n0 0 1 512 0\n";
        let other = "2 loop 2\n0 0 3 256 256\n0 0 2 0 -512\n";
        let all = curves(&format!("{one}{other}"), 2).expect("two listings");
        assert_eq!([&all[0].closed, &all[1].closed], [&false, &true]);
        assert_eq!(all[0].points, [[0.5, 0.0]]);
        assert_eq!(all[1].points, [[0.25, 0.25], [0.0, -0.5]]);
        assert_eq!(curves("", 2).expect("none").len(), 0);
    }

    #[test]
    fn faults_are_shown() {
        for (text, fault) in [
            ("refused 11\n", "refused 11"),
            ("2 edge 1\n0 0 1 512 0\nrefused 11\n", "refused 11"),
            ("3 edge 1\n0 0 0 1 3 0 0 0\n", "3 edge 1"),
            ("2 full 0\n", "2 full 0"),
            ("2 edge 1\n0 0 1 512\n", "0 0 1 512"),
            ("2 edge 2\n0 0 1 512 0\n", "a place is missing at the end"),
            ("2 edge 1\n0 0 1 512 0\n0 0 1 512 0\n", "0 0 1 512 0"),
        ] {
            assert_eq!(curves(text, 2).unwrap_err(), fault);
        }
    }
}
