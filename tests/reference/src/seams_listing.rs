//! What the program that lists the seams prints for the bytes on its standard input.

use crate::job::{open, Job};
use crate::listing::MOST_BYTES;
use crate::operations::trace_places;
use crate::seams::{seams_of, Ending};

/// Space for this many seams.
pub const SPACE: usize = 4096;

/// The text; single blanks, every line ended.
pub fn seams_listing(job: &[u8]) -> String {
    match listing_or_refusal(job) {
        Ok(text) => text,
        Err(number) => format!("refused {number}\n"),
    }
}

/// A line of n, ending and count; then per seam its place, and verdict and count of the trace from
/// there with space for everything.
fn listing_or_refusal(job: &[u8]) -> Result<String, u8> {
    if job.len() > MOST_BYTES {
        return Err(5);
    }
    let job = open(job)?;
    let n = job.n;
    let seams = seams_of(&job);
    let ending = if seams.len() > SPACE { Ending::Full } else { Ending::Complete };
    let mut text = format!("{} {} {}\n", n, ending.word(), seams.len().min(SPACE));
    for seam in seams.iter().take(SPACE) {
        let start = seam.place();
        let from_place = Job { start, ..job.clone() };
        let (verdict, places) = trace_places(&from_place, usize::MAX).expect("a crossed facet");
        let mut words: Vec<String> = Vec::new();
        words.extend(start.facet.lowest[..n].iter().map(|x| x.to_string()));
        words.extend(start.facet.masks[..n - 1].iter().map(|m| m.to_string()));
        words.extend([start.side.to_string(), verdict.word().into(), places.len().to_string()]);
        text.push_str(&words.join(" "));
        text.push('\n');
    }
    Ok(text)
}
