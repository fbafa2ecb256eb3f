//! "The listing": what the program prints for the bytes on its standard input.

use crate::job::open;
use crate::operations::{point, trace_places};

/// At most this many bytes are a job.
pub const MOST_BYTES: usize = 2048;
/// Space for this many places.
pub const SPACE: usize = 4096;

/// The text; single blanks, every line ended.
pub fn listing(job: &[u8]) -> String {
    match listing_or_refusal(job) {
        Ok(text) => text,
        Err(number) => format!("refused {number}\n"),
    }
}

fn listing_or_refusal(job: &[u8]) -> Result<String, u8> {
    if job.len() > MOST_BYTES {
        return Err(5);
    }
    let opened = open(job)?;
    let n = opened.n;
    let (verdict, places) = trace_places(&opened, SPACE)?;
    let mut text = format!("{} {} {}\n", n, verdict.word(), places.len());
    for place in places {
        let mut words: Vec<String> = Vec::new();
        words.extend(place.facet.lowest[..n].iter().map(|x| x.to_string()));
        words.extend(place.facet.masks[..n - 1].iter().map(|m| m.to_string()));
        words.extend(point(job, &place.bytes())?[..n].iter().map(|s| s.to_string()));
        text.push_str(&words.join(" "));
        text.push('\n');
    }
    Ok(text)
}
