//! Draws listings (standard input, one after another) of a job (the file named) as an SVG picture
//! (standard output): a polyline through the points of each, in the job's box. In dimension 2 a
//! small box shows its grid of triangles too, with a dot on each lattice vertex that counts as 0
//! and a cross on each whose value is not readable. In dimension 3 the box is seen along a fixed
//! slanting direction. In dimension 4 axes 1 to 3 are drawn so, as the pen shows them, and the
//! colour of the line gives the coordinate of axis 4.
//!
//! The first listing is that of the job's start; others, from other starts, are of another colour.
//!
//! With the word `seams` before the job it draws every seam of the box instead, which the reference
//! of the tests finds; the start counts only for its form. Closed seams have the first colour,
//! others the second, and the point of each seam's place has a dot and the seam's number.
//!
//! Nothing here is proved: the picture is for looking at. The cutter takes the listing.

mod grid;
mod listing;
mod seams;

use std::io::Read;
use std::process::ExitCode;

use listing::{curves, Curve};
use seams::{seams, Seam};

/// The longest side of the picture.
const LONGEST: f64 = 640.0;
const MARGIN: f64 = 20.0;
/// The height of the line that explains the colours.
const LEGEND: f64 = 30.0;
/// The colours of the first listing and of others; of closed seams and of others.
const FIRST: &str = "#036";
const OTHER: &str = "#c50";
/// The colours of the low and the high end of axis 4: red, green, blue.
const COLOURS: [[f64; 3]; 2] = [[0.0, 51.0, 204.0], [238.0, 85.0, 0.0]];

const TEXT: &str = "font-family=\"sans-serif\" font-size=\"14\"";

/// The low and high end of an axis.
type Ends = (f64, f64);

/// The box of a job. Only the fields needed are looked at.
fn ends(job: &[u8]) -> Option<Vec<Ends>> {
    let n = *job.get(1)? as usize;
    if !(2..=4).contains(&n) {
        return None;
    }
    let first = 4 + 4 * (n + 1);
    let field = |k: usize| {
        let at = first + 2 * k;
        Some(i16::from_le_bytes([*job.get(at)?, *job.get(at + 1)?]) as f64)
    };
    (0..n).map(|axis| Some((field(2 * axis)?, field(2 * axis + 1)?))).collect()
}

/// The plane of the picture: right and up.
fn projected(point: &[f64]) -> (f64, f64) {
    match point {
        [x, y] => (*x, *y),
        _ => (0.87 * (point[0] - point[1]), point[2] + 0.5 * (-point[0] - point[1])),
    }
}

/// The corners of the box, and the pairs of them that an edge joins.
fn edges(ends: &[Ends]) -> Vec<(Vec<f64>, Vec<f64>)> {
    let n = ends.len();
    let corner = |bits: usize| -> Vec<f64> {
        (0..n).map(|k| if bits >> k & 1 == 1 { ends[k].1 } else { ends[k].0 }).collect()
    };
    let mut all = Vec::new();
    for bits in 0..1 << n {
        for k in 0..n {
            if bits >> k & 1 == 0 {
                all.push((corner(bits), corner(bits | 1 << k)));
            }
        }
    }
    all
}

/// The colour of a share of the way from the low end to the high end.
fn colour(share: f64) -> String {
    let mixed = |k: usize| COLOURS[0][k] + share * (COLOURS[1][k] - COLOURS[0][k]);
    let [red, green, blue] = [0, 1, 2].map(|k| mixed(k).round() as u8);
    format!("#{red:02x}{green:02x}{blue:02x}")
}

/// A straight line.
fn line(from: (f64, f64), to: (f64, f64), style: &str) -> String {
    let ((x1, y1), (x2, y2)) = (from, to);
    format!("<line x1=\"{x1:.2}\" y1=\"{y1:.2}\" x2=\"{x2:.2}\" y2=\"{y2:.2}\" {style}/>\n")
}

/// The curve in one colour.
fn in_one_colour(closed: bool, drawn: &[(f64, f64)], stroke: &str) -> String {
    let shape = if closed { "polygon" } else { "polyline" };
    let path: Vec<String> = drawn.iter().map(|(x, y)| format!("{x:.2},{y:.2}")).collect();
    format!("<{shape} points=\"{}\" fill=\"none\" {stroke}/>\n", path.join(" "))
}

/// The curve piece by piece, each in the colour of the middle of its coordinates of axis 4.
fn in_colours(closed: bool, drawn: &[(f64, f64)], heights: &[f64], (low, high): Ends) -> String {
    let mut svg = "<g stroke-width=\"3\" stroke-linecap=\"round\">\n".to_string();
    let next = |k: usize| (k + 1) % drawn.len();
    for k in 0..drawn.len() - !closed as usize {
        // Where the curve passes a grid point, many of its points are the same.
        if drawn[k] != drawn[next(k)] {
            let middle = (heights[k] + heights[next(k)]) / 2.0;
            let stroke = format!("stroke=\"{}\"", colour((middle - low) / (high - low)));
            svg += &line(drawn[k], drawn[next(k)], &stroke);
        }
    }
    svg + "</g>\n"
}

/// A curve in the picture.
struct Drawn {
    curve: Curve,
    colour: &'static str,
    /// Which of its points has a mark and the curve's number.
    marked: Option<usize>,
}

/// What the colours mean, at that height of the picture.
fn legend(y: f64, (low, high): Ends) -> String {
    let [first, last] = [0.0, 1.0].map(colour);
    let bar = y - 10.0;
    format!(
        "<linearGradient id=\"axis4\"><stop offset=\"0\" stop-color=\"{first}\"/>\
         <stop offset=\"1\" stop-color=\"{last}\"/></linearGradient>\n\
         <text x=\"{MARGIN}\" y=\"{y}\" {TEXT}>axis 4: {low}</text>\n\
         <rect x=\"120\" y=\"{bar}\" width=\"160\" height=\"10\" fill=\"url(#axis4)\"/>\n\
         <text x=\"290\" y=\"{y}\" {TEXT}>{high}</text>\n"
    )
}

/// How the box lies in the picture.
struct View {
    left: f64,
    top: f64,
    scale: f64,
    width: f64,
    height: f64,
}

impl View {
    /// A view that shows these corners.
    fn of(corners: &[(f64, f64)]) -> View {
        let least = |f: fn(&(f64, f64)) -> f64| corners.iter().map(f).fold(f64::MAX, f64::min);
        let most = |f: fn(&(f64, f64)) -> f64| corners.iter().map(f).fold(f64::MIN, f64::max);
        let (left, right) = (least(|c| c.0), most(|c| c.0));
        let (bottom, top) = (least(|c| c.1), most(|c| c.1));
        let scale = LONGEST / (right - left).max(top - bottom);
        let [width, height] = [right - left, top - bottom].map(|side| 2.0 * MARGIN + scale * side);
        View { left, top, scale, width, height }
    }

    fn at(&self, point: &[f64]) -> (f64, f64) {
        let (x, y) = projected(point);
        (MARGIN + self.scale * (x - self.left), MARGIN + self.scale * (self.top - y))
    }

    fn grid(&self, lines: &[grid::Line]) -> String {
        let drawn = lines.iter().map(|[a, b]| line(self.at(a), self.at(b), ""));
        format!("<g stroke=\"#ddd\">\n{}</g>\n", drawn.collect::<String>())
    }

    fn dots(&self, vertices: &[[f64; 2]]) -> String {
        let drawn = vertices.iter().map(|v| {
            let (x, y) = self.at(v);
            format!("<circle cx=\"{x:.2}\" cy=\"{y:.2}\" r=\"6\"/>\n")
        });
        format!("<g fill=\"#777\">\n{}</g>\n", drawn.collect::<String>())
    }

    fn crosses(&self, vertices: &[[f64; 2]]) -> String {
        if vertices.is_empty() {
            return String::new();
        }
        let drawn = vertices.iter().map(|v| {
            let (x, y) = self.at(v);
            format!("<path d=\"M{:.2} {:.2}l6 6m0 -6l-6 6\"/>\n", x - 3.0, y - 3.0)
        });
        format!("<g stroke=\"#777\">\n{}</g>\n", drawn.collect::<String>())
    }

    /// A dot on each marked point, and the number of its curve, from 1 on.
    fn marks(&self, all: &[Drawn]) -> String {
        let marked = |(k, drawn): (usize, &Drawn)| {
            let (x, y) = self.at(&drawn.curve.points[drawn.marked?]);
            let (colour, number, left, below) = (drawn.colour, k + 1, x - 14.0, y + 15.0);
            Some(format!(
                "<circle cx=\"{x:.2}\" cy=\"{y:.2}\" r=\"5\" fill=\"{colour}\"/>\n\
                 <text x=\"{left:.2}\" y=\"{below:.2}\" {TEXT}>{number}</text>\n"
            ))
        };
        all.iter().enumerate().filter_map(marked).collect()
    }

    /// The curves, in colours by axis 4 if the box has one.
    fn curves(&self, all: &[Drawn], fourth: Option<&Ends>, width: &str) -> String {
        let mut svg = String::new();
        for Drawn { curve: Curve { closed, points }, colour, .. } in all {
            let drawn: Vec<(f64, f64)> = points.iter().map(|p| self.at(p)).collect();
            svg += &match fourth {
                None => {
                    let stroke = format!("stroke=\"{colour}\" stroke-width=\"{width}\"");
                    in_one_colour(*closed, &drawn, &stroke)
                }
                Some(&ends) => {
                    let heights: Vec<f64> = points.iter().map(|p| p[3]).collect();
                    in_colours(*closed, &drawn, &heights, ends)
                }
            };
        }
        svg
    }
}

/// The picture of listings, or what is wrong.
fn of_listings(job: &[u8], text: &str) -> Result<String, String> {
    let ends = ends(job).ok_or("the job has no box")?;
    let no_listing = |line: String| format!("no listing of this job: {line}");
    let curves = curves(text, ends.len()).map_err(no_listing)?;
    if curves.is_empty() {
        return Err(no_listing(String::new()));
    }
    let coloured = |(k, curve)| {
        let colour = if k == 0 { FIRST } else { OTHER };
        Drawn { curve, colour, marked: None }
    };
    picture(job, &ends, &curves.into_iter().enumerate().map(coloured).collect::<Vec<_>>())
}

/// The picture of every seam, or what is wrong.
fn of_seams(job: &[u8]) -> Result<String, String> {
    let all = seams(job).map_err(|number| format!("the job is refused, {number}"))?;
    let ends = ends(job).ok_or("the job has no box")?;
    let coloured = |Seam { curve, place }| {
        let colour = if curve.closed { FIRST } else { OTHER };
        Drawn { curve, colour, marked: Some(place) }
    };
    picture(job, &ends, &all.into_iter().map(coloured).collect::<Vec<_>>())
}

/// The picture of these curves in the box of their job, or what is wrong.
fn picture(job: &[u8], ends: &[Ends], curves: &[Drawn]) -> Result<String, String> {
    let fourth = ends.get(3);
    let edges = edges(&ends[..ends.len().min(3)]);
    let corners: Vec<(f64, f64)> =
        edges.iter().flat_map(|(a, b)| [projected(a), projected(b)]).collect();
    let view = View::of(&corners);
    let (width, height) = (view.width, view.height + fourth.map_or(0.0, |_| LEGEND));
    let mut svg = format!(
        "<svg xmlns=\"http://www.w3.org/2000/svg\" viewBox=\"0 0 {width:.1} {height:.1}\">\n\
         <!-- for looking at: no part of this picture is proved -->\n"
    );
    let grid = grid::shown(ends);
    svg += &grid.map_or(String::new(), |axes| view.grid(&grid::lines(axes)));
    for (a, b) in &edges {
        svg += &line(view.at(a), view.at(b), "stroke=\"#bbb\"");
    }
    // In front of a grid a thin line would be lost.
    svg += &view.curves(curves, fourth, if grid.is_some() { "3" } else { "1.5" });
    if let Some(axes) = grid {
        let no_polynomial = "the job has no polynomial";
        svg += &view.dots(&grid::zeros(job, axes).ok_or(no_polynomial)?);
        svg += &view.crosses(&grid::unreadable(job, axes).ok_or(no_polynomial)?);
    }
    svg += &view.marks(curves);
    svg += &fourth.map_or(String::new(), |&ends| legend(view.height, ends));
    Ok(svg + "</svg>\n")
}

fn read_job(name: &str) -> Result<Vec<u8>, String> {
    std::fs::read(name).map_err(|_| format!("{name} cannot be read"))
}

/// The picture that the words of the command ask for, or what is wrong.
fn asked(words: &[&str]) -> Result<String, String> {
    match words {
        ["seams", name] => of_seams(&read_job(name)?),
        [name] => {
            let (job, mut text) = (read_job(name)?, String::new());
            let read = std::io::stdin().read_to_string(&mut text);
            read.map_err(|_| "the input is no text")?;
            of_listings(&job, &text)
        }
        _ => Err("give JOBFILE < LISTINGS > PICTURE.svg, or seams JOBFILE > PICTURE.svg \
                  (unproved, for looking at)"
            .to_string()),
    }
}

fn main() -> ExitCode {
    let words: Vec<String> = std::env::args().skip(1).collect();
    match asked(&words.iter().map(String::as_str).collect::<Vec<_>>()) {
        Ok(svg) => {
            print!("{svg}");
            ExitCode::SUCCESS
        }
        Err(fault) => {
            eprintln!("picture: {fault}");
            ExitCode::FAILURE
        }
    }
}

#[cfg(test)]
mod tests {
    use super::*;

    /// Two listings of Case A's job, and a bias of 1: all vertices but the corners count as 0.
    #[test]
    fn listings_in_the_grid() {
        let mut job = vec![1, 2, 3, 1, 16, 0, 8, 0, 24, 0, 24, 0, 48, 0, 6, 0];
        job.extend([255u8, 255, 1, 0, 255, 255, 1, 0]);
        job.extend([255, 255, 255, 255, 0, 0, 0, 0, 2, 0, 0, 0, 0, 2, 0, 0]);
        job.extend([2, 0, 0, 0, 2, 0, 0, 0, 0, 0, 0, 0, 1, 0]);
        let listing = "2 edge 2\n0 0 1 0 0\n0 0 3 0 0\n2 loop 2\n0 0 2 0 0\n-1 0 1 0 0\n";
        let svg = of_listings(&job, listing).expect("a picture");
        assert_eq!(svg.matches("<line ").count(), 9 + 4);
        assert_eq!(svg.matches("<circle ").count(), 5);
        assert!(svg.contains("<circle cx=\"340.00\" cy=\"340.00\""));
        let path = "points=\"340.00,340.00 340.00,340.00\" fill=\"none\"";
        for (shape, colour) in [("polyline", FIRST), ("polygon", OTHER)] {
            assert!(svg.contains(&format!("<{shape} {path} stroke=\"{colour}\"")));
        }
        for (text, fault) in [("", ""), ("refused 11\n", "refused 11")] {
            let fault = format!("no listing of this job: {fault}");
            assert_eq!(of_listings(&job, text), Err(fault));
        }
        assert_eq!(of_listings(&job[..20], listing), Err("the job has no box".to_string()));
    }

    /// Closed seams and others have their colours and a dot at each place, numbered; a cross marks
    /// each vertex that is not readable. The picture in docs/ is this one.
    #[test]
    fn seams_with_their_numbers() {
        let job = include_bytes!("../../../examples/several_outlines.job");
        let svg = of_seams(job).expect("a picture");
        for (shape, colour, count) in [("polygon", FIRST, 2), ("polyline", OTHER, 5)] {
            assert_eq!(svg.matches(&format!("<{shape} ")).count(), count);
            assert_eq!(svg.matches(&format!("r=\"5\" fill=\"{colour}\"/>")).count(), count);
        }
        let numbered = |k: usize| svg.contains(&format!(">{k}</text>"));
        assert!((1..=7).all(numbered) && !numbered(8));
        assert_eq!(svg.matches("<path ").count(), 228);
        assert!(svg == include_str!("../../../docs/pictures/several_outlines.svg"));
        assert_eq!(of_seams(&job[..20]), Err("the job is refused, 5".to_string()));
    }

    /// In dimension 4 the box has three axes, a piece has the colour of its middle, a piece of no
    /// length is left out, and the legend names the ends of axis 4.
    #[test]
    fn dimension_4_in_colours() {
        let mut job = vec![1, 4, 5, 0];
        job.resize(24, 0);
        job.extend([0u8, 0, 1, 0, 0, 0, 1, 0, 0, 0, 1, 0, 252, 255, 4, 0]);
        let listing = "4 edge 3\n0 0 0 0 1 3 7 0 0 0 0\n0 0 0 0 1 3 15 0 0 0 0\n\
                       1 0 0 1 1 3 7 1024 0 0 4096\n";
        let svg = of_listings(&job, listing).expect("a picture");
        assert_eq!(svg.matches("stroke=\"#bbb\"").count(), 12);
        assert_eq!(svg.matches("<line ").count(), 13);
        assert_eq!((colour(0.0), colour(1.0)), ("#0033cc".to_string(), "#ee5500".to_string()));
        assert!(svg.contains(&colour(0.75)));
        assert!(svg.contains(">axis 4: -4<") && svg.contains(">4<"));
    }
}
