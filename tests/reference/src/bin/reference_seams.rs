//! The reference's list of seams: reads a job from standard input and prints what the program that
//! lists the seams prints, for comparing by hand. Unproved.

use std::io::Read;

fn main() {
    let mut job = Vec::new();
    std::io::stdin().read_to_end(&mut job).expect("the input");
    print!("{}", reference::seams_listing::seams_listing(&job));
}
