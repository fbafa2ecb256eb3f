//! The reference's listing: reads a job from standard input and prints what the listing
//! program prints, for comparing by hand. Unproved.

use std::io::Read;

fn main() {
    let mut job = Vec::new();
    std::io::stdin().read_to_end(&mut job).expect("the input");
    print!("{}", reference::listing::listing(&job));
}
