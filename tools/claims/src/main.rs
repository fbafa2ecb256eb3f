//! Puts the line of its declaration behind each link of docs/PROMISES.md, and the number of lines
//! behind each file that README counts.

use std::path::PathBuf;

fn main() {
    renew(claims::page_path(), claims::renewed);
    renew(claims::root().join("README.md"), claims::recounted);
}

fn renew(path: PathBuf, renewed: fn(&str) -> Result<String, String>) {
    let page = std::fs::read_to_string(&path).expect("a page");
    match renewed(&page) {
        Ok(text) if text == page => println!("{}: nothing to renew", path.display()),
        Ok(text) => {
            std::fs::write(&path, text).expect("the page is written");
            println!("{}: renewed", path.display());
        }
        Err(why) => {
            eprintln!("claims: {why}");
            std::process::exit(1);
        }
    }
}
