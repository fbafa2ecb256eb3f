//! The claims page is true of the repository.

use claims::{cited, edits, link, page_path, right_line, root, rows, Link};
use std::collections::{HashMap, HashSet};
use std::fs;

fn page() -> String {
    fs::read_to_string(page_path()).expect("docs/PROMISES.md")
}

fn links(page: &str) -> HashMap<String, Link> {
    page.lines().filter_map(link).map(|l| (l.name.clone(), l)).collect()
}

/// The file of each link declares its name, at the line that the link gives.
#[test]
fn every_link_leads_to_its_declaration() {
    let page = page();
    let listed: Vec<Link> = page.lines().filter_map(link).collect();
    assert!(listed.len() > 200, "{} links", listed.len());
    let mut names = HashSet::new();
    for entry in &listed {
        // Markdown finds a link's name without regard to the case of its letters.
        let new = names.insert(entry.name.to_lowercase());
        assert!(new, "`{}` is listed twice", entry.name);
        let line = right_line(entry).unwrap_or_else(|why| panic!("{why}"));
        assert_eq!(
            entry.line, line,
            "`{}`: renew the lines with cargo run --manifest-path tools/claims/Cargo.toml",
            entry.name
        );
    }
}

/// A row cites only names of the list, and each name of the list is cited.
#[test]
fn every_citation_has_a_link() {
    let page = page();
    let listed = links(&page);
    let mut used = HashSet::new();
    for line in page.lines().filter(|line| link(line).is_none()) {
        for name in cited(line) {
            assert!(listed.contains_key(name), "`{name}` has no link: {line}");
            used.insert(name.to_string());
        }
    }
    for name in listed.keys() {
        assert!(used.contains(name), "`{name}` is cited by no row");
    }
}

/// Each edit names in its first line the promise that it shows, and that promise's row cites it.
#[test]
fn every_edit_stands_in_the_row_of_its_promise() {
    let page = page();
    let rows = rows(&page);
    let all = edits();
    assert!(all.len() > 70, "{} edits", all.len());
    for edit in &all {
        let number = edit.number.as_deref().unwrap_or_else(|| panic!("{}: no number", edit.name));
        let named = rows
            .iter()
            .any(|(row, line)| *row == number && cited(line).contains(&edit.name.as_str()));
        assert!(named, "{} is not cited in row {number}", edit.name);
    }
}

/// Each number of document 01, of the demands and of the requests that have landed has a row, and a
/// row fits a screen.
#[test]
fn every_number_has_a_row() {
    let page = page();
    let rows = rows(&page);
    let ranges = [
        ("D1.", 6),
        ("D2.", 5),
        ("D3.", 8),
        ("G", 9),
        ("C", 12),
        ("J", 6),
        ("O", 9),
        ("K", 4),
        ("F", 9),
    ];
    for (kind, last) in ranges {
        for k in 1..=last {
            let number = format!("{kind}{k}");
            assert!(rows.iter().any(|(row, _)| *row == number), "no row {number}");
        }
    }
    // The sentences of a request are lettered from a on.
    let requests = [("R1", 'h'), ("R2", 'g'), ("R3", 'c'), ("R4", 'g'), ("R5", 'd'), ("R6", 'c'), ("R7", 'e'), ("R8", 'd'), ("R9", 'e'), ("R10", 'd'), ("R12", 'f'), ("R14", 'd')];
    for (request, last) in requests {
        for letter in 'a'..=last {
            let number = format!("{request}{letter}");
            assert!(rows.iter().any(|(row, _)| *row == number), "no row {number}");
        }
    }
    for (number, line) in &rows {
        assert!(
            line.chars().count() <= 700,
            "row {number} has {} characters",
            line.chars().count()
        );
    }
}

/// Every other relative link of the documents leads to a file.
#[test]
fn every_document_link_leads_somewhere() {
    for document in [
        "README.md",
        "docs/PROMISES.md",
        "docs/DECISIONS.md",
        "docs/PROVING.md",
        "docs/BENCHMARKS.md",
    ] {
        let path = root().join(document);
        let text = fs::read_to_string(&path).expect("a document");
        for part in text.split("](").skip(1) {
            let target = part.split(')').next().unwrap_or("").split('#').next().unwrap_or("");
            if target.is_empty() || target.contains("://") {
                continue;
            }
            let file = path.parent().expect("a folder").join(target);
            assert!(file.exists(), "{document}: {target}");
        }
    }
}

/// README gives the number of lines of each file that a reader must believe, and their sum.
#[test]
fn readme_counts_the_lines() {
    let text = fs::read_to_string(root().join("README.md")).expect("README.md");
    let mut sum = 0;
    let mut files = 0;
    for part in text.split("](").skip(1) {
        let Some((target, rest)) = part.split_once(") (") else { continue };
        let Some(Ok(stated)) = rest.split(')').next().map(str::parse::<usize>) else { continue };
        let file = fs::read_to_string(root().join(target)).expect("a file that README names");
        assert_eq!(file.lines().count(), stated, "{target}");
        sum += stated;
        files += 1;
    }
    assert!(files > 20, "{files} files");
    let thousands = format!("({},{:03} lines in all", sum / 1000, sum % 1000);
    assert!(text.contains(&thousands), "the files have {sum} lines in all");
}
