//! The claims page docs/PROMISES.md: its links, the declarations that they lead to, and the
//! must-fail edits that its rows cite.
//!
//! A row cites by reference links, ``[`name`]``; the list at the page's end says where each
//! leads, ``[`name`]: ../crates/c/specs/F.antt#L12``. The last part of a name, behind `::`, `.` or
//! `/`, is what the file declares at that line.

use std::fs;
use std::path::{Path, PathBuf};

/// The repository's root.
pub fn root() -> PathBuf {
    Path::new(env!("CARGO_MANIFEST_DIR")).join("../..")
}

pub fn page_path() -> PathBuf {
    root().join("docs/PROMISES.md")
}

/// An entry of the list of links.
#[derive(Clone, Debug, PartialEq, Eq)]
pub struct Link {
    pub name: String,
    /// From docs/ on, without the line.
    pub target: String,
    pub line: Option<usize>,
}

/// The link that a line of the page's list states.
pub fn link(line: &str) -> Option<Link> {
    let (name, target) = line.strip_prefix("[`")?.split_once("`]: ")?;
    let (target, line) = match target.split_once("#L") {
        Some((file, number)) => (file, Some(number.parse().ok()?)),
        None => (target, None),
    };
    Some(Link { name: name.into(), target: target.into(), line })
}

/// The names that a line cites by a reference link.
pub fn cited(line: &str) -> Vec<&str> {
    let mut names = Vec::new();
    let mut rest = line;
    while let Some(at) = rest.find("[`") {
        rest = &rest[at + 2..];
        let Some(end) = rest.find("`]") else { break };
        names.push(&rest[..end]);
        rest = &rest[end + 2..];
    }
    names
}

/// What a link's file declares: the name without what stands before it.
pub fn declared_name(name: &str) -> &str {
    let last = name.rsplit("::").next().unwrap_or(name);
    let last = last.rsplit('/').next().unwrap_or(last);
    last.rsplit('.').next().unwrap_or(last)
}

/// The line declares the name: a definition, a record, a field, a constructor or a theorem of
/// .antt, an item or a label of .rt and .rs.
fn declares(line: &str, name: &str, rust: bool) -> bool {
    let line = line.trim_start();
    if rust {
        let item = ["fn ", "struct ", "enum ", "const ", "static ", "mod ", "type "]
            .iter()
            .filter_map(|word| line.find(word).map(|at| (at, &line[at + word.len()..])))
            .any(|(at, rest)| {
                let before = &line[..at];
                let item_only =
                    before.split_whitespace().all(|w| ["pub", "extern", "\"C\""].contains(&w));
                item_only && word_then(rest, name, &[' ', '(', '<', ':', ';', '{', '\0'])
            });
        return item || line.starts_with(&format!("'{name}:"));
    }
    let words = ["unfoldable ", "abbrev ", "pub ", "record ", "data "];
    let mut rest = line;
    while let Some(word) = words.iter().find(|word| rest.starts_with(**word)) {
        rest = &rest[word.len()..];
    }
    // Several names may share one type: `edge limit : Stop`.
    let names = rest.split(" : ").next().unwrap_or("");
    let typed = rest.contains(" : ") || rest.trim_end().ends_with(" :");
    let head = names.strip_suffix(" :").unwrap_or(names);
    let record = line.contains("record ") || line.contains("data ");
    if record {
        return word_then(rest, name, &[' ', '\0']);
    }
    typed && head.split_whitespace().any(|word| word == name)
}

/// The text is the word, with one of these behind it (`\0`: nothing).
fn word_then(text: &str, word: &str, behind: &[char]) -> bool {
    text.strip_prefix(word)
        .is_some_and(|rest| behind.contains(&rest.chars().next().unwrap_or('\0')))
}

/// The line, counted from 1, at which a file declares the name of a link: of a method, whose type stands
/// before it as in `OpenJob::open`, the first inside a block, and of anything else the first outside, if any.
pub fn declaration(path: &Path, name: &str) -> Option<usize> {
    let rust = path.extension().is_some_and(|end| end == "rt" || end == "rs");
    let text = fs::read_to_string(path).ok()?;
    let found = |line: &&str| declares(line, declared_name(name), rust);
    let method = rust && name.rsplit("::").nth(1).is_some_and(|of| of.starts_with(char::is_uppercase));
    let inside = |line: &str| line.starts_with(' ');
    text.lines()
        .position(|line| found(&line) && (!rust || inside(line) == method))
        .or_else(|| text.lines().position(|line| found(&line)))
        .map(|at| at + 1)
}

/// The line that a link should name: none for an edit or another file that declares nothing.
pub fn right_line(link: &Link) -> Result<Option<usize>, String> {
    let path = root().join("docs").join(&link.target);
    if !path.is_file() {
        return Err(format!("`{}` leads to no file: {}", link.name, link.target));
    }
    let kept = ["antt", "rt", "rs"];
    if !path.extension().is_some_and(|end| kept.iter().any(|kind| end == *kind)) {
        return Ok(None);
    }
    match declaration(&path, &link.name) {
        Some(line) => Ok(Some(line)),
        None => Err(format!("`{}` is not declared in {}", link.name, link.target)),
    }
}

/// The page with each link at the line of its declaration.
pub fn renewed(page: &str) -> Result<String, String> {
    let mut out = String::new();
    for text in page.lines() {
        match link(text) {
            Some(found) => {
                let line = right_line(&found)?.map(|n| format!("#L{n}")).unwrap_or_default();
                out.push_str(&format!("[`{}`]: {}{line}\n", found.name, found.target));
            }
            None => {
                out.push_str(text);
                out.push('\n');
            }
        }
    }
    Ok(out)
}

/// README with the number of lines behind each file that it counts, and their sum.
pub fn recounted(readme: &str) -> Result<String, String> {
    let mut out = String::new();
    let mut sum = 0;
    for (at, part) in readme.split("](").enumerate() {
        if at > 0 {
            out.push_str("](");
        }
        match counted(part).filter(|_| at > 0) {
            Some((target, stated)) => {
                let file = fs::read_to_string(root().join(target))
                    .map_err(|_| format!("README counts a file that is not there: {target}"))?;
                let lines = file.lines().count();
                sum += lines;
                out.push_str(&format!("{target}) ({lines})"));
                out.push_str(&part[target.len() + ") ()".len() + stated.len()..]);
            }
            None => out.push_str(part),
        }
    }
    let end = out.find(" lines in all").ok_or("README does not say how many lines in all")?;
    let begin = out[..end].rfind('(').ok_or("README does not say how many lines in all")? + 1;
    out.replace_range(begin..end, &format!("{},{:03}", sum / 1000, sum % 1000));
    Ok(out)
}

/// The file and the number that begin the text, `crates/c/specs/F.antt) (12)`.
fn counted(text: &str) -> Option<(&str, &str)> {
    let (target, rest) = text.split_once(") (")?;
    let (stated, _) = rest.split_once(')')?;
    stated.parse::<usize>().ok().map(|_| (target, stated))
}

/// A must-fail edit: `crate/label`, and the number of the promise that its first line names.
pub struct Edit {
    pub name: String,
    pub number: Option<String>,
}

/// Every must-fail edit of the repository.
pub fn edits() -> Vec<Edit> {
    let mut found = Vec::new();
    for entry in fs::read_dir(root().join("crates")).expect("crates/") {
        let folder = entry.expect("a crate").path();
        let Ok(files) = fs::read_dir(folder.join("must-fail")) else { continue };
        for file in files {
            let path = file.expect("an edit").path();
            let krate = folder.file_name().expect("a name").to_string_lossy().into_owned();
            let label = path.file_stem().expect("a label").to_string_lossy().into_owned();
            let text = fs::read_to_string(&path).expect("an edit's text");
            let first = text.lines().next().unwrap_or("");
            let number = first
                .strip_prefix("# ")
                .and_then(|rest| rest.split_once(": "))
                .map(|(number, _)| number.to_string());
            found.push(Edit { name: format!("{krate}/{label}"), number });
        }
    }
    found.sort_by(|a, b| a.name.cmp(&b.name));
    found
}

/// The rows of the page's tables whose first cell is a number of the checklist, with that number.
pub fn rows(page: &str) -> Vec<(&str, &str)> {
    page.lines()
        .filter_map(|line| {
            let number = line.strip_prefix("| ")?.split(" |").next()?.trim();
            let letter = number.chars().next()?.is_ascii_uppercase();
            (letter && number.chars().any(|c| c.is_ascii_digit())).then_some((number, line))
        })
        .collect()
}
