//! The tables of docs/PROOF.md and docs/PROTOCOL.md: each theorem is in the file that its row gives; on the page of claims each
//! definition and each function too, and each test.
use scan::Tree;
use std::collections::{BTreeMap, BTreeSet};
use std::fs;
use std::path::Path;

/// A row of a table: where it stands, the crates that its section's heading has in brackets, and its cells by the titles
/// of the columns.
pub struct Row {
    pub at: String,
    pub crates: Vec<String>,
    pub cells: BTreeMap<String, String>,
}

/// The words in a heading's brackets.
fn heading_crates(line: &str) -> Vec<String> {
    let inside = line.rsplit_once('(').and_then(|(_, rest)| rest.split_once(')')).map_or("", |(inside, _)| inside);
    inside.split(", ").filter(|w| !w.is_empty()).map(str::to_string).collect()
}

/// The rows of all tables of a page.
pub fn rows(page: &str, text: &str) -> Vec<Row> {
    let (mut rows, mut titles, mut crates) = (Vec::new(), Vec::<String>::new(), Vec::new());
    for (i, line) in text.lines().enumerate() {
        let cells = line.trim().trim_matches('|').split('|').map(|c| c.trim().to_string());
        if line.starts_with("## ") {
            crates = heading_crates(line);
        }
        if !line.starts_with('|') {
            titles.clear();
        } else if titles.is_empty() {
            titles = cells.collect();
        } else if !line.starts_with("|--") {
            let cells = titles.iter().cloned().zip(cells).collect();
            rows.push(Row { at: format!("{page}:{}", i + 1), crates: crates.clone(), cells });
        }
    }
    rows
}

pub fn page_rows(page: &str) -> Vec<Row> {
    rows(page, &fs::read_to_string(page).unwrap_or_default())
}

/// What stands between backquotes, if it is one name.
fn quoted(cell: &str) -> Vec<&str> {
    cell.split('`').skip(1).step_by(2).filter(|t| !t.contains([' ', '*', ':', '/'])).collect()
}

/// The files that a cell names, each with its crate if the cell gives it: `crate/File`, `crate/laws/File`, `crate, laws/File`,
/// or `File` alone. A crate that is given holds for the files behind it too, up to the next `;`.
fn files_named(cell: &str) -> Vec<(Option<String>, String)> {
    let mut found = Vec::new();
    for part in cell.split(';') {
        let mut of = None;
        for path in part.split([',', ' ']).map(|w| w.trim_end_matches(".antt")).filter(|w| !w.is_empty()) {
            let law = if path.split('/').any(|word| word == "laws") { "laws/" } else { "" };
            for word in path.split('/').filter(|word| !["specs", "proofs", "laws", "crates"].contains(word)) {
                if word.starts_with(char::is_uppercase) {
                    found.push((of.clone(), format!("{law}{word}")));
                } else {
                    of = Some(word.to_string());
                }
            }
        }
    }
    found
}

/// The names that each file defines, fields and constructors among them, by crate and by the file's name; a file of specs/laws/
/// or proofs/laws/ has `laws/` in front of it.
pub fn defined(tree: &Tree) -> Names {
    let mut by = Names::new();
    for (_, _, file, item) in tree.all().filter(|(_, _, file, _)| file.path.ends_with(".antt")) {
        let law = if file.module.get(1).is_some_and(|part| part == "laws") { "laws/" } else { "" };
        let stem = format!("{law}{}", file.module.last().cloned().unwrap_or_default());
        let names = by.entry((file.of.clone(), stem)).or_default();
        names.insert(item.name.clone());
        names.extend(item.members.iter().cloned());
    }
    by
}

#[derive(Default)]
pub struct Found {
    pub names: usize,
    pub faults: Vec<String>,
}

/// The names that a file defines, by crate and by the file's name.
pub type Names = BTreeMap<(String, String), BTreeSet<String>>;

/// A row of the page of claims: its cells "Definition" and "Theorem" have names in backquotes and behind them the file that defines them
/// (`name`, `name` crate/File; `name` crate/File).
pub fn claims(row: &Row, by: &Names, found: &mut Found) {
    let cells = ["Definition", "Theorem"].iter().filter_map(|title| row.cells.get(*title));
    for part in cells.filter(|_| !row.cells.contains_key("File")).flat_map(|cell| cell.split(';')) {
        let outside: Vec<&str> = part.split('`').step_by(2).collect();
        let places = files_named(&outside.join(" "));
        for name in quoted(part) {
            found.names += 1;
            let there = |(of, stem): &(Option<String>, String)| {
                by.get(&(of.clone().unwrap_or_default(), stem.clone())).is_some_and(|names| names.contains(name))
            };
            if !places.iter().any(there) {
                found.faults.push(format!("{}: {name} is not where \"{}\" says", row.at, part.trim()));
            }
        }
    }
}

/// Each refusal number of documents 01 and 02 has a row.
pub fn numbers(rows: &[Row], found: &mut Found) {
    let said: BTreeSet<&str> = rows.iter().filter_map(|row| row.cells.get("Number")).map(String::as_str).collect();
    let numbers = [11..=18, 20..=22, 31..=33, 41..=45, 51..=54, 61..=64, 71..=73, 75..=79];
    for number in numbers.into_iter().flatten().map(|n: u32| n.to_string()) {
        found.names += 1;
        if !said.contains(number.as_str()) {
            found.faults.push(format!("docs/PROOF.md: refusal {number} has no row"));
        }
    }
}

/// Each function of a row, `crate::name`, is in the sources of that crate; each test is a folder of tests/ with a script to run.
pub fn functions(row: &Row, tree: &Tree, found: &mut Found) {
    let cell = |title: &str| row.cells.get(title).cloned().unwrap_or_default();
    for path in cell("Function").split('`').skip(1).step_by(2) {
        found.names += 1;
        let (of, name) = (path.split("::").next(), path.rsplit("::").next());
        let here = tree.files.iter().filter(|file| Some(file.of.as_str()) == of);
        if !here.flat_map(|file| &file.functions).any(|f| Some(f.name.as_str()) == name) {
            found.faults.push(format!("{}: there is no function {path}", row.at));
        }
    }
    for test in cell("Tests").split(", ").filter(|t| !t.is_empty() && *t != "-") {
        found.names += 1;
        if !Path::new("tests").join(test).join("run").exists() {
            found.faults.push(format!("{}: there is no tests/{test}/run", row.at));
        }
    }
}

/// Names with their file in brackets, in running text and in tables: `name` (crate/File), or (`name`, crate/File; `name`, crate/File).
/// What stands behind a name in its backquotes are arguments or its type. Brackets that name no file of the tree say something else.
pub fn mentions(page: &str, text: &str, by: &Names, found: &mut Found) {
    for paragraph in text.split("\n\n").flat_map(|part| part.split("\n|")) {
        let mut before = "";
        for group in paragraph.split('(') {
            let (inside, after) = group.split_once(')').unwrap_or(("", group));
            for part in inside.split(';') {
                let outside: Vec<&str> = part.split('`').step_by(2).collect();
                let places = files_named(&outside.join(" ").replace('\n', " "));
                let places: Vec<_> = places.into_iter().map(|(of, stem)| (of.unwrap_or_default(), stem)).collect();
                let names = if part.contains('`') { quoted(part) } else { last_quoted(before) };
                mentioned(page, &names, &places, by, found);
            }
            before = after;
        }
    }
}

/// Each file below crates/ that a page names by its whole path is there. Paths with `CRATE` or `crate` in them say how such names are read.
pub fn paths(page: &str, text: &str, there: impl Fn(&str) -> bool, found: &mut Found) {
    let words = text.split(|c: char| c.is_whitespace() || "`,;:()|".contains(c)).map(|word| word.trim_end_matches('.'));
    let wanted = |word: &&str| {
        let file = [".antt", ".rt", ".edit"].iter().any(|end| word.ends_with(end));
        file && word.starts_with("crates/")
            && !word.contains('*')
            && !["/CRATE/", "/crate/"].iter().any(|w| word.contains(w))
    };
    for path in words.filter(wanted) {
        found.names += 1;
        if !there(path) {
            found.faults.push(format!("{page}: there is no {path}"));
        }
    }
}

fn mentioned(page: &str, names: &[&str], places: &[(String, String)], by: &Names, found: &mut Found) {
    if places.is_empty() || !places.iter().all(|place| by.contains_key(place)) {
        return;
    }
    let is_crate = |name: &str| places.iter().any(|(of, _)| of == name);
    for name in names.iter().filter_map(|n| n.split(' ').next()).filter(|n| !is_crate(n)) {
        found.names += 1;
        if !places.iter().any(|place| by[place].contains(name)) {
            let said: Vec<String> = places.iter().map(|(of, stem)| format!("{of}/{stem}")).collect();
            found.faults.push(format!("{page}: {name} is not in {}", said.join(", ")));
        }
    }
}

/// The names in backquotes that a text ends with, commas between them.
fn last_quoted(text: &str) -> Vec<&str> {
    let pieces: Vec<&str> = text.trim_end().split('`').collect();
    let mut names = Vec::new();
    for pair in pieces.rchunks(2).filter(|pair| pair.len() == 2) {
        if !["", ", "].contains(&pair[1]) {
            break;
        }
        names.push(pair[0]);
    }
    names
}

/// Each name of a row's theorems is defined in one of the row's files: of the crate that the row gives, or else of one that
/// the heading gives.
pub fn theorems(row: &Row, by: &Names, found: &mut Found) {
    let (Some(theorem), Some(file)) = (row.cells.get("Theorem"), row.cells.get("File")) else {
        return;
    };
    let places: Vec<(String, String)> = files_named(file)
        .into_iter()
        .flat_map(|(of, stem)| {
            of.map_or(row.crates.clone(), |of| vec![of]).into_iter().map(move |of| (of, stem.clone()))
        })
        .collect();
    for name in quoted(theorem) {
        found.names += 1;
        if !places.iter().any(|place| by.get(place).is_some_and(|names| names.contains(name))) {
            let said: Vec<String> = places.iter().map(|(of, stem)| format!("{of}/{stem}")).collect();
            found.faults.push(format!("{}: {name} is in none of {}", row.at, said.join(", ")));
        }
    }
}
