//! The must-fail edits that docs/PROOF.md names are those of the tree; their table by crate.
use crate::tables::{Found, Row};
use std::collections::{BTreeMap, BTreeSet};
use std::fs;

/// The edits of the tree, "crate/edit".
fn there() -> BTreeSet<String> {
    let mut found = BTreeSet::new();
    for folder in fs::read_dir("crates").into_iter().flatten().flatten() {
        for edit in fs::read_dir(folder.path().join("must-fail")).into_iter().flatten().flatten() {
            let (of, edit) = (folder.file_name(), edit.file_name());
            if let Some(edit) = edit.to_string_lossy().strip_suffix(".edit") {
                found.insert(format!("{}/{edit}", of.to_string_lossy()));
            }
        }
    }
    found
}

/// Whether an edit does all that it holds: files, and for each the pairs of a line and what takes its place, not the same
/// again. rt passes over any other line, as the second of a longer text, and of two old lines takes the last.
pub fn whole(text: &str) -> bool {
    let mut before = "";
    let mut old = "";
    for line in text.lines() {
        let (word, rest) = line.split_once(':').unwrap_or((line, ""));
        let fits = match word {
            "file" => matches!(before, "" | "new"),
            "old" => matches!(before, "file" | "new"),
            "new" => before == "old" && rest != old,
            _ => false,
        };
        if !fits {
            return false;
        }
        (before, old) = (word, rest);
    }
    before == "new"
}

/// The first old line of an edit that its file does not have, for which rt would fail once it comes to that edit.
pub fn lost<'a>(text: &'a str, read: impl Fn(&str) -> String) -> Option<&'a str> {
    let mut file = String::new();
    text.lines().find_map(|line| {
        let (word, rest) = line.split_once(": ").unwrap_or((line, ""));
        if word == "file" {
            file = read(rest.trim());
        }
        (word == "old" && !file.contains(rest)).then_some(rest)
    })
}

fn text(edit: &str) -> String {
    fs::read_to_string(format!("crates/{}.edit", edit.replace('/', "/must-fail/"))).unwrap_or_default()
}

/// The edits that a row names: those of one crate, or any.
fn named(row: &Row) -> (Vec<String>, Vec<String>) {
    let split = |cell: &String| cell.split(", ").filter(|e| *e != "-").map(str::to_string).collect::<Vec<_>>();
    let listed = match (row.cells.get("Crate"), row.cells.get("Edits")) {
        (Some(of), Some(edits)) => split(edits).iter().map(|e| format!("{of}/{e}")).collect(),
        _ => Vec::new(),
    };
    (listed, row.cells.get("Must-fail edits").map(split).unwrap_or_default())
}

/// The table of the edits by crate.
pub fn table() -> String {
    let mut by: BTreeMap<String, Vec<String>> = BTreeMap::new();
    for name in there() {
        let (of, edit) = name.split_once('/').unwrap_or((&name, ""));
        by.entry(of.to_string()).or_default().push(edit.to_string());
    }
    let rows: Vec<String> = by.iter().map(|(of, edits)| format!("| {of} | {} |\n", edits.join(", "))).collect();
    format!("| Crate | Edits |\n|---|---|\n{}", rows.concat())
}

pub fn compare(rows: &[Row], found: &mut Found) {
    let there = there();
    let cut = there.iter().filter(|edit| !whole(&text(edit)));
    found.faults.extend(cut.map(|edit| format!("{edit}: not files with pairs of an old line and another new one")));
    for edit in &there {
        let of = edit.split('/').next().unwrap_or_default();
        let read = |name: &str| fs::read_to_string(format!("crates/{of}/{name}")).unwrap_or_default();
        let fault = lost(&text(edit), read).map(|old| format!("{edit}: its file has no {old}"));
        found.faults.extend(fault);
    }
    let mut listed = BTreeSet::new();
    for row in rows {
        let (all, some) = named(row);
        found.names += all.len() + some.len();
        listed.extend(all);
        let gone = some.iter().filter(|e| !there.contains(*e));
        found.faults.extend(gone.map(|e| format!("{}: edit {e} is not there", row.at)));
    }
    for name in there.symmetric_difference(&listed) {
        let side = if there.contains(name) { "not listed" } else { "not there" };
        found.faults.push(format!("docs/PROOF.md: edit {name} is {side}"));
    }
}
