//! The map of README.md: the groups of crates.txt, each with the comment over it. The crates of docs/TOUR.md: each with the first sentence
//! of its head.
use crate::tables::{Found, Row};
use scan::Tree;

/// README.md keeps to this many columns.
const COLUMNS: usize = 98;
const EACH: [&str; 2] = ["Crate", "What it holds"];

type Pair = (String, String);

/// The rows: the crates of a group, and the last comment line over them.
fn groups(listing: &str) -> Vec<Pair> {
    let mut rows: Vec<(Vec<&str>, String)> = Vec::new();
    let mut open = false;
    for line in listing.lines() {
        if let Some(says) = line.strip_prefix('#') {
            match rows.last_mut() {
                Some(row) if open => row.1 = says.trim().to_string(),
                _ => rows.push((Vec::new(), says.trim().to_string())),
            }
            open = true;
        } else if let (Some((name, _)), Some(row)) = (line.split_once(':'), rows.last_mut()) {
            row.0.extend(name.split_whitespace().next());
            open = false;
        }
    }
    rows.into_iter().map(|(crates, says)| (crates.join(", "), says)).collect()
}

/// Up to the first full stop that a blank or the end follows.
fn first_sentence(head: &str) -> String {
    head.split_once(". ").map_or(head.trim_end_matches('.'), |(first, _)| first).to_string() + "."
}

/// The crates in the order of crates.txt, each with the first sentence of src/lib.rt or src/main.rt, or of specs/Lib.antt where the source is
/// empty, or of proofs/Lib.antt where there are no specs either.
fn crates(tree: &Tree) -> Vec<Pair> {
    let head = |of: &str, path: &str| {
        let path = format!("crates/{of}/{path}");
        tree.files.iter().find(|f| f.path == path && !f.head.is_empty()).map(|f| first_sentence(&f.head))
    };
    let says = |of: &str| {
        ["src/lib.rt", "src/main.rt", "specs/Lib.antt", "proofs/Lib.antt"].iter().find_map(|path| head(of, path))
    };
    tree.listed.iter().map(|(_, of, _)| (of.clone(), says(of).unwrap_or_default())).collect()
}

/// A group as an item of a list, its lines no longer than the page's.
fn item((crates, says): &Pair) -> String {
    let mut lines = vec!["-".to_string()];
    for word in format!("**{crates}**: {says}").split(' ') {
        let last = lines.last_mut().expect("there is one");
        match last.chars().count() + 1 + word.chars().count() <= COLUMNS {
            true => *last += &format!(" {word}"),
            false => lines.push(format!("  {word}")),
        }
    }
    lines.join("\n") + "\n"
}

pub fn list(listing: &str) -> String {
    groups(listing).iter().map(item).collect()
}

pub fn crates_table(tree: &Tree) -> String {
    let rows: Vec<String> = crates(tree).iter().map(|(name, says)| format!("| {name} | {says} |\n")).collect();
    format!("| {} | {} |\n|---|---|\n{}", EACH[0], EACH[1], rows.concat())
}

/// The page has the list, whole and with nothing in between.
pub fn compare(page: &str, listing: &str, found: &mut Found) {
    found.names += groups(listing).len();
    if let Some(gone) = groups(listing).iter().map(item).find(|item| !page.contains(item.as_str())) {
        found.faults.push(format!("README.md: its map has no item\n{gone}"));
    } else if !page.contains(&format!("\n\n{}\n", list(listing))) {
        found.faults.push("README.md: its map has other items than crates.txt gives".to_string());
    }
}

/// The table of crates has these rows, in this order, and no others.
pub fn compare_crates(said: &[Row], tree: &Tree, found: &mut Found) {
    let made = crates(tree);
    let cell = |row: &Row, i: usize| row.cells.get(EACH[i]).cloned();
    let said: Vec<Pair> = said.iter().filter_map(|row| Some((cell(row, 0)?, cell(row, 1)?))).collect();
    found.names += made.len();
    if let Some((name, says)) = made.iter().find(|row| !said.contains(row)) {
        found.faults.push(format!("docs/TOUR.md: there is no row | {name} | {says} |"));
    } else if said != made {
        found.faults.push("docs/TOUR.md: the table of crates has other rows than the tree gives".to_string());
    }
}
