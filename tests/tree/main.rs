//! The tree is kept clean: for each kind of fault the number of them that there may be. The faults of a kind are named where
//! their number is not that one; `tree list` names all.
use scan::Tree;
use std::collections::BTreeSet;
use std::fs;
use std::path::{Path, PathBuf};

mod faults;
#[cfg(test)]
mod tests;

/// How many faults of each kind there may be.
const ALLOWED: [(&str, usize); 11] = [
    ("imports that nothing uses", 0),
    ("definitions that nothing uses and no page names", 0),
    ("dependencies of crates.txt that nothing uses", 0),
    ("functions with more than 8 arguments", 0),
    ("functions of more than 45 lines", 0),
    ("files without a head of their own", 0),
    ("definitions of docs/TRUST.md in specs/laws/ or proofs/", 0),
    ("laws of specs/ outside specs/laws/, in a crate that docs/TRUST.md names", 0),
    ("crates that crates.txt and crates/ do not share", 0),
    ("public names that two crates define", 0),
    ("programs with more than one read and one write of the text", 0),
];

/// The names that the pages have in backquotes. docs/TRUST.md is made from the tree and docs/CHANGES.md names what is gone: they do not count.
fn named_by_pages(top: &Path) -> BTreeSet<String> {
    let pages = fs::read_dir(top.join("docs")).into_iter().flatten().flatten().map(|e| e.path());
    let mut names = BTreeSet::new();
    let written = |p: &PathBuf| {
        p.extension().is_some_and(|e| e == "md") && !p.ends_with("TRUST.md") && !p.ends_with("CHANGES.md")
    };
    for page in pages.filter(written).chain([top.join("README.md")]) {
        let text = fs::read_to_string(page).unwrap_or_default();
        let quoted = text.split('`').skip(1).step_by(2).flat_map(str::split_whitespace);
        names.extend(quoted.map(|word| word.trim_matches(',').to_string()));
    }
    names
}

/// The files of the table of definitions in docs/TRUST.md, each with its line there.
fn believed(top: &Path) -> Vec<(usize, String)> {
    let page = fs::read_to_string(top.join("docs/TRUST.md")).unwrap_or_default();
    let path = |line: &str| Some(line.strip_prefix("| crates/")?.split_once(" |")?.0.to_string());
    page.lines().enumerate().filter_map(|(i, line)| Some((i + 1, path(line)?))).collect()
}

fn found(top: &Path) -> Vec<Vec<faults::Fault>> {
    let (tree, believed) = (Tree::load(top), believed(top));
    vec![
        faults::imports(&tree),
        faults::definitions(&tree, &named_by_pages(top)),
        faults::dependencies(&tree),
        faults::arguments(&tree),
        faults::lengths(&tree),
        faults::heads(&tree),
        faults::believed_laws(&believed),
        faults::loose_laws(&tree, &believed),
        faults::crates(&tree),
        faults::shared(&tree),
        faults::programs(&tree),
    ]
}

/// What to say of a kind with this many faults, and whether the test goes on.
fn verdict(count: usize, allowed: usize) -> (String, bool) {
    match count.cmp(&allowed) {
        std::cmp::Ordering::Less => {
            (format!("{count}, {allowed} allowed: lower the number in tests/tree/main.rs"), false)
        }
        std::cmp::Ordering::Equal => (format!("{count}, as many as allowed"), true),
        std::cmp::Ordering::Greater => (format!("{count}, {allowed} allowed"), false),
    }
}

fn main() {
    let top = Path::new(".");
    let listed = std::env::args().nth(1).as_deref() == Some("list");
    let mut good = true;
    for (faults, (kind, allowed)) in found(top).iter().zip(ALLOWED) {
        let (says, fine) = verdict(faults.len(), allowed);
        good &= fine;
        println!("tree: {kind}: {says}");
        for f in faults.iter().filter(|_| listed || !fine) {
            println!("  {}:{}: {}", f.path, f.line, f.name);
        }
    }
    if !good {
        std::process::exit(1);
    }
}
