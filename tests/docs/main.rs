//! What the pages name is there. docs/PROOF.md: each definition, theorem, function and test of a row; the table of must-fail edits by crate
//! has the edits of the tree, no more and no fewer, and the tables with a column "Must-fail edits" name some of them. docs/PROTOCOL.md and
//! docs/TOUR.md: in every table with a column "Theorem" and a column "File" each name of the one is defined in a file of the other. In the text of the
//! pages each name that has its file in brackets is defined there, and each whole path of a file below crates/ is that of one. README.md: the map is the
//! groups of crates.txt; docs/TOUR.md: the crates, each with what its head says. docs/TRUST.md is the page that the tree gives.
//! `docs trust`, `docs edits`, `docs map` and `docs crates` print what is compared.
use scan::Tree;
use std::fs;
use std::path::Path;

mod edits;
mod map;
mod tables;
#[cfg(test)]
mod tests;
mod trust;

/// The first line in which the page differs from what the tree gives.
fn difference(page: &str, made: &str) -> Option<String> {
    let (mut old, mut new) = (page.lines(), made.lines());
    (1..)
        .map(|i| (i, old.next(), new.next()))
        .take_while(|(_, o, n)| o.is_some() || n.is_some())
        .find(|(_, o, n)| o != n)
        .map(|(i, o, n)| {
            let say = |l: Option<&str>| l.unwrap_or("(nothing)").to_string();
            format!("docs/TRUST.md:{i}: {}\n  the tree gives: {}\n  tools/trust makes the page anew", say(o), say(n))
        })
}

fn listing() -> String {
    fs::read_to_string("crates.txt").unwrap_or_default()
}

fn check(tree: &Tree, made: &str) -> bool {
    let mut found = tables::Found::default();
    let by = tables::defined(tree);
    let proof = tables::page_rows("docs/PROOF.md");
    for row in &proof {
        tables::claims(row, &by, &mut found);
        tables::functions(row, tree, &mut found);
    }
    let pages =
        ["README.md", "docs/PROOF.md", "docs/PROTOCOL.md", "docs/TOUR.md", "docs/DECISIONS.md", "docs/FORMATS.md"];
    let requests = fs::read_dir("docs/requests").into_iter().flatten().flatten();
    let requests = requests.map(|entry| entry.path().display().to_string());
    for page in pages.map(String::from).into_iter().chain(requests) {
        let text = fs::read_to_string(&page).unwrap_or_default();
        tables::mentions(&page, &text, &by, &mut found);
        tables::paths(&page, &text, |path| Path::new(path).exists(), &mut found);
    }
    for row in ["docs/PROTOCOL.md", "docs/TOUR.md"].into_iter().flat_map(tables::page_rows) {
        tables::theorems(&row, &by, &mut found);
    }
    tables::numbers(&proof, &mut found);
    edits::compare(&proof, &mut found);
    map::compare(&fs::read_to_string("README.md").unwrap_or_default(), &listing(), &mut found);
    map::compare_crates(&tables::page_rows("docs/TOUR.md"), tree, &mut found);
    found.faults.extend(difference(&fs::read_to_string("docs/TRUST.md").unwrap_or_default(), made));
    found.faults.iter().for_each(|fault| println!("{fault}"));
    println!("docs: {} names, {} faults", found.names, found.faults.len());
    found.names >= 300 && found.faults.is_empty()
}

fn main() {
    let tree = Tree::load(Path::new("."));
    let good = match (trust::page(&tree), std::env::args().nth(1).as_deref()) {
        (Err(gone), _) => {
            gone.iter().for_each(|g| eprintln!("tests/docs/trust.rs: {g}"));
            false
        }
        (Ok(page), Some("trust")) => {
            print!("{page}");
            true
        }
        (Ok(_), Some(asked @ ("edits" | "map" | "crates"))) => {
            let table = match asked {
                "map" => map::list(&listing()),
                "crates" => map::crates_table(&tree),
                _ => edits::table(),
            };
            print!("{table}");
            true
        }
        (Ok(page), _) => check(&tree, &page),
    };
    std::process::exit(if good { 0 } else { 1 });
}
