use crate::difference;
use crate::edits::{lost, whole};
use crate::map;
use crate::tables::{claims, defined, functions, mentions, numbers, paths, rows, theorems, Found};
use crate::trust::{closure, unlisted};
use scan::Tree;

#[path = "../scan/made.rs"]
mod made;
use made::Made;

const SPECS: &str = "-- Head.\nuse M.{ℕ, ◌≡◌}\n\nabbrev pub n : ℕ\nn = 0\n\npub n-law : n ≡ 0\nn-law = idle\n\npub record R (k : ℕ) : Type 0 where\n  pub same : k ≡ n\n\npub idle : R 0\nidle = record { same = n-law }\n\npub Big : Type 0\nBig = R 1\n";

fn tree() -> (Made, Tree) {
    let made = Made::new(&[
        ("crates/a/specs/F.antt", SPECS),
        ("crates/a/specs/laws/F.antt", "-- Head.\npub near : ℕ\nnear = 0\n"),
        ("crates/b/proofs/laws/F.antt", "-- Head.\npub far : ℕ\nfar = 0\n"),
        ("crates/b/specs/F.antt", "-- Head.\npub other : ℕ\nother = 0\n"),
    ]);
    let tree = Tree::load(made.top());
    (made, tree)
}

/// The faults of a page with one table.
fn faults(heading: &str, theorem: &str, file: &str) -> Vec<String> {
    let (_made, tree) = tree();
    let page = format!("## {heading}\n\n| Claim | Theorem | File |\n|---|---|---|\n| x | {theorem} | {file} |\n");
    let mut found = Found::default();
    rows("PAGE", &page).iter().for_each(|row| theorems(row, &defined(&tree), &mut found));
    found.faults
}

#[test]
fn a_row_names_the_crate() {
    for file in ["a/F", "a/specs/F", "a, specs/F", "a/specs/F.antt", "b/G; a/F"] {
        assert!(faults("Part", "`n-law`, `same`", file).is_empty(), "{file}");
    }
    assert_eq!(faults("Part", "`n-law`", "b/F"), ["PAGE:5: n-law is in none of b/F"]);
}

#[test]
fn laws_stand_in_specs_or_in_proofs() {
    for (name, file) in
        [("near", "a/laws/F"), ("near", "a/specs/laws/F"), ("far", "b/laws/F"), ("far", "b/proofs/laws/F")]
    {
        assert!(faults("Part", &format!("`{name}`"), file).is_empty(), "{file}");
    }
    assert_eq!(faults("Part", "`near`, `far`", "a/F, b/F").len(), 2);
}

#[test]
fn the_heading_names_the_crates() {
    assert!(faults("Part (b, a)", "`n-law`", "F").is_empty());
    assert_eq!(faults("Part (b)", "`n-law`", "specs/F").len(), 1);
    assert_eq!(faults("Part", "`n-law`", "F").len(), 1);
}

#[test]
fn a_claim_names_its_files() {
    let (_made, tree) = tree();
    let faults = |definition: &str, function: &str| {
        let page = format!(
            "| Definition | Function | Theorem |\n|---|---|---|\n| {definition} | {function} | `n-law` a/F |\n"
        );
        let mut found = Found::default();
        for row in rows("PAGE", &page) {
            claims(&row, &defined(&tree), &mut found);
            functions(&row, &tree, &mut found);
        }
        found.faults.len()
    };
    assert_eq!(faults("`R`, `same` a/F; `other` b/F", "-"), 0);
    assert_eq!(faults("`R` a/F; `other` a/F", "-"), 1);
    assert_eq!(faults("`R` a/F", "`a::gone`"), 1);
}

#[test]
fn each_refusal_has_a_row() {
    let mut found = Found::default();
    numbers(&rows("PAGE", "| Number | When |\n|---|---|\n| 11 | x |\n| 11 | y |\n| 64 | z |\n"), &mut found);
    assert_eq!((found.names, found.faults.len()), (35, 33));
}

#[test]
fn names_with_their_file_are_looked_up() {
    let (_made, tree) = tree();
    let check = |text: &str| {
        let mut found = Found::default();
        mentions("PAGE", text, &defined(&tree), &mut found);
        (found.names, found.faults.len())
    };
    assert_eq!(
        check("By `n-law`, `n` (a/F), and more\n(`same`, a/F; `other`, b/F); `R 0` (crates/a/specs/F.antt)."),
        (5, 0)
    );
    assert_eq!(check("By `n-law` (b/F) and (`other`,\na/F)."), (2, 2));
    assert_eq!(check("The crate `a` (a/F), `gone` (a/G), `gone` here (a/F); a file (a/F)."), (0, 0));
}

#[test]
fn whole_paths_are_looked_up() {
    let check = |text: &str| {
        let mut found = Found::default();
        paths("PAGE", text, |path| path == "crates/a/proofs/F.antt", &mut found);
        (found.names, found.faults)
    };
    let (names, faults) =
        check("In crates/a/proofs/F.antt, `crates/CRATE/specs/FILE.antt`; crates/a, (`f`,\ncrates/a/specs/F.antt).");
    assert_eq!((names, faults), (2, vec!["PAGE: there is no crates/a/specs/F.antt".to_string()]));
}

#[test]
fn the_map_is_compared() {
    let listing = "# Of all.\n# Ground.\na:\nb: a\n# Above.\nc: a b\n";
    let faults = |page: &str| {
        let mut found = Found::default();
        map::compare(&format!("# Map\n\n{page}\n"), listing, &mut found);
        found.faults.len()
    };
    let page = map::list(listing);
    assert_eq!(page, "- **a, b**: Ground.\n- **c**: Above.\n");
    assert_eq!(faults(&page), 0);
    assert_eq!(faults(&page.replace("a, b", "a")), 1);
    assert_eq!(faults(&format!("{page}- **a**: Ground.\n")), 1);
    let long = map::list(
        "# A line of words that is longer than a page is wide, so that it goes on below the first one.\na:\n",
    );
    assert!(long.lines().count() == 2 && long.lines().all(|line| line.len() < 100), "{long}");
}

#[test]
fn the_crates_are_compared() {
    let made = Made::new(&[
        ("crates.txt", "b: a\na:\nc: a\n"),
        ("crates/c/src/lib.rt", "#![tactic(auto)]\n"),
        ("crates/c/proofs/Lib.antt", "-- Theorems. Others.\npub mod F\n"),
        ("crates/a/src/lib.rt", ""),
        ("crates/a/specs/Lib.antt", "-- Laws of x.y,\n-- and more. Others.\npub mod F\n"),
        ("crates/b/src/lib.rt", "// Code.\nfn f() {\n}\n"),
        ("crates/b/specs/Lib.antt", "-- Other.\n"),
    ]);
    let tree = Tree::load(made.top());
    let page = map::crates_table(&tree);
    assert_eq!(
        page,
        "| Crate | What it holds |\n|---|---|\n| b | Code. |\n| a | Laws of x.y, and more. |\n| c | Theorems. |\n"
    );
    let faults = |page: &str| {
        let mut found = Found::default();
        map::compare_crates(&rows("TOUR", page), &tree, &mut found);
        found.faults.len()
    };
    assert_eq!((faults(&page), faults(&page.replace("Code", "Text"))), (0, 1));
}

#[test]
fn every_name_is_followed() {
    let (_made, tree) = tree();
    let at = |name: &str| tree.all().find(|(.., item)| item.name == name).map(|(f, i, ..)| (f, i)).unwrap();
    let (seen, outside) = closure(&tree, &[at("Big")]);
    assert_eq!(seen, [at("Big"), at("R"), at("n")].into());
    assert_eq!(outside.len(), 2);
    assert_eq!(closure(&tree, &[at("idle")]).0, [at("idle"), at("R"), at("n"), at("n-law")].into());
}

#[test]
fn what_a_host_may_call_is_listed() {
    let code = "// Head.\npub fn free(x: u8) -> u8\n    ensures { result ≡ x }\n{\n    x\n}\n\npub fn bound(x: u8) -> u8\n    requires { x < 9 }\n{\n    x\n}\n\nfn own() {\n}\n";
    let made = Made::new(&[("crates/host_a/src/lib.rt", code), ("crates/b/src/lib.rt", code)]);
    let tree = Tree::load(made.top());
    assert_eq!(unlisted(&tree, &[]), ["host_a::free is neither listed nor spared"]);
    let free =
        tree.all().find(|(_, _, file, item)| file.of == "host_a" && item.name == "free").map(|(f, i, ..)| (f, i));
    assert!(unlisted(&tree, &[free.unwrap()]).is_empty());
}

#[test]
fn the_page_is_compared() {
    assert_eq!(difference("a\nb\n", "a\nb\n"), None);
    assert!(difference("a\nb\n", "a\nc\n").unwrap().starts_with("docs/TRUST.md:2: b\n  the tree gives: c\n"));
    assert!(difference("a\n", "a\nb\n").is_some());
}

#[test]
fn an_old_line_is_in_its_file() {
    let read = |name: &str| format!("text of {name}, and more\n");
    assert_eq!(lost("file: a\nold: of a,\nnew: x\nfile: b\nold: of b, and\nnew: y\n", read), None);
    assert_eq!(lost("file: a\nold: of a,\nnew: x\nold: of b\nnew: y\n", read), Some("of b"));
}

#[test]
fn an_edit_is_pairs_of_lines() {
    assert!(whole("file: a\nold: x\nnew: y\nold: z\nnew:\nfile: b\nold: x\nnew: y\n"));
    for text in [
        "",
        "file: a\n",
        "file: a\nold: x\n",
        "old: x\nnew: y\n",
        "file: a\nold: x\nsecond line\nnew: y\n",
        "file: a\nold: x\nnew: y\nsecond line\n",
        "file: a\n\nold: x\nnew: y\n",
        "file: a\nold: x\nold: z\nnew: y\n",
        "file: a\nold: x\nnew: x\n",
    ] {
        assert!(!whole(text), "{text:?}");
    }
}
