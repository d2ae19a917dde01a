//! docs/TRUST.md: the definitions that the claims and the contracts of a host's functions rest on, counted, and what else
//! has to be believed (assumed.md).
use scan::antt::{Item, Sort};
use scan::tree::File;
use scan::{Target, Tree};
use std::collections::{BTreeMap, BTreeSet};

/// The claims: in words, its file, its name.
const CLAIMS: [(&str, &str, &str); 17] = [
    ("What is claimed of the central tree", "crates/plan_tree/specs/Claim.antt", "TreeClaim"),
    ("Demand 3", "crates/field_calls/specs/Demand.antt", "Demand3"),
    ("Demand 3 of a plan in one part", "crates/field_calls/specs/Demand.antt", "Demand3OnePart"),
    ("What request 01 claims of a cue", "crates/cue/specs/Claims.antt", "CueClaim"),
    ("That 73 is exact", "crates/cue/specs/Claims.antt", "Exact73"),
    ("What request 02 claims of a preview", "crates/preview/specs/Claim.antt", "PreviewClaim"),
    ("What request 04 claims of a plan with nobody in it", "crates/blank/specs/Claim.antt", "BlankClaim"),
    ("What request 05 claims of who woke whom", "crates/waking/specs/Claim.antt", "WhoWokeWhom"),
    ("That one field has one layout, request 06", "crates/store/specs/Claims.antt", "OneLayout"),
    ("What a save leaves, request 06", "crates/store/specs/Claims.antt", "TakenSaves"),
    ("That a store stays whole, request 06", "crates/store/specs/Claims.antt", "StaysWhole"),
    ("What a restore comes back to, request 06", "crates/store/specs/Claims.antt", "ComesBack"),
    ("How rehearsals with named points are judged, request 06", "crates/store/specs/Console.antt", "Rehearsals"),
    (
        "What a path is, with its worst link, or that there is no way, requests 07 and 08",
        "crates/path/specs/Claims.antt",
        "PathClaim",
    ),
    ("That a path is the same turned round, request 07", "crates/path/specs/Claims.antt", "TurnedClaim"),
    ("Which room is enough for a path, request 07", "crates/path/specs/Claims.antt", "RoomClaim"),
    ("Which modules are near one, request 07", "crates/path/specs/Claims.antt", "NearClaim"),
];

/// The functions that a host or one of the two programs calls, by crate; no names: all public ones of the crate.
const CALLED: [(&str, &[&str]); 18] = [
    ("refusal", &["number", "refusal_in"]),
    ("plan", &["ceiling", "ceiling_of"]),
    ("plan_file", &["check", "read", "write"]),
    ("plan_check", &["check"]),
    ("plan_tree", &["build"]),
    ("format_message", &["kind", "level", "find", "header"]),
    ("format_frame", &["check", "read", "write"]),
    ("host_setup", &["setup"]),
    ("host_run", &["step", "run"]),
    ("host_preview", &["preview", "preview_parts"]),
    ("host_rounds", &["run"]),
    ("host_job", &["run_job"]),
    ("host_schedule", &["check"]),
    ("host_reader", &["open", "left", "next"]),
    ("host_cue", &["start", "deliver"]),
    ("host_path", &["between", "near"]),
    ("host_store", &["save", "save_parts", "find", "find_at", "restore"]),
    ("format_text", &[]),
];

/// The crates of the exports for C, all of them, begin with this.
const EXPORTS: &str = "library_";

/// Beside the host_ crates, those that are there to be called: each public function of theirs that asks for nothing is listed above or
/// spared here.
const OFFERED: [&str; 4] = ["plan_file", "plan_check", "plan_tree", "format_frame"];

const SPARED: [(&str, &[&str]); 2] = [
    // 14 and 15 alone, told whether L fits a length: for plan_file, which has the length
    ("plan_check", &["counts_check"]),
    // what open, left and next are made of, on bytes
    ("host_reader", &["left_from", "step_from", "place_after"]),
];

const HEAD: &str = "\
# What must be believed

To know what the claims (the central tree, demand 3, requests 01, 02 and 04 to 08) and the functions that a host calls say, read the contracts of the first table and the definitions of the second: they
are made of these and of the names of the toolchain's libraries below. Theorems and proofs are not among them, since the prover checks those.
Then read what else is assumed, at the end. (Made by `tools/trust`; the tests compare it with the tree.)
";

const LIBRARIES: &str = "\
## Names of the toolchain's libraries

What those definitions and contracts take from outside the repository; antt's prelude (`×`, `¬`, `⊥`) is open everywhere.
";

pub type Key = (usize, usize);

/// All that these name, and what that names, themselves among them, and the names of the toolchain's libraries.
pub fn closure(tree: &Tree, roots: &[Key]) -> (BTreeSet<Key>, BTreeSet<(String, String)>) {
    let (mut seen, mut outside) = (BTreeSet::new(), BTreeSet::new());
    let mut worklist = roots.to_vec();
    while let Some((f, i)) = worklist.pop() {
        if !seen.insert((f, i)) {
            continue;
        }
        for target in tree.names(f, &tree.files[f].items[i]) {
            match target {
                Target::Item(g, j) => worklist.push((g, j)),
                Target::Outside(module, name) => drop(outside.insert((module, name))),
            }
        }
    }
    (seen, outside)
}

fn within(table: &[(&str, &[&str])], file: &File, item: &Item) -> bool {
    table.iter().any(|(of, names)| *of == file.of && (names.is_empty() || names.contains(&item.name.as_str())))
}

/// The public functions of src/lib.rt.
fn public(tree: &Tree) -> Vec<Key> {
    let wanted =
        |file: &File, item: &Item| item.sort == Sort::Function && item.public && file.path.ends_with("/src/lib.rt");
    tree.all().filter(|(_, _, file, item)| wanted(file, item)).map(|(f, i, ..)| (f, i)).collect()
}

fn called(tree: &Tree) -> Vec<Key> {
    let wanted = |file: &File, item: &Item| {
        let export = file.of.starts_with(EXPORTS) && file.functions.iter().any(|g| g.exported && g.name == item.name);
        within(&CALLED, file, item) || export
    };
    public(tree).into_iter().filter(|&(f, i)| wanted(&tree.files[f], &tree.files[f].items[i])).collect()
}

fn asks(item: &Item) -> bool {
    item.groups[1].tokens.iter().any(|t| t.is("requires") || t.is("requires*"))
}

/// Public functions of the crates that a host calls that ask for nothing and stand in neither table.
pub fn unlisted(tree: &Tree, functions: &[Key]) -> Vec<String> {
    let offered = |of: &str| of.starts_with("host_") || OFFERED.contains(&of);
    let left = public(tree).into_iter().filter(|key| !functions.contains(key));
    let left = left.map(|(f, i)| (&tree.files[f], &tree.files[f].items[i]));
    left.filter(|(file, item)| offered(&file.of) && !asks(item) && !within(&SPARED, file, item))
        .map(|(file, item)| format!("{}::{} is neither listed nor spared", file.of, item.name))
        .collect()
}

fn claim_key(tree: &Tree, (_, path, name): &(&str, &str, &str)) -> Option<Key> {
    tree.all().find(|(_, _, file, item)| file.path == *path && item.name == *name).map(|(f, i, ..)| (f, i))
}

/// Names of the tables that no function has, functions that ask for something or are not listed, or a claim that is gone.
fn amiss(tree: &Tree, functions: &[Key]) -> Vec<String> {
    let all = public(tree);
    let there =
        |of: &str, name: &str| all.iter().any(|&(f, i)| tree.files[f].of == of && tree.files[f].items[i].name == name);
    let named = CALLED.iter().chain(&SPARED).flat_map(|(of, names)| names.iter().map(move |n| (*of, *n)));
    let gone = named.filter(|(of, name)| !there(of, name)).map(|(of, name)| format!("{of}::{name} is not there"));
    let asking = functions.iter().map(|&(f, i)| (&tree.files[f], &tree.files[f].items[i]));
    let asking = asking.filter(|(_, item)| asks(item));
    let asking = asking.map(|(file, item)| format!("{}::{} has a requires", file.of, item.name));
    let lost = CLAIMS.iter().filter(|claim| claim_key(tree, claim).is_none());
    let lost = lost.map(|(_, path, name)| format!("{name} is not in {path}"));
    gone.chain(asking).chain(unlisted(tree, functions)).chain(lost).collect()
}

fn code(names: impl IntoIterator<Item = String>) -> String {
    names.into_iter().map(|n| format!("`{}`", n.replace('|', "\\|"))).collect::<Vec<_>>().join(", ")
}

/// Files, definitions, lines.
fn sums(tree: &Tree, keys: &BTreeSet<Key>) -> String {
    let files: BTreeSet<usize> = keys.iter().map(|k| k.0).collect();
    let lines: usize = keys.iter().map(|&(f, i)| tree.files[f].items[i].lines).sum();
    format!("{} definitions in {} files, {} lines", keys.len(), files.len(), lines)
}

fn functions_table(tree: &Tree, functions: &[Key]) -> String {
    let mut out = String::from("| Function | Lines | Its contract names |\n|---|---|---|\n");
    for &(f, i) in functions {
        let (file, item) = (&tree.files[f], &tree.files[f].items[i]);
        let named = tree.names(f, item).into_iter().filter_map(|t| tree.item(&t).map(|(_, d)| d.name.clone()));
        out +=
            &format!("| `{}::{}` | {} | {} |\n", file.of, item.name, item.lines, code(named.collect::<BTreeSet<_>>()));
    }
    out
}

fn files_table(tree: &Tree, keys: &BTreeSet<Key>) -> String {
    let mut by: BTreeMap<&str, Vec<&Item>> = BTreeMap::new();
    keys.iter().for_each(|&(f, i)| by.entry(&tree.files[f].path).or_default().push(&tree.files[f].items[i]));
    let mut out = String::from("| File | Definitions | Lines |\n|---|---|---|\n");
    for (path, items) in by {
        let lines: usize = items.iter().map(|i| i.lines).sum();
        out += &format!("| {path} | {} | {lines} |\n", code(items.iter().map(|i| i.name.clone())));
    }
    out
}

/// By module.
fn library_table(outside: &BTreeSet<(String, String)>) -> String {
    let mut by: BTreeMap<String, BTreeSet<String>> = BTreeMap::new();
    for (module, name) in outside {
        by.entry(module.clone()).or_default().insert(name.clone());
    }
    let mut out = String::from("| Module | Names |\n|---|---|\n");
    by.into_iter().for_each(|(module, names)| out += &format!("| {module} | {} |\n", code(names)));
    out
}

/// The page, or what is wrong with the tables of this file.
pub fn page(tree: &Tree) -> Result<String, Vec<String>> {
    let functions = called(tree);
    let gone = amiss(tree, &functions);
    if !gone.is_empty() {
        return Err(gone);
    }
    let claims: Vec<Key> = CLAIMS.iter().filter_map(|claim| claim_key(tree, claim)).collect();
    let rests = CLAIMS.iter().zip(&claims).map(|((words, path, name), &key)| {
        format!("- {words} (`{name}`, {path}) rests on {}.\n", sums(tree, &closure(tree, &[key]).0))
    });
    let rests: String = rests.collect();
    let (mut all, outside) = closure(tree, &[claims, functions.clone()].concat());
    all.retain(|k| !functions.contains(k));
    let contracts: usize = functions.iter().map(|&(f, i)| tree.files[f].items[i].lines).sum();
    let called = functions.len();
    Ok([
        HEAD.to_string(),
        format!("## The contracts\n\nSignature and clauses of the {called} functions that a host or one of the two programs calls: {contracts} lines. None has a `requires`.\n"),
        functions_table(tree, &functions),
        format!("## The definitions\n\n{rests}"),
        files_table(tree, &all),
        format!("Together: {}.\n", sums(tree, &all)),
        LIBRARIES.to_string(),
        library_table(&outside),
        include_str!("assumed.md").to_string(),
    ]
    .join("\n"))
}
