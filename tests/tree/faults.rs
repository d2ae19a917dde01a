//! What is wrong in a tree, kind by kind.
use scan::antt::{Item, Sort, Use};
use scan::tree::{of_crate, parts, File};
use scan::words::{Placed, Token};
use scan::{Target, Tree};
use std::collections::{BTreeMap, BTreeSet};

/// Where it stands and what it is.
#[derive(Debug, PartialEq, Eq, PartialOrd, Ord)]
pub struct Fault {
    pub path: String,
    pub line: usize,
    pub name: String,
}

fn fault(path: &str, line: usize, name: impl Into<String>) -> Fault {
    Fault { path: path.to_string(), line, name: name.into() }
}

/// Every path of names in a file's text, its imports left out.
fn paths(file: &File) -> impl Iterator<Item = &Vec<String>> {
    let groups = file.items.iter().flat_map(|i| i.groups.iter().chain(&i.aside));
    groups.flat_map(|g| &g.tokens).filter_map(|t| match &t.token {
        Token::Word(path) => Some(path),
        _ => None,
    })
}

/// What a file's text says of the names that it imports: each name with the words by which it is called.
fn called(tree: &Tree, f: usize) -> BTreeMap<String, BTreeSet<String>> {
    let mut found: BTreeMap<String, BTreeSet<String>> = BTreeMap::new();
    for item in &tree.files[f].items {
        let contract = if item.sort == Sort::Function { &item.groups[1..] } else { &item.groups[..] };
        let aside = if item.sort == Sort::Function { &[][..] } else { &item.aside[..] };
        for (token, meaning) in contract.iter().chain(aside).flat_map(|g| tree.meanings(f, g)) {
            let Token::Word(path) = &token.token else { continue };
            let word = if path[0] == meaning.name { &path[0] } else { path[0].trim_matches('◌') };
            found.entry(meaning.name).or_default().insert(word.to_string());
        }
    }
    found
}

fn is_called(name: &str, called: &BTreeMap<String, BTreeSet<String>>) -> bool {
    called.get(name).is_some_and(|words| words.contains(name) || parts(name).iter().all(|p| words.contains(*p)))
}

/// Whether some other file takes this name from this module.
fn passed_on(tree: &Tree, file: &File, name: &str) -> bool {
    let from = |u: &Use| of_crate(&u.path).is_some_and(|(of, module)| of == file.of && module == file.module);
    let taken = |u: &Use| u.alias.is_some() || u.names.iter().any(|(there, _)| there == name);
    tree.files.iter().flat_map(|f| f.uses.iter().chain(&f.ghosts)).any(|u| from(u) && taken(u))
}

/// Imports that nothing uses: of a name, of a module; a name passed on that nobody takes.
pub fn imports(tree: &Tree) -> Vec<Fault> {
    let mut found = Vec::new();
    for (f, file) in tree.files.iter().enumerate() {
        let called = called(tree, f);
        let heads: BTreeSet<&String> = paths(file).map(|p| &p[0]).chain(file.uses.iter().map(|u| &u.path[0])).collect();
        for used in file.uses.iter().chain(&file.ghosts) {
            let needed = |name: &str| is_called(name, &called) || (used.public && passed_on(tree, file, name));
            let idle = used.names.iter().map(|(_, here)| here).filter(|here| !needed(here));
            found.extend(idle.map(|here| fault(&file.path, used.line, here)));
            let module = used.alias.iter().filter(|alias| !heads.contains(alias));
            found.extend(module.map(|alias| fault(&file.path, used.line, alias)));
        }
    }
    found
}

/// Whether an item of a function's proof is an answer, an invariant or the like: its type is the goal of its name. In a
/// Proof.antt it is each public one.
fn answers(file: &File, item: &Item) -> bool {
    let asked = |t: &Placed| matches!(&t.token, Token::Word(path) if path.len() > 1 && path[1..] == [&*item.name]);
    let signature = item.groups.iter().take(1).flat_map(|g| &g.tokens[g.own..]);
    let whole = file.path.ends_with("/Proof.antt");
    item.public && proved(file).is_some() && (whole || signature.take_while(|t| !t.is("=")).any(asked))
}

/// Definitions of specs/ and proofs/ that no contract, no proof of a function and no page reaches.
pub fn definitions(tree: &Tree, pages: &BTreeSet<String>) -> Vec<Fault> {
    let begins =
        |file: &File, item: &Item| item.sort == Sort::Function || answers(file, item) || pages.contains(&item.name);
    let mut worklist: Vec<(usize, usize)> =
        tree.all().filter(|(_, _, file, item)| begins(file, item)).map(|(f, i, ..)| (f, i)).collect();
    let mut reached = BTreeSet::new();
    while let Some((f, i)) = worklist.pop() {
        if reached.insert((f, i)) {
            let names = tree.names(f, &tree.files[f].items[i]).into_iter();
            worklist.extend(names.filter_map(|t| if let Target::Item(f, i) = t { Some((f, i)) } else { None }));
        }
    }
    let idle = tree.all().filter(|(f, i, file, _)| file.path.ends_with(".antt") && !reached.contains(&(*f, *i)));
    idle.map(|(_, _, file, item)| fault(&file.path, item.line, &item.name)).collect()
}

/// The crates that a file names: in its imports, in its code behind `::`, in its antt by `Rattle.crate`. A variable of that name is none.
fn crates_named(file: &File) -> BTreeSet<&str> {
    let antt = file.path.ends_with(".antt");
    let groups =
        file.items.iter().flat_map(|i| i.groups.iter().take(if antt { usize::MAX } else { 1 }).chain(&i.aside));
    let words = groups.flat_map(|g| &g.tokens).filter_map(|t| match &t.token {
        Token::Word(path) if path.len() > 1 => Some(path),
        _ => None,
    });
    let code = if antt { &[][..] } else { &file.uses[..] };
    let listed = file.uses.iter().chain(&file.ghosts).map(|u| &u.path).chain(words.clone());
    let listed = listed.filter_map(|p| of_crate(p).map(|(of, _)| of));
    let bare = code.iter().map(|u| &u.path).chain(words.filter(|_| !antt)).map(|p| &*p[0]);
    listed.chain(bare).collect()
}

/// Crates that a line of crates.txt names and the crate's files do not.
pub fn dependencies(tree: &Tree) -> Vec<Fault> {
    let mut found = Vec::new();
    for (line, name, named) in &tree.listed {
        let files = tree.files.iter().filter(|f| f.of == *name);
        let heads: BTreeSet<&str> = files.flat_map(crates_named).collect();
        let idle = named.iter().filter(|d| !heads.contains(d.as_str()));
        found.extend(idle.map(|d| fault("crates.txt", *line, format!("{name}: {d}"))));
    }
    found
}

/// Functions with more than 8 arguments; those exported to C are as the callers in C need them.
pub fn arguments(tree: &Tree) -> Vec<Fault> {
    let all = tree.files.iter().flat_map(|f| f.functions.iter().map(move |g| (f, g)));
    let many = all.filter(|(_, g)| g.arguments > 8 && !g.exported);
    many.map(|(f, g)| fault(&f.path, g.line, format!("{}: {} arguments", g.name, g.arguments))).collect()
}

/// Functions of more than 45 lines, contract and brackets counted.
pub fn lengths(tree: &Tree) -> Vec<Fault> {
    let all = tree.files.iter().flat_map(|f| f.functions.iter().map(move |g| (f, g)));
    let long = all.filter(|(_, g)| g.lines > 45);
    long.map(|(f, g)| fault(&f.path, g.line, format!("{}: {} lines", g.name, g.lines))).collect()
}

/// What the head of a proof begins with: the function, as callers write it. A proof is Answers.antt and Invariants.antt of one folder, or
/// one of these, or Proof.antt; of functions that call one another the folder is `+name`.
fn proved(file: &File) -> Option<String> {
    let (last, path) = file.module.strip_prefix(&["proofs".to_string()])?.split_last()?;
    let function = path.iter().map(|part| part.trim_start_matches('+')).collect::<Vec<_>>().join("::");
    let proof = ["Answers", "Invariants", "Proof"].contains(&&**last) && !path.is_empty();
    proof.then(|| format!("{}::{function}:", file.of))
}

/// The files of the proof that a file belongs to, itself among them.
fn proof_of<'t>(tree: &'t Tree, file: &File) -> Vec<&'t File> {
    let folder = |f: &File| f.module.split_last().map(|(_, path)| path.to_vec());
    let same = |f: &&File| f.of == file.of && folder(f) == folder(file) && proved(f).is_some();
    tree.files.iter().filter(same).collect()
}

/// What is wrong with a proof's head: another beginning, or the first name in backquotes that the proof does not have. Functions are called
/// `with_lines` there, and the proof may call them with-lines.
fn misled(tree: &Tree, file: &File) -> Option<String> {
    let function = proved(file)?;
    if !file.head.starts_with(&function) {
        return Some(format!("the head does not begin with {function}"));
    }
    let proof = proof_of(tree, file);
    let says = |name: &str| proof.iter().any(|f| f.body.contains(name));
    let mut named = file.head.split('`').skip(1).step_by(2).filter(|n| n.len() > 1 && !n.contains([' ', '&', ':']));
    let gone = |n: &&str| !says(n) && !says(&n.replace('_', "-"));
    named.find(gone).map(|n| format!("the head names {n}, and the proof does not"))
}

/// Files that do not begin with a comment, and proofs whose comment is about something else. Spared: laws.antt and Lib.antt, which are
/// lists of files, but not where the crate's source is empty, since specs/Lib.antt, or proofs/Lib.antt where there are no specs, then says
/// what the crate holds; that source; and of the two files of one proof the one whose other has the head.
pub fn heads(tree: &Tree) -> Vec<Fault> {
    let coded: BTreeSet<&str> =
        tree.files.iter().filter(|f| f.path.ends_with(".rt") && !f.head.is_empty()).map(|f| f.of.as_str()).collect();
    let specified: BTreeSet<&str> =
        tree.files.iter().filter(|f| f.path.ends_with("/specs/Lib.antt")).map(|f| f.of.as_str()).collect();
    let list = |f: &File| f.path.ends_with("/laws.antt");
    let said = |f: &File| {
        let (specs, proofs) = (f.path.ends_with("/specs/Lib.antt"), f.path.ends_with("/proofs/Lib.antt"));
        let elsewhere = coded.contains(f.of.as_str()) || (proofs && specified.contains(f.of.as_str()));
        (specs || proofs) && elsewhere
    };
    let empty = |f: &File| f.path.ends_with("/src/lib.rt") && f.uses.is_empty() && f.items.is_empty();
    let other = |f: &File| proved(f).is_some() && proof_of(tree, f).iter().any(|g| !g.head.is_empty());
    let bare = tree.files.iter().filter(|f| f.head.is_empty() && !list(f) && !said(f) && !empty(f) && !other(f));
    let bare = bare.map(|f| fault(&f.path, 1, "no head"));
    let headed = tree.files.iter().filter(|f| !f.head.is_empty());
    bare.chain(headed.filter_map(|f| Some(fault(&f.path, 1, misled(tree, f)?)))).collect()
}

/// Rows of docs/TRUST.md whose file is one of laws: what must be believed stands outside specs/laws/ and proofs/.
pub fn believed_laws(believed: &[(usize, String)]) -> Vec<Fault> {
    let laws = believed.iter().filter(|(_, path)| path.contains("/specs/laws/") || path.contains("/proofs/"));
    laws.map(|(line, path)| fault("docs/TRUST.md", *line, path)).collect()
}

/// Theorems of specs/ outside specs/laws/ in the crates that docs/TRUST.md names. What is neither `abbrev` nor `unfoldable` is one: nobody can see
/// more of it than its type.
pub fn loose_laws(tree: &Tree, believed: &[(usize, String)]) -> Vec<Fault> {
    let crates: BTreeSet<&str> = believed.iter().filter_map(|(_, path)| path.split('/').next()).collect();
    let loose = |file: &File| file.path.contains("/specs/") && !file.path.contains("/specs/laws/");
    let here = tree.all().filter(|(_, _, file, _)| loose(file) && crates.contains(file.of.as_str()));
    let laws = here.filter(|(_, _, _, item)| item.sort == Sort::Value && !item.open);
    laws.map(|(_, _, file, item)| fault(&file.path, item.line, &item.name)).collect()
}

/// Crates that stand in crates.txt or in crates/ alone.
pub fn crates(tree: &Tree) -> Vec<Fault> {
    let listed: BTreeSet<&String> = tree.listed.iter().map(|(_, name, _)| name).collect();
    let missing = tree.listed.iter().filter(|(_, name, _)| !tree.folders.contains(name));
    let gone = missing.map(|(line, name, _)| fault("crates.txt", *line, name));
    let unlisted = tree.folders.iter().filter(|name| !listed.contains(name));
    gone.chain(unlisted.map(|name| fault(&format!("crates/{name}"), 1, name))).collect()
}

/// Public names that two crates or more define, in antt or as a type of code, each where it stands. (A constant of code has the name of its
/// definition.)
pub fn shared(tree: &Tree) -> Vec<Fault> {
    let mut by: BTreeMap<&str, Vec<(&File, usize)>> = BTreeMap::new();
    let counts = |file: &File, item: &Item| {
        let constant = item.sort == Sort::Declared && !item.name.contains(char::is_lowercase);
        item.public && item.sort != Sort::Function && !constant && proved(file).is_none()
    };
    for (_, _, file, item) in tree.all().filter(|(_, _, file, item)| counts(file, item)) {
        by.entry(&item.name).or_default().push((file, item.line));
    }
    let crates = |places: &[(&File, usize)]| places.iter().map(|(f, _)| f.of.as_str()).collect::<BTreeSet<_>>().len();
    let several = by.into_iter().filter(|(_, places)| crates(places) > 1);
    several.flat_map(|(name, places)| places.into_iter().map(move |(f, line)| fault(&f.path, line, name))).collect()
}

/// What a program's source has beside one read of its input and one write of its text, to standard output: the prover does not see what is
/// read and written, so a second read, or a write of something else, would be proved. The libraries that read and write otherwise are not named.
pub fn programs(tree: &Tree) -> Vec<Fault> {
    let mut found = Vec::new();
    for main in tree.files.iter().filter(|f| f.path.ends_with("/src/main.rt")) {
        let source: String =
            tree.files.iter().filter(|f| f.of == main.of && f.path.ends_with(".rt")).map(|f| &*f.body).collect();
        let code: Vec<&str> = source.lines().map(|l| l.split("//").next().unwrap_or("")).collect();
        let times = |text: &str| code.iter().map(|l| l.matches(text).count()).sum::<usize>();
        let once =
            ["format_text::read_input(", "io::write_all(STDOUT_FILENO, text)", "io::", "const STDOUT_FILENO: i32 = 1;"];
        let wanted = once.map(|t| (t, 1)).into_iter().chain(["libc::", "std::", "os::"].map(|t| (t, 0)));
        found.extend(
            wanted
                .filter(|(t, n)| times(t) != *n)
                .map(|(t, _)| fault(&main.path, 1, format!("{t} {} times", times(t)))),
        );
    }
    found
}
