//! All crates of a repository, and what the words of each file mean.
use crate::antt::{self, Group, Item, Sort, Use};
use crate::rattle::{self, Function};
use crate::scopes::bound;
use crate::words::{Placed, Token};
use std::collections::{BTreeMap, BTreeSet};
use std::fs;
use std::path::{Path, PathBuf};

/// What a name stands for: a definition of the tree (file, item), or a name of a library of the toolchain.
#[derive(Clone, Debug, PartialEq, Eq, PartialOrd, Ord)]
pub enum Target {
    Item(usize, usize),
    Outside(String, String),
}

pub struct File {
    /// The crate that it belongs to.
    pub of: String,
    /// Its path from the top of the repository.
    pub path: String,
    /// Its module's path in the crate, as `["specs", "laws", "File"]`; a file of Rattle: `["src", ..]`.
    pub module: Vec<String>,
    pub uses: Vec<Use>,
    /// Imports of antt in a file of Rattle.
    pub ghosts: Vec<Use>,
    pub items: Vec<Item>,
    pub functions: Vec<Function>,
    /// The comment that it begins with, its lines joined.
    pub head: String,
    /// The lines behind that.
    pub body: String,
}

#[derive(Default)]
pub struct Tree {
    pub files: Vec<File>,
    /// The line of crates.txt, the crate's name, the crates that it names.
    pub listed: Vec<(usize, String, Vec<String>)>,
    /// The folders of crates/.
    pub folders: BTreeSet<String>,
    scopes: Vec<Scope>,
}

/// What the words of a file may mean: names, and names of modules.
#[derive(Default)]
struct Scope {
    names: BTreeMap<String, Vec<Meaning>>,
    modules: BTreeMap<String, Vec<String>>,
}

/// A meaning, the whole name that has it, and whether that is a constructor.
#[derive(Clone)]
pub struct Meaning {
    pub target: Target,
    pub name: String,
    constructor: bool,
}

fn files_below(folder: &Path, found: &mut Vec<PathBuf>) {
    let Ok(entries) = fs::read_dir(folder) else {
        return;
    };
    for path in entries.flatten().map(|e| e.path()) {
        if path.is_dir() && !path.ends_with("must-fail") {
            files_below(&path, found);
        } else if path.extension().is_some_and(|e| e == "antt" || e == "rt") {
            found.push(path);
        }
    }
}

fn read(top: &Path, path: &Path) -> File {
    let text = fs::read_to_string(path).unwrap_or_default();
    let path = path.strip_prefix(top).unwrap_or(path).to_string_lossy().into_owned();
    let parts: Vec<&str> = path.split('/').collect();
    let (stem, rattle) = path.strip_suffix(".rt").map_or((path.trim_end_matches(".antt"), false), |s| (s, true));
    let module = stem.split('/').skip(2).map(str::to_string).collect();
    let comment = text.lines().map_while(|line| line.strip_prefix("--").or(line.strip_prefix("//")));
    let comment: Vec<&str> = comment.map(str::trim).collect();
    let body = text.lines().skip(comment.len()).collect::<Vec<_>>().join("\n");
    let head = comment.join(" ");
    let source =
        if rattle { rattle::parse(&text) } else { rattle::Source { parsed: antt::parse(&text), ..Default::default() } };
    let (uses, items) = (source.parsed.uses, source.parsed.items);
    File {
        of: parts[1].to_string(),
        module,
        uses,
        items,
        ghosts: source.ghosts,
        functions: source.functions,
        head,
        body,
        path,
    }
}

/// The crates that crates.txt lists. What stands behind a crate's name, as `staticlib`, is not looked at.
fn listing(text: &str) -> Vec<(usize, String, Vec<String>)> {
    let lines = text.lines().enumerate().map(|(i, l)| (i + 1, l.split('#').next().unwrap_or("")));
    lines
        .filter_map(|(i, l)| {
            let (name, rest) = l.split_once(':')?;
            Some((
                i,
                name.split_whitespace().next()?.to_string(),
                rest.split_whitespace().map(str::to_string).collect(),
            ))
        })
        .collect()
}

/// The parts of an operator's name: `◌∷◌` is written `∷`.
pub fn parts(name: &str) -> Vec<&str> {
    name.split('◌').filter(|p| !p.is_empty()).collect()
}

/// The crate of a path `Rattle.crate.specs.File`, and what is behind it.
pub fn of_crate(path: &[String]) -> Option<(&str, &[String])> {
    match path {
        [first, of, behind @ ..] if first == "Rattle" => Some((of, behind)),
        _ => None,
    }
}

impl Tree {
    pub fn load(top: &Path) -> Tree {
        let mut paths = Vec::new();
        let mut tree = Tree::default();
        for entry in fs::read_dir(top.join("crates")).into_iter().flatten().flatten() {
            tree.folders.insert(entry.file_name().to_string_lossy().into_owned());
            ["src", "specs", "proofs"].iter().for_each(|part| files_below(&entry.path().join(part), &mut paths));
        }
        paths.sort();
        tree.files = paths.iter().map(|p| read(top, p)).collect();
        tree.listed = listing(&fs::read_to_string(top.join("crates.txt")).unwrap_or_default());
        tree.scopes = (0..tree.files.len()).map(|f| tree.scope(f)).collect();
        tree
    }

    pub fn item(&self, target: &Target) -> Option<(&File, &Item)> {
        match target {
            Target::Item(f, i) => Some((&self.files[*f], &self.files[*f].items[*i])),
            Target::Outside(..) => None,
        }
    }

    /// The file of a module: of `Rattle.crate.specs.File`.
    fn file_of(&self, module: &[String]) -> Option<usize> {
        let (of, behind) = of_crate(module)?;
        self.files.iter().position(|f| f.of == of && f.module == behind && f.path.ends_with(".antt"))
    }

    /// What is declared in src/: `Rattle.crate.specs.declared.Type` has a struct or an enum, its `TheVariants` the variants of
    /// that enum, `Rattle.crate.specs.declared.TheConstants` a constant; modules of src/ stand in front of these.
    fn declared(&self, module: &[String], name: &str) -> Option<Meaning> {
        let (of, behind) = of_crate(module)?;
        let ["specs", "declared", behind @ ..] = &behind.iter().map(String::as_str).collect::<Vec<_>>()[..] else {
            return None;
        };
        let below: Vec<&str> = behind.iter().copied().take_while(|m| !m.starts_with(char::is_uppercase)).collect();
        let fits = |m: &[String]| below.is_empty() || m[1..] == below;
        let file = |f: &File| f.of == of && f.path.ends_with(".rt") && fits(&f.module);
        let mut files = self.files.iter().enumerate().filter(|(_, f)| file(f)).map(|(f, _)| f);
        match behind {
            [.., of_type, "TheVariants"] => files.find_map(|f| self.variant(f, of_type, name)),
            _ => files.find_map(|f| self.own(f, name, Sort::Declared)),
        }
    }

    /// A variant of an enum that a file declares.
    fn variant(&self, file: usize, of_type: &str, name: &str) -> Option<Meaning> {
        let fits = |i: &Item| i.sort == Sort::Declared && i.name == of_type && i.members.iter().any(|m| m == name);
        let i = self.files[file].items.iter().position(fits)?;
        Some(Meaning { target: Target::Item(file, i), name: name.to_string(), constructor: true })
    }

    /// A name that a file defines: an item, a constructor or a field of one.
    fn own(&self, file: usize, name: &str, sort: Sort) -> Option<Meaning> {
        let items = self.files[file].items.iter().enumerate();
        let mut fitting = items.filter(|(_, i)| (i.sort == Sort::Declared) == (sort == Sort::Declared));
        let found = fitting.clone().find(|(_, i)| i.name == name).map(|(i, _)| (i, false));
        let (i, constructor) =
            found.or_else(|| fitting.find(|(_, i)| i.members.iter().any(|m| m == name)).map(|(i, _)| (i, true)))?;
        Some(Meaning { target: Target::Item(file, i), name: name.to_string(), constructor })
    }

    /// What a name of a module is; `pub use` lines are followed.
    fn meaning(&self, module: &[String], name: &str) -> Meaning {
        let outside = || Meaning {
            target: Target::Outside(module.join("."), name.to_string()),
            name: name.to_string(),
            constructor: true,
        };
        if let Some((below, last)) = name.rsplit_once('.') {
            return self.meaning(&[module, &below.split('.').map(str::to_string).collect::<Vec<_>>()].concat(), last);
        }
        let Some(file) = self.file_of(module) else {
            return self.declared(module, name).unwrap_or_else(outside);
        };
        let passed = || {
            let public = self.files[file].uses.iter().filter(|u| u.public);
            let mut found = public.flat_map(|u| u.names.iter().map(move |(there, here)| (u, there, here)));
            found.find(|(_, _, here)| *here == name).map(|(u, there, _)| self.meaning(&u.path, there))
        };
        self.own(file, name, Sort::Value).or_else(passed).unwrap_or_else(outside)
    }

    /// What `use` lines and the file's own definitions make of words.
    fn scope(&self, file: usize) -> Scope {
        let mut scope = Scope::default();
        let mut add = |here: &str, meaning: Meaning| {
            let mut keys = parts(here);
            keys.push(here);
            keys.dedup();
            keys.iter().for_each(|k| scope.names.entry(k.to_string()).or_default().push(meaning.clone()));
        };
        let this = &self.files[file];
        let antt = this.path.ends_with(".antt");
        for used in if antt { &this.uses } else { &this.ghosts } {
            match &used.alias {
                Some(alias) => drop(scope.modules.insert(alias.clone(), used.path.clone())),
                None => used.names.iter().for_each(|(there, here)| {
                    add(here, Meaning { name: here.clone(), ..self.meaning(&used.path, there) });
                }),
            }
        }
        for (i, item) in this.items.iter().enumerate().filter(|_| antt) {
            let own = |name: &str, constructor| Meaning {
                target: Target::Item(file, i),
                name: name.to_string(),
                constructor,
            };
            add(&item.name, own(&item.name, false));
            item.members.iter().filter(|_| item.sort == Sort::Data).for_each(|m| add(m, own(m, true)));
        }
        scope
    }

    /// What a path of names in a file means: a name, a name behind a module's or a type's, or nothing that is known.
    fn path(&self, file: usize, path: &[String]) -> Vec<Meaning> {
        let scope = &self.scopes[file];
        let plain = |word: &str| scope.names.get(word).or_else(|| scope.names.get(word.trim_matches('◌'))).cloned();
        if path.len() > 1 {
            let module = match scope.modules.get(&path[0]) {
                Some(module) => [module, &path[1..path.len() - 1]].concat(),
                None if path[0] == "Rattle" => {
                    let of = if path[1] == "crate" { &self.files[file].of } else { &path[1] };
                    [&[path[0].clone(), of.clone()], &path[2..path.len() - 1]].concat()
                }
                None => return plain(&path[0]).unwrap_or_default(),
            };
            return vec![self.meaning(&module, &path[path.len() - 1])];
        }
        plain(&path[0]).unwrap_or_default()
    }

    /// A type or a constant that code of a file names, by its path in Rattle.
    fn code_path(&self, file: usize, path: &[String]) -> Option<Meaning> {
        let this = &self.files[file];
        let used = this.uses.iter().find(|u| u.alias.as_ref() == path.first() && u.path.len() > 1);
        let whole = used.map_or(path.to_vec(), |u| [&u.path[..], &path[1..]].concat());
        let (name, of) = (whole.last()?, if whole.len() > 1 && whole[0] != "crate" { &whole[0] } else { &this.of });
        let first = self.own(file, name, Sort::Declared).filter(|m| !m.constructor && whole.len() == 1);
        first.or_else(|| {
            self.declared(&["Rattle", of, "specs", "declared"].map(str::to_string), name).filter(|m| !m.constructor)
        })
    }

    /// The meanings of the tokens of a group, each with the token that has it. Names that the group binds have none.
    pub fn meanings<'t>(&self, file: usize, group: &'t Group) -> Vec<(&'t Placed, Meaning)> {
        let tokens = &group.tokens;
        let constructor = |name: &String| self.path(file, &[name.clone()]).iter().any(|m| m.constructor);
        let mut spans = bound(group);
        spans.retain(|s| !(s.pattern && constructor(&s.name)));
        let local = |i: usize, name: &str| spans.iter().any(|s| s.name == name && s.from <= i && i < s.to);
        let label = |i: usize| {
            i > 0 && matches!(tokens[i - 1].mark(), Some('{' | ';')) && tokens.get(i + 1).is_some_and(|t| t.is("="))
        };
        let words = tokens.iter().enumerate().filter_map(|(i, t)| match &t.token {
            Token::Word(path) if !local(i, &path[0]) && !label(i) => Some((t, path)),
            _ => None,
        });
        words.flat_map(|(t, path)| self.path(file, path).into_iter().map(move |m| (t, m))).collect()
    }

    /// What an item states and computes with: types and bodies of definitions, of a function its contract and the types
    /// of its signature.
    pub fn names(&self, file: usize, item: &Item) -> BTreeSet<Target> {
        let code = |g: &Group| -> Vec<Target> {
            let words = g.tokens.iter().filter_map(|t| if let Token::Word(p) = &t.token { Some(p) } else { None });
            words.filter_map(|p| self.code_path(file, p)).map(|m| m.target).collect()
        };
        let text = |g: &Group| self.meanings(file, g).into_iter().map(|(_, m)| m.target).collect::<Vec<_>>();
        match item.sort {
            // behind what is declared, the ghost items of its `impl`s
            Sort::Declared => code(&item.groups[0]).into_iter().chain(item.groups[1..].iter().flat_map(text)).collect(),
            Sort::Function => code(&item.groups[0]).into_iter().chain(text(&item.groups[1])).collect(),
            _ => item.groups.iter().flat_map(text).collect(),
        }
    }

    /// All items, by file and number.
    pub fn all(&self) -> impl Iterator<Item = (usize, usize, &File, &Item)> {
        let files = self.files.iter().enumerate();
        files.flat_map(|(f, file)| file.items.iter().enumerate().map(move |(i, item)| (f, i, file, item)))
    }
}
