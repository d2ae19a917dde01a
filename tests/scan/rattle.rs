//! A file of Rattle: its imports, structs, enums and constants, and its functions with their contracts.
use crate::antt::{Group, Item, Parsed, Sort, Use};
use crate::words::{plain, tokens, Language, Placed, Token};

/// A function's measures, beside its `Item`.
pub struct Function {
    pub name: String,
    pub line: usize,
    pub lines: usize,
    pub arguments: usize,
    pub exported: bool,
}

#[derive(Default)]
pub struct Source {
    pub parsed: Parsed,
    pub ghosts: Vec<Use>,
    pub functions: Vec<Function>,
}

fn margin(line: &str) -> usize {
    line.len() - line.trim_start().len()
}

/// The line after the one on which the brackets that `from` opens are closed again.
fn block_end(lines: &[&str], from: usize) -> usize {
    let (mut depth, mut opened) = (0i32, false);
    for (i, line) in lines.iter().enumerate().skip(from) {
        for c in line.chars() {
            depth += match c {
                '{' => 1,
                '}' => -1,
                _ => 0,
            };
            opened |= c == '{';
        }
        let closes = opened && line.trim_start().starts_with('}') && margin(line) == margin(lines[from]);
        if depth == 0 && (closes || line.trim_end().ends_with(';')) {
            return i + 1;
        }
    }
    lines.len()
}

/// A `use` of Rattle, `use a::b::C;` or `use a::{b::C, D as E};`: a `Use` for each name that it brings.
fn code_imports(text: &str, number: usize) -> Vec<Use> {
    let all = tokens(text, number, Language::Rattle);
    let Some(at) = all.iter().position(|t| t.is("use")) else {
        return Vec::new();
    };
    let (mut found, mut above, mut path) = (Vec::<Use>::new(), Vec::<Vec<String>>::new(), Vec::new());
    let public = text.trim_start().starts_with("pub");
    for (i, t) in all.iter().enumerate().skip(at + 1) {
        match &t.token {
            Token::Word(_) if i > 0 && all[i - 1].is("as") => {
                let last = found.last_mut().expect("a name in front of as");
                last.alias = t.name().map(str::to_string);
            }
            Token::Word(_) if t.is("as") => {}
            Token::Word(word) => {
                path = above.last().cloned().unwrap_or_default();
                path.extend(word.iter().cloned());
                let alias = path.last().cloned();
                found.push(Use { line: number, public, alias, path: path.clone(), names: Vec::new() });
            }
            Token::Mark('{') => {
                found.pop();
                above.push(path.clone());
            }
            Token::Mark('}') => drop(above.pop()),
            _ => {}
        }
    }
    found
}

/// A `ghost use` is a `use` of antt.
fn ghost_import(line: &str, number: usize) -> Option<Use> {
    let text = line.trim().trim_start_matches("ghost ").trim_end_matches(';');
    let mut found = crate::antt::parse(text).uses.pop()?;
    found.line = number;
    Some(found)
}

/// How many arguments stand between the brackets behind `fn name`, and the tokens of their types and the result's.
fn signature(head: &[Placed]) -> (usize, Vec<Placed>) {
    let open = head.iter().position(|t| t.mark() == Some('(')).unwrap_or(0);
    let close = head.iter().position(|t| t.mark() == Some(')')).unwrap_or(head.len());
    let inside = &head[(open + 1).min(close)..close];
    let arguments = inside.split(|t| t.mark() == Some(',')).filter(|a| !a.is_empty()).count();
    (arguments, head[open..].to_vec())
}

/// The parameters, and `result`, as binders in front of a contract: there they hide what else has their name.
fn binders(head: &[Placed], ghosts: Vec<String>) -> Vec<Placed> {
    let open = head.iter().position(|t| t.mark() == Some('(')).unwrap_or(head.len());
    let close = head.iter().position(|t| t.mark() == Some(')')).unwrap_or(head.len());
    let typed = |i: &usize| head.get(i + 1).is_some_and(|t| t.mark() == Some(':'));
    let names = (open..close).filter(typed).filter_map(|i| head[i].name()).map(str::to_string);
    let names = names.chain(ghosts).chain(["result".to_string()]).map(|n| Token::Word(vec![n]));
    let colon = [Token::Word(vec![":".to_string()]), Token::Mark(')')];
    let all = [Token::Mark('(')].into_iter().chain(names).chain(colon);
    all.map(|token| Placed { token, line: head[0].line, column: 0 }).collect()
}

const CLAUSES: [&str; 5] = ["requires", "ensures", "requires*", "ensures*", "ghost"];

/// The tokens of clauses without their names, as `low` of `ensures low { .. }`, and the values that `ghost` clauses name.
fn unnamed(all: Vec<Placed>) -> (Vec<Placed>, Vec<String>) {
    let (mut kept, mut ghosts, mut depth) = (Vec::new(), Vec::new(), 0usize);
    for t in all {
        let opens = matches!(t.mark(), Some('(' | '{'));
        depth -= usize::from(matches!(t.mark(), Some(')' | '}')) && depth > 0);
        let named = depth == 0 && !opens && t.name().is_some_and(|n| !CLAUSES.contains(&n));
        if named && kept.last().is_some_and(|k: &Placed| k.is("ghost")) {
            ghosts.extend(t.name().map(|n| n.trim_end_matches(':').to_string()).filter(|n| !n.is_empty()));
        } else if !named {
            kept.push(t);
        }
        depth += usize::from(opens);
    }
    (kept, ghosts)
}

/// The clauses of a function, and where its body begins: the lines of `requires`, `ensures` and `ghost`.
fn clauses(lines: &[&str], from: usize, to: usize) -> (usize, Vec<Placed>, Vec<String>, usize) {
    let is_clause = |l: &str| l.split_whitespace().next().is_some_and(|w| CLAUSES.contains(&w)) && l.contains('{');
    let first = (from..to).find(|&i| is_clause(lines[i])).unwrap_or(to);
    let opens = |l: &str| l.trim_start().starts_with('{') && margin(l) == margin(lines[from]);
    let body = (from..to).find(|&i| opens(lines[i]) || (lines[i].trim_end().ends_with('{') && i < first)).unwrap_or(to);
    let first = first.min(body);
    let (contract, ghosts) = unnamed(tokens(&lines[first..body].join("\n"), first + 1, Language::Antt));
    (first, contract, ghosts, body)
}

fn plain_group(tokens: Vec<Placed>, own: usize) -> Group {
    Group { tokens, own, clause: false }
}

fn item(name: &str, line: usize, lines: usize, public: bool, sort: Sort) -> Item {
    let (members, groups, aside) = (Vec::new(), Vec::new(), Vec::new());
    Item { name: name.to_string(), line, lines, public, open: true, sort, members, groups, aside }
}

/// The lemmas of `using(a::b::c)` in a function's attributes, by their names in antt.
fn lemmas(attributes: &[Placed]) -> Vec<Placed> {
    let behind = attributes.iter().skip_while(|t| !t.is("using")).take_while(|t| t.mark() != Some(')'));
    let paths = behind.filter_map(|t| match &t.token {
        Token::Word(path) if path.len() > 1 => Some((t, [&["Rattle".to_string()], &path[..]].concat())),
        _ => None,
    });
    paths.map(|(t, path)| Placed { token: Token::Word(path), ..t.clone() }).collect()
}

/// A function: lines `from` up to `to`, the attributes above it.
fn function(lines: &[&str], from: usize, to: usize, out: &mut Source) {
    let (first, contract, ghosts, body) = clauses(lines, from, to);
    let code = |a: usize, b: usize| tokens(&lines[a..b].join("\n"), a + 1, Language::Rattle);
    let above = lines[..from].iter().rev().take_while(|l| l.trim_start().starts_with("#[")).count();
    let attributes = code(from - above, from);
    let head = code(from, first.max(from + 1));
    let Some(name) = head.iter().skip_while(|t| !t.is("fn")).nth(1).and_then(Placed::name).map(str::to_string) else {
        return;
    };
    let (arguments, types) = signature(&head);
    let exported = head.iter().take_while(|t| !t.is("fn")).any(|t| t.is("extern"));
    out.functions.push(Function { name: name.clone(), line: from + 1, lines: to - from, arguments, exported });
    let mut found = item(
        &name,
        from + 1,
        first.max(from + 1) - from + body - first,
        lines[from].trim_start().starts_with("pub"),
        Sort::Function,
    );
    let header = binders(&head, ghosts);
    let own = header.len();
    let contract = header.into_iter().chain(contract).chain(lemmas(&attributes)).collect();
    found.groups = vec![plain_group(types, 0), plain_group(contract, own)];
    found.aside = vec![plain_group(code(body, to), 0), plain_group(attributes, 0)];
    out.parsed.items.push(found);
}

/// A struct, an enum, a constant or a name for a type.
fn declared(lines: &[&str], from: usize, to: usize, out: &mut Source) {
    let all = tokens(&lines[from..to].join("\n"), from + 1, Language::Rattle);
    let at = all.iter().position(|t| ["struct", "enum", "const", "type"].iter().any(|w| t.is(w))).unwrap_or(0);
    let Some(name) = all.get(at + 1).and_then(Placed::name) else {
        return;
    };
    let mut found = item(name, from + 1, to - from, lines[from].starts_with("pub"), Sort::Declared);
    // A variant may have a number or fields behind it.
    let variants = all[at].is("enum");
    let before = |i: usize| match all.get(i).map(|t| &t.token) {
        Some(Token::Mark(':' | ',' | '(' | '}')) => true,
        Some(Token::Mark('=' | '{')) => variants,
        _ => false,
    };
    found.members =
        (at + 2..all.len()).filter(|&i| before(i + 1)).filter_map(|i| all[i].name()).map(str::to_string).collect();
    found.groups = vec![plain_group(all[at + 2..].to_vec(), 0)];
    out.parsed.items.push(found);
}

/// A ghost item of an `impl`, as `ghost try_from_gives = { .. };`: what it names is used by the item above it.
fn ghost_item(lines: &[&str], from: usize, to: usize, out: &mut Source) {
    let named = tokens(&lines[from..to].join("\n"), from + 1, Language::Antt);
    if let Some(above) = out.parsed.items.last_mut() {
        above.groups.push(plain_group(named, 0));
    }
}

pub fn parse(text: &str) -> Source {
    let plain = plain(text, Language::Rattle);
    let lines: Vec<&str> = plain.lines().collect();
    let mut out = Source::default();
    let mut i = 0;
    while i < lines.len() {
        let words: Vec<&str> =
            lines[i].split_whitespace().skip_while(|w| ["pub", "extern", "ghost"].contains(w)).collect();
        let end = block_end(&lines, i).max(i + 1);
        match words.iter().find(|w| !w.is_empty()).copied() {
            Some("use") if lines[i].trim_start().starts_with("ghost") => {
                out.ghosts.extend(ghost_import(&lines[i..end].join(" "), i + 1))
            }
            Some("use") => out.parsed.uses.extend(code_imports(&lines[i..end].join(" "), i + 1)),
            Some(_) if lines[i].trim_start().starts_with("ghost") && words.get(1) == Some(&"=") => {
                ghost_item(&lines, i, end, &mut out)
            }
            Some("struct" | "enum" | "const" | "type") => declared(&lines, i, end, &mut out),
            Some("fn") => function(&lines, i, end, &mut out),
            _ => {
                i += 1;
                continue;
            }
        }
        i = end;
    }
    out
}
