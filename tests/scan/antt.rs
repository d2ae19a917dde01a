//! A file of antt: its imports, and its definitions with their text. Sections (`module _ (..) where`) are looked into.
use crate::words::{plain, tokens, Language, Placed, Token};

/// A `use` line: the module's path, the names taken from it (there, here), or the name that the module gets.
#[derive(Clone, Debug, Default)]
pub struct Use {
    pub line: usize,
    pub public: bool,
    pub path: Vec<String>,
    pub names: Vec<(String, String)>,
    pub alias: Option<String>,
}

#[derive(Clone, Copy, Debug, PartialEq)]
pub enum Sort {
    Value,
    Record,
    Data,
    /// Of Rattle: a struct, an enum or a constant, which antt sees as declared.
    Declared,
    /// Of Rattle: a function; its text here is its contract.
    Function,
}

/// A signature, a declaration or a clause. The first `own` tokens are the headers of the sections around it.
#[derive(Clone, Debug, Default)]
pub struct Group {
    pub tokens: Vec<Placed>,
    pub own: usize,
    pub clause: bool,
}

#[derive(Clone, Debug)]
pub struct Item {
    pub name: String,
    pub line: usize,
    pub lines: usize,
    pub public: bool,
    /// `abbrev` or `unfoldable`: others see its clauses.
    pub open: bool,
    pub sort: Sort,
    /// Constructors, or fields.
    pub members: Vec<String>,
    /// What it states and computes.
    pub groups: Vec<Group>,
    /// What its `unfolding` lines name; of a function, its code.
    pub aside: Vec<Group>,
}

#[derive(Default)]
pub struct Parsed {
    pub uses: Vec<Use>,
    pub items: Vec<Item>,
}

/// An enclosing section: its column, that of what it holds, its header.
struct Section {
    column: usize,
    inside: Option<usize>,
    header: Vec<Placed>,
}

/// The tokens of a `use` line as a `Use`.
fn import(tokens: &[Placed]) -> Use {
    let at = tokens.iter().position(|t| t.is("use")).unwrap_or(0);
    let mut found = Use { line: tokens[0].line, public: tokens[..at].iter().any(|t| t.is("pub")), ..Use::default() };
    let Some(Token::Word(path)) = tokens.get(at + 1).map(|t| t.token.clone()) else {
        return found;
    };
    found.path = path;
    let rest = &tokens[at + 2..];
    match rest.iter().position(|t| t.mark() == Some('{')) {
        Some(open) => {
            for leaf in rest[open + 1..].split(|t| matches!(t.mark(), Some(',' | '}'))) {
                if let Some(Token::Word(there)) = leaf.first().map(|t| t.token.clone()) {
                    let here = leaf.last().and_then(Placed::name).unwrap_or(there.last().unwrap()).to_string();
                    found.names.push((there.join("."), here));
                }
            }
        }
        None => found.alias = rest.last().and_then(Placed::name).map(str::to_string).or(found.path.last().cloned()),
    }
    found
}

/// The members of a record or a data type: the names before `:` on lines of its body.
fn members(tokens: &[Placed]) -> Vec<String> {
    let Some(body) = tokens.iter().position(|t| t.is("where")) else {
        return Vec::new();
    };
    let body = &tokens[body + 1..];
    let Some(column) = body.first().map(|t| t.column) else {
        return Vec::new();
    };
    let mut found = Vec::new();
    for (i, t) in body.iter().enumerate() {
        if t.column == column && (i == 0 || body[i - 1].line < t.line) {
            let names = body[i..].iter().map_while(|t| t.name().filter(|n| *n != ":"));
            found.extend(names.filter(|n| *n != "pub").map(str::to_string));
        }
    }
    found
}

/// What may stand in front of a signature.
pub const MARKS: [&str; 5] = ["pub", "abbrev", "unfoldable", "axiom", "pattern"];

/// What a group declares, if it is a signature, a record or a data type.
fn declares(tokens: &[Placed]) -> Option<Item> {
    let marks = tokens.iter().take_while(|t| MARKS.iter().any(|m| t.is(m))).count();
    let marked = |m: &str| tokens[..marks].iter().any(|t| t.is(m));
    let first = tokens.get(marks)?.name()?;
    let (at, sort) = match first {
        "record" => (marks + 1, Sort::Record),
        "data" => (marks + 1, Sort::Data),
        _ => (marks, Sort::Value),
    };
    let colon = tokens.iter().position(|t| t.is(":"));
    let equals = tokens.iter().position(|t| t.is("=")).unwrap_or(usize::MAX);
    let levels = |c: usize| c == at + 1 || tokens[at + 1].mark() == Some('{');
    if sort == Sort::Value && !colon.is_some_and(|c| c < equals && levels(c)) {
        return None;
    }
    Some(Item {
        name: tokens.get(at)?.name()?.to_string(),
        line: tokens[0].line,
        lines: 0,
        public: marked("pub"),
        open: marked("abbrev") || marked("unfoldable"),
        sort,
        members: if sort == Sort::Value { Vec::new() } else { members(tokens) },
        groups: Vec::new(),
        aside: Vec::new(),
    })
}

fn lines_of(tokens: &[Placed]) -> usize {
    let mut lines: Vec<usize> = tokens.iter().map(|t| t.line).collect();
    lines.dedup();
    lines.len()
}

/// Puts a group of tokens where it belongs. What a section opens belongs to its head, as all that follows may name it.
fn place(group: Vec<Placed>, sections: &mut [Section], out: &mut Parsed) {
    let Some(first) = group.iter().find(|t| !["pub", "unfoldable"].iter().any(|m| t.is(m))) else {
        return;
    };
    if first.is("use") {
        return out.uses.push(import(&group));
    }
    if first.name().is_some_and(|n| n == "mod" || n.starts_with("infix")) {
        return;
    }
    if first.is("open") {
        if let Some(section) = sections.last_mut() {
            section.header.extend(group);
        }
        return;
    }
    let header: Vec<Placed> = sections.iter().flat_map(|s| s.header.iter().cloned()).collect();
    let own = header.len();
    let lines = lines_of(&group);
    let declared = declares(&group);
    let tokens = header.into_iter().chain(group.iter().cloned()).collect();
    let whole = Group { tokens, own, clause: declared.is_none() && !first.is("unfolding") };
    if let Some(item) = declared {
        out.items.push(Item { groups: vec![whole], lines, ..item });
    } else if let Some(item) = out.items.last_mut() {
        if first.is("unfolding") {
            item.aside.push(whole);
        } else {
            item.lines += lines;
            item.groups.push(whole);
        }
    }
}

/// The tokens of one line each, of lines that have some.
fn by_line(all: Vec<Placed>) -> Vec<Vec<Placed>> {
    let mut lines: Vec<Vec<Placed>> = Vec::new();
    for t in all {
        match lines.last_mut() {
            Some(line) if line[0].line == t.line => line.push(t),
            _ => lines.push(vec![t]),
        }
    }
    lines
}

/// Whether this line goes on what stands before it: it is indented further, or begins with a bracket that closes.
fn goes_on(line: &[Placed], sections: &[Section], group: &[Placed]) -> bool {
    let column = sections.last().map_or(Some(0), |s| s.inside);
    let closes = matches!(line[0].mark(), Some(')' | '}'));
    !group.is_empty() && (closes || column.is_some_and(|c| line[0].column > c))
}

pub fn parse(text: &str) -> Parsed {
    let mut out = Parsed::default();
    let mut sections: Vec<Section> = Vec::new();
    let mut group: Vec<Placed> = Vec::new();
    for line in by_line(tokens(&plain(text, Language::Antt), 1, Language::Antt)) {
        if goes_on(&line, &sections, &group) {
            group.extend(line);
        } else {
            place(std::mem::take(&mut group), &mut sections, &mut out);
            while sections.last().is_some_and(|s| line[0].column <= s.column) {
                sections.pop();
            }
            if let Some(s) = sections.last_mut() {
                s.inside.get_or_insert(line[0].column);
            }
            group = line;
        }
        let section = group.first().is_some_and(|t| t.is("module") || t.is("mutual"));
        if section && group.last().is_some_and(|t| t.is("where") || t.is("mutual")) {
            let header = std::mem::take(&mut group);
            sections.push(Section { column: header[0].column, inside: None, header });
        }
    }
    place(group, &mut sections, &mut out);
    out
}
