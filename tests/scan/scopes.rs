//! Names that a piece of antt binds itself, with the stretch of tokens in which each means what is bound.
use crate::antt::{Group, MARKS};
use crate::words::{Placed, Token};

/// `name` is bound for the tokens from `from` up to, without, `to`; if it stands in a clause's pattern, unless it is a
/// constructor.
#[derive(Debug)]
pub struct Span {
    pub name: String,
    pub from: usize,
    pub to: usize,
    pub pattern: bool,
}

/// How many brackets are open before each token.
fn depths(tokens: &[Placed]) -> Vec<usize> {
    let mut depth = 0usize;
    tokens
        .iter()
        .map(|t| {
            let before = depth;
            match t.mark() {
                Some('(' | '{') => depth += 1,
                Some(')' | '}') => depth = depth.saturating_sub(1),
                _ => {}
            }
            before
        })
        .collect()
}

/// Where something that is bound from token `i` on, under `d` brackets, ends: at the bracket that closes, at `;` or `,`, at
/// the `in` of a `let` around it.
fn end_of(tokens: &[Placed], depth: &[usize], i: usize, d: usize) -> usize {
    let mut lets = 0;
    let mut ends = |j: usize| match tokens[j].mark() {
        Some(')' | '}') => depth[j] <= d,
        Some(';' | ',') => depth[j] == d && d > 0,
        _ if depth[j] != d => false,
        _ => {
            lets += i32::from(tokens[j].is("let")) - i32::from(tokens[j].is("in"));
            lets < 0
        }
    };
    (i + 1..tokens.len()).find(|&j| ends(j)).unwrap_or(tokens.len())
}

/// The `in` of the `let` at token `i`.
fn body_of(tokens: &[Placed], depth: &[usize], i: usize) -> Option<usize> {
    let mut open = 0;
    (i..tokens.len()).filter(|&j| depth[j] == depth[i]).find(|&j| {
        open += i32::from(tokens[j].is("let")) - i32::from(tokens[j].is("in"));
        open == 0
    })
}

/// The names from token `i` on up to a token that stops them; types in brackets behind `:` are left out.
fn names_until(tokens: &[Placed], i: usize, stop: impl Fn(&Placed) -> bool) -> (Vec<String>, usize) {
    let (mut names, mut j, mut typed) = (Vec::new(), i, 0usize);
    while j < tokens.len() && !stop(&tokens[j]) {
        match (&tokens[j].token, typed) {
            (Token::Mark('(' | '{'), 1..) => typed += 1,
            (Token::Mark(')' | '}'), 1..) => typed -= 1,
            (Token::Word(w), 0) if w[0] == ":" => typed = 1,
            (Token::Word(w), 0) if w.len() == 1 => names.push(w[0].clone()),
            _ => {}
        }
        j += 1;
    }
    (names, j)
}

/// `(x y : A)` and `{x : A}`: the names, if token `i` opens such a group.
fn typed_binder(tokens: &[Placed], i: usize) -> Vec<String> {
    if !matches!(tokens[i].mark(), Some('(' | '{')) {
        return Vec::new();
    }
    let names: Vec<String> =
        tokens[i + 1..].iter().map_while(|t| t.name().filter(|n| *n != ":")).map(str::to_string).collect();
    if tokens.get(i + 1 + names.len()).is_some_and(|t| t.is(":")) {
        names
    } else {
        Vec::new()
    }
}

fn first_on_line(tokens: &[Placed], i: usize) -> bool {
    i == 0 || tokens[i - 1].line < tokens[i].line
}

/// The next token behind `i` that begins a line and is not indented further.
fn next_line(tokens: &[Placed], i: usize) -> usize {
    let ends = |j: &usize| first_on_line(tokens, *j) && tokens[*j].column <= tokens[i].column;
    (i + 1..tokens.len()).find(ends).unwrap_or(tokens.len())
}

/// A name declared on a line of its own below the first, by its index: of a `where`, which holds for the whole clause, or a
/// record's field, which holds for the fields behind it.
fn declared_at(tokens: &[Placed], i: usize) -> Option<usize> {
    let mut j = i;
    while tokens.get(j).is_some_and(|t| t.name().is_some_and(|n| MARKS.contains(&n))) {
        j += 1;
    }
    let named = tokens.get(j)?.name().is_some() && tokens.get(j + 1)?.is(":");
    (first_on_line(tokens, i) && named).then_some(j)
}

/// The variables of a clause `f x y = ..` that begins a line at token `i`, and where the clause ends.
fn clause_variables(tokens: &[Placed], i: usize, locals: &[Span]) -> Option<(Vec<String>, usize)> {
    let name = tokens[i].name()?;
    if !first_on_line(tokens, i) || !locals.iter().any(|s| s.name == name) {
        return None;
    }
    let (names, at) = names_until(tokens, i + 1, |t| t.is("=") || t.is(":"));
    let to = next_line(tokens, i);
    (tokens.get(at)?.is("=") && at < to).then_some((names, to))
}

/// The variables of a case `| p ↦ ..` of an `elim` whose pattern begins behind token `i`, and where the case ends.
fn case_variables(tokens: &[Placed], depth: &[usize], i: usize) -> Option<(Vec<String>, usize)> {
    if !["|", "["].iter().any(|m| tokens[i].is(m)) {
        return None;
    }
    let (names, at) = names_until(tokens, i + 1, |t| ["↦", "|", "]"].iter().any(|m| t.is(m)));
    if !tokens.get(at)?.is("↦") {
        return None;
    }
    let mut open = 0;
    let to = (at..tokens.len()).find(|&j| {
        open += i32::from(tokens[j].is("[")) - i32::from(tokens[j].is("]"));
        open < 0 || (open == 0 && tokens[j].is("|")) || depth[j] < depth[i]
    });
    Some((names, to.unwrap_or(tokens.len())))
}

/// The variables on the left of the group's own clause.
fn own_variables(tokens: &[Placed], own: usize) -> Vec<String> {
    names_until(tokens, own + 1, |t| t.is("=")).0
}

/// All that a group of tokens binds.
pub fn bound(group: &Group) -> Vec<Span> {
    let (tokens, own) = (&group.tokens, group.own);
    let depth = depths(tokens);
    let mut spans = Vec::new();
    let mut add = |names: Vec<String>, from: usize, to: usize| {
        spans.extend(names.into_iter().map(|name| Span { name, from, to, pattern: false }));
    };
    for i in 0..tokens.len() {
        let end = end_of(tokens, &depth, i, depth[i]);
        add(typed_binder(tokens, i), i, end);
        if tokens[i].is("λ") {
            add(names_until(tokens, i + 1, |t| t.mark() == Some('.')).0, i, end);
        } else if tokens[i].is("let") {
            let (names, at) = names_until(tokens, i + 1, |t| t.is("=") || t.is(":"));
            add(names.clone(), i, at);
            let body = body_of(tokens, &depth, i).unwrap_or(at);
            add(names, body, end_of(tokens, &depth, body, depth[i]));
        } else if let Some(j) = declared_at(tokens, i).filter(|_| i > own && tokens[i].line > tokens[own].line) {
            let name = || vec![tokens[j].name().unwrap().to_string()];
            add(name(), if group.clause { 0 } else { j }, j + 1);
            add(name(), if group.clause { 0 } else { next_line(tokens, i) }, tokens.len());
        }
    }
    let inner = |i: usize| clause_variables(tokens, i, &spans).or_else(|| case_variables(tokens, &depth, i));
    let inner: Vec<(Vec<String>, usize, usize)> =
        (own + 1..tokens.len()).filter_map(|i| inner(i).map(|(names, to)| (names, i, to))).collect();
    let whole = group.clause.then(|| (own_variables(tokens, own), 0, tokens.len()));
    for (names, from, to) in inner.into_iter().chain(whole) {
        spans.extend(names.into_iter().map(|name| Span { name, from, to, pattern: true }));
    }
    spans
}
