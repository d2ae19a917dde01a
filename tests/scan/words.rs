//! Text cut into words. A name of antt is any run of characters but spaces and `( ) { } . ; , @ " « »`.

#[derive(Clone, Debug, PartialEq)]
pub enum Token {
    /// A name, or a path of names: `a`, `M.a`.
    Word(Vec<String>),
    /// A projection behind a bracket: `(f x).field`.
    Field(Vec<String>),
    /// A bracket, a dot that ends binders, `;`, `,` or `@`.
    Mark(char),
}

/// A token and where it stands (lines from 1, columns from 0).
#[derive(Clone, Debug)]
pub struct Placed {
    pub token: Token,
    pub line: usize,
    pub column: usize,
}

impl Placed {
    /// The word, if it is one name and no path.
    pub fn name(&self) -> Option<&str> {
        match &self.token {
            Token::Word(path) if path.len() == 1 => Some(&path[0]),
            _ => None,
        }
    }

    pub fn is(&self, word: &str) -> bool {
        self.name() == Some(word)
    }

    pub fn mark(&self) -> Option<char> {
        match self.token {
            Token::Mark(c) => Some(c),
            _ => None,
        }
    }
}

#[derive(Clone, Copy, PartialEq)]
pub enum Language {
    Antt,
    Rattle,
}

/// The end of a quoted text that begins at `i`, or of a character `b'x'`.
fn quoted_end(text: &[char], i: usize) -> usize {
    let close = text[i];
    let mut j = i + 1;
    while j < text.len() && text[j] != close {
        j += if text[j] == '\\' { 2 } else { 1 };
    }
    (j + 1).min(text.len())
}

/// The end of a comment that begins at `i`, or `i` if none does.
fn comment_end(text: &[char], i: usize, language: Language) -> usize {
    let two = (text[i], text.get(i + 1).copied().unwrap_or(' '));
    let line_end = |from: usize| (from..text.len()).find(|&j| text[j] == '\n').unwrap_or(text.len());
    let fresh = i == 0 || text[i - 1].is_whitespace();
    match language {
        Language::Rattle if two == ('/', '/') => line_end(i),
        Language::Antt if two == ('-', '-') && fresh => line_end(i),
        Language::Antt if two == ('{', '-') => {
            let closed = (i + 2..text.len()).find(|&j| text[j - 1] == '-' && text[j] == '}');
            closed.map_or(text.len(), |j| j + 1)
        }
        _ => i,
    }
}

/// Whether the quote at `i` opens a byte `b'x'`: a primed name, as `b'` or `ab'`, has none.
fn opens_byte(text: &[char], i: usize) -> bool {
    let named = i > 1 && (text[i - 2].is_alphanumeric() || text[i - 2] == '_');
    let closed = text.get(i + if text.get(i + 1) == Some(&'\\') { 3 } else { 2 }) == Some(&'\'');
    text[i] == '\'' && i > 0 && text[i - 1] == 'b' && !named && closed
}

/// The text with spaces for its comments and for what is quoted; lines and columns stay.
pub fn plain(text: &str, language: Language) -> String {
    let text: Vec<char> = text.chars().collect();
    let mut out = String::new();
    let mut i = 0;
    while i < text.len() {
        let byte = language == Language::Rattle && opens_byte(&text, i);
        let end = if text[i] == '"' || byte { quoted_end(&text, i) } else { comment_end(&text, i, language) };
        if end == i {
            out.push(text[i]);
            i += 1;
        } else {
            out.extend(text[i..end].iter().map(|&c| if c == '\n' { '\n' } else { ' ' }));
            i = end;
        }
    }
    out
}

fn in_name(c: char, language: Language) -> bool {
    match language {
        Language::Antt => !c.is_whitespace() && !"(){}.;,@\"«»".contains(c),
        Language::Rattle => c.is_alphanumeric() || c == '_',
    }
}

/// A path from `i` on: names with `.` (in Rattle `::`) between them, and its end.
fn path_from(line: &[char], mut i: usize, language: Language) -> (Vec<String>, usize) {
    let mut path = Vec::new();
    loop {
        let end = (i..line.len()).find(|&j| !in_name(line[j], language)).unwrap_or(line.len());
        path.push(line[i..end].iter().collect());
        let next = match language {
            Language::Antt if line.get(end) == Some(&'.') => end + 1,
            Language::Rattle if line[end..].starts_with(&[':', ':']) => end + 2,
            _ => return (path, end),
        };
        if next >= line.len() || !in_name(line[next], language) {
            return (path, end);
        }
        i = next;
    }
}

/// The tokens of one line of plain text.
fn line_tokens(text: &str, line: usize, language: Language, out: &mut Vec<Placed>) {
    let chars: Vec<char> = text.chars().collect();
    let mut i = 0;
    while i < chars.len() {
        let range = i > 0 && chars[i - 1] == '.';
        let field = chars[i] == '.' && !range && chars.get(i + 1).is_some_and(|&c| in_name(c, language));
        let start = if field { i + 1 } else { i };
        if in_name(chars[start], language) {
            let (path, end) = path_from(&chars, start, language);
            let token = if field { Token::Field(path) } else { Token::Word(path) };
            out.push(Placed { token, line, column: i });
            i = end;
        } else {
            if !chars[i].is_whitespace() {
                out.push(Placed { token: Token::Mark(chars[i]), line, column: i });
            }
            i += 1;
        }
    }
}

/// The tokens of plain text whose first line has this number.
pub fn tokens(text: &str, first_line: usize, language: Language) -> Vec<Placed> {
    let mut out = Vec::new();
    for (i, line) in text.lines().enumerate() {
        line_tokens(line, first_line + i, language, &mut out);
    }
    out
}
