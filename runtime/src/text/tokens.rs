//! Words, numbers, texts in quotes and signs of a line.

/// What a token is.
#[derive(Clone, Copy, Debug, PartialEq, Eq)]
pub(super) enum TokenKind {
    /// A name or a keyword.
    Word,
    /// Something that begins like a number.
    Number,
    /// A text with its quotes; the second may be missing, at the end of the line.
    Text,
    /// One sign, or `..`.
    Sign,
}

/// A token and where it stands.
#[derive(Clone, Copy, Debug)]
pub(super) struct Token<'a> {
    pub kind: TokenKind,
    pub text: &'a str,
    /// Line, from 1.
    pub line: usize,
    /// Characters before it in its line.
    pub column: usize,
}

impl<'a> Token<'a> {
    /// What stands between the quotes of a text; nothing if the second one is missing.
    pub fn inside(&self) -> Option<&'a str> {
        let inside = self.text.strip_prefix('"').filter(|_| self.kind == TokenKind::Text)?;
        (text_length(self.text) == Some(self.text.len())).then(|| &inside[..inside.len() - 1])
    }
}

/// The tokens of a line, without its comment.
pub(super) fn tokens(source: &str, line: usize) -> Vec<Token<'_>> {
    let mut found = Vec::new();
    let mut rest = source;
    let mut column = 0;
    while let Some(first) = rest.chars().next() {
        if first == '#' {
            break;
        }
        let (kind, length) = measure(rest, first);
        let (text, behind) = rest.split_at(length);
        if !first.is_whitespace() {
            found.push(Token { kind, text, line, column });
        }
        column += text.chars().count();
        rest = behind;
    }
    found
}

/// Kind and bytes of the token that begins `rest`.
fn measure(rest: &str, first: char) -> (TokenKind, usize) {
    if rest.starts_with("..") {
        return (TokenKind::Sign, 2);
    }
    if first == '"' {
        return (TokenKind::Text, text_length(rest).unwrap_or(rest.len()));
    }
    if first.is_alphabetic() || first == '_' {
        return (TokenKind::Word, run(rest, |_, c| c.is_alphanumeric() || c == '_' || is_mark(c)));
    }
    // U+2212 is no sign of a number here, but belongs to what the writer meant as one.
    if first.is_ascii_digit() || matches!(first, '+' | '-' | '.' | '\u{2212}') {
        let sign_of_exponent = |before: char, c: char| matches!(before, 'e' | 'E') && matches!(c, '+' | '-');
        let belongs = |before, c: char| c.is_alphanumeric() || c == '.' || c == '_' || sign_of_exponent(before, c);
        return (TokenKind::Number, run(rest, belongs));
    }
    (TokenKind::Sign, first.len_utf8())
}

/// Bytes up to the second quote and with it, if there is one. A quote behind a backslash belongs to the text.
fn text_length(rest: &str) -> Option<usize> {
    let mut behind_backslash = false;
    for (at, byte) in rest.bytes().enumerate().skip(1) {
        match byte {
            _ if behind_backslash => behind_backslash = false,
            b'\\' => behind_backslash = true,
            b'"' => return Some(at + 1),
            _ => {}
        }
    }
    None
}

/// Bytes up to the first later character that does not belong.
fn run(rest: &str, belongs: impl Fn(char, char) -> bool) -> usize {
    let mut before = None;
    for (at, c) in rest.char_indices() {
        if before.is_some_and(|before| !belongs(before, c)) {
            return at;
        }
        before = Some(c);
    }
    rest.len()
}

/// Accents that stand behind their letter.
fn is_mark(c: char) -> bool {
    ('\u{300}'..='\u{36f}').contains(&c)
}
