//! A statement's tokens, taken one by one.

use super::problem::{quoted, Problem};
use super::tokens::{tokens, Token, TokenKind};

/// The tokens of one statement.
pub(super) struct Line<'a> {
    tokens: Vec<Token<'a>>,
    at: usize,
    /// Where the statement ends, as an empty token.
    end: Token<'a>,
}

/// The statements of a text. A line that ends in a comma goes on in the next, unless that one begins a statement.
pub(super) fn join<'a>(sources: &[&'a str]) -> Vec<Line<'a>> {
    let mut lines: Vec<Line<'a>> = Vec::new();
    for (place, source) in sources.iter().enumerate() {
        let found = tokens(source, place + 1);
        let Some(last) = found.last() else {
            continue;
        };
        let column = last.column + last.text.chars().count();
        let end = Token { kind: TokenKind::Sign, text: "", line: place + 1, column };
        match lines.last_mut() {
            Some(line) if line.goes_on() && !begins(&found) => {
                line.tokens.extend(found);
                line.end = end;
            }
            _ => lines.push(Line { tokens: found, at: 0, end }),
        }
    }
    lines
}

fn begins(tokens: &[Token]) -> bool {
    tokens[0].text == "leaf" || tokens.get(1).is_some_and(|token| token.text == "=")
}

impl<'a> Line<'a> {
    /// The tokens of a text that is no statement.
    pub fn of(text: &'a str) -> Line<'a> {
        let end = Token { kind: TokenKind::Sign, text: "", line: 1, column: text.chars().count() };
        Line { tokens: tokens(text, 1), at: 0, end }
    }

    fn goes_on(&self) -> bool {
        self.tokens.last().is_some_and(|token| token.text == ",")
    }

    /// The name that the statement gives to a node, if it looks like a statement.
    pub fn name(&self) -> Option<Token<'a>> {
        let (first, second) = (self.peek(0)?, self.peek(1)?);
        let name = if second.text == "=" { first } else { second };
        (second.text == "=" || first.text == "leaf").then_some(name)
    }

    /// The token `ahead` places on.
    pub fn peek(&self, ahead: usize) -> Option<Token<'a>> {
        self.tokens.get(self.at + ahead).copied()
    }

    /// Whether this word and a set stand anywhere in the statement.
    pub fn has_set(&self, word: &str) -> bool {
        self.tokens.windows(2).any(|pair| pair[0].text == word && pair[1].text == "{")
    }

    /// Takes a token.
    pub fn next(&mut self) -> Option<Token<'a>> {
        let token = self.peek(0)?;
        self.at += 1;
        Some(token)
    }

    /// A problem at a token, or at the statement's end if there is none.
    pub fn found(&self, expected: &str, token: Option<Token>) -> Problem {
        match token {
            Some(token) => Problem::new(expected, &quoted(token.text), Some(token)),
            None => Problem::new(expected, "the end of the line", Some(self.end)),
        }
    }

    /// Every text of the statement has both its quotes; what follows a missing one would be read as text.
    pub fn check_quotes(&self) -> Result<(), Problem> {
        let unended = |token: &&Token| token.kind == TokenKind::Text && token.inside().is_none();
        match self.tokens.iter().find(unended) {
            None => Ok(()),
            Some(token) => {
                let problem = Problem::new("a text with a quote at both ends", "the end of the line", Some(*token));
                Err(problem.with_help("a text ends in its line; a quote inside of it is written \\\", a line break \\n"))
            }
        }
    }

    /// Takes a word.
    pub fn word(&mut self, expected: &str) -> Result<Token<'a>, Problem> {
        match self.peek(0) {
            Some(token) if token.kind == TokenKind::Word => {
                self.at += 1;
                Ok(token)
            }
            other => Err(self.found(expected, other)),
        }
    }

    /// Takes this sign or word if it comes next.
    pub fn take(&mut self, text: &str) -> bool {
        let comes = self.peek(0).is_some_and(|token| token.text == text);
        self.at += usize::from(comes);
        comes
    }

    /// Takes this sign, which must come next.
    pub fn sign(&mut self, text: &str, expected: &str) -> Result<(), Problem> {
        if self.take(text) {
            return Ok(());
        }
        Err(self.found(expected, self.peek(0)))
    }

    /// Nothing may follow.
    pub fn end(&self, expected: &str) -> Result<(), Problem> {
        match self.peek(0) {
            None => Ok(()),
            token => Err(self.found(expected, token)),
        }
    }
}
