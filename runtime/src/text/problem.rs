//! What is wrong with a text, and where.

use super::tokens::Token;
use crate::quotes::is_hidden;
use crate::show::{folded, width};
use std::fmt;

/// A departure from the text format.
#[derive(Clone, Debug, PartialEq, Eq)]
pub struct Problem {
    /// Line, from 1.
    pub line: usize,
    /// Column in characters, from 1.
    pub column: usize,
    /// What should stand there.
    pub expected: String,
    /// What stands there.
    pub found: String,
    /// A suggestion.
    pub help: Option<String>,
    /// Length of what stands there, in characters.
    length: usize,
    /// The line itself.
    source: String,
}

/// Longest quotation of what was found, in characters.
const QUOTED: usize = 40;
/// Longest part of a line that is shown, and how much of it stands before the place.
const SHOWN: usize = 100;
const BEFORE: usize = 60;
/// Room for the margin.
const BESIDE: usize = 10;

impl Problem {
    pub(super) fn new(expected: impl Into<String>, found: &str, at: Option<Token>) -> Problem {
        Problem {
            line: at.map_or(1, |token| token.line),
            column: at.map_or(1, |token| token.column + 1),
            expected: expected.into(),
            found: found.to_string(),
            help: None,
            length: at.map_or(1, |token| token.text.chars().count().max(1)),
            source: String::new(),
        }
    }

    pub(super) fn at_start(expected: impl Into<String>, found: &str) -> Problem {
        Problem::new(expected, found, None)
    }

    pub(super) fn with_help(mut self, help: impl Into<String>) -> Problem {
        self.help = Some(help.into());
        self
    }

    pub(super) fn not_utf8(bytes: &[u8], at: usize) -> Problem {
        let before = String::from_utf8_lossy(&bytes[..at]);
        let found = format!("byte 0x{:02x}", bytes.get(at).copied().unwrap_or(0));
        let mut problem = Problem::at_start("UTF-8 text", &found);
        problem.line = before.matches('\n').count() + 1;
        let last = before.rsplit('\n').next().unwrap_or("");
        problem.column = last.chars().count() + 1;
        problem.source = last.to_string();
        problem
    }

    /// Takes its line from the text, for showing it.
    pub(super) fn quote(&mut self, sources: &[&str]) {
        self.source = sources.get(self.line - 1).map_or(String::new(), |s| s.to_string());
    }

    /// The problem, its line, and a caret line.
    pub fn render(&self, file: &str) -> String {
        let number = self.line.to_string();
        let margin = " ".repeat(number.len());
        let (shown, before, carets) = self.window();
        let mut text = format!("{file}:{self}\n{margin} |\n{number} | {shown}\n");
        let pointer = format!("{margin} | {}{}", " ".repeat(before), "^".repeat(carets));
        text.push_str(&pointer);
        let help = self.help.as_deref().unwrap_or("");
        if width(&pointer) + width(help) < SHOWN {
            return format!("{}\n", format!("{text} {help}").trim_end());
        }
        for line in folded(help, SHOWN - BESIDE) {
            text.push_str(&format!("\n{margin} = {line}"));
        }
        text.push('\n');
        text
    }

    /// The part of the line around the place, the cells before the place, and the cells of what is found there.
    fn window(&self) -> (String, usize, usize) {
        let place = self.column - 1;
        let start = if self.source.chars().count() > SHOWN { place.saturating_sub(BEFORE) } else { 0 };
        let part = |from: usize, count: usize| -> String { self.source.chars().skip(from).take(count).map(printable).collect() };
        let shown = part(start, SHOWN);
        let inside = self.length.min(SHOWN - (place - start).min(SHOWN));
        let before = width(&part(start, place - start));
        let carets = width(&part(place, inside)).max(1);
        let (head, lead) = if start > 0 { ("...", 3) } else { ("", 0) };
        (format!("{head}{shown}"), before + lead, carets)
    }
}

impl fmt::Display for Problem {
    fn fmt(&self, f: &mut fmt::Formatter<'_>) -> fmt::Result {
        write!(f, "{}:{}: expected {}, found {}", self.line, self.column, self.expected, self.found)
    }
}

fn printable(c: char) -> char {
    match c {
        '\t' => ' ',
        c if is_hidden(c) => '\u{fffd}',
        c => c,
    }
}

/// A token in quotes, cut if it is long.
pub(crate) fn quoted(text: &str) -> String {
    let mut shown: String = text.chars().take(QUOTED).map(printable).collect();
    if text.chars().nth(QUOTED).is_some() {
        shown.push_str("...");
    }
    format!("`{shown}`")
}

/// "did you mean ..", if one of the words is near.
pub(crate) fn nearest<'a>(word: &str, words: impl Iterator<Item = &'a str>) -> Option<String> {
    let near =
        words.map(|other| (distance(word, other), other)).filter(|(far, other)| *far <= 2 && *far * 2 <= other.chars().count()).min()?;
    Some(format!("did you mean `{}`?", near.1))
}

/// Edits (a letter changed, added or left out, two neighbours exchanged) between two words, without regard to case; long words are far from everything.
fn distance(a: &str, b: &str) -> usize {
    let letters = |word: &str| -> Vec<char> { word.chars().take(QUOTED).flat_map(char::to_lowercase).collect() };
    let (a, b) = (letters(a), letters(b));
    let mut rows: Vec<Vec<usize>> = vec![(0..=b.len()).collect()];
    for i in 1..=a.len() {
        let mut row = vec![i];
        for j in 1..=b.len() {
            let change = rows[i - 1][j - 1] + usize::from(a[i - 1] != b[j - 1]);
            let mut least = change.min(rows[i - 1][j] + 1).min(row[j - 1] + 1);
            if i > 1 && j > 1 && a[i - 1] == b[j - 2] && a[i - 2] == b[j - 1] {
                least = least.min(rows[i - 2][j - 2] + 1);
            }
            row.push(least);
        }
        rows.push(row);
    }
    rows[a.len()][b.len()]
}

#[cfg(test)]
mod tests {
    use super::*;

    #[test]
    fn distances_count_edits() {
        assert_eq!(distance("substract", "subtract"), 1);
        assert_eq!(distance("ADD", "add"), 0);
        assert_eq!(distance("dvidie", "divide"), 2);
        assert_eq!(nearest("frob", ["log", "power"].into_iter()), None);
    }
}
