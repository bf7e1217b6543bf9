//! Numbers, ends, entries and lists of a leaf.

use super::line::Line;
use super::problem::Problem;
use super::tokens::{Token, TokenKind};
use crate::form::plan::RINKS;
use crate::form::NARROW;
use crate::nature::Ends;
use crate::quotes::unescaped;
use crate::rinks::Rinks;
use crate::sheet::{Group, Key};

/// Takes a token and reads it by `parse`.
fn taken<T>(line: &mut Line, expected: &str, parse: impl Fn(&str) -> Option<T>) -> Result<T, Problem> {
    let token = line.peek(0);
    let value = token.and_then(|token| parse(token.text));
    let Some(value) = value else {
        let problem = line.found(expected, token);
        return Err(match token.and_then(hint) {
            Some(hint) => problem.with_help(hint),
            None => problem,
        });
    };
    line.next();
    Ok(value)
}

/// What often goes wrong with numbers.
fn hint(token: Token) -> Option<&'static str> {
    if token.kind == TokenKind::Text {
        return Some("there are no quotes here; texts in quotes belong to `text {..}`");
    }
    if token.text.contains('\u{2212}') {
        return Some("write the sign as `-`");
    }
    let whole = token.text.parse::<f64>().is_ok() && token.text.parse::<i64>().is_err();
    whole.then_some("a whole number has no point or exponent and lies within 64 signed bits")
}

pub(super) fn whole(line: &mut Line, expected: &str) -> Result<i64, Problem> {
    taken(line, expected, |text| text.parse().ok())
}

/// A number from `least` up to 32 bits.
pub(super) fn number(line: &mut Line, least: u32) -> Result<u32, Problem> {
    let expected = format!("a whole number from {least} to {}", u32::MAX);
    taken(line, &expected, |text| text.parse().ok().filter(|n| *n >= least))
}

pub(super) fn float(line: &mut Line, expected: &str) -> Result<f64, Problem> {
    taken(line, expected, |text| text.parse().ok())
}

pub(super) fn truth(line: &mut Line) -> Result<bool, Problem> {
    taken(line, "`true` or `false`", |text| text.parse().ok())
}

/// Text lists, within the limits that a sheet has for them: the place of the text that is too much is known here alone.
pub(super) fn texts(line: &mut Line) -> Result<Vec<Vec<Vec<u8>>>, Problem> {
    let (mut count, mut size) = (0, 0);
    lists(line, |line| {
        let token = line.peek(0);
        let text = text(line)?;
        count += 1;
        size += text.len();
        if count > NARROW.categories {
            let expected = format!("at most {} texts in a leaf", NARROW.categories);
            return Err(Problem::new(expected, "one more", token).with_help("all lists of the leaf count together"));
        }
        if size > NARROW.text {
            let expected = format!("at most {} bytes of text in a leaf", NARROW.text);
            let found = format!("{size} with this text");
            return Err(Problem::new(expected, &found, token).with_help("all texts of the leaf count together, repeats too"));
        }
        Ok(text)
    })
}

/// A text in quotes.
fn text(line: &mut Line) -> Result<Vec<u8>, Problem> {
    let token = line.peek(0);
    let Some((token, inside)) = token.and_then(|token| Some((token, token.inside()?))) else {
        return Err(line.found("a text in quotes", token).with_help("for instance \"north\""));
    };
    line.next();
    unescaped(inside).map_err(|bad| {
        let at = Token { text: &bad.found, column: token.column + 1 + bad.at, ..token };
        line.found(bad.expected, Some(at)).with_help(r#"escapes are \" \\ \n \t, \xHH for one byte and \u{..} for a character"#)
    })
}

/// A value, or the word `absent`.
pub(super) fn or_absent<T>(line: &mut Line, value: impl Fn(&mut Line) -> Result<T, Problem>) -> Result<Option<T>, Problem> {
    if line.take("absent") {
        return Ok(None);
    }
    value(line).map(Some)
}

/// How the value of an end is read, and what it is called.
pub(super) struct EndKind<T> {
    pub name: &'static str,
    pub parse: fn(&str) -> Option<T>,
}

pub(super) const WHOLE_END: EndKind<i64> = EndKind { name: "a whole number", parse: |text| text.parse().ok() };
pub(super) const FLOAT_END: EndKind<f64> =
    EndKind { name: "a finite float", parse: |text| text.parse().ok().filter(|end: &f64| end.is_finite()) };

fn end<T>(line: &mut Line, kind: &EndKind<T>, role: &str, absent: &[&str]) -> Result<Option<T>, Problem> {
    if absent.iter().any(|word| line.take(word)) {
        return Ok(None);
    }
    let expected = format!("{role}: {}, `{}` or `..`", kind.name, absent[0]);
    taken(line, &expected, kind.parse).map(Some)
}

/// `[LOWER, UPPER]`, once or more.
pub(super) fn entries<T>(line: &mut Line, kind: &EndKind<T>) -> Result<Vec<Ends<T>>, Problem> {
    let mut entries = Vec::new();
    while line.take("[") {
        let lower = end(line, kind, "a lower end", &["-inf", ".."])?;
        line.sign(",", "`,` between the ends")?;
        let upper = end(line, kind, "an upper end", &["+inf", "inf", ".."])?;
        line.sign("]", "`]` after the upper end")?;
        entries.push(Ends { lower, upper });
    }
    Ok(entries)
}

/// `{A, B, ..}`, once or more.
pub(super) fn lists<T>(line: &mut Line, mut value: impl FnMut(&mut Line) -> Result<T, Problem>) -> Result<Vec<Vec<T>>, Problem> {
    let mut lists = Vec::new();
    while line.peek(0).is_some_and(|token| token.text == "{") {
        lists.push(list(line, &mut value)?);
    }
    Ok(lists)
}

/// `{A, B, ..}`, once.
pub(super) fn list<T>(line: &mut Line, mut value: impl FnMut(&mut Line) -> Result<T, Problem>) -> Result<Vec<T>, Problem> {
    line.sign("{", "`{`")?;
    let mut members = Vec::new();
    if line.take("}") {
        return Ok(members);
    }
    loop {
        members.push(value(line)?);
        if line.take("}") {
            return Ok(members);
        }
        line.sign(",", "`,` or `}`")?;
    }
}

/// `PARTITION : KIND INDEX`.
pub(super) fn group(line: &mut Line) -> Result<Group, Problem> {
    let partition = number(line, 0)?;
    line.sign(":", "`:` after the partition id")?;
    let kind = line.word("the index's kind: `int`, `bool` or `str`")?;
    let key = match kind.text {
        "int" => Key::Int(whole(line, "a whole number")?),
        "bool" => Key::Bool(truth(line)?),
        "str" => Key::Str(whole(line, "the string's number")?),
        _ => return Err(line.found("the index's kind: `int`, `bool` or `str`", Some(kind))),
    };
    Ok(Group { partition, key })
}

/// `{RINK, RINK, ..}`, each once.
pub(super) fn rinks(line: &mut Line) -> Result<Rinks, Problem> {
    if line.peek(0).is_none_or(|token| token.text != "{") {
        let problem = line.found("a set of rinks in braces", line.peek(0));
        return Err(problem.with_help("for instance {3, 17}, or {} for none"));
    }
    let expected = format!("a rink: a whole number from 0 to {}", RINKS - 1);
    let mut set = Rinks::NONE;
    list(line, |line| {
        let token = line.peek(0);
        let more = taken(line, &expected, |text| set.with(text.parse().ok()?))?;
        if more == set {
            let problem = line.found("a rink that is not given yet", token);
            return Err(problem.with_help("each rink stands once in a set"));
        }
        set = more;
        Ok(())
    })?;
    Ok(set)
}
