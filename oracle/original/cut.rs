//! Cuts items out of a source text by name: the lines of attributes and
//! comments above an item, its head, and its body by balanced brackets.

/// The item whose line begins with `head`, as it stands in `text`.
pub fn item<'a>(text: &'a str, head: &str) -> Result<&'a str, String> {
    let start = find_head(text, head)?;
    let length = body_length(&text[start..])
        .ok_or_else(|| format!("item `{}` has no end: its brackets do not balance", head))?;
    Ok(&text[with_attributes(text, start)..start + length])
}

/// The place of the one line that begins with `head` and where the name ends there.
fn find_head(text: &str, head: &str) -> Result<usize, String> {
    let mut places = Vec::new();
    let mut at = 0;
    for line in text.split_inclusive('\n') {
        let rest = line.strip_prefix(head);
        let continues = |c: char| c.is_alphanumeric() || c == '_';
        if rest.is_some_and(|rest| !rest.starts_with(continues)) {
            places.push(at);
        }
        at += line.len();
    }
    match places.as_slice() {
        [place] => Ok(*place),
        [] => Err(format!("item `{}` not found", head)),
        _ => Err(format!("item `{}` found {} times", head, places.len())),
    }
}

/// Moves up over the attributes and the comments that belong to an item.
fn with_attributes(text: &str, start: usize) -> usize {
    let mut first = start;
    for line in text[..start].split_inclusive('\n').rev() {
        if !(line.starts_with("#[") || line.starts_with("///")) {
            break;
        }
        first -= line.len();
    }
    first
}

/// The length of the item at the front of `text`: to the `;` outside all
/// brackets, or to the brace that closes the first one opened.
fn body_length(text: &str) -> Option<usize> {
    let bytes = text.as_bytes();
    let mut depth = 0usize;
    let mut at = 0;
    while at < bytes.len() {
        match bytes[at] {
            b'/' if bytes[at..].starts_with(b"//") => at += line_length(&bytes[at..]),
            b'/' if bytes[at..].starts_with(b"/*") => at += text[at..].find("*/")? + 1,
            b'"' => at += string_length(&bytes[at..])?,
            b'\'' => at += quote_length(&bytes[at..]),
            b'(' | b'[' | b'{' => depth += 1,
            b')' | b']' => depth = depth.checked_sub(1)?,
            b'}' => {
                depth = depth.checked_sub(1)?;
                if depth == 0 {
                    return Some(at + 1);
                }
            }
            b';' if depth == 0 => return Some(at + 1),
            _ => (),
        }
        at += 1;
    }
    None
}

/// To the last byte of the line, its end not counted.
fn line_length(bytes: &[u8]) -> usize {
    let end = bytes.iter().position(|b| *b == b'\n');
    end.unwrap_or(bytes.len()) - 1
}

/// From the opening quote to the closing one, which is not counted.
fn string_length(bytes: &[u8]) -> Option<usize> {
    let mut at = 1;
    while *bytes.get(at)? != b'"' {
        at += if bytes[at] == b'\\' { 2 } else { 1 };
    }
    Some(at)
}

/// A character to its closing quote; a lifetime has none and counts nothing.
fn quote_length(bytes: &[u8]) -> usize {
    match bytes {
        [_, b'\\', _, b'\'', ..] => 3,
        [_, _, b'\'', ..] => 2,
        _ => 0,
    }
}

#[cfg(test)]
mod tests {
    use super::item;

    const TEXT: &str = "/// Says.\n#[derive(Clone)]\npub struct Name<'a> {\n    text: &'a str, // }\n}\n\nfn f() { let _ = ('{', \"}\\\"{\"); }\npub type Short = u8;\nstruct NameLonger(u8);\n";

    #[test]
    fn cuts_whole_items() {
        assert!(item(TEXT, "pub struct Name")
            .unwrap()
            .starts_with("/// Says.\n#["));
        assert!(item(TEXT, "pub struct Name").unwrap().ends_with("// }\n}"));
        assert_eq!(
            item(TEXT, "fn f"),
            Ok("fn f() { let _ = ('{', \"}\\\"{\"); }")
        );
        assert_eq!(item(TEXT, "pub type Short"), Ok("pub type Short = u8;"));
        assert_eq!(
            item(TEXT, "struct NameLonger"),
            Ok("struct NameLonger(u8);")
        );
    }

    #[test]
    fn says_what_is_missing() {
        assert_eq!(item(TEXT, "fn g"), Err("item `fn g` not found".to_string()));
        assert!(item("fn a() {}\nfn a() {}\n", "fn a")
            .unwrap_err()
            .contains("2 times"));
        assert!(item("fn a() {", "fn a").unwrap_err().contains("balance"));
    }
}
