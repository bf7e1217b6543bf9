//! Texts in quotes: cards, JSON and pictures write them, a plan's text reads them.
//!
//! A text is any bytes. What is UTF-8 and can be seen stands as it is; `\"`, `\\`, `\n` and `\t` are as usual, `\u{..}` is a character by its number in hexadecimal digits, and `\xHH` is one byte, whatever stands beside it. So the text in quotes says exactly which bytes there are, and never holds a character that a screen obeys or hides.

/// Characters that no output shows as they are, wherever they come from: marks of direction, invisible characters, breaks of lines; beside them all control characters.
const HIDDEN: [(u32, u32); 16] = [
    (0x00AD, 0x00AD),
    (0x061C, 0x061C),
    (0x115F, 0x1160),
    (0x180B, 0x180F),
    (0x200B, 0x200F),
    (0x2028, 0x202E),
    (0x2060, 0x206F),
    (0x2800, 0x2800),
    (0x3164, 0x3164),
    (0xFEFF, 0xFEFF),
    (0xFFA0, 0xFFA0),
    (0xFFF0, 0xFFFB),
    (0xFFFE, 0xFFFF),
    (0x1BCA0, 0x1BCA3),
    (0x1D173, 0x1D17A),
    (0xE0000, 0xE0FFF),
];

/// Whether a character is kept from every output.
pub(crate) fn is_hidden(c: char) -> bool {
    c.is_control() || HIDDEN.iter().any(|&(first, last)| (first..=last).contains(&(c as u32)))
}

/// Whether a character of a text stands as it is: one that can be seen, and by itself. An accent that stands behind its letter does not, since two spellings of a letter are different bytes.
fn is_shown(c: char) -> bool {
    !is_hidden(c) && (c == '\'' || c.escape_debug().eq([c]))
}

/// A text in quotes.
///
/// ```
/// use gate_runtime::quotes::quoted;
/// assert_eq!(quoted(b"Rink 4"), r#""Rink 4""#);
/// assert_eq!(quoted(b"a \"b\"\n\xe2\x82\x07"), r#""a \"b\"\n\xe2\x82\x07""#);
/// assert_eq!(quoted("\u{202e}é".as_bytes()), r#""\u{202e}é""#);
/// ```
pub fn quoted(text: &[u8]) -> String {
    format!("\"{}\"", escaped(text))
}

/// A text as it stands between its quotes.
pub fn escaped(text: &[u8]) -> String {
    let mut words = String::new();
    for chunk in text.utf8_chunks() {
        chunk.valid().chars().for_each(|c| put_char(&mut words, c));
        chunk.invalid().iter().for_each(|byte| words.push_str(&format!("\\x{byte:02x}")));
    }
    words
}

/// Whether a text stands in quotes with an escape by number.
pub(crate) fn has_numbers(text: &[u8]) -> bool {
    let by_number = |c: char| !is_shown(c) && !matches!(c, '"' | '\\' | '\n' | '\t');
    text.utf8_chunks().any(|chunk| !chunk.invalid().is_empty() || chunk.valid().chars().any(by_number))
}

fn put_char(words: &mut String, c: char) {
    match c {
        '"' => words.push_str("\\\""),
        '\\' => words.push_str("\\\\"),
        '\n' => words.push_str("\\n"),
        '\t' => words.push_str("\\t"),
        c if is_shown(c) => words.push(c),
        c if c.is_ascii() => words.push_str(&format!("\\x{:02x}", c as u32)),
        c => words.push_str(&format!("\\u{{{:x}}}", c as u32)),
    }
}

/// What is wrong with an escape.
#[derive(Clone, Debug, PartialEq, Eq)]
pub struct BadEscape {
    /// Characters before it.
    pub at: usize,
    /// The escape, as far as it goes.
    pub found: String,
    /// What should stand there.
    pub expected: &'static str,
}

/// The bytes of what stands between quotes.
///
/// ```
/// use gate_runtime::quotes::unescaped;
/// assert_eq!(unescaped(r"caf\xe9 \u{e9}\\"), Ok(b"caf\xe9 \xc3\xa9\\".to_vec()));
/// assert_eq!(unescaped(r"a\q").unwrap_err().found, r"\q");
/// ```
pub fn unescaped(words: &str) -> Result<Vec<u8>, BadEscape> {
    let mut text = Vec::new();
    let mut rest = words;
    while let Some(c) = rest.chars().next() {
        if c != '\\' {
            text.extend_from_slice(&rest.as_bytes()[..c.len_utf8()]);
            rest = &rest[c.len_utf8()..];
            continue;
        }
        let (bytes, length) = escape(rest).map_err(|(length, expected)| {
            let at = words[..words.len() - rest.len()].chars().count();
            BadEscape { at, found: rest[..length].to_string(), expected }
        })?;
        text.extend_from_slice(&bytes);
        rest = &rest[length..];
    }
    Ok(text)
}

/// The bytes of the escape that begins `rest`, and its length; or the length of what is no escape, and what is wanted.
fn escape(rest: &str) -> Result<(Vec<u8>, usize), (usize, &'static str)> {
    let Some(c) = rest.chars().nth(1) else {
        return Err((1, "an escape"));
    };
    let behind = 1 + c.len_utf8();
    match c {
        '"' | '\\' => Ok((vec![c as u8], behind)),
        'n' => Ok((b"\n".to_vec(), behind)),
        't' => Ok((b"\t".to_vec(), behind)),
        'x' => byte(&rest[behind..]).map(|byte| (vec![byte], behind + 2)).ok_or_else(|| {
            let length: usize = rest[behind..].chars().take(2).map(char::len_utf8).sum();
            (behind + length, "two hexadecimal digits after `\\x`")
        }),
        'u' => match character(&rest[behind..]) {
            Ok((c, length)) => Ok((c.to_string().into_bytes(), behind + length)),
            Err(length) => Err((behind + length, "a character's number in `\\u{..}`")),
        },
        _ => Err((behind, "an escape")),
    }
}

fn byte(rest: &str) -> Option<u8> {
    let digits = rest.get(..2).filter(|digits| digits.bytes().all(|b| b.is_ascii_hexdigit()))?;
    u8::from_str_radix(digits, 16).ok()
}

/// `{..}` with one to six digits; else how much of it there is.
fn character(rest: &str) -> Result<(char, usize), usize> {
    let Some(inside) = rest.strip_prefix('{') else {
        return Err(0);
    };
    let digits = inside.bytes().take_while(u8::is_ascii_hexdigit).count();
    if !inside[digits..].starts_with('}') {
        return Err(1 + digits);
    }
    let number = Some(&inside[..digits]).filter(|digits| digits.len() <= 6).and_then(|digits| u32::from_str_radix(digits, 16).ok());
    number.and_then(char::from_u32).map(|c| (c, digits + 2)).ok_or(digits + 2)
}

#[cfg(test)]
mod tests {
    use super::*;

    #[test]
    fn every_byte_and_every_character_comes_back() {
        for byte in 0..=255 {
            assert_eq!(unescaped(&escaped(&[byte])), Ok(vec![byte]));
        }
        for c in (0..=0x10_FFFF).filter_map(char::from_u32) {
            let words = escaped(c.to_string().as_bytes());
            assert!(words.chars().all(|c| is_shown(c) || matches!(c, '"' | '\\')), "{words}");
            assert_eq!(unescaped(&words), Ok(c.to_string().into_bytes()), "{words}");
        }
    }

    #[test]
    fn characters_of_format_are_hidden() {
        // The controls of direction by Unicode's list, and some that take no room.
        for c in "\u{61c}\u{200e}\u{200f}\u{202a}\u{202b}\u{202c}\u{202d}\u{202e}\u{2066}\u{2067}\u{2068}\u{2069}".chars() {
            assert!(is_hidden(c), "{c:?}");
        }
        for c in "\u{ad}\u{200b}\u{200c}\u{200d}\u{2060}\u{feff}\u{180e}\u{2028}\u{2029}\u{e0001}\u{fff9}\u{3164}".chars() {
            assert!(is_hidden(c), "{c:?}");
        }
        for c in "\u{301}\u{fe0f}\u{e000}\u{378}\u{a0}".chars() {
            assert!(!is_shown(c), "{c:?}");
        }
        assert!("aé冰 'ß#{}<&>א\u{1f9ca}".chars().all(is_shown));
    }

    #[test]
    fn bad_escapes_are_named() {
        for (words, at, found) in [
            (r"ab\q", 2, r"\q"),
            (r"\", 0, r"\"),
            (r"é\x4", 1, r"\x4"),
            (r"\xg01", 0, r"\xg0"),
            (r"\x+1", 0, r"\x+1"),
            (r"\x1é2", 0, r"\x1é"),
            (r"\u41", 0, r"\u"),
            (r"\u{}", 0, r"\u{}"),
            (r"\u{41", 0, r"\u{41"),
            (r"\u{d800}", 0, r"\u{d800}"),
            (r"\u{110000}", 0, r"\u{110000}"),
            (r"\u{0000041}", 0, r"\u{0000041}"),
        ] {
            let bad = unescaped(words).unwrap_err();
            assert_eq!((bad.at, bad.found.as_str()), (at, found));
        }
    }
}
