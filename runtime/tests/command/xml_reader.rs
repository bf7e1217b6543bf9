//! A strict reader of the XML that pictures use: elements, attributes, text and the five entities.

/// The texts between tags, or what is wrong.
pub fn read(text: &str) -> Result<Vec<String>, String> {
    let mut open: Vec<&str> = Vec::new();
    let mut texts = Vec::new();
    let mut rest = text.trim_end();
    let mut roots = 0;
    while !rest.is_empty() {
        let at = rest.find('<').ok_or_else(|| format!("text behind the last tag: {rest:.40}"))?;
        let words = plain(&rest[..at])?;
        if !words.trim().is_empty() {
            open.last().ok_or("text outside of the root")?;
            texts.push(words);
        }
        let end = rest[at..].find('>').ok_or("a tag without its end")? + at;
        let tag = &rest[at + 1..end];
        rest = &rest[end + 1..];
        if let Some(name) = tag.strip_prefix('/') {
            let opened = open.pop().ok_or_else(|| format!("{name} closes nothing"))?;
            if opened != name {
                return Err(format!("{name} closes {opened}"));
            }
            continue;
        }
        roots += usize::from(open.is_empty());
        let name = element(tag.strip_suffix('/').unwrap_or(tag))?;
        if !tag.ends_with('/') {
            open.push(name);
        }
    }
    match (open.is_empty(), roots) {
        (true, 1) => Ok(texts),
        _ => Err(format!("{roots} roots, {} elements left open", open.len())),
    }
}

/// An element's name, once its attributes are well formed and stand once each.
fn element(tag: &str) -> Result<&str, String> {
    let (name, mut rest) = tag.split_once(' ').unwrap_or((tag, ""));
    if name.is_empty() || !name.chars().all(|c| c.is_ascii_alphanumeric()) {
        return Err(format!("no element name: {name}"));
    }
    let mut seen = Vec::new();
    while !rest.trim().is_empty() {
        let (attribute, behind) = rest.trim_start().split_once("=\"").ok_or_else(|| format!("no attribute: {rest}"))?;
        let (value, behind) = behind.split_once('"').ok_or("a value without its end")?;
        plain(value)?;
        if seen.contains(&attribute) || attribute.contains(' ') {
            return Err(format!("attribute {attribute} is wrong or stands twice"));
        }
        seen.push(attribute);
        rest = behind;
    }
    Ok(name)
}

/// Text with its entities replaced.
fn plain(text: &str) -> Result<String, String> {
    let mut words = String::new();
    let mut rest = text;
    while let Some(at) = rest.find('&') {
        words.push_str(&rest[..at]);
        let end = rest[at..].find(';').ok_or("an entity without its end")? + at;
        words.push(match &rest[at..=end] {
            "&amp;" => '&',
            "&lt;" => '<',
            "&gt;" => '>',
            "&quot;" => '"',
            "&apos;" => '\'',
            other => return Err(format!("no entity: {other}")),
        });
        rest = &rest[end + 1..];
    }
    words.push_str(rest);
    match words.chars().find(|c| c.is_control() && !matches!(c, '\n' | '\t')) {
        Some(c) => Err(format!("control character {:#x}", c as u32)),
        None => Ok(words),
    }
}

#[test]
fn the_reader_is_strict() {
    assert_eq!(read("<a b=\"1\"><c/>x &lt; y</a>").unwrap(), ["x < y"]);
    for text in ["<a>", "<a></b>", "<a b=1/>", "<a b=\"1\" b=\"2\"/>", "<a>&nbsp;</a>", "<a/><a/>", "x", "<a>\u{1}</a>"] {
        assert!(read(text).is_err(), "{text}");
    }
}
