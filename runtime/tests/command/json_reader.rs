//! A strict reader of JSON.

use std::collections::BTreeMap;

#[derive(Clone, Debug, PartialEq)]
pub enum Value {
    Null,
    Bool(bool),
    /// Its digits, so that whole numbers of 64 bits stay exact.
    Number(String),
    Text(String),
    List(Vec<Value>),
    Object(BTreeMap<String, Value>),
}

impl Value {
    pub fn at(&self, name: &str) -> &Value {
        match self {
            Value::Object(members) => members.get(name).unwrap_or_else(|| panic!("no member {name} in {self:?}")),
            other => panic!("no object: {other:?}"),
        }
    }

    pub fn list(&self) -> &[Value] {
        match self {
            Value::List(items) => items,
            other => panic!("no list: {other:?}"),
        }
    }

    pub fn text(&self) -> &str {
        match self {
            Value::Text(text) => text,
            other => panic!("no text: {other:?}"),
        }
    }

    pub fn number(&self) -> &str {
        match self {
            Value::Number(digits) => digits,
            other => panic!("no number: {other:?}"),
        }
    }
}

struct Reader<'a> {
    rest: &'a str,
}

/// Reads a document, or says what is wrong with it.
pub fn read(text: &str) -> Result<Value, String> {
    let mut reader = Reader { rest: text };
    let value = reader.value()?;
    reader.space();
    match reader.rest {
        "" => Ok(value),
        rest => Err(format!("more text behind the value: {rest:.40}")),
    }
}

impl Reader<'_> {
    fn space(&mut self) {
        self.rest = self.rest.trim_start_matches([' ', '\n', '\r', '\t']);
    }

    fn take(&mut self, text: &str) -> bool {
        self.space();
        let rest = self.rest.strip_prefix(text);
        self.rest = rest.unwrap_or(self.rest);
        rest.is_some()
    }

    fn value(&mut self) -> Result<Value, String> {
        self.space();
        match self.rest.chars().next() {
            Some('{') => self.object(),
            Some('[') => self.items(),
            Some('"') => self.string().map(Value::Text),
            Some('-' | '0'..='9') => self.digits(),
            _ if self.take("null") => Ok(Value::Null),
            _ if self.take("true") => Ok(Value::Bool(true)),
            _ if self.take("false") => Ok(Value::Bool(false)),
            _ => Err(format!("no value: {:.40}", self.rest)),
        }
    }

    fn digits(&mut self) -> Result<Value, String> {
        let length = self.rest.find(|c: char| !matches!(c, '-' | '+' | '.' | 'e' | 'E' | '0'..='9')).unwrap_or(self.rest.len());
        let (digits, rest) = self.rest.split_at(length);
        self.rest = rest;
        let plain = digits.trim_start_matches('-');
        let leading_zero = plain.len() > 1 && plain.starts_with('0') && !plain.starts_with("0.") && !plain.starts_with("0e");
        let bare_point = plain.starts_with('.') || plain.ends_with('.') || plain.contains(".e");
        if digits.parse::<f64>().is_err() || leading_zero || bare_point {
            return Err(format!("no number: {digits}"));
        }
        Ok(Value::Number(digits.to_string()))
    }

    fn string(&mut self) -> Result<String, String> {
        if !self.take("\"") {
            return Err(format!("no string: {:.40}", self.rest));
        }
        let mut text = String::new();
        let mut chars = self.rest.chars();
        while let Some(c) = chars.next() {
            match c {
                '"' => {
                    self.rest = chars.as_str();
                    return Ok(text);
                }
                '\\' => text.push(escaped(&mut chars)?),
                c if (c as u32) < 0x20 => return Err(format!("control character {:#x} in a string", c as u32)),
                c => text.push(c),
            }
        }
        Err("a string without its end".to_string())
    }

    fn items(&mut self) -> Result<Value, String> {
        self.take("[");
        let mut items = Vec::new();
        if self.take("]") {
            return Ok(Value::List(items));
        }
        loop {
            items.push(self.value()?);
            if self.take("]") {
                return Ok(Value::List(items));
            }
            if !self.take(",") {
                return Err(format!("no comma: {:.40}", self.rest));
            }
        }
    }

    fn object(&mut self) -> Result<Value, String> {
        self.take("{");
        let mut members = BTreeMap::new();
        if self.take("}") {
            return Ok(Value::Object(members));
        }
        loop {
            self.space();
            let name = self.string()?;
            if !self.take(":") {
                return Err(format!("no colon behind {name}"));
            }
            let value = self.value()?;
            if members.insert(name.clone(), value).is_some() {
                return Err(format!("{name} stands twice"));
            }
            if self.take("}") {
                return Ok(Value::Object(members));
            }
            if !self.take(",") {
                return Err(format!("no comma: {:.40}", self.rest));
            }
        }
    }
}

fn escaped(chars: &mut std::str::Chars) -> Result<char, String> {
    match chars.next() {
        Some('n') => Ok('\n'),
        Some('t') => Ok('\t'),
        Some(c @ ('"' | '\\' | '/')) => Ok(c),
        Some('u') => {
            let mut units = vec![unit(chars)?];
            // The first half of a character beyond 16 bits; the second follows.
            if (0xd800..0xdc00).contains(&units[0]) && chars.as_str().starts_with("\\u") {
                chars.by_ref().take(2).for_each(drop);
                units.push(unit(chars)?);
            }
            String::from_utf16(&units).ok().and_then(|text| text.chars().next()).ok_or_else(|| format!("no character: {units:x?}"))
        }
        other => Err(format!("no escape: {other:?}")),
    }
}

fn unit(chars: &mut std::str::Chars) -> Result<u16, String> {
    let digits: String = chars.by_ref().take(4).collect();
    u16::from_str_radix(&digits, 16).map_err(|_| format!("no digits: {digits}"))
}

#[test]
fn the_reader_is_strict() {
    assert!(read("{\"a\": [1, -2.5e3, \"\\u0041\", null]}").is_ok());
    assert_eq!(read("\"\\ud83e\\uddca\"").unwrap().text(), "\u{1f9ca}");
    for text in ["\"\\ud83e\"", "", "[1,]", "{\"a\":1,}", "01", "1.", "[1 2]", "\"\n\"", "nan", "{\"a\":1,\"a\":2}", "[] []"] {
        assert!(read(text).is_err(), "{text}");
    }
}
