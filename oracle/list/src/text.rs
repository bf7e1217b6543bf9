//! Sheets written as short texts, for the named cases.
//!
//! The nature comes first: `absent`, `W[1,2][3,_]` (whole range, `_` an absent
//! end), `F[..]`, `W{1,2}{3}` (whole lists), `B{0,1}`, `F{..}`, `T{pump,fan}`;
//! without any list `Wrange`, `Frange`, `Wlists`, `Blists`, `Flists`, `Tlists`.
//! `a..b` and `v*k` inside braces and `*k` behind a bracket repeat, and `+-1..64`
//! are 1, -1, 2, -2 and so on. Of texts,
//! `_` is the empty one, `ab*3` is `ababab`, `a*0..3` are four of them, `12#50`
//! are twelve different ones of 50 bytes, `a+b` all joins, and `\e2` is a byte.
//! Then options `name=value`; `@6=9` puts 9 into byte 6 and `length=80` cuts or
//! fills with zeros, once encoded; `empty` has no bytes at all. What says nothing
//! else is of type Int, releasable, with one row and one column.

use crate::sheet::{Ends, Group, Key, Nature, Sheet};

/// The record a text stands for. Texts are written by hand: a bad one panics.
pub fn sheet(text: &str) -> Sheet {
    let mut words = text.split_whitespace();
    let mut sheet = plain(nature(words.next().expect("a nature")));
    for word in words {
        let (name, value) = option(word);
        if name != "length" && !name.starts_with('@') {
            set(&mut sheet, name, value);
        }
    }
    sheet
}

/// The bytes a text stands for, damage included.
pub fn bytes(text: &str) -> Vec<u8> {
    if text == "empty" {
        return Vec::new();
    }
    let mut bytes = sheet(text).encode();
    for word in text.split_whitespace().skip(1) {
        let (name, value) = option(word);
        if name == "length" {
            bytes.resize(number(value), 0);
        } else if let Some(place) = name.strip_prefix('@') {
            bytes[number::<usize>(place)] = number(value);
        }
    }
    bytes
}

/// Whether a sheet has the nature and every field that the text names.
pub fn matches(text: &str, found: &Sheet) -> Result<(), String> {
    let wanted = sheet(text);
    if wanted.nature != found.nature {
        return Err(format!(
            "nature {:?}, wanted {:?}",
            found.nature, wanted.nature
        ));
    }
    for word in text.split_whitespace().skip(1) {
        let mut same = found.clone();
        let (name, value) = option(word);
        set(&mut same, name, value);
        if same != *found {
            return Err(format!("{name} is not {value}: {found:?}"));
        }
    }
    Ok(())
}

fn option(word: &str) -> (&str, &str) {
    word.split_once('=')
        .unwrap_or_else(|| panic!("no `=` in {word}"))
}

fn plain(nature: Nature) -> Sheet {
    Sheet {
        nature,
        data_type: 4,
        nullity: false,
        releasable: true,
        not_empty: true,
        ordered: true,
        c_stability: 1,
        aggregator: 0,
        rows: Some(1),
        columns: Some(1),
        dataset: None,
        dimensionality: None,
        sample: None,
        node: 0,
        groups: Vec::new(),
    }
}

fn set(sheet: &mut Sheet, name: &str, value: &str) {
    match name {
        "type" => sheet.data_type = data_type(value),
        "nullity" => sheet.nullity = value == "1",
        "releasable" => sheet.releasable = value == "1",
        "notempty" => sheet.not_empty = value == "1",
        "ordered" => sheet.ordered = value == "1",
        "c" => sheet.c_stability = number(value),
        "aggregator" => sheet.aggregator = number(value),
        "rows" => sheet.rows = perhaps(value, number),
        "columns" => sheet.columns = perhaps(value, number),
        "dataset" => sheet.dataset = perhaps(value, number),
        "dim" => sheet.dimensionality = perhaps(value, number),
        "sample" => sheet.sample = perhaps(value, float),
        "node" => sheet.node = number(value),
        "groups" => sheet.groups = value.split(',').filter(|v| *v != "_").map(group).collect(),
        _ => panic!("no field {name}"),
    }
}

fn data_type(name: &str) -> u8 {
    let names = ["Unknown", "Bool", "Str", "Float", "Int"];
    let found = names.iter().position(|other| *other == name);
    found.unwrap_or_else(|| panic!("no type {name}")) as u8
}

/// `2:i5` is partition 2 with the Int index 5; `b` is Bool, `s` Str.
fn group(text: &str) -> Group {
    let (partition, index) = text.split_once(':').expect("partition:index");
    let value: i64 = number(&index[1..]);
    Group {
        partition: number(partition),
        index: match &index[..1] {
            "i" => Key::Int(value),
            "b" => Key::Bool(value == 1),
            _ => Key::Str(value),
        },
    }
}

fn number<T: std::str::FromStr>(text: &str) -> T {
    text.parse().unwrap_or_else(|_| panic!("no number: {text}"))
}

/// A float's 64 bits, from its decimal text or from `0x` and the bits.
fn float(text: &str) -> u64 {
    match text.strip_prefix("0x") {
        Some(bits) => u64::from_str_radix(bits, 16).expect("hex bits"),
        None => number::<f64>(text).to_bits(),
    }
}

fn perhaps<T>(text: &str, read: impl Fn(&str) -> T) -> Option<T> {
    (text != "_").then(|| read(text))
}

fn nature(text: &str) -> Nature {
    match text {
        "absent" => return Nature::Absent,
        "Wrange" => return Nature::WholeRange(Vec::new()),
        "Frange" => return Nature::FloatRange(Vec::new()),
        "Wlists" => return Nature::WholeLists(Vec::new()),
        "Blists" => return Nature::BoolLists(Vec::new()),
        "Flists" => return Nature::FloatLists(Vec::new()),
        "Tlists" => return Nature::TextLists(Vec::new()),
        _ => (),
    }
    match &text[..2] {
        "W[" => Nature::WholeRange(parts(&text[1..], |part| ends(part, number))),
        "F[" => Nature::FloatRange(parts(&text[1..], |part| ends(part, float))),
        "W{" => Nature::WholeLists(parts(&text[1..], whole_list)),
        "B{" => Nature::BoolLists(parts(&text[1..], |part| list(part, |v| v == "1"))),
        "F{" => Nature::FloatLists(parts(&text[1..], |part| list(part, float))),
        "T{" => Nature::TextLists(parts(&text[1..], text_list)),
        _ => panic!("no nature: {text}"),
    }
}

/// Each bracket's inside, read and repeated as often as the `*k` behind it says.
fn parts<T: Clone>(text: &str, read: impl Fn(&str) -> T) -> Vec<T> {
    let mut all = Vec::new();
    for piece in text.split(['[', '{']).skip(1) {
        let (inside, behind) = piece.split_once([']', '}']).expect("a closing bracket");
        let count = behind.strip_prefix('*').map_or(1, number);
        all.extend(vec![read(inside); count]);
    }
    all
}

fn ends<T>(text: &str, read: impl Fn(&str) -> T) -> Ends<T> {
    let (lower, upper) = text.split_once(',').expect("two ends");
    (perhaps(lower, &read), perhaps(upper, &read))
}

fn list<T>(text: &str, read: impl Fn(&str) -> T) -> Vec<T> {
    let values = text.split(',').filter(|value| !value.is_empty());
    values.map(read).collect()
}

fn whole_list(text: &str) -> Vec<i64> {
    let mut values = Vec::new();
    for word in text.split(',').filter(|word| !word.is_empty()) {
        let (pairs, word) = match word.strip_prefix("+-") {
            Some(rest) => (true, rest),
            None => (false, word),
        };
        if let Some((first, last)) = word.split_once("..") {
            let run = number::<i64>(first)..=number(last);
            match pairs {
                true => values.extend(run.flat_map(|value| [value, -value])),
                false => values.extend(run),
            }
        } else if let Some((value, count)) = word.split_once('*') {
            values.extend(vec![number::<i64>(value); number(count)]);
        } else {
            values.push(number(word));
        }
    }
    values
}

fn text_list(text: &str) -> Vec<Vec<u8>> {
    let mut texts = Vec::new();
    for word in text.split(',').filter(|word| !word.is_empty()) {
        if let Some((left, right)) = word.split_once('+') {
            let right = text_list(right);
            for l in text_list(left) {
                texts.extend(right.iter().map(|r| [&l[..], r].concat()));
            }
        } else if let Some((count, length)) = word.split_once('#') {
            let numbers = 0..number::<u8>(count);
            texts.extend(
                numbers
                    .map(|first| [vec![first], vec![b'-'; number::<usize>(length) - 1]].concat()),
            );
        } else if let Some((part, count)) = word.split_once('*') {
            let (first, last) = count.split_once("..").unwrap_or((count, count));
            let counts = number::<usize>(first)..=number(last);
            texts.extend(counts.map(|count| raw(part).repeat(count)));
        } else {
            texts.push(raw(word));
        }
    }
    texts
}

/// A word's bytes, `\` and two digits for any other, `_` for none.
fn raw(word: &str) -> Vec<u8> {
    if word == "_" {
        return Vec::new();
    }
    let mut parts = word.split('\\');
    let mut bytes = parts.next().unwrap_or("").as_bytes().to_vec();
    for part in parts {
        bytes.push(u8::from_str_radix(&part[..2], 16).expect("two hex digits"));
        bytes.extend(part[2..].bytes());
    }
    bytes
}
