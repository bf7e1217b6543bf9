//! Cards for machines.
//!
//! The document of cards is one object with the list `plans`, one object for each file in the order given; that of `gate show` is one object. The package's README describes their members.

use crate::cards::{Card, Outcome, Stop, Walked};
use crate::nature::{Bound, Nature};
use crate::quotes::{escaped, is_hidden};
use crate::rinks::Rinks;
use crate::sheet::{Group, Key, Sheet};
use crate::show;
use crate::text::{NamedPlan, Problem};
use crate::view::{self, View};

/// A JSON value.
#[derive(Clone, Debug, PartialEq)]
pub enum Json {
    /// `null`.
    Null,
    /// `true` or `false`.
    Bool(bool),
    /// A number, as its digits: whole numbers of 64 bits stay exact.
    Number(String),
    /// A string.
    Text(String),
    /// A list.
    List(Vec<Json>),
    /// An object; members keep their order.
    Object(Vec<(&'static str, Json)>),
}

impl Json {
    fn text(text: impl Into<String>) -> Json {
        Json::Text(text.into())
    }

    fn whole(number: impl Into<i128>) -> Json {
        Json::Number(number.into().to_string())
    }

    /// JSON has no infinities and no NaN: these are strings.
    fn float(number: f64) -> Json {
        if number.is_finite() {
            return Json::Number(format!("{number:?}"));
        }
        Json::text(if number.is_nan() { "nan".to_string() } else { number.to_string() })
    }

    fn optional<T>(value: Option<T>, json: impl Fn(T) -> Json) -> Json {
        value.map_or(Json::Null, json)
    }

    fn list<T>(items: impl IntoIterator<Item = T>, json: impl Fn(T) -> Json) -> Json {
        Json::List(items.into_iter().map(json).collect())
    }

    /// The value in writing, lists and objects of plain values on one line.
    pub fn write(&self) -> String {
        let mut text = String::new();
        self.write_into(&mut text, 0);
        text.push('\n');
        text
    }

    fn is_plain(&self) -> bool {
        !matches!(self, Json::List(_) | Json::Object(_))
    }

    fn write_into(&self, text: &mut String, depth: usize) {
        match self {
            Json::Null => text.push_str("null"),
            Json::Bool(value) => text.push_str(if *value { "true" } else { "false" }),
            Json::Number(digits) => text.push_str(digits),
            Json::Text(value) => write_text(value, text),
            Json::List(items) => {
                let inline = items.iter().all(Json::is_plain);
                let items = items.iter().map(|item| (None, item));
                write_members(text, ['[', ']'], inline, depth, items.collect());
            }
            Json::Object(members) => {
                let inline = members.iter().all(|(_, value)| value.is_plain()) && members.len() <= 4;
                let members = members.iter().map(|(name, value)| (Some(*name), value));
                write_members(text, ['{', '}'], inline, depth, members.collect());
            }
        }
    }
}

fn write_members(text: &mut String, brackets: [char; 2], inline: bool, depth: usize, members: Vec<(Option<&str>, &Json)>) {
    let line = |text: &mut String, depth: usize| {
        text.push('\n');
        text.push_str(&"  ".repeat(depth));
    };
    text.push(brackets[0]);
    for (place, (name, value)) in members.iter().enumerate() {
        if place > 0 {
            text.push_str(if inline { ", " } else { "," });
        }
        if !inline {
            line(text, depth + 1);
        }
        if let Some(name) = name {
            write_text(name, text);
            text.push_str(": ");
        }
        value.write_into(text, depth + 1);
    }
    if !inline && !members.is_empty() {
        line(text, depth);
    }
    text.push(brackets[1]);
}

fn write_text(value: &str, text: &mut String) {
    text.push('"');
    for c in value.chars() {
        match c {
            '"' => text.push_str("\\\""),
            '\\' => text.push_str("\\\\"),
            '\n' => text.push_str("\\n"),
            '\t' => text.push_str("\\t"),
            // Beyond 16 bits JSON has two escapes for one character.
            c if is_hidden(c) => c.encode_utf16(&mut [0; 2]).iter().for_each(|unit| text.push_str(&format!("\\u{unit:04x}"))),
            c => text.push(c),
        }
    }
    text.push('"');
}

/// The document of all cards.
pub fn document(cards: &[Card]) -> Json {
    Json::Object(vec![("plans", Json::list(cards, card))])
}

fn card(card: &Card) -> Json {
    let mut members = vec![("file", Json::text(&card.file)), ("outcome", Json::text(card.verdict()))];
    match &card.outcome {
        Outcome::Unreadable(why) => members.push(("why", Json::text(why))),
        Outcome::Malformed(problems) => members.push(("problems", Json::list(problems, problem))),
        Outcome::Walked(walked) => {
            members.push(("nodes", Json::list(0..walked.nodes(), |n| node(walked, n))));
            members.push(("notes", Json::list(walked.notes(), Json::text)));
            members.push(("refusal", Json::optional(walked.stop(), |stop| refusal(&walked.plan, &stop))));
        }
    }
    Json::Object(members)
}

/// The document of one node for one reader.
pub fn view(view: &View) -> Json {
    let mut members = vec![("file", Json::text(&view.file)), ("outcome", Json::text(view.verdict()))];
    match &view.outcome {
        view::Outcome::Unusable(_, why) => members.push(("why", Json::text(why))),
        view::Outcome::Asked(asked) => members.extend([
            ("node", Json::whole(asked.wanted as u64)),
            ("name", Json::optional(asked.plan.names.get(asked.wanted), Json::text)),
            ("owners", rinks(asked.owners())),
            ("reader", rinks(asked.reader)),
            ("sheet", Json::optional(asked.reply.as_ref().ok(), sheet)),
            ("notes", Json::list(asked.notes(), Json::text)),
            ("refusal", Json::optional(asked.stop(), |stop| refusal(&asked.plan, &stop))),
        ]),
    }
    Json::Object(members)
}

fn problem(problem: &Problem) -> Json {
    Json::Object(vec![
        ("line", Json::whole(problem.line as i64)),
        ("column", Json::whole(problem.column as i64)),
        ("expected", Json::text(&problem.expected)),
        ("found", Json::text(&problem.found)),
        ("help", Json::optional(problem.help.as_ref(), Json::text)),
    ])
}

fn refusal(plan: &NamedPlan, stop: &Stop) -> Json {
    let node = stop.stopped.node;
    Json::Object(vec![
        ("node", Json::optional(node, |n| Json::whole(n as i64))),
        ("name", Json::optional(node, |n| Json::text(plan.name(n)))),
        ("number", Json::whole(stop.stopped.refusal.code())),
        ("sentence", Json::text(stop.stopped.refusal.sentence())),
        ("causes", Json::list(&stop.causes, Json::text)),
    ])
}

fn node(walked: &Walked, node: usize) -> Json {
    let step = walked.plan.plan.step_of(node);
    let operands = step.map_or(Vec::new(), |step| {
        let both = [step.left, step.right];
        both[..if step.component.is_unary() { 1 } else { 2 }].to_vec()
    });
    let mut members = vec![
        ("node", Json::whole(node as i64)),
        ("name", Json::text(walked.name(node))),
        ("line", Json::optional(walked.plan.lines.get(node), |line| Json::whole(*line as i64))),
        ("component", Json::optional(step, |step| Json::text(step.component.word()))),
        ("operands", Json::list(operands, |n| Json::whole(n as i64))),
    ];
    members.extend(walked.plan.stated_owners(node).map(|owners| ("owners", rinks(owners))));
    members.push(("state", Json::text(walked.state(node).word())));
    members.push(("sheet", Json::optional(walked.sheet(node), sheet)));
    Json::Object(members)
}

fn rinks(set: Rinks) -> Json {
    Json::list(set.iter(), Json::whole)
}

fn sheet(sheet: &Sheet) -> Json {
    let whole = |value: Option<i64>| Json::optional(value, Json::whole);
    let (ranges, categories) = nature(&sheet.nature);
    Json::Object(vec![
        ("nature", Json::text(sheet.nature.name())),
        ("type", Json::text(sheet.data_type.word())),
        ("ranges", ranges),
        ("categories", categories),
        ("columns", whole(sheet.columns)),
        ("rows", whole(sheet.rows)),
        ("dataset", whole(sheet.dataset)),
        ("dimensions", whole(sheet.dimensionality)),
        ("sample", Json::optional(sheet.sample, Json::float)),
        ("stability", Json::whole(sheet.c_stability)),
        ("aggregator", Json::optional(sheet.aggregator, |n| Json::whole(n.get()))),
        ("node", Json::whole(sheet.node)),
        ("groups", Json::list(&sheet.groups, group)),
        ("releasable", Json::Bool(sheet.releasable)),
        ("nullable", Json::Bool(sheet.nullity)),
        ("nonempty", Json::Bool(sheet.not_empty)),
        ("ordered", Json::Bool(sheet.ordered)),
    ])
}

/// Ranges and categories, of which at most one is stated.
fn nature(nature: &Nature) -> (Json, Json) {
    match nature {
        Nature::Absent => (Json::Null, Json::Null),
        Nature::WholeCategories(lists) => (Json::Null, categories(lists, Json::whole)),
        Nature::BoolCategories(lists) => (Json::Null, categories(lists, Json::Bool)),
        Nature::FloatCategories(lists) => (Json::Null, categories(lists, Json::float)),
        Nature::TextCategories(lists) => (Json::Null, texts(lists)),
        ranges => {
            let entries = (0..ranges.lists()).filter_map(|place| ranges.entry(place));
            (Json::list(entries, entry), Json::Null)
        }
    }
}

fn categories<T: Copy>(lists: &[Vec<T>], json: fn(T) -> Json) -> Json {
    Json::list(lists, |list| Json::list(list, |value| json(*value)))
}

/// JSON's strings are no bytes: a text is as it stands between its quotes on a card, with the same escapes.
fn texts(lists: &[Vec<Vec<u8>>]) -> Json {
    Json::list(lists, |list| Json::list(list, |text| Json::text(escaped(text))))
}

fn entry(entry: (Bound, Bound)) -> Json {
    let bound = |bound| match bound {
        Bound::Absent => Json::Null,
        Bound::Whole(end) => Json::whole(end),
        Bound::Float(end) => Json::float(end),
    };
    Json::Object(vec![("lower", bound(entry.0)), ("upper", bound(entry.1)), ("text", Json::text(show::entry(entry)))])
}

fn group(group: &Group) -> Json {
    let (kind, index) = match group.key {
        Key::Int(index) => ("int", Json::whole(index)),
        Key::Bool(index) => ("bool", Json::Bool(index)),
        Key::Str(index) => ("str", Json::whole(index)),
    };
    Json::Object(vec![("partition", Json::whole(group.partition)), ("kind", Json::text(kind)), ("index", index)])
}
