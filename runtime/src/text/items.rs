//! The items of a leaf.

use super::line::Line;
use super::problem::{nearest, Problem};
use super::tokens::Token;
use super::values::{entries, float, group, list, lists, number, or_absent, rinks, texts, truth, whole, FLOAT_END, WHOLE_END};
use crate::nature::Nature;
use crate::rinks::Rinks;
use crate::sheet::{DataType, Group, Sheet};
use std::num::NonZeroU32;

/// Every word that begins an item.
const ITEMS: [&str; 21] = [
    "whole",
    "float",
    "bool",
    "text",
    "range",
    "categories",
    "columns",
    "rows",
    "dataset",
    "dimensions",
    "sample",
    "stability",
    "aggregator",
    "node",
    "groups",
    "owners",
    "releasable",
    "private",
    "nullable",
    "nonempty",
    "ordered",
];

/// A leaf's items as they are read. `columns` and `node` have defaults that depend on the rest.
pub(super) struct Draft {
    sheet: Sheet,
    columns: Option<Option<i64>>,
    pub node: Option<i64>,
    pub owners: Option<Rinks>,
    /// Items given so far, by what they set.
    given: Vec<&'static str>,
}

impl Draft {
    pub fn finish(self) -> Sheet {
        let mut sheet = self.sheet;
        let by_nature = Some(sheet.nature.lists().max(1) as i64);
        sheet.columns = self.columns.unwrap_or(by_nature);
        sheet.node = self.node.unwrap_or(0);
        sheet
    }
}

/// `: TYPE, ITEM, ..` to the end of the statement.
pub(super) fn leaf(line: &mut Line) -> Result<Draft, Problem> {
    line.sign(":", "`:` after the leaf's name").map_err(|problem| problem.with_help("a name is letters, digits and `_`"))?;
    line.check_quotes()?;
    let data_type = data_type(line)?;
    let sheet = Sheet::new(data_type, Nature::Absent);
    let mut draft = Draft { sheet, columns: None, node: None, owners: None, given: Vec::new() };
    while line.peek(0).is_some() {
        line.sign(",", "`,` or the end of the line")?;
        item(line, &mut draft)?;
    }
    Ok(draft)
}

fn data_type(line: &mut Line) -> Result<DataType, Problem> {
    const EXPECTED: &str = "a data type: int, float, bool, str or unknown";
    let word = line.word(EXPECTED)?;
    DataType::from_word(word.text).ok_or_else(|| {
        let problem = line.found(EXPECTED, Some(word));
        match nearest(word.text, DataType::ALL.iter().map(|t| t.word())) {
            Some(help) => problem.with_help(help),
            None => problem,
        }
    })
}

/// Each item once; words that set the same thing count as the same item.
fn once(line: &Line, draft: &mut Draft, word: Token, sets: &'static str) -> Result<(), Problem> {
    if draft.given.contains(&sets) {
        let problem = line.found("an item that is not given yet", Some(word));
        return Err(problem.with_help(format!("{sets} was given before in this leaf")));
    }
    draft.given.push(sets);
    Ok(())
}

fn item(line: &mut Line, draft: &mut Draft) -> Result<(), Problem> {
    let word = line.word("an item such as `whole [-5, 3]`, `rows 8` or `releasable`")?;
    let count = |line: &mut Line| whole(line, "a whole number or `absent`");
    let sets = match word.text {
        "whole" | "float" | "bool" | "text" | "range" | "categories" => "a range or categories",
        "releasable" | "private" => "whether it is releasable",
        other => ITEMS.into_iter().find(|item| *item == other).unwrap_or("an unknown item"),
    };
    if ITEMS.contains(&word.text) {
        once(line, draft, word, sets)?;
    }
    let sheet = &mut draft.sheet;
    match word.text {
        "whole" | "float" | "bool" | "text" | "range" | "categories" => {
            sheet.nature = nature(line, word, sheet.data_type)?;
        }
        "columns" => draft.columns = Some(or_absent(line, count)?),
        "rows" => sheet.rows = or_absent(line, count)?,
        "dataset" => sheet.dataset = or_absent(line, count)?,
        "dimensions" => sheet.dimensionality = or_absent(line, count)?,
        "sample" => sheet.sample = or_absent(line, |line| float(line, "a number or `absent`"))?,
        "stability" => sheet.c_stability = number(line, 0)?,
        "aggregator" => sheet.aggregator = NonZeroU32::new(number(line, 1)?),
        "node" => draft.node = Some(whole(line, "a whole number")?),
        "groups" => sheet.groups = groups(line)?,
        "owners" => draft.owners = Some(rinks(line)?),
        "releasable" => sheet.releasable = true,
        "private" => sheet.releasable = false,
        "nullable" => sheet.nullity = true,
        "nonempty" => sheet.not_empty = true,
        "ordered" => sheet.ordered = true,
        _ => return Err(unknown_item(line, word)),
    }
    Ok(())
}

fn unknown_item(line: &Line, word: Token) -> Problem {
    let all = format!("items are {}", ITEMS.join(", "));
    let help = nearest(word.text, ITEMS.into_iter()).unwrap_or(all);
    line.found("an item", Some(word)).with_help(help)
}

fn groups(line: &mut Line) -> Result<Vec<Group>, Problem> {
    list(line, group)
}

/// What the members of a nature are.
#[derive(Clone, Copy, PartialEq)]
enum Kind {
    Whole,
    Float,
    Bool,
    Text,
}

/// `range` and `categories` take their kind from the data type; the other words name it.
fn kind(line: &Line, word: Token, data_type: DataType) -> Result<Kind, Problem> {
    match (word.text, data_type) {
        ("whole", _) | ("range" | "categories", DataType::Int) => Ok(Kind::Whole),
        ("float", _) | ("range" | "categories", DataType::Float) => Ok(Kind::Float),
        ("bool", _) | ("categories", DataType::Bool) => Ok(Kind::Bool),
        ("text", _) | ("categories", DataType::Str) => Ok(Kind::Text),
        (item, _) => {
            let kinds = if item == "range" { "`whole` or `float`" } else { "`whole`, `float`, `bool` or `text`" };
            let help = format!("a leaf of type {} does not say the kind", data_type.word());
            Err(line.found(&format!("the kind: {kinds}"), Some(word)).with_help(help))
        }
    }
}

fn nature(line: &mut Line, word: Token, data_type: DataType) -> Result<Nature, Problem> {
    let kind = kind(line, word, data_type)?;
    let has_ranges = matches!(kind, Kind::Whole | Kind::Float);
    let (ranges, categories) = (word.text != "categories" && has_ranges, word.text != "range");
    let next = line.peek(0).map_or("", |token| token.text);
    match next {
        "[" if ranges => match kind {
            Kind::Float => Ok(Nature::FloatRange(entries(line, &FLOAT_END)?)),
            _ => Ok(Nature::WholeRange(entries(line, &WHOLE_END)?)),
        },
        "{" if categories => category_lists(line, kind),
        "no" => empty_nature(line, kind, ranges, categories),
        _ => {
            let expected = match (ranges, categories) {
                (true, true) => "a range `[..]` or a category list `{..}`",
                (true, false) => "a range `[..]`",
                _ => "a category list `{..}`",
            };
            Err(line.found(expected, line.peek(0)))
        }
    }
}

fn category_lists(line: &mut Line, kind: Kind) -> Result<Nature, Problem> {
    Ok(match kind {
        Kind::Whole => Nature::WholeCategories(lists(line, |line| whole(line, "a whole number"))?),
        Kind::Float => Nature::FloatCategories(lists(line, |line| float(line, "a float"))?),
        Kind::Bool => Nature::BoolCategories(lists(line, truth)?),
        Kind::Text => Nature::TextCategories(texts(line)?),
    })
}

/// `no ranges` or `no lists`: a nature that states nothing of any column.
fn empty_nature(line: &mut Line, kind: Kind, ranges: bool, categories: bool) -> Result<Nature, Problem> {
    line.next();
    match (line.take("ranges") && ranges, line.take("lists") && categories, kind) {
        (true, _, Kind::Float) => Ok(Nature::FloatRange(Vec::new())),
        (true, _, _) => Ok(Nature::WholeRange(Vec::new())),
        (_, true, Kind::Whole) => Ok(Nature::WholeCategories(Vec::new())),
        (_, true, Kind::Float) => Ok(Nature::FloatCategories(Vec::new())),
        (_, true, Kind::Bool) => Ok(Nature::BoolCategories(Vec::new())),
        (_, true, Kind::Text) => Ok(Nature::TextCategories(Vec::new())),
        _ => Err(line.found("`ranges` or `lists` after `no`", line.peek(0))),
    }
}
