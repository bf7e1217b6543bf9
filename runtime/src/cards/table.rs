//! The table of a card.

use super::{State, Walked};
use crate::nature::Nature;
use crate::rinks::Rinks;
use crate::sheet::Sheet;
use crate::show::{self, width};
use crate::text::NamedPlan;

/// Widest line of categories, in cells.
const WRAP: usize = 48;
/// Between two columns of the table.
const GAP: &str = "  ";

/// A cell: one or more lines.
type Cell = Vec<String>;

/// A column of the table: its heading, and whether it is aligned to the right.
const HEADINGS: [(&str, bool); 9] = [
    ("node", true),
    ("name", false),
    ("from", false),
    ("type", false),
    ("range or categories", false),
    ("columns", true),
    ("rows", true),
    ("dataset", true),
    ("marks", false),
];

/// One row for each node.
pub(super) fn of(walked: &Walked) -> String {
    with_heading((0..walked.nodes()).map(|node| row(walked, node)))
}

/// The row of one node, whose sheet is shown alone.
pub(crate) fn of_one(plan: &NamedPlan, node: usize, sheet: &Sheet) -> String {
    with_heading([[beginning(plan, node), of_sheet(sheet, plan.stated_owners(node), false)].concat()])
}

fn with_heading(rows: impl IntoIterator<Item = Vec<Cell>>) -> String {
    let heading: Vec<Cell> = HEADINGS.iter().map(|(name, _)| vec![name.to_string()]).collect();
    let all: Vec<Vec<Cell>> = [heading].into_iter().chain(rows).collect();
    lay_out(&all)
}

fn row(walked: &Walked, node: usize) -> Vec<Cell> {
    let owners = walked.plan.stated_owners(node);
    let rest = match walked.sheet(node) {
        Some(sheet) => of_sheet(sheet, owners, walked.state(node) == State::Refused),
        None => without_sheet(walked.blank(node), owners),
    };
    [beginning(&walked.plan, node), rest].concat()
}

/// Number, name and origin.
fn beginning(plan: &NamedPlan, node: usize) -> Vec<Cell> {
    vec![vec![node.to_string()], vec![plan.name(node).to_string()], vec![plan.origin(node)]]
}

/// The cells behind the origin.
fn of_sheet(sheet: &Sheet, owners: Option<Rinks>, refused: bool) -> Vec<Cell> {
    let mut lines = nature_lines(sheet);
    if refused {
        lines.push("refused".to_string());
    }
    let mut cells = vec![vec![sheet.data_type.word().to_string()], lines];
    let optional = |value: Option<i64>| vec![value.map_or("-".to_string(), |v| v.to_string())];
    cells.extend([sheet.columns, sheet.rows, sheet.dataset].map(optional));
    let marks = [Some(show::marks(sheet)), owners.map(show::owners)];
    cells.push(vec![marks.into_iter().flatten().collect::<Vec<String>>().join(", ")]);
    cells
}

/// The cells behind the origin where there is no sheet: the owners are known all the same.
fn without_sheet(blank: &str, owners: Option<Rinks>) -> Vec<Cell> {
    let none = || vec![String::new()];
    let marks = vec![owners.map(show::owners).unwrap_or_default()];
    vec![none(), vec![blank.to_string()], none(), none(), none(), marks]
}

/// The nature line by line: equal neighbours share a line, and long lists go over several.
pub(crate) fn nature_lines(sheet: &Sheet) -> Vec<String> {
    let nature = &sheet.nature;
    if let Nature::Absent = nature {
        return vec!["not stated".to_string()];
    }
    if nature.lists() == 0 {
        return vec![show::nature(nature)];
    }
    let items = show::items(nature);
    let mut lines = Vec::new();
    let mut first = 0;
    while first < items.len() {
        let equal = items[first..].iter().take_while(|list| **list == items[first]).count();
        let label = label(sheet, first, equal);
        lines.extend(wrapped(&label, nature, &items[first]));
        first += equal;
    }
    lines
}

/// Which columns a line speaks of; nothing if there is one column only.
fn label(sheet: &Sheet, first: usize, equal: usize) -> String {
    let lists = sheet.nature.lists();
    let of_all = lists == 1 || Some(lists as i64) == sheet.columns;
    match (sheet.columns, equal) {
        (Some(1), _) if lists == 1 => String::new(),
        _ if equal == lists && of_all => "all: ".to_string(),
        (_, 1) => format!("{}: ", first + 1),
        _ => format!("{}-{}: ", first + 1, first + equal),
    }
}

/// A list in its brackets, broken where a line would become too wide.
fn wrapped(label: &str, nature: &Nature, list: &[String]) -> Vec<String> {
    let whole = format!("{label}{}", show::list_of(nature, list));
    if nature.is_range() || width(&whole) <= WRAP {
        return vec![whole];
    }
    let indent = " ".repeat(width(label) + 1);
    let mut lines = Vec::new();
    let mut line = format!("{label}{{");
    for (place, member) in list.iter().enumerate() {
        let last = place + 1 == list.len();
        let word = format!("{member}{}", if last { "}" } else { "," });
        // A member is never broken, so that a long text may pass the width.
        if place > 0 && width(&line) + 1 + width(&word) > WRAP {
            lines.push(std::mem::replace(&mut line, indent.clone()));
        } else if place > 0 {
            line.push(' ');
        }
        line.push_str(&word);
    }
    lines.push(line);
    lines
}

fn lay_out(rows: &[Vec<Cell>]) -> String {
    let mut text = String::new();
    let widest = |column: usize| {
        let cells = rows.iter().filter_map(|row| row.get(column));
        cells.flatten().map(|line| width(line)).max().unwrap_or(0)
    };
    let widths: Vec<usize> = (0..HEADINGS.len()).map(widest).collect();
    for row in rows {
        let height = row.iter().map(Vec::len).max().unwrap_or(0);
        for line in 0..height {
            let parts: Vec<String> =
                row.iter().enumerate().map(|(column, cell)| padded(cell.get(line), widths[column], HEADINGS[column].1)).collect();
            text.push_str(parts.join(GAP).trim_end());
            text.push('\n');
        }
    }
    text
}

fn padded(text: Option<&String>, to: usize, right: bool) -> String {
    let text = text.map_or("", String::as_str);
    let space = " ".repeat(to.saturating_sub(width(text)));
    if right {
        format!("{space}{text}")
    } else {
        format!("{text}{space}")
    }
}
