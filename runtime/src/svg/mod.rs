//! A plan as a picture: each node with its name, component and range, operands above the steps that use them.

mod layout;

use crate::cards::table::nature_lines;
use crate::cards::{State, Walked};
use crate::component::Component;
use crate::quotes::is_hidden;
use crate::sheet::Sheet;
use crate::show::{self, folded, width};
use layout::{Layout, Size};

/// Distance from the picture's edge, and the height of the title above the plan.
const MARGIN: f64 = 28.0;
const TITLE: f64 = 56.0;
/// Inside a box.
const PADDING: f64 = 14.0;
const LINE: f64 = 18.0;
/// Width of one cell of text at the sizes used, with some to spare.
const CELL: f64 = 7.7;
const NARROWEST: f64 = 120.0;
/// Most lines of a nature in a box.
const MOST_LINES: usize = 6;
/// Widest line of the text below the plan, in cells.
const CAPTION: usize = 96;

const STYLE: &str = "text{font-family:'DejaVu Sans',Verdana,sans-serif;font-size:12px;fill:#1c2b36}\
.name{font-weight:bold;font-size:13px}.quiet{fill:#5b6b77;font-size:11px}\
.range{font-family:'DejaVu Sans Mono',Consolas,monospace;font-size:12px}\
.title{font-size:15px;font-weight:bold}.no{fill:#a3271d}\
rect{fill:#ffffff;stroke:#40617a;stroke-width:1.2}rect.paper{stroke:none}\
rect.leaf{fill:#eaf3fa}rect.refused{fill:#fdecea;stroke:#a3271d;stroke-width:1.8}\
rect.skipped{fill:#f4f4f4;stroke:#9aa5ad;stroke-dasharray:5 4}\
path{fill:none;stroke:#6d8496;stroke-width:1.3}path.head{fill:#6d8496;stroke:none}";

/// A box's lines, each with its class.
type Lines = Vec<(&'static str, String)>;

/// The picture.
///
/// ```
/// use gate_runtime::cards::{Card, Outcome};
/// let card = Card::of("a.plan", b"leaf a : int, whole [-5, 3]\nb = abs a\n");
/// let Outcome::Walked(walked) = &card.outcome else { panic!("the plan is well formed") };
/// let picture = gate_runtime::svg::picture("a.plan", walked);
/// assert!(picture.starts_with("<svg ") && picture.contains("[-3, +5]"));
/// ```
pub fn picture(file: &str, walked: &Walked) -> String {
    let lines: Vec<Lines> = (0..walked.nodes()).map(|node| lines_of(walked, node)).collect();
    let sizes: Vec<Size> = lines.iter().map(size_of).collect();
    let layout = Layout::of(&walked.plan.plan, &sizes);
    let verdict = match &walked.walk.outcome {
        Ok(_) => "accepted".to_string(),
        Err(stopped) => format!("refused with {}", stopped.refusal.code()),
    };
    let title = format!("{file}: {verdict}");
    let caption = caption(walked);
    let widest = caption.iter().map(|(_, line)| width(line)).max().unwrap_or(0).max(width(&title) * 5 / 4);
    let across = layout.width.max(widest as f64 * CELL) + 2.0 * MARGIN;
    let below = TITLE + layout.height + MARGIN + caption.len() as f64 * LINE;
    let mut text = format!(
        "<svg xmlns=\"http://www.w3.org/2000/svg\" role=\"img\" width=\"{across:.0}\" height=\"{below:.0}\" viewBox=\"0 0 {across:.0} {below:.0}\">\n<title>{}</title>\n<style>{STYLE}</style>\n<rect class=\"paper\" width=\"100%\" height=\"100%\"/>\n",
        escape(&title)
    );
    let class = if walked.walk.outcome.is_ok() { "title" } else { "title no" };
    text.push_str(&label(class, MARGIN, 34.0, &title));
    let inset = (across - layout.width) / 2.0;
    text.push_str(&format!("<g transform=\"translate({inset:.1} {TITLE:.1})\">\n"));
    for node in 0..walked.nodes() {
        text.push_str(&edges(walked, &layout, &sizes, node));
    }
    for (node, lines) in lines.iter().enumerate() {
        text.push_str(&node_box(walked, &layout, sizes[node], node, lines));
    }
    text.push_str("</g>\n");
    for (place, (class, line)) in caption.iter().enumerate() {
        let y = TITLE + layout.height + MARGIN + place as f64 * LINE;
        text.push_str(&label(class, MARGIN, y, line));
    }
    text.push_str("</svg>\n");
    text
}

/// Notes and the refusal in words below the plan.
fn caption(walked: &Walked) -> Lines {
    let mut texts: Lines = walked.notes().into_iter().map(|note| ("note", format!("Note: {note}"))).collect();
    if let Some(stop) = walked.stop() {
        texts.push(("no", format!("Refused: {}", stop.place)));
        texts.push(("no", stop.stopped.refusal.to_string()));
        texts.extend(stop.causes.into_iter().map(|cause| ("no", cause)));
    }
    let lines = |(class, text): (&'static str, String)| {
        let folded = folded(&text, CAPTION).into_iter().enumerate();
        folded.map(|(place, line)| (class, if place == 0 { line } else { format!("    {line}") })).collect::<Lines>()
    };
    texts.into_iter().flat_map(lines).collect()
}

fn lines_of(walked: &Walked, node: usize) -> Lines {
    let mut lines = vec![("name", walked.name(node).to_string())];
    lines.push(("quiet", format!("{node}: {}", walked.origin(node))));
    match walked.sheet(node) {
        Some(sheet) => lines.extend(lines_of_sheet(sheet)),
        None => lines.push(("range", walked.blank(node).to_string())),
    }
    lines.extend(walked.plan.stated_owners(node).map(|owners| ("quiet", show::owners(owners))));
    lines
}

fn lines_of_sheet(sheet: &Sheet) -> Lines {
    let mut lines = Vec::new();
    let nature = nature_lines(sheet);
    let more = nature.len().saturating_sub(MOST_LINES);
    lines.extend(nature.into_iter().take(MOST_LINES).map(|line| ("range", line)));
    if more > 0 {
        let lines_more = if more == 1 { "line" } else { "lines" };
        lines.push(("quiet", format!("and {more} more {lines_more}")));
    }
    let count = |value: Option<i64>, one: &str, many: &str| match value {
        None => format!("{many} absent"),
        Some(1) => format!("1 {one}"),
        Some(n) => format!("{n} {many}"),
    };
    let (columns, rows) = (count(sheet.columns, "column", "columns"), count(sheet.rows, "row", "rows"));
    let mark = if sheet.releasable { "releasable" } else { "private" };
    lines.push(("quiet", format!("{columns}, {rows}, {mark}")));
    lines
}

fn size_of(lines: &Lines) -> Size {
    let cells = lines.iter().map(|(_, line)| width(line)).max().unwrap_or(0);
    let across = (cells as f64 * CELL + 2.0 * PADDING).max(NARROWEST);
    (across, lines.len() as f64 * LINE + PADDING)
}

fn node_box(walked: &Walked, layout: &Layout, size: Size, node: usize, lines: &Lines) -> String {
    let Some(spot) = layout.own(node) else {
        return String::new();
    };
    let class = match walked.state(node) {
        State::Leaf => "leaf",
        State::Derived => "derived",
        State::Refused => "refused",
        State::NotWalked => "skipped",
    };
    let (x, y) = (spot.x - size.0 / 2.0, layout.tops[spot.layer]);
    let mut text =
        format!("<rect class=\"{class}\" x=\"{x:.1}\" y=\"{y:.1}\" width=\"{:.1}\" height=\"{:.1}\" rx=\"7\"/>\n", size.0, size.1);
    for (place, (class, line)) in lines.iter().enumerate() {
        let below = y + PADDING + 6.0 + place as f64 * LINE;
        text.push_str(&label(class, x + PADDING, below, line));
    }
    text
}

/// The lines into a step, one for each operand.
fn edges(walked: &Walked, layout: &Layout, sizes: &[Size], node: usize) -> String {
    let plan = &walked.plan.plan;
    let (Some(step), Some(own)) = (plan.step_of(node), layout.own(node)) else {
        return String::new();
    };
    if step.component.is_unary() {
        return edge(layout, sizes, step.left, own.layer, own.x, "");
    }
    let sides = !matches!(step.component, Component::Add | Component::Multiply);
    let (left, right) = if sides { ("left", "right") } else { ("", "") };
    let above = |operand| layout.spot(operand, own.layer - 1).map_or(0.0, |s| layout.spots[s].x);
    // Where the order of the operands says nothing, lines need not cross.
    let crossed = !sides && above(step.left) > above(step.right);
    let part = if crossed { -own.width / 4.0 } else { own.width / 4.0 };
    let mut text = edge(layout, sizes, step.left, own.layer, own.x - part, left);
    text.push_str(&edge(layout, sizes, step.right, own.layer, own.x + part, right));
    text
}

/// A line from a node down to a place at the top of a later layer, past the layers between.
fn edge(layout: &Layout, sizes: &[Size], from: usize, layer: usize, x: f64, name: &str) -> String {
    let Some(start) = layout.own(from) else {
        return String::new();
    };
    let mut at = (start.x, layout.tops[start.layer] + sizes[from].1);
    let mut path = format!("M{:.1} {:.1}", at.0, at.1);
    // The box may be lower than its layer: the line goes straight down to the layer's end.
    at.1 = layout.tops[start.layer] + layout.heights[start.layer];
    path.push_str(&format!("L{:.1} {:.1}", at.0, at.1));
    for passed in start.layer + 1..layer {
        let Some(spot) = layout.spot(from, passed) else {
            continue;
        };
        let (x, top) = (layout.spots[spot].x, layout.tops[passed]);
        path.push_str(&curve(at, (x, top)));
        at = (x, top + layout.heights[passed]);
        path.push_str(&format!("L{:.1} {:.1}", at.0, at.1));
    }
    let end = (x, layout.tops[layer]);
    path.push_str(&curve(at, (end.0, end.1 - 8.0)));
    let head = format!("M{:.1} {:.1}l-4.5 -9h9z", end.0, end.1);
    let mut text = format!("<path d=\"{path}\"/>\n<path class=\"head\" d=\"{head}\"/>\n");
    if !name.is_empty() {
        text.push_str(&label("quiet", end.0 + 7.0, end.1 - 5.0, name));
    }
    text
}

fn curve(from: (f64, f64), to: (f64, f64)) -> String {
    let middle = (from.1 + to.1) / 2.0;
    format!("C{:.1} {middle:.1} {:.1} {middle:.1} {:.1} {:.1}", from.0, to.0, to.0, to.1)
}

fn label(class: &str, x: f64, y: f64, text: &str) -> String {
    format!("<text class=\"{class}\" x=\"{x:.1}\" y=\"{y:.1}\" xml:space=\"preserve\">{}</text>\n", escape(text))
}

/// Text for XML: its special characters, and none that XML cannot hold or that a reader cannot see.
fn escape(text: &str) -> String {
    let mut escaped = String::new();
    for c in text.chars() {
        match c {
            '&' => escaped.push_str("&amp;"),
            '<' => escaped.push_str("&lt;"),
            '>' => escaped.push_str("&gt;"),
            '"' => escaped.push_str("&quot;"),
            '\'' => escaped.push_str("&apos;"),
            c if is_hidden(c) => escaped.push('\u{fffd}'),
            c => escaped.push(c),
        }
    }
    escaped
}
