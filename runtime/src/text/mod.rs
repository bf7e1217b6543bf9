//! Plans as text.
//!
//! One line is one node: `leaf NAME : TYPE, ITEM, ..` or `NAME = COMPONENT OPERAND [OPERAND]`. A `#` begins a comment, and a line that ends in a comma goes on in the next. Texts stand in quotes ([`crate::quotes`]). The package's README describes every item.

mod items;
mod line;
mod named;
mod problem;
mod tokens;
mod values;

pub use named::NamedPlan;
pub use problem::Problem;
pub(crate) use problem::{nearest, quoted};

use crate::component::Component;
use crate::form::plan::NODES;
use crate::plan::{Plan, Step};
use crate::rinks::Rinks;
use crate::sheet::Sheet;
use line::Line;
use std::collections::HashMap;
use tokens::{Token, TokenKind};

/// Longest text that is read, in bytes: far above what 32 nodes take.
pub const LONGEST_TEXT: usize = 1 << 20;

/// What is said of owners on a step.
const STEP_OWNERS: &str = "a step has the owners of the leaves that it stands on; `owners {..}` is written on leaves";

/// Problems that one text reports; what follows the first ones seldom helps.
const MOST_PROBLEMS: usize = 20;

/// Reads a plan from bytes that should be UTF-8.
pub fn read_bytes(bytes: &[u8]) -> Result<NamedPlan, Vec<Problem>> {
    if bytes.len() > LONGEST_TEXT {
        let expected = format!("a text of at most {LONGEST_TEXT} bytes");
        return Err(vec![Problem::at_start(expected, "a longer one")]);
    }
    match std::str::from_utf8(bytes) {
        Ok(text) => read(text),
        Err(error) => Err(vec![Problem::not_utf8(bytes, error.valid_up_to())]),
    }
}

/// Reads a plan, or says everything that is wrong with it, line by line.
///
/// ```
/// let problems = gate_runtime::text::read("leaf a : int\nb = negativ a\n").unwrap_err();
/// assert_eq!(problems[0].to_string(), "2:5: expected a component, found `negativ`");
/// assert_eq!(problems[0].help.as_deref(), Some("did you mean `negative`?"));
/// ```
pub fn read(text: &str) -> Result<NamedPlan, Vec<Problem>> {
    let text = text.strip_prefix('\u{feff}').unwrap_or(text);
    let sources: Vec<&str> = text.lines().collect();
    let lines = line::join(&sources);
    let named = lines.iter().filter_map(Line::name).map(|name| (name.text, name.line));
    let mut reader = Reader { named: named.collect(), ..Reader::default() };
    for mut line in lines {
        if let Err(problem) = reader.statement(&mut line) {
            reader.problems.push(problem);
        }
        if reader.problems.len() >= MOST_PROBLEMS || reader.nodes() > NODES {
            break;
        }
    }
    reader.finish(&sources)
}

/// Reads a set of rinks as a leaf's owners are written.
///
/// ```
/// use gate_runtime::{text, Rinks};
/// assert_eq!(text::read_rinks("{3, 17}"), Ok(Rinks::of(&[3, 17]).unwrap()));
/// assert_eq!(text::read_rinks("{}"), Ok(Rinks::NONE));
/// let problem = text::read_rinks("{3, 64}").unwrap_err();
/// assert_eq!(problem.to_string(), "1:5: expected a rink: a whole number from 0 to 63, found `64`");
/// ```
pub fn read_rinks(text: &str) -> Result<Rinks, Problem> {
    let mut line = Line::of(text);
    let rinks = values::rinks(&mut line)?;
    line.end("nothing behind the set")?;
    Ok(rinks)
}

/// A name's node, before leaves and steps are put in order.
#[derive(Clone, Copy)]
enum Place {
    Leaf(usize),
    Step(usize),
}

/// A step whose operands are still names' places.
struct Draft {
    component: Component,
    left: Place,
    right: Place,
}

#[derive(Default)]
struct Reader<'a> {
    /// Every name with a line that gives it, also behind the line that is read.
    named: HashMap<&'a str, usize>,
    places: HashMap<&'a str, (Place, usize)>,
    leaves: Vec<Option<Sheet>>,
    owners: Vec<Option<Rinks>>,
    leaf_names: Vec<(&'a str, usize)>,
    steps: Vec<Option<Draft>>,
    step_names: Vec<(&'a str, usize)>,
    problems: Vec<Problem>,
}

impl<'a> Reader<'a> {
    fn statement(&mut self, line: &mut Line<'a>) -> Result<(), Problem> {
        let is_step = line.peek(1).is_some_and(|token| token.text == "=");
        match line.peek(0) {
            Some(first) if first.text == "leaf" && !is_step => self.leaf(line),
            Some(first) if first.kind == TokenKind::Word && is_step => self.step(line),
            _ => Err(no_statement(line)),
        }
    }

    fn leaf(&mut self, line: &mut Line<'a>) -> Result<(), Problem> {
        line.next();
        let name = line.word("a name for the leaf")?;
        let node = self.leaves.len();
        // The name counts even if its items are wrong: one mistake is then one problem.
        self.leaves.push(None);
        self.owners.push(None);
        self.leaf_names.push((name.text, name.line));
        self.declare(name, Place::Leaf(node))?;
        let mut leaf = items::leaf(line)?;
        leaf.node = leaf.node.or(Some(node as i64));
        self.owners[node] = leaf.owners;
        self.leaves[node] = Some(leaf.finish());
        Ok(())
    }

    fn step(&mut self, line: &mut Line<'a>) -> Result<(), Problem> {
        let name = line.word("a name for the step")?;
        line.next();
        let place = self.steps.len();
        self.steps.push(None);
        self.step_names.push((name.text, name.line));
        let draft = self.draft(line).map_err(|problem| if line.has_set("owners") { problem.with_help(STEP_OWNERS) } else { problem });
        self.declare(name, Place::Step(place))?;
        self.steps[place] = Some(draft?);
        Ok(())
    }

    fn draft(&self, line: &mut Line<'a>) -> Result<Draft, Problem> {
        let word = line.word("a component")?;
        let Some(component) = Component::from_word(word.text) else {
            let words: Vec<&str> = Component::ALL.iter().map(|c| c.word()).collect();
            let all = format!("components are {}", words.join(", "));
            let help = nearest(word.text, words.into_iter()).unwrap_or(all);
            return Err(line.found("a component", Some(word)).with_help(help));
        };
        let left = self.operand(line, component)?;
        let right = if component.is_unary() { left } else { self.operand(line, component)? };
        let count = if component.is_unary() { "one operand" } else { "two operands" };
        line.end(&format!("the end of the line, as {component} takes {count}"))?;
        Ok(Draft { component, left, right })
    }

    fn operand(&self, line: &mut Line<'a>, component: Component) -> Result<Place, Problem> {
        let wanted = if component.is_unary() {
            format!("the operand of {component}")
        } else {
            format!("an operand of {component}, which takes two")
        };
        let token = line.word(&wanted)?;
        if let Some((place, _)) = self.places.get(token.text) {
            return Ok(*place);
        }
        let help = match self.named.get(token.text) {
            Some(line) => Some(format!("{} is given in line {line}, and a step uses earlier lines", quoted(token.text))),
            None => nearest(token.text, self.places.keys().copied()),
        };
        let problem = line.found("a name of an earlier line", Some(token));
        Err(match help {
            Some(help) => problem.with_help(help),
            None => problem,
        })
    }

    fn nodes(&self) -> usize {
        self.leaves.len() + self.steps.len()
    }

    /// Nodes are counted here too, so that the line of the first one too many is named.
    fn declare(&mut self, name: Token<'a>, place: Place) -> Result<(), Problem> {
        if self.nodes() > NODES {
            let expected = format!("at most {NODES} nodes in a plan");
            return Err(Problem::new(expected, "one more", Some(name)));
        }
        if let Some((_, line)) = self.places.get(name.text) {
            let found = format!("{}, the name of line {line}", quoted(name.text));
            return Err(Problem::new("a new name", &found, Some(name)));
        }
        self.places.insert(name.text, (place, name.line));
        Ok(())
    }

    fn finish(mut self, sources: &[&str]) -> Result<NamedPlan, Vec<Problem>> {
        if self.problems.is_empty() && self.leaves.is_empty() {
            let problem =
                Problem::at_start("at least one leaf", "none").with_help("for instance `leaf brine : int, whole [-5, 3], rows 8`");
            self.problems.push(problem);
        }
        let leaves: Option<Vec<Sheet>> = self.leaves.into_iter().collect();
        let steps: Option<Vec<Draft>> = self.steps.into_iter().collect();
        let (Some(leaves), Some(steps), true) = (leaves, steps, self.problems.is_empty()) else {
            self.problems.iter_mut().for_each(|problem| problem.quote(sources));
            return Err(self.problems);
        };
        let node = |place: Place| match place {
            Place::Leaf(k) => k,
            Place::Step(k) => leaves.len() + k,
        };
        let step = |draft: &Draft| Step { component: draft.component, left: node(draft.left), right: node(draft.right) };
        let plan = Plan { leaves: leaves.len(), steps: steps.iter().map(step).collect() };
        let (names, lines) = self.leaf_names.into_iter().chain(self.step_names).map(|(name, line)| (name.to_string(), line)).unzip();
        Ok(NamedPlan { plan, leaves, owners: self.owners, names, lines })
    }
}

/// Neither a leaf nor a step: what is nearest decides the words.
fn no_statement(line: &Line) -> Problem {
    let (first, second) = (line.peek(0), line.peek(1));
    let is_word = |token: Option<Token>| token.is_some_and(|t| t.kind == TokenKind::Word);
    if is_word(first) && !is_word(second) {
        return line.found("`=` after the step's name", second);
    }
    let help = first.and_then(|token| nearest(token.text, ["leaf"].into_iter()));
    line.found("`leaf NAME : ..` or `NAME = COMPONENT ..`", first)
        .with_help(help.unwrap_or_else(|| "a step has `=` after its name".to_string()))
}
