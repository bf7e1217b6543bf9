//! The card of a plan: every node with its derived range, or why the plan was refused.

pub(crate) mod notes;
pub(crate) mod table;

use crate::calls::{Stopped, Walk};
use crate::causes;
use crate::sheet::Sheet;
use crate::text::{self, NamedPlan, Problem};

/// A plan's file, and what came of it.
#[derive(Clone, Debug)]
pub struct Card {
    /// The file's name as it was given.
    pub file: String,
    /// What came of it.
    pub outcome: Outcome,
}

/// What came of a plan's file.
#[derive(Clone, Debug)]
pub enum Outcome {
    /// The file could not be read; the text says why.
    Unreadable(String),
    /// The text is no plan.
    Malformed(Vec<Problem>),
    /// The plan was handed to the proved calls.
    Walked(Box<Walked>),
}

/// A plan that was handed to the proved calls.
#[derive(Clone, Debug)]
pub struct Walked {
    /// The plan and its names.
    pub plan: NamedPlan,
    /// What the call left behind.
    pub walk: Walk,
}

/// A refusal as people read it.
#[derive(Clone, Debug)]
pub struct Stop {
    /// Number and node.
    pub stopped: Stopped,
    /// The node and where it comes from, for instance "node 4 `ratio` = divide flow gap".
    pub place: String,
    /// What of the operands caused it.
    pub causes: Vec<String>,
}

/// How far a node came.
#[derive(Clone, Copy, Debug, PartialEq, Eq)]
pub enum State {
    /// A leaf that was handed in.
    Leaf,
    /// A step whose sheet was derived.
    Derived,
    /// The node that was refused.
    Refused,
    /// A step behind the refused node, or any step if a leaf was refused.
    NotWalked,
}

impl State {
    /// The state in plain words.
    pub fn word(self) -> &'static str {
        match self {
            State::Leaf => "leaf",
            State::Derived => "derived",
            State::Refused => "refused",
            State::NotWalked => "not walked",
        }
    }
}

impl Card {
    /// Reads and walks a plan's text.
    ///
    /// ```
    /// use gate_runtime::cards::Card;
    /// let card = Card::of("brine.plan", b"leaf brine : int, whole [-5, 3], rows 8\nfar = abs brine\n");
    /// assert_eq!(card.exit_code(), 0);
    /// assert!(card.render().0.contains("[-3, +5]"));
    /// ```
    pub fn of(file: &str, bytes: &[u8]) -> Card {
        let outcome = match text::read_bytes(bytes) {
            Err(problems) => Outcome::Malformed(problems),
            Ok(plan) => {
                let walk = plan.plan.walk(&plan.leaves);
                Outcome::Walked(Box::new(Walked { plan, walk }))
            }
        };
        Card { file: file.to_string(), outcome }
    }

    /// The card of a file that could not be read.
    pub fn unreadable(file: &str, why: String) -> Card {
        Card { file: file.to_string(), outcome: Outcome::Unreadable(why) }
    }

    /// 0 accepted, 1 refused, 2 malformed or unreadable.
    pub fn exit_code(&self) -> u8 {
        match &self.outcome {
            Outcome::Walked(walked) => walked.walk.outcome.is_err().into(),
            _ => 2,
        }
    }

    /// "accepted", "refused", "malformed" or "unreadable".
    pub fn verdict(&self) -> &'static str {
        match &self.outcome {
            Outcome::Unreadable(_) => "unreadable",
            Outcome::Malformed(_) => "malformed",
            Outcome::Walked(walked) if walked.walk.outcome.is_ok() => "accepted",
            Outcome::Walked(_) => "refused",
        }
    }

    /// The card in words: what goes to standard output, and what goes to standard error.
    pub fn render(&self) -> (String, String) {
        match &self.outcome {
            Outcome::Unreadable(why) => (String::new(), format!("{}: {why}\n", self.file)),
            Outcome::Malformed(problems) => {
                let texts: Vec<String> = problems.iter().map(|p| p.render(&self.file)).collect();
                (String::new(), texts.join("\n"))
            }
            Outcome::Walked(walked) => (walked.render(&self.file), String::new()),
        }
    }
}

impl Walked {
    /// Node count.
    pub fn nodes(&self) -> usize {
        self.plan.plan.nodes()
    }

    /// A node's name.
    pub fn name(&self, node: usize) -> &str {
        self.plan.name(node)
    }

    /// A node's sheet, if it stands.
    pub fn sheet(&self, node: usize) -> Option<&Sheet> {
        self.walk.sheets.get(node)?.as_ref()
    }

    /// "leaf", or the component and the names of its operands.
    pub fn origin(&self, node: usize) -> String {
        self.plan.origin(node)
    }

    /// How far a node came.
    pub fn state(&self, node: usize) -> State {
        let refused = self.walk.outcome.err().and_then(|stopped| stopped.node);
        if refused == Some(node) {
            return State::Refused;
        }
        if node < self.plan.plan.leaves {
            return State::Leaf;
        }
        match (self.walk.outcome, refused) {
            (Ok(_), _) => State::Derived,
            (Err(_), Some(refused)) if node < refused => State::Derived,
            _ => State::NotWalked,
        }
    }

    /// What stands in place of a range where there is no sheet.
    pub fn blank(&self, node: usize) -> &'static str {
        match self.state(node) {
            State::Leaf => "cannot be read",
            state => state.word(),
        }
    }

    /// Why the plan was refused, if it was.
    pub fn stop(&self) -> Option<Stop> {
        let stopped = self.walk.outcome.err()?;
        let place = match stopped.node {
            None => "the plan".to_string(),
            Some(node) => {
                let line = self.plan.lines.get(node).copied().unwrap_or(0);
                format!("{} (line {line})", self.plan.place(node))
            }
        };
        let causes = causes::of_walk(&self.plan.plan, &self.walk, stopped, &self.plan.names);
        Some(Stop { stopped, place, causes })
    }

    /// What a reader should know of the ranges shown.
    pub fn notes(&self) -> Vec<String> {
        notes::of(self)
    }

    fn render(&self, file: &str) -> String {
        let nodes = self.nodes();
        let count = if nodes == 1 { "1 node".to_string() } else { format!("{nodes} nodes") };
        let stop = self.stop();
        let verdict = match &stop {
            None => "accepted".to_string(),
            Some(stop) => format!("refused with {}", stop.stopped.refusal.code()),
        };
        let mut text = format!("{file}: {verdict}, {count}\n\n{}", table::of(self));
        text.push_str(&notes::render(&self.notes()));
        if let Some(stop) = stop {
            text.push('\n');
            text.push_str(&stop.render());
        }
        text
    }
}

impl Stop {
    /// The refusal in words, and where more is said of it.
    pub(crate) fn render(&self) -> String {
        let refusal = self.stopped.refusal;
        let mut text = format!("Refused: {}\n  {refusal}\n", self.place);
        for cause in &self.causes {
            text.push_str(&format!("  {cause}\n"));
        }
        text.push_str(&format!("  More: gate explain {}\n", refusal.code()));
        text
    }
}
