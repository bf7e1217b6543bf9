//! What one reader sees of a plan: one node's sheet, or why it is not shown.
//!
//! A view is made of the shown sheet, of the plan's steps, names and owners, and of nothing else: the leaves' sheets are let go before anything is put into words. So beyond the shown sheet, or a refusal's number and node, no output depends on a sheet.

use crate::calls::Stopped;
use crate::cards::{notes, table, Stop};
use crate::causes;
use crate::rinks::Rinks;
use crate::sheet::Sheet;
use crate::text::{self, nearest, quoted, NamedPlan};

/// A plan's file, and what came of asking for a node of it.
#[derive(Clone, Debug)]
pub struct View {
    /// The file's name as it was given.
    pub file: String,
    /// What came of it.
    pub outcome: Outcome,
}

/// What came of asking for a node.
#[derive(Clone, Debug)]
pub enum Outcome {
    /// There is no plan, or no node of this name in it: what is the matter in a word or two, and in words.
    Unusable(&'static str, String),
    /// The proved call was asked for the node.
    Asked(Box<Asked>),
}

/// A node that the proved call was asked for.
#[derive(Clone, Debug)]
pub struct Asked {
    /// The plan, its names and owners; no leaf's sheet is left in it.
    pub plan: NamedPlan,
    /// The reader's rinks.
    pub reader: Rinks,
    /// The node that is wanted.
    pub wanted: usize,
    /// The node's sheet, or the refusal.
    pub reply: Result<Sheet, Stopped>,
}

impl View {
    /// Reads a plan's text and asks for a node, by its name or its number.
    ///
    /// ```
    /// use gate_runtime::view::View;
    /// use gate_runtime::Rinks;
    /// let plan = b"leaf brine : int, whole [-5, 3], rows 8, owners {3, 17}\nfar = abs brine\n";
    /// let view = |rinks: &[u32]| View::of("brine.plan", plan, Rinks::of(rinks).unwrap(), "far");
    /// assert_eq!(view(&[3, 17]).exit_code(), 0);
    /// assert!(view(&[3, 17]).render().0.contains("[-3, +5]"));
    /// assert!(view(&[3]).render().0.contains("owners outside of the reader's set {3}: {17}"));
    /// ```
    pub fn of(file: &str, bytes: &[u8], reader: Rinks, node: &str) -> View {
        let outcome = match text::read_bytes(bytes) {
            // A problem quotes the text, and with it the sheets of leaves.
            Err(_) => Outcome::Unusable("malformed", "it is no plan; `gate cards` says where and why".to_string()),
            Ok(plan) => match plan.node(node) {
                Some(wanted) => Outcome::Asked(Box::new(Asked::of(plan, reader, wanted))),
                None => Outcome::Unusable("unknown node", unknown(&plan, node)),
            },
        };
        View { file: file.to_string(), outcome }
    }

    /// The view of a file that could not be read.
    pub fn unreadable(file: &str, why: String) -> View {
        View { file: file.to_string(), outcome: Outcome::Unusable("unreadable", why) }
    }

    /// 0 shown, 1 refused, 2 if the proved call was not asked.
    pub fn exit_code(&self) -> u8 {
        match &self.outcome {
            Outcome::Asked(asked) => asked.reply.is_err().into(),
            Outcome::Unusable(..) => 2,
        }
    }

    /// "shown", "refused", "malformed", "unreadable" or "unknown node".
    pub fn verdict(&self) -> &'static str {
        match &self.outcome {
            Outcome::Unusable(word, _) => word,
            Outcome::Asked(asked) if asked.reply.is_ok() => "shown",
            Outcome::Asked(_) => "refused",
        }
    }

    /// The view in words: what goes to standard output, and what goes to standard error.
    pub fn render(&self) -> (String, String) {
        match &self.outcome {
            Outcome::Unusable(_, why) => (String::new(), format!("{}: {why}\n", self.file)),
            Outcome::Asked(asked) => (asked.render(&self.file), String::new()),
        }
    }
}

fn unknown(plan: &NamedPlan, word: &str) -> String {
    let help = match nearest(word, plan.names.iter().map(String::as_str)) {
        Some(help) => help,
        None => format!("nodes are {}", plan.names.join(", ")),
    };
    format!("no node {}; {help}", quoted(word))
}

impl Asked {
    fn of(mut plan: NamedPlan, reader: Rinks, wanted: usize) -> Asked {
        let leaves = std::mem::take(&mut plan.leaves);
        let reply = plan.plan.reveal(&leaves, &plan.owner_sets(), reader, wanted);
        Asked { plan, reader, wanted, reply }
    }

    /// The owners of the wanted node.
    pub fn owners(&self) -> Rinks {
        self.plan.owners_of(self.wanted)
    }

    /// What should be known of the sheet shown, as far as the sheet itself says it.
    pub fn notes(&self) -> Vec<String> {
        match &self.reply {
            Ok(sheet) => notes::of_one(&self.plan, self.wanted, sheet),
            Err(_) => Vec::new(),
        }
    }

    /// Why the node was not shown, if it was not. Lines are left out, since they tell how long the leaves above are.
    pub fn stop(&self) -> Option<Stop> {
        let stopped = *self.reply.as_ref().err()?;
        let place = stopped.node.map_or("the plan".to_string(), |node| self.plan.place(node));
        let causes = causes::of_reveal(stopped.refusal, &self.plan.plan, &self.plan.owner_sets(), self.reader, self.wanted);
        Some(Stop { stopped, place, causes })
    }

    /// The wanted node as it is called.
    fn name(&self) -> String {
        match self.plan.name(self.wanted) {
            "" => format!("node {}", self.wanted),
            name => format!("node {} `{name}`", self.wanted),
        }
    }

    /// Why the node is shown.
    fn reason(&self) -> String {
        let (owners, reader) = (self.owners(), self.reader);
        if owners.is_empty() {
            return "which has no owners and is shown to everybody".to_string();
        }
        if owners.outside(reader).is_empty() {
            return format!("whose owners {owners} all lie in the reader's set {reader}");
        }
        format!("which has {} owners {owners}: with five or more a node is shown to everybody", owners.count())
    }

    fn render(&self, file: &str) -> String {
        match (&self.reply, self.stop()) {
            (Ok(sheet), _) => {
                let table = table::of_one(&self.plan, self.wanted, sheet);
                format!("{file}: shown: {}, {}\n\n{table}{}", self.name(), self.reason(), notes::render(&self.notes()))
            }
            (Err(stopped), stop) => {
                let words = stop.map_or(String::new(), |stop| stop.render());
                format!("{file}: refused with {}: {} is wanted\n\n{words}", stopped.refusal.code(), self.name())
            }
        }
    }
}
