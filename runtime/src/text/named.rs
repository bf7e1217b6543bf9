//! A plan as its text states it.

use crate::plan::Plan;
use crate::rinks::Rinks;
use crate::sheet::Sheet;

/// A plan with the names of its nodes, as a text states it.
#[derive(Clone, Debug)]
pub struct NamedPlan {
    /// The plan.
    pub plan: Plan,
    /// The leaves' sheets.
    pub leaves: Vec<Sheet>,
    /// The leaves' owners, `None` where the text gives none.
    pub owners: Vec<Option<Rinks>>,
    /// Each node's name.
    pub names: Vec<String>,
    /// Each node's line in the text, from 1.
    pub lines: Vec<usize>,
}

impl NamedPlan {
    /// A node's name.
    pub fn name(&self, node: usize) -> &str {
        self.names.get(node).map_or("", String::as_str)
    }

    /// The node with this name, or with this number if it begins with a digit, as no name does. A number that no node has is given all the same: the proved call judges it.
    pub fn node(&self, word: &str) -> Option<usize> {
        if word.starts_with(|c: char| c.is_ascii_digit()) {
            return word.parse().ok();
        }
        self.names.iter().position(|name| name == word)
    }

    /// "leaf", or the component and the names of its operands.
    pub fn origin(&self, node: usize) -> String {
        match self.plan.step_of(node) {
            None => "leaf".to_string(),
            Some(step) if step.component.is_unary() => {
                format!("{} {}", step.component, self.name(step.left))
            }
            Some(step) => {
                format!("{} {} {}", step.component, self.name(step.left), self.name(step.right))
            }
        }
    }

    /// The node and where it comes from, for instance "node 4 `ratio` = divide flow gap".
    pub fn place(&self, node: usize) -> String {
        let origin = match self.plan.step_of(node) {
            None => ", a leaf".to_string(),
            Some(_) => format!(" = {}", self.origin(node)),
        };
        format!("node {node} `{}`{origin}", self.name(node))
    }

    /// A set for each leaf: a leaf without owners has the empty one.
    pub fn owner_sets(&self) -> Vec<Rinks> {
        self.owners.iter().map(|owners| owners.unwrap_or_default()).collect()
    }

    /// The owners of a node: those of all leaves that it stands on.
    pub fn owners_of(&self, node: usize) -> Rinks {
        self.plan.owners_of(&self.owner_sets(), node)
    }

    /// The owners of a node, if the text gives owners anywhere: cards of all other plans say nothing of them.
    pub fn stated_owners(&self, node: usize) -> Option<Rinks> {
        self.owners.iter().any(Option::is_some).then(|| self.owners_of(node))
    }
}
