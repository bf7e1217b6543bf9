//! What runs came to, by name.

use super::{owners_of, Expected, Request, Walk, ENOUGH};
use crate::plans::LEAF_CODES;
use oracle_list::sheet::Sheet;
use std::collections::BTreeSet;
use std::fmt;

/// What is known of a run.
pub struct Seen<'a> {
    pub request: &'a Request,
    pub out_len: usize,
    pub walk: Option<&'a Walk>,
    /// Whether the plan call accepts.
    pub accepted: bool,
    pub wanted: &'a Expected,
}

type Outcome = (&'static str, fn(&Seen) -> bool);

pub const OUTCOMES: [Outcome; 30] = [
    ("shown, no owners", |s| s.shown() && s.owners() == 0),
    ("shown by the reader's set alone", |s| {
        s.shown() && s.owners() > 0 && s.outside() == 0 && s.count() < ENOUGH
    }),
    ("shown by five owners or more alone", |s| {
        s.shown() && s.outside() > 0
    }),
    ("shown by both", |s| {
        s.shown() && s.outside() == 0 && s.count() >= ENOUGH
    }),
    ("shown by just five", |s| {
        s.shown() && s.outside() > 0 && s.count() == ENOUGH
    }),
    ("a leaf shown", |s| s.shown() && s.wants_leaf()),
    ("shown in an output of its length", |s| {
        s.shown() && s.out_len == s.wanted.shown.len()
    }),
    ("shown beside an unwalked leaf that 3 to 5 refuse", |s| {
        s.shown() && s.refuses_leaf(false)
    }),
    ("shown beside an unwalked step that is refused", |s| {
        s.shown() && s.refuses_step()
    }),
    ("shown, and 5 would refuse it", |s| {
        s.shown() && Sheet::decode(&s.wanted.shown).is_err()
    }),
    ("shown of an accepted plan", |s| s.shown() && s.accepted),
    ("30", |s| s.code() == 30),
    ("30, four owners", |s| s.code() == 30 && s.count() == 4),
    ("30, one owner outside the set", |s| {
        s.code() == 30 && s.outside().count_ones() == 1
    }),
    ("30, a leaf", |s| s.code() == 30 && s.wants_leaf()),
    ("30 over a walked leaf that 3 to 5 refuse", |s| {
        s.code() == 30 && s.refuses_leaf(true)
    }),
    ("30 of an accepted plan", |s| s.code() == 30 && s.accepted),
    ("1, the plan", |s| s.walk.is_none()),
    ("1, the wanted node", |s| s.wants_none()),
    ("1, the owners' length", |s| {
        s.odd_owners() && !s.wants_none()
    }),
    ("1 beside an accepted plan", |s| s.code() == 1 && s.accepted),
    ("27, the work buffer", |s| s.short_work()),
    ("27, the work buffer, without the right", |s| {
        s.short_work() && s.outside() > 0 && s.count() < ENOUGH
    }),
    ("27, the output", |s| s.code() == 27 && !s.short_work()),
    ("27, the output, a leaf", |s| {
        s.code() == 27 && !s.short_work() && s.wants_leaf()
    }),
    ("a leaf's 3", |s| s.leaf_code() == Some(LEAF_CODES[0])),
    ("a leaf's 4", |s| s.leaf_code() == Some(LEAF_CODES[1])),
    ("a leaf's 5", |s| s.leaf_code() == Some(LEAF_CODES[2])),
    ("a step refused, the first walked", |s| {
        s.is_step_code() && s.wanted.written.is_empty()
    }),
    ("a step refused behind walked ones", |s| {
        s.is_step_code() && !s.wanted.written.is_empty()
    }),
];

impl Seen<'_> {
    fn code(&self) -> u32 {
        self.wanted.reply.0
    }

    fn shown(&self) -> bool {
        self.code() == 0
    }

    fn wants_none(&self) -> bool {
        self.walk
            .is_some_and(|walk| self.request.wanted as usize >= walk.nodes())
    }

    fn wants_leaf(&self) -> bool {
        self.walk
            .is_some_and(|walk| (self.request.wanted as usize) < walk.leaves)
    }

    fn odd_owners(&self) -> bool {
        self.walk
            .is_some_and(|walk| self.request.owners.len() != 8 * walk.leaves)
    }

    /// The nodes below the wanted one, if there is one.
    fn walked(&self) -> BTreeSet<usize> {
        match self.walk {
            Some(walk) if !self.wants_none() => walk.stands_on(self.request.wanted as usize),
            _ => BTreeSet::new(),
        }
    }

    fn owners(&self) -> u64 {
        owners_of(&self.walked(), &self.request.owners)
    }

    fn count(&self) -> u32 {
        self.owners().count_ones()
    }

    fn outside(&self) -> u64 {
        self.owners() & !self.request.reader
    }

    /// Over a short buffer no node is looked at.
    fn short_work(&self) -> bool {
        self.code() == 27 && self.walk.is_some_and(|walk| walk.found.is_empty())
    }

    /// Whether a leaf, walked or not, is refused.
    fn refuses_leaf(&self, walked: bool) -> bool {
        let set = self.walked();
        self.walk.is_some_and(|walk| {
            (0..walk.leaves).any(|l| set.contains(&l) == walked && walk.refusal(l).is_some())
        })
    }

    fn refuses_step(&self) -> bool {
        self.walk
            .is_some_and(|walk| (walk.leaves..walk.nodes()).any(|n| walk.refusal(n).is_some()))
    }

    /// The refusal of a node below the leaves' end, or above it.
    fn node_code(&self, leaf: bool) -> Option<u32> {
        let (code, node) = self.wanted.reply;
        let leaves = self.walk?.leaves;
        let at_node = ![0, 1, 27, 30].contains(&code);
        (at_node && ((node as usize) < leaves) == leaf).then_some(code)
    }

    fn leaf_code(&self) -> Option<u32> {
        self.node_code(true)
    }

    fn is_step_code(&self) -> bool {
        self.node_code(false).is_some()
    }
}

/// How many runs came to each.
#[derive(Default)]
pub struct Outcomes([usize; OUTCOMES.len()]);

impl Outcomes {
    pub fn count(&mut self, seen: &Seen) {
        for (count, (_, came)) in self.0.iter_mut().zip(OUTCOMES) {
            *count += usize::from(came(seen));
        }
    }

    /// Those that no run came to.
    pub fn missing(&self) -> Vec<&'static str> {
        let none = OUTCOMES.iter().zip(self.0).filter(|(_, count)| *count == 0);
        none.map(|((name, _), _)| *name).collect()
    }
}

impl fmt::Display for Outcomes {
    fn fmt(&self, f: &mut fmt::Formatter) -> fmt::Result {
        let words = OUTCOMES.iter().zip(self.0);
        let words: Vec<String> = words
            .map(|((name, _), count)| format!("{name}: {count}"))
            .collect();
        write!(f, "{}", words.join("; "))
    }
}
