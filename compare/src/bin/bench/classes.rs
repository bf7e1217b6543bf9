//! The calls that are timed, a class for each row.

use oracle_list::form::{Call, Mark};
use oracle_list::random::Random;
use oracle_list::sheet::{LONGEST, TEXT};
use oracle_list::{generate, text};

const SEED: u64 = 41;
/// Calls of a drawn class.
const DRAWN: usize = 3000;

/// What the targets take a class for.
#[derive(Clone, Copy, PartialEq, Eq)]
pub enum Role {
    /// Accepted calls of the generator: the class that the ratios are set for.
    Accepted,
    /// A category product of 128 by 128.
    Square,
    /// Texts, which a library from before document 02's S-2 refuses.
    Text,
    Other,
}

pub struct Class {
    pub name: &'static str,
    pub role: Role,
    pub calls: Vec<Call>,
    /// How often the calls are gone through in one measurement.
    pub turns: usize,
}

/// A class of one call.
struct Fixed {
    name: &'static str,
    role: Role,
    component: u32,
    left: &'static str,
    right: &'static str,
    turns: usize,
}

const FIXED: [Fixed; 8] = [
    Fixed {
        name: "Add, whole ranges, 1 column",
        role: Role::Other,
        component: 2,
        left: "W[1,2]",
        right: "W[10,20]",
        turns: 7_000,
    },
    Fixed {
        name: "Multiply, float ranges, 16 columns",
        role: Role::Other,
        component: 4,
        left: "F[-1.5,2.5]*16 columns=16",
        right: "F[-3.0,4.0]*16 columns=16",
        turns: 3_000,
    },
    Fixed {
        name: "Divide, 128 by 128, 1 result",
        role: Role::Square,
        component: 5,
        left: "W{0..127}",
        right: "W{1000..1127}",
        turns: 20,
    },
    Fixed {
        name: "Divide, 128 by 128, 128 results",
        role: Role::Square,
        component: 5,
        left: "W{0..127}",
        right: "W{1..128}",
        turns: 10,
    },
    Fixed {
        name: "Add, 100 by 29, 128 results",
        role: Role::Other,
        component: 2,
        left: "W{0..99}",
        right: "W{0..28}",
        turns: 50,
    },
    Fixed {
        name: "Divide, 128 by 128, spread over 16 columns",
        role: Role::Square,
        component: 5,
        left: "W{0..127} columns=16",
        right: "W{1000..1127} columns=16",
        turns: 3,
    },
    Fixed {
        name: "Negative, 128 categories",
        role: Role::Other,
        component: 9,
        left: "W{0..127}",
        right: "absent",
        turns: 1_500,
    },
    Fixed {
        name: "Add, 11 by 11 texts of 4 bytes, 121 results",
        role: Role::Text,
        component: 2,
        left: "T{11#4}",
        right: "T{11#4}",
        turns: 200,
    },
];

pub fn classes() -> Vec<Class> {
    let mut classes = vec![
        Class {
            name: "accepted, the generator's mix",
            role: Role::Accepted,
            calls: drawn(|code, mark| code == 0 && mark == Mark::Rust),
            turns: 1,
        },
        Class {
            name: "refused by 6 to 23, the generator's mix",
            role: Role::Other,
            calls: drawn(refused),
            turns: 1,
        },
    ];
    classes.extend(FIXED.iter().map(|fixed| Class {
        name: fixed.name,
        role: fixed.role,
        calls: vec![Call {
            component: fixed.component,
            node: 3,
            left: text::bytes(fixed.left),
            right: text::bytes(fixed.right),
            out_len: LONGEST,
        }],
        turns: fixed.turns,
    }));
    classes
}

/// A refusal by the original's own words.
fn refused(code: u32, mark: Mark) -> bool {
    (6..=23).contains(&code) && mark == Mark::Rust
}

/// Generated calls whose answer is wanted. Texts have a row of their own, and range
/// Subtracts, lists that 29 refuses and lists of Abs that lose repeats, which the
/// original answers otherwise, have none: without them all ways agree, and so does a
/// library from before document 02's S-2, S-4, S-5 and S-6.
fn drawn(wanted: impl Fn(u32, Mark) -> bool) -> Vec<Call> {
    let mut random = Random::new(SEED);
    let mut calls = Vec::new();
    while calls.len() < DRAWN {
        let mut call = generate::call(&mut random);
        if [&call.left, &call.right].map(|sheet| sheet.get(6) == Some(&TEXT)) != [false; 2] {
            continue;
        }
        let answer =
            oracle_original::asked(call.component, call.node, &call.left, &call.right, LONGEST);
        if answer.is_some_and(|answer| wanted(answer.code, answer.mark)) {
            call.out_len = LONGEST;
            calls.push(call);
        }
    }
    calls
}
