//! The library against an earlier one, row by row.

use crate::chains;
use crate::classes::{classes, Class, Role};
use crate::clock::medians;
use crate::ways::{agree, answer, measure_by};
use comparison::proved::{self, before};
use oracle_list::sheet::LONGEST;

/// More than the report's, since two libraries that differ little are told apart.
const ROUNDS: usize = 61;

pub fn table() {
    println!("| ns (medians of interleaved rounds) | before | now | now / before |");
    println!("|---|---|---|---|");
    for class in classes().into_iter().filter(known_before) {
        agree(&class);
        same_answers(&class);
        let calls = (class.calls.len() * class.turns) as f64;
        let ways = [before::propagate_property, proved::propagate_property];
        let taken = medians(ROUNDS, 2, |way| measure_by(ways[way], &class));
        let ns = [taken[0], taken[1]].map(|seconds| seconds * 1e9 / calls);
        show(class.name.to_string(), ns);
    }
    chains::by_two(
        [before::propagate_properties, proved::propagate_properties],
        show,
    );
}

/// Whether the earlier library knows what the class is made of: one from before
/// texts is asked about the other rows alone.
fn known_before(class: &Class) -> bool {
    let mut out = [0u8; LONGEST];
    let mut accepts = |call| answer(before::propagate_property, call, &mut out).0 == 0;
    class.role != Role::Text || class.calls.iter().all(&mut accepts)
}

fn show(name: String, ns: [f64; 2]) {
    println!(
        "| {name} | {:.1} | {:.1} | {:.3} |",
        ns[0],
        ns[1],
        ns[1] / ns[0]
    );
}

fn same_answers(class: &Class) {
    for call in &class.calls {
        let mut outs = [[0u8; LONGEST]; 2];
        let [first, second] = &mut outs;
        let old = answer(before::propagate_property, call, first);
        let new = answer(proved::propagate_property, call, second);
        assert!(
            old == new && outs[0] == outs[1],
            "answers differ on {call:?}"
        );
    }
}
