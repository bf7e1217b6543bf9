//! The table of one node shown to a reader: the last of a chain, its leaf, and a refusal on rights.

use crate::chains;
use crate::clock::{medians, spent};
use comparison::plans::{lay_out, Request};
use comparison::proved;
use oracle_list::sheet::LONGEST;
use std::hint::black_box;

const ROUNDS: usize = 31;
const TURNS: usize = 200;

/// The two that have the call, by the same arguments.
pub type Reveal = fn(&[u8], &[u8], u64, u32, &mut [u8], &mut [u8]) -> (u32, u32);

/// A run over a chain, of which the leaf belongs to one rink.
pub struct Run {
    reader: u64,
    wanted: u32,
    /// What it is to be answered with.
    code: u32,
}

const OWNERS: [u8; 8] = [1, 0, 0, 0, 0, 0, 0, 0];

/// The last node and the leaf for the rink, and the last node for nobody.
pub fn runs(chain: &Request) -> [Run; 3] {
    let last = u32::from(u16::from_le_bytes([chain.plan[0], chain.plan[1]])) - 1;
    let run = |reader, wanted, code| Run {
        reader,
        wanted,
        code,
    };
    [run(1, last, 0), run(1, 0, 0), run(0, last, 30)]
}

/// Takes a run once.
pub fn take(way: Reveal, chain: &Request, run: &Run, work: &mut [u8], out: &mut [u8]) {
    let (code, _) = black_box(way(&chain.plan, &OWNERS, run.reader, run.wanted, work, out));
    assert_eq!(code, run.code, "a run of the benchmark");
}

pub fn table() {
    println!("| ns (median of {ROUNDS} rounds) | plan call | last node shown | its leaf shown | refused with 30 | last node, port | time proved / time port |");
    println!("|---|---|---|---|---|---|---|");
    for (name, chain) in chains::longest() {
        let [last, leaf, refused] = runs(&chain);
        let (mut work, mut out) = (lay_out(&chain, 0), vec![0; LONGEST]);
        let ways: [(Reveal, &Run); 4] = [
            (proved::reveal_node, &last),
            (proved::reveal_node, &leaf),
            (proved::reveal_node, &refused),
            (plain_port::reveal_node, &last),
        ];
        let times = medians(ROUNDS, 5, |way| {
            let seconds = match ways.get(way) {
                Some((call, run)) => spent(TURNS, || take(*call, &chain, run, &mut work, &mut out)),
                None => spent(TURNS, || {
                    black_box(proved::propagate_properties(&chain.plan, &mut work));
                }),
            };
            seconds * 1e9 / TURNS as f64
        });
        println!(
            "| {name} | {:.0} | {:.0} | {:.0} | {:.0} | {:.0} | {:.2} |",
            times[4],
            times[0],
            times[1],
            times[2],
            times[3],
            times[0] / times[3]
        );
    }
}
