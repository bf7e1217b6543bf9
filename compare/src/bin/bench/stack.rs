//! How deep the calls write on the stack.

use crate::chains;
use crate::classes::classes;
use crate::shown::{runs, take, Reveal};
use crate::ways::{answer, Answer};
use comparison::plans::{lay_out, Plan, Request};
use comparison::proved;
use oracle_list::form::Call;
use oracle_list::sheet::LONGEST;
use std::hint::black_box;

/// A thread of its own, so that the painted part lies inside its stack.
pub fn depths() {
    let run = std::thread::Builder::new().stack_size(1 << 20).spawn(|| {
        let empty = proved::stack_depth(&mut || ());
        println!("an empty closure: {empty} bytes or fewer");
        for class in classes() {
            let deepest = |way: Answer| class.calls.iter().map(|call| single(way, call)).max();
            show(
                class.name,
                deepest(proved::propagate_property).unwrap_or(0),
                deepest(plain_port::propagate_property).unwrap_or(0),
            );
        }
        for (name, chain) in chains::longest() {
            show(
                &format!("plan of {name}"),
                plan(proved::propagate_properties, &chain),
                plan(plain_port::propagate_properties, &chain),
            );
            show(
                &format!("last node shown, of {name}"),
                reveal(proved::reveal_node, &chain),
                reveal(plain_port::reveal_node, &chain),
            );
        }
    });
    run.expect("a thread").join().expect("no panic");
}

fn show(name: &str, proved: usize, port: usize) {
    println!("{name}: proved {proved} bytes, plain port {port} bytes");
}

fn single(way: Answer, call: &Call) -> usize {
    let mut out = vec![0; LONGEST];
    proved::stack_depth(&mut || {
        black_box(answer(way, call, &mut out));
    })
}

fn plan(way: Plan, request: &Request) -> usize {
    let mut work = lay_out(request, 0);
    proved::stack_depth(&mut || {
        black_box(way(&request.plan, &mut work));
    })
}

fn reveal(way: Reveal, request: &Request) -> usize {
    let (mut work, mut out) = (lay_out(request, 0), vec![0; LONGEST]);
    let [last, ..] = runs(request);
    proved::stack_depth(&mut || take(way, request, &last, &mut work, &mut out))
}
