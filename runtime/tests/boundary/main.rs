//! The three proved calls from Rust: every refusal, every lent byte, rights, threads, and the forms of sheets and plans.

mod canaries;
mod causes;
mod differences;
mod lists;
mod made;
mod mapped;
mod powers;
mod refusals;
mod rights;
mod round_trips;
mod texts;
mod threads;
