//! The documents' worked examples and traps, answered by the proved library: the port's tests with another answering.

#[path = "../../port/tests/examples/counted.rs"]
mod counted;
#[path = "../../port/tests/examples/made.rs"]
mod made;
#[path = "../../port/tests/examples/mapped.rs"]
mod mapped;
#[path = "../../port/tests/examples/pool.rs"]
mod pool;
#[path = "../../port/tests/examples/power.rs"]
mod power;
#[path = "../../port/tests/examples/reveal.rs"]
mod reveal;
#[path = "../../port/tests/examples/reveal_models.rs"]
mod reveal_models;
#[path = "../../port/tests/examples/shelf.rs"]
mod shelf;
#[path = "../../port/tests/examples/sign.rs"]
mod sign;
#[path = "../../port/tests/examples/subtract.rs"]
mod subtract;
#[path = "../../port/tests/examples/text.rs"]
mod text;
#[path = "../../port/tests/examples/walked.rs"]
mod walked;

/// Who answers.
mod answering {
    pub use comparison::proved::{propagate_properties, propagate_property, reveal_node};
}
