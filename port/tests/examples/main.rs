//! Worked examples and traps, on sheets laid out by hand. `compare/tests/examples.rs` puts the proved library in the port's place.

mod counted;
mod made;
mod mapped;
mod pool;
mod power;
mod reveal;
mod reveal_models;
mod shelf;
mod sign;
mod subtract;
mod text;
mod walked;

/// Who answers.
mod answering {
    pub use plain_port::{propagate_properties, propagate_property, reveal_node};
}
