//! The ten components.

use std::fmt;

/// A component, by the number that documents 01 and 02 give it.
#[derive(Clone, Copy, Debug, PartialEq, Eq, Hash)]
pub enum Component {
    /// Magnitude.
    Abs = 1,
    /// Sum.
    Add = 2,
    /// Difference.
    Subtract = 3,
    /// Product.
    Multiply = 4,
    /// Quotient.
    Divide = 5,
    /// Remainder.
    Modulo = 6,
    /// Logarithm: left is the data, right the base.
    Log = 7,
    /// Power: left is the data, right the exponent.
    Power = 8,
    /// Change of sign.
    Negative = 9,
    /// Two logs in one: the rows of left and then those of right.
    Pool = 10,
}

impl Component {
    /// All of them, by number.
    pub const ALL: [Component; 10] = [
        Component::Abs,
        Component::Add,
        Component::Subtract,
        Component::Multiply,
        Component::Divide,
        Component::Modulo,
        Component::Log,
        Component::Power,
        Component::Negative,
        Component::Pool,
    ];

    /// The numbers that there are, as a cause says it.
    pub(crate) const PERMITTED: &'static str = "permitted 1 to 10";

    /// Its number.
    pub fn number(self) -> u32 {
        self as u32
    }

    /// The component with this number.
    ///
    /// ```
    /// use gate_runtime::Component;
    /// assert_eq!(Component::from_number(3), Some(Component::Subtract));
    /// assert_eq!(Component::from_number(10), Some(Component::Pool));
    /// assert_eq!(Component::from_number(0), None);
    /// ```
    pub fn from_number(number: u32) -> Option<Component> {
        Component::ALL.into_iter().find(|c| c.number() == number)
    }

    /// The word for it in a plan's text.
    pub fn word(self) -> &'static str {
        match self {
            Component::Abs => "abs",
            Component::Add => "add",
            Component::Subtract => "subtract",
            Component::Multiply => "multiply",
            Component::Divide => "divide",
            Component::Modulo => "modulo",
            Component::Log => "log",
            Component::Power => "power",
            Component::Negative => "negative",
            Component::Pool => "pool",
        }
    }

    /// The component with this word.
    pub fn from_word(word: &str) -> Option<Component> {
        Component::ALL.into_iter().find(|c| c.word() == word)
    }

    /// Whether it reads one sheet only.
    pub fn is_unary(self) -> bool {
        matches!(self, Component::Abs | Component::Negative)
    }

    /// Whether its fields are copied from the left sheet, as Modulo, Log and Power do: then the output has left's columns.
    pub fn copies_left(self) -> bool {
        matches!(self, Component::Modulo | Component::Log | Component::Power)
    }
}

impl fmt::Display for Component {
    fn fmt(&self, f: &mut fmt::Formatter<'_>) -> fmt::Result {
        f.write_str(self.word())
    }
}
