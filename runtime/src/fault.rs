//! What a reader in this library finds wrong with bytes.

use crate::refusal::Refusal;
use std::error::Error;
use std::fmt;

/// A departure from a stored form: the refusal that the proved call gives for it, and where it is.
#[derive(Clone, Debug, PartialEq, Eq)]
pub struct Fault {
    /// Document 01's refusal.
    pub refusal: Refusal,
    /// The field, and what it holds.
    pub what: String,
}

impl Fault {
    pub(crate) fn new(refusal: Refusal, what: impl Into<String>) -> Fault {
        Fault { refusal, what: what.into() }
    }
}

impl fmt::Display for Fault {
    fn fmt(&self, f: &mut fmt::Formatter<'_>) -> fmt::Result {
        write!(f, "{}: {}", self.refusal.code(), self.what)
    }
}

impl Error for Fault {}
