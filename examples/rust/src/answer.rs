//! What bytes are to validators.

use crate::library;
use core::fmt;

/// What bytes break, exceed or are outside of.
#[derive(Clone, Copy, Debug, PartialEq, Eq)]
pub struct Rule {
    pub(crate) number: usize,
}

impl Rule {
    /// Its number in `lupinanon.h`, which all versions keep.
    pub fn number(self) -> usize {
        self.number
    }

    /// The rule in words.
    pub fn text(self) -> &'static str {
        library::rule_text(self.number)
    }
}

impl fmt::Display for Rule {
    fn fmt(&self, f: &mut fmt::Formatter<'_>) -> fmt::Result {
        f.write_str(self.text())
    }
}

/// What bytes are to whoever tests a validator.
#[derive(Clone, Copy, Debug, PartialEq, Eq)]
#[non_exhaustive]
pub enum Answer {
    /// A component that a validator has to accept, if it has all features and no lower bounds than wasmparser.
    Valid,
    /// No validator may accept them: what is broken, and where.
    Invalid { rule: Rule, offset: usize },
    /// A well-formed component beyond a bound of wasmparser's own.
    Bound { rule: Rule, offset: usize },
    /// Nothing is known: a validator may accept or refuse them.
    Outside { rule: Rule, offset: usize },
}

impl fmt::Display for Answer {
    fn fmt(&self, f: &mut fmt::Formatter<'_>) -> fmt::Result {
        match self {
            Answer::Valid => f.write_str("valid"),
            Answer::Invalid { rule, offset } => write!(f, "invalid: {rule} at offset {offset}"),
            Answer::Bound { rule, offset } => write!(f, "bound: {rule} at offset {offset}"),
            Answer::Outside { rule, offset } => write!(f, "outside: {rule} at offset {offset}"),
        }
    }
}
