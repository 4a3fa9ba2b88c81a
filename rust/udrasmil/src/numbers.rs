//! Policies, and numbers that must not be mixed: rules, positions, refusals, words.

use std::fmt;

/// The most certificates that a chain may have.
const MOST_CERTIFICATES: u32 = 16;
/// The most words that a bundle may have.
const MOST_WORDS: u32 = 8192;

/// Whose rules a chain is judged by.
#[derive(Clone, Copy, Debug, PartialEq, Eq, Hash)]
pub enum Policy {
    /// OpenSSL's: rules 1 to 15.
    OpenSsl,
    /// Chrome's: rules 1 to 20 without 7.
    Chrome,
}

impl Policy {
    /// Whether this policy asks the rule.
    pub fn asks(self, rule: Rule) -> bool {
        match self {
            Policy::OpenSsl => rule.0 <= 15,
            Policy::Chrome => rule.0 != 7,
        }
    }
}

impl fmt::Display for Policy {
    fn fmt(&self, out: &mut fmt::Formatter<'_>) -> fmt::Result {
        out.write_str(match self {
            Policy::OpenSsl => "OpenSSL",
            Policy::Chrome => "Chrome",
        })
    }
}

/// A rule by its number, from 1 to 20.
#[derive(Clone, Copy, Debug, PartialEq, Eq, PartialOrd, Ord, Hash)]
pub struct Rule(u32);

impl Rule {
    /// The rule of this number, if there is one.
    pub fn new(number: u32) -> Option<Self> {
        (1..=20).contains(&number).then_some(Rule(number))
    }

    /// Its number.
    pub fn number(self) -> u32 {
        self.0
    }
}

/// A certificate by its position in the chain: 0 is the leaf, the last one the root.
#[derive(Clone, Copy, Debug, PartialEq, Eq, PartialOrd, Ord, Hash)]
pub struct Position(u32);

impl Position {
    /// This position, if a chain can have it.
    pub fn new(position: u32) -> Option<Self> {
        (position < MOST_CERTIFICATES).then_some(Position(position))
    }

    /// The position as an index.
    pub fn index(self) -> usize {
        self.0 as usize
    }
}

/// A refusal by its number, from 2 to 8.
#[derive(Clone, Copy, Debug, PartialEq, Eq, PartialOrd, Ord, Hash)]
pub struct Refusal(u32);

impl Refusal {
    /// The refusal of this number, if there is one.
    pub fn new(number: u32) -> Option<Self> {
        (2..=8).contains(&number).then_some(Refusal(number))
    }

    /// Its number.
    pub fn number(self) -> u32 {
        self.0
    }
}

/// A word of a bundle, counted from 0.
#[derive(Clone, Copy, Debug, PartialEq, Eq, PartialOrd, Ord, Hash)]
pub struct Word(u32);

impl Word {
    /// This word, if a bundle can have it.
    pub fn new(word: u32) -> Option<Self> {
        (word < MOST_WORDS).then_some(Word(word))
    }

    /// The word as an index.
    pub fn index(self) -> usize {
        self.0 as usize
    }
}

/// Each is shown as its number alone.
macro_rules! shown_as_number {
    ($($name:ident)*) => {$(
        impl fmt::Display for $name {
            fn fmt(&self, out: &mut fmt::Formatter<'_>) -> fmt::Result {
                self.0.fmt(out)
            }
        }
    )*};
}

shown_as_number!(Rule Position Refusal Word);
