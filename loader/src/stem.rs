//! What a temporary is for.

use std::fmt;

/// What a temporary was made for: the second field of a node of kind 20, with request 4's number.
///
/// A number has one stem wherever it stands, so a loader may name variables by both: `_ref1`, `_excluded2`, `_value3`,
/// `_key4`.
///
/// ```
/// use rest_spread::{Field, Node, Stem};
///
/// let (temporary, _) = Node::read(b"\x14\x03\x01\x00\x03").unwrap();
/// let Some(Field::Byte(stem)) = temporary.field(1) else { panic!() };
/// assert_eq!(Stem::from_number(stem), Some(Stem::Value));
/// assert_eq!(Stem::Value.to_string(), "value");
/// ```
#[derive(Clone, Copy, Debug, PartialEq, Eq, PartialOrd, Ord, Hash)]
#[repr(u8)]
pub enum Stem {
    /// 1: it stands in place of a pattern.
    Ref = 1,
    /// 2: the excluded keys of an object with a rest.
    Excluded = 2,
    /// 3: the value of a declarator, or of an assignment to an object with a rest.
    Value = 3,
    /// 4: a key that is read again.
    Key = 4,
}

impl Stem {
    /// All stems, by number.
    pub const ALL: &'static [Stem] = &[Stem::Ref, Stem::Excluded, Stem::Value, Stem::Key];

    /// The stem with this number.
    #[must_use]
    pub fn from_number(number: u8) -> Option<Self> {
        Self::ALL.get(usize::from(number).checked_sub(1)?).copied()
    }

    /// Its number, 1 to 4.
    #[must_use]
    pub fn number(self) -> u8 {
        self as u8
    }

    /// Its name, as a variable may begin with.
    #[must_use]
    pub fn name(self) -> &'static str {
        match self {
            Stem::Ref => "ref",
            Stem::Excluded => "excluded",
            Stem::Value => "value",
            Stem::Key => "key",
        }
    }
}

impl fmt::Display for Stem {
    fn fmt(&self, f: &mut fmt::Formatter<'_>) -> fmt::Result {
        f.write_str(self.name())
    }
}

#[cfg(test)]
mod tests {
    use super::*;

    #[test]
    fn numbers_go_there_and_back() {
        for number in 0..=255 {
            let stem = Stem::from_number(number);
            assert_eq!(stem.is_some(), (1..=4).contains(&number));
            assert!(stem.is_none_or(|stem| stem.number() == number));
        }
    }
}
