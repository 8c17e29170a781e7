//! The options of a call.

use crate::helpers::write_names;
use std::fmt;
use std::ops::BitOr;

/// A sum of options. None of them is implemented: a call reports those that it was given, and lowers as without them.
///
/// Any number can be held, and a call refuses those above 15. 8 may be set and does nothing: that option is retired, and
/// what a call reports is without it.
///
/// ```
/// use rest_spread::Options;
///
/// let options = Options::LOOSE | Options::USE_BUILT_INS;
/// assert_eq!((options.bits(), options.to_string().as_str()), (3, "loose, useBuiltIns"));
/// ```
#[derive(Clone, Copy, Debug, Default, PartialEq, Eq, Hash)]
pub struct Options(u32);

impl Options {
    /// No option.
    pub const NONE: Options = Options(0);
    /// `loose`
    pub const LOOSE: Options = Options(1);
    /// `useBuiltIns`
    pub const USE_BUILT_INS: Options = Options(2);
    /// `objectRestNoSymbols`
    pub const OBJECT_REST_NO_SYMBOLS: Options = Options(4);

    const NAMES: [(Options, &'static str); 3] = [
        (Options::LOOSE, "loose"),
        (Options::USE_BUILT_INS, "useBuiltIns"),
        (Options::OBJECT_REST_NO_SYMBOLS, "objectRestNoSymbols"),
    ];

    /// The options with this sum.
    #[must_use]
    pub const fn from_bits(bits: u32) -> Self {
        Self(bits)
    }

    /// Their sum.
    #[must_use]
    pub const fn bits(self) -> u32 {
        self.0
    }

    /// Whether all of `others` are among these.
    #[must_use]
    pub const fn contains(self, others: Options) -> bool {
        self.0 & others.0 == others.0
    }

    /// The names of those that have one.
    pub fn names(self) -> impl Iterator<Item = &'static str> {
        Self::NAMES.into_iter().filter(move |&(option, _)| self.contains(option)).map(|(_, name)| name)
    }
}

impl BitOr for Options {
    type Output = Options;

    fn bitor(self, other: Options) -> Options {
        Options(self.0 | other.0)
    }
}

impl fmt::Display for Options {
    fn fmt(&self, f: &mut fmt::Formatter<'_>) -> fmt::Result {
        write_names(f, self.names())
    }
}

#[cfg(test)]
mod tests {
    use super::*;

    #[test]
    fn sums_have_the_names_of_their_bits() {
        let two = Options::USE_BUILT_INS | Options::OBJECT_REST_NO_SYMBOLS;
        assert_eq!(two.bits(), 6);
        assert_eq!(two.to_string(), "useBuiltIns, objectRestNoSymbols");
        assert!(two.contains(Options::USE_BUILT_INS) && !two.contains(Options::LOOSE | Options::USE_BUILT_INS));
        assert_eq!(Options::NONE.to_string(), "none");
        assert_eq!(Options::from_bits(15).to_string(), "loose, useBuiltIns, objectRestNoSymbols");
        assert_eq!(Options::from_bits(8).names().count(), 0, "retired");
    }
}
