//! The helpers that a lowered tree calls.

use std::fmt;

/// `helpers/helpers.js` of the repository.
const SOURCE: &str = include_str!("../../helpers/helpers.js");

/// A function that lowered code calls, with document 01's numbers.
///
/// ```
/// use rest_spread::Helper;
///
/// let helper = Helper::from_number(2).unwrap();
/// assert_eq!((helper, helper.name(), helper.function()), (Helper::Extends, "extends", "Extends"));
/// assert!(helper.source().starts_with("function Extends() {"));
/// ```
#[derive(Clone, Copy, Debug, PartialEq, Eq, PartialOrd, Ord, Hash)]
#[non_exhaustive]
#[repr(u8)]
pub enum Helper {
    /// Copies sources into an object: the spreads of a literal.
    ObjectSpread2 = 1,
    /// Copies one object into another: a rest without other properties.
    Extends = 2,
    /// Throws if its argument is null or undefined.
    ObjectDestructuringEmpty = 3,
    /// Copies an object without some of its keys: any other rest.
    ObjectWithoutProperties = 4,
    /// Makes a property key of a value.
    ToPropertyKey = 5,
}

impl Helper {
    /// All helpers, by number.
    pub const ALL: &'static [Helper] = &[
        Helper::ObjectSpread2,
        Helper::Extends,
        Helper::ObjectDestructuringEmpty,
        Helper::ObjectWithoutProperties,
        Helper::ToPropertyKey,
    ];

    /// The number that a Helper node (kind 21) has.
    #[must_use]
    pub fn number(self) -> u8 {
        self as u8
    }

    /// The helper with this number.
    #[must_use]
    pub fn from_number(number: u8) -> Option<Self> {
        Self::ALL.iter().copied().find(|helper| helper.number() == number)
    }

    /// Babel's name for it.
    #[must_use]
    pub fn name(self) -> &'static str {
        match self {
            Helper::ObjectSpread2 => "objectSpread2",
            Helper::Extends => "extends",
            Helper::ObjectDestructuringEmpty => "objectDestructuringEmpty",
            Helper::ObjectWithoutProperties => "objectWithoutProperties",
            Helper::ToPropertyKey => "toPropertyKey",
        }
    }

    /// The name of its function in [`source`](Self::source): document 01's name for it.
    #[must_use]
    pub fn function(self) -> &'static str {
        self.functions()[self.functions().len() - 1]
    }

    /// Babel's text of it: its function, and in front of that the functions that it calls. [`Helpers::source`] has the
    /// text of several. Babel's licence, MIT, is in the repository's NOTICE.
    #[must_use]
    pub fn source(self) -> &'static str {
        let functions = self.functions();
        let (first, last) = (function(functions[0]), function(functions[functions.len() - 1]));
        &SOURCE[first.0..last.1]
    }

    /// The functions of its text, which stand one behind the other in the file, its own last.
    fn functions(self) -> &'static [&'static str] {
        match self {
            Helper::ObjectSpread2 => &["toPrimitive", "ToPropertyKey", "_defineProperty", "ownKeys", "ObjectSpread2"],
            Helper::Extends => &["Extends"],
            Helper::ObjectDestructuringEmpty => &["ObjectDestructuringEmpty"],
            Helper::ObjectWithoutProperties => &["_objectWithoutPropertiesLoose", "ObjectWithoutProperties"],
            Helper::ToPropertyKey => &["toPrimitive", "ToPropertyKey"],
        }
    }

    fn bit(self) -> u8 {
        1 << (self.number() - 1)
    }
}

impl fmt::Display for Helper {
    fn fmt(&self, f: &mut fmt::Formatter<'_>) -> fmt::Result {
        f.write_str(self.name())
    }
}

/// Where a function begins and ends in the file. `helpers.js` is compiled in, and a test has each.
fn function(name: &str) -> (usize, usize) {
    let begin = SOURCE.find(&format!("function {name}(")).expect("helpers.js has the function");
    let end = SOURCE[begin..].find("\n}\n").expect("a function ends");
    (begin, begin + end + "\n}\n".len())
}

/// A set of helpers. It prints as their names.
///
/// ```
/// use rest_spread::{Helper, Lowerer, Options};
///
/// // ({...a})
/// let tree = b"\x01\x01\x01\x00\x03\x03\x01\x00\x18\x01\x01\x00\x1a\x01\x12\x01\x01\x00a";
/// let mut lowerer = Lowerer::new();
/// let helpers = lowerer.lower(Options::NONE, tree)?.helpers;
/// assert!(helpers.contains(Helper::ObjectSpread2));
/// assert_eq!(helpers.to_string(), "objectSpread2");
/// assert!(helpers.source().contains("function ObjectSpread2("));
/// # Ok::<(), rest_spread::Refusal>(())
/// ```
#[derive(Clone, Copy, Debug, Default, PartialEq, Eq, Hash)]
pub struct Helpers(u8);

impl Helpers {
    pub(crate) fn from_bits(bits: u8) -> Self {
        Self(bits)
    }

    /// All five.
    pub const ALL: Helpers = Helpers(31);

    /// The mask: bit 0 for number 1, and so on.
    #[must_use]
    pub fn bits(self) -> u8 {
        self.0
    }

    /// Whether it is in the set.
    #[must_use]
    pub fn contains(self, helper: Helper) -> bool {
        self.0 & helper.bit() != 0
    }

    /// Whether none is.
    #[must_use]
    pub fn is_empty(self) -> bool {
        self.0 == 0
    }

    /// Those in the set, by number.
    pub fn iter(self) -> impl Iterator<Item = Helper> {
        Helper::ALL.iter().copied().filter(move |&helper| self.contains(helper))
    }

    /// The text of all in the set, each function once, with Babel's notice above it. A loader runs it ahead of the lowered
    /// script.
    #[must_use]
    pub fn source(self) -> String {
        let (notice, _) = SOURCE.split_once("\n\nfunction ").expect("helpers.js begins with a notice");
        let mut texts: Vec<(usize, usize)> =
            self.iter().flat_map(|h| h.functions()).map(|name| function(name)).collect();
        texts.sort_unstable();
        texts.dedup();
        let functions = texts.iter().map(|&(begin, end)| &SOURCE[begin..end]);
        [format!("{notice}\n").as_str()].into_iter().chain(functions).collect::<Vec<_>>().join("\n")
    }
}

impl fmt::Display for Helpers {
    fn fmt(&self, f: &mut fmt::Formatter<'_>) -> fmt::Result {
        write_names(f, self.iter().map(Helper::name))
    }
}

/// Writes names with commas between them, or `none`.
pub(crate) fn write_names(f: &mut fmt::Formatter<'_>, names: impl Iterator<Item = &'static str>) -> fmt::Result {
    let names: Vec<&str> = names.collect();
    match names.is_empty() {
        true => f.write_str("none"),
        false => f.write_str(&names.join(", ")),
    }
}

#[cfg(test)]
mod tests {
    use super::*;

    #[test]
    fn sets_have_the_helpers_of_their_bits() {
        for bits in 0..32 {
            let set = Helpers::from_bits(bits);
            assert_eq!(set.iter().map(Helper::bit).sum::<u8>(), bits);
            assert_eq!(set.is_empty(), bits == 0);
        }
        assert_eq!(Helpers::from_bits(0).to_string(), "none");
        assert_eq!(Helpers::from_bits(9).to_string(), "objectSpread2, objectWithoutProperties");
    }

    #[test]
    fn each_has_its_text() {
        for &helper in Helper::ALL {
            let source = helper.source();
            for name in helper.functions() {
                assert!(source.contains(&format!("function {name}(")), "{name}");
            }
            let begins =
                source.match_indices("function ").filter(|(at, _)| *at == 0 || source[..*at].ends_with("\n\n"));
            assert_eq!(begins.count(), helper.functions().len(), "{helper}");
            assert!(
                source.ends_with("\n}\n") && source.matches('{').count() == source.matches('}').count(),
                "{helper}"
            );
            assert_eq!(helper.function(), format!("{helper:?}"));
        }
        let all = Helpers::ALL.source();
        assert_eq!(all.matches("\nfunction ").count(), 9, "each function once");
        assert_eq!(all, SOURCE, "all of the file");
        assert!(Helpers::default().source().contains("Copyright (c) 2014-present Sebastian McKenzie"));
    }

    #[test]
    fn numbers_go_there_and_back() {
        for number in 0..=255 {
            let helper = Helper::from_number(number);
            assert_eq!(helper.is_some(), (1..=5).contains(&number));
            assert!(helper.is_none_or(|h| h.number() == number));
        }
    }
}
