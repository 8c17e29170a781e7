//! Why a tree was not lowered.

use std::error::Error;
use std::fmt;

/// Why a call gave no result, with the numbers of document 01 and of the requests.
///
/// ```
/// use rest_spread::{Lowerer, Options, Refusal};
///
/// let refusal = Lowerer::new().lower(Options::from_bits(16), b"").unwrap_err();
/// assert_eq!((refusal, refusal.number()), (Refusal::UnknownOptions, 1));
/// eprintln!("{}: {}", refusal.fault(), refusal.remedy());
/// ```
#[derive(Clone, Copy, Debug, PartialEq, Eq, PartialOrd, Ord, Hash)]
#[non_exhaustive]
pub enum Refusal {
    /// The options are above 15.
    UnknownOptions,
    /// The work slice is too short. A [`Lowerer`](crate::Lowerer) has one that is long enough.
    ShortWork,
    /// The input is too long, or is not a tree.
    NotATree,
    /// A node stands deeper than the limit.
    TooDeep,
    /// An assignment or the head of a loop has an object rest below an array rest.
    RestBelowArrayRest,
    /// An excluded key is a literal without a form, and no number whose string is worked out.
    KeyWithoutForm,
    /// The result passes a limit or a slice.
    TooLong,
    /// The seed is 0, from which nothing can be drawn.
    ZeroSeed,
    /// The depth limit is 0 or above 128.
    LimitOutside,
    /// The text of a tree is longer than the slice. A [`Printer`](crate::Printer) has one that is long enough.
    TextTooLong,
    /// An excluded key is a number whose form is not its string.
    OtherForm,
    /// The bytes are no list, or one with a mark that stands twice, in it or in it and its tree.
    NotAList,
    /// An entry of a list names a statement that its tree has not, or has where no declaration can stand before it.
    NoSuchStatement,
    /// More items than [`calls()`](crate::calls()) counts patterns of.
    PatternTooLong,
    /// A number that this version has no name for: the archive is newer. Such a value is made by
    /// [`from_number`](Self::from_number) alone.
    #[non_exhaustive]
    Unknown(u8),
}

use Refusal::*;

/// Each refusal with its number, what is wrong, and what to do about it.
const TABLE: &[(Refusal, u8, &str, &str)] = &[
    (
        UnknownOptions,
        1,
        "the options are above 15, and only the bits 1, 2 and 4 have a meaning",
        "give the sum of those that you want: 1 loose, 2 useBuiltIns, 4 objectRestNoSymbols",
    ),
    (ShortWork, 2, "the work buffer is shorter than 65,536 bytes", "lend the call 65,536 bytes of work"),
    (
        NotATree,
        3,
        "the input is not a tree, or is longer than 16,384 bytes",
        "see that it is a tree file and was copied whole, and export it again; split a script that is too long",
    ),
    (
        TooDeep,
        4,
        "the tree is nested deeper than the limit allows (128 levels if none was given)",
        "move inner functions and long nested expressions out, into functions or variables of their own",
    ),
    (
        RestBelowArrayRest,
        5,
        "an assignment, or the head of a for loop, takes an object rest from below an array rest, as \
         `[...[{...a}]] = b` does",
        "assign the array rest to a plain name first, and take that apart in a statement of its own",
    ),
    (
        KeyWithoutForm,
        6,
        "an object whose rest is taken has a key that is a literal without its string form, as `{[/q/]: a, ...r}` has",
        "write the key as a name or a string; if it is one already, the exporter has to write its form",
    ),
    (
        TooLong,
        7,
        "the result is too long: the tree may have 32,768 bytes, the list 16,384, and neither more than its buffer",
        "split the script into smaller ones",
    ),
    (ZeroSeed, 8, "the seed is 0, from which no tree can be drawn", "give a seed from 1 to 4,294,967,295"),
    (LimitOutside, 9, "the depth limit is 0 or above 128", "give a limit from 1 to 128, or none, which means 128"),
    (
        TextTooLong,
        10,
        "the text of the tree is longer than the slice that was lent for it",
        "lend the call 294,912 bytes, which hold every text",
    ),
    (
        OtherForm,
        11,
        "an object whose rest is taken has a key that is a number, with a string form that is not that number's",
        "see that the exporter writes the form of the number that it spells, or leaves it off",
    ),
    (
        NotAList,
        12,
        "the list is none, or has a mark that stands twice, in it or in it and the tree",
        "give the tree and the list of one lowering, and see that both were copied whole",
    ),
    (
        NoSuchStatement,
        13,
        "an entry of the list names a statement that does not stand in a body of the tree",
        "give the tree and the list of one lowering",
    ),
    (
        PatternTooLong,
        14,
        "the literals that are asked about have more than 32 items",
        "ask about literals of 32 items or fewer",
    ),
];

const ALL: [Refusal; TABLE.len()] = {
    let mut all = [UnknownOptions; TABLE.len()];
    let mut at = 0;
    while at < all.len() {
        all[at] = TABLE[at].0;
        at += 1;
    }
    all
};

impl Refusal {
    /// All refusals that have a name, by number.
    pub const ALL: &'static [Refusal] = &ALL;

    /// The refusal with this number. 0 is none, since it says that all went well.
    #[must_use]
    pub fn from_number(number: u8) -> Option<Self> {
        let named = TABLE.iter().find(|row| row.1 == number).map(|row| row.0);
        (number > 0).then(|| named.unwrap_or(Unknown(number)))
    }

    /// Its number.
    #[must_use]
    pub fn number(self) -> u8 {
        match self {
            Unknown(number) => number,
            _ => self.row().1,
        }
    }

    /// What is wrong.
    #[must_use]
    pub fn fault(self) -> &'static str {
        self.row().2
    }

    /// What to do about it.
    #[must_use]
    pub fn remedy(self) -> &'static str {
        self.row().3
    }

    fn row(self) -> (Refusal, u8, &'static str, &'static str) {
        let unnamed = (
            self,
            0,
            "the archive refuses the input for a reason that this loader does not know",
            "take the loader that belongs to the archive",
        );
        TABLE.iter().find(|row| row.0 == self).copied().unwrap_or(unnamed)
    }
}

impl fmt::Display for Refusal {
    fn fmt(&self, f: &mut fmt::Formatter<'_>) -> fmt::Result {
        write!(f, "refusal {}: {}; {}", self.number(), self.fault(), self.remedy())
    }
}

impl Error for Refusal {}

#[cfg(test)]
mod tests {
    use super::*;

    #[test]
    fn numbers_go_there_and_back() {
        assert_eq!(Refusal::from_number(0), None);
        for number in 1..=255 {
            let refusal = Refusal::from_number(number).unwrap();
            assert_eq!(refusal.number(), number);
            assert_eq!(refusal == Unknown(number), !Refusal::ALL.contains(&refusal));
        }
        let numbers: Vec<u8> = Refusal::ALL.iter().map(|refusal| refusal.number()).collect();
        assert_eq!(numbers, [1, 2, 3, 4, 5, 6, 7, 8, 9, 10, 11, 12, 13, 14]);
    }

    #[test]
    fn texts_say_what_is_wrong_and_what_to_do() {
        for &refusal in Refusal::ALL.iter().chain(&[Unknown(200)]) {
            let text = refusal.to_string();
            assert!(text.starts_with(&format!("refusal {}: ", refusal.number())), "{text}");
            assert!(text.contains(refusal.fault()) && text.ends_with(refusal.remedy()), "{text}");
        }
        let _: Box<dyn Error + Send + Sync> = Box::new(TooDeep);
    }
}
