//! A second look at an input that was refused: where it is at fault. The refusal is the archive's, and proved. What is
//! said here is advice: it is tested and not proved.

use crate::grammar::{first_fault, Fault, Trouble};
use crate::parts::Asking;
use crate::{Lowerer, Refusal, LEVELS, LIST_OUT, TREE_IN, TREE_OUT};
use std::fmt;

/// Where a refused input is at fault. It is tested and not proved.
///
/// ```
/// use rest_spread::{Advice, Lowerer, Options};
///
/// let mut lowerer = Lowerer::new();
/// let refusal = lowerer.lower(Options::NONE, b"").unwrap_err();
/// assert_eq!(lowerer.explain(b"", refusal).advice, Some(Advice::Empty));
/// ```
#[derive(Clone, Debug, PartialEq, Eq)]
#[non_exhaustive]
pub enum Advice {
    /// Refusal 3: there are no bytes.
    Empty,
    /// Refusal 3: there are more bytes than a tree has.
    TooManyBytes {
        /// How many there are, if they have been counted.
        length: Option<u64>,
    },
    /// Refusal 3: the first byte that makes no tree.
    NoTree(Fault),
    /// Refusal 4: the first node that is too deep.
    Deep(Fault),
    /// A refusal that is met in the walk: the innermost statement of a Program, Block or FunctionBody that is refused for
    /// it by itself.
    Statement {
        /// Its mark.
        mark: u16,
    },
    /// Refusal 7: how long the results would be.
    Lengths {
        /// The tree's length, which may be 32,768.
        tree: usize,
        /// The list's, which may be 16,384.
        list: usize,
    },
}

/// A refusal in words, with advice where there is some. It prints as a line.
///
/// ```
/// use rest_spread::{Lowerer, Options};
///
/// let mut lowerer = Lowerer::new();
/// let refusal = lowerer.lower(Options::NONE, &[0; 70_000]).unwrap_err();
/// let explained = lowerer.explain(&[0; 70_000], refusal);
/// assert_eq!(explained.fault(), "the input has 70,000 bytes, and a tree has at most 16,384");
/// assert_eq!(explained.remedy(), "split the script into smaller ones");
/// ```
#[derive(Clone, Debug, PartialEq, Eq)]
#[non_exhaustive]
#[must_use]
pub struct Explained {
    /// The refusal.
    pub refusal: Refusal,
    /// Where the input is at fault, as far as a second look can tell.
    pub advice: Option<Advice>,
}

/// A refusal with no advice.
impl From<Refusal> for Explained {
    fn from(refusal: Refusal) -> Self {
        Explained { refusal, advice: None }
    }
}

impl Lowerer {
    /// Looks a second time at a tree that this refusal was given for. It may take some hundred calls, and uses the buffers.
    pub fn explain(&mut self, tree: &[u8], refusal: Refusal) -> Explained {
        // A limit above 128 has a refusal of its own, and no tree is looked at.
        let limit = self.depth().min(LEVELS);
        let advice = match refusal {
            Refusal::NotATree => no_tree(tree, limit),
            Refusal::TooDeep => first_fault(tree, limit).filter(is_deep).map(Advice::Deep),
            Refusal::RestBelowArrayRest | Refusal::KeyWithoutForm | Refusal::OtherForm => {
                Asking::new(self).statement(tree, refusal).map(|mark| Advice::Statement { mark })
            }
            Refusal::TooLong => {
                Asking::new(self).lengths(tree).map(|(tree, list)| Advice::Lengths { tree, list }).filter(is_longer)
            }
            _ => None,
        };
        Explained { refusal, advice }
    }
}

fn no_tree(tree: &[u8], limit: u32) -> Option<Advice> {
    match tree.len() {
        0 => Some(Advice::Empty),
        length if length > TREE_IN => Some(Advice::TooManyBytes { length: Some(length as u64) }),
        _ => first_fault(tree, limit).filter(|fault| !is_deep(fault)).map(Advice::NoTree),
    }
}

fn is_deep(fault: &Fault) -> bool {
    matches!(fault.trouble, Trouble::Deep { .. })
}

/// Whether a result passes a limit: with whole buffers it does, or the advice is wrong.
fn is_longer(advice: &Advice) -> bool {
    matches!(*advice, Advice::Lengths { tree, list } if tree > TREE_OUT || list > LIST_OUT)
}

impl Explained {
    /// The same refusal with other advice.
    pub fn with(self, advice: Advice) -> Self {
        Self { advice: Some(advice), ..self }
    }

    /// What is wrong.
    #[must_use]
    pub fn fault(&self) -> String {
        match &self.advice {
            Some(Advice::Empty) => "the input is empty".into(),
            Some(Advice::TooManyBytes { length: Some(length) }) => {
                format!("the input has {} bytes, and a tree has at most {}", grouped(*length), grouped(TREE_IN as u64))
            }
            Some(Advice::TooManyBytes { length: None }) => {
                format!("the input goes on and on, and a tree has at most {} bytes", grouped(TREE_IN as u64))
            }
            Some(Advice::NoTree(_)) => "the input is not a tree".into(),
            Some(Advice::Deep(Fault { trouble: Trouble::Deep { limit }, .. })) => {
                format!("the tree is nested deeper than the limit of {limit}")
            }
            _ => self.refusal.fault().into(),
        }
    }

    /// Where that is, if it is known and not said by the fault.
    #[must_use]
    pub fn place(&self) -> Option<String> {
        match self.advice.as_ref()? {
            Advice::Empty | Advice::TooManyBytes { .. } => None,
            Advice::NoTree(fault) | Advice::Deep(fault) => Some(fault.to_string()),
            Advice::Statement { mark } => Some(format!("statement {mark}")),
            Advice::Lengths { tree, list } => {
                let over = |part: &str, length: usize, limit: usize| {
                    let (length, more) = (grouped(length as u64), length.checked_sub(limit + 1)? + 1);
                    Some(format!("the {part} would have {length} bytes, {} too many", grouped(more as u64)))
                };
                let both = [over("tree", *tree, TREE_OUT), over("list", *list, LIST_OUT)];
                Some(both.into_iter().flatten().collect::<Vec<_>>().join("; "))
            }
        }
    }

    /// What to do about it.
    #[must_use]
    pub fn remedy(&self) -> &'static str {
        match self.advice {
            Some(Advice::Empty) => "see that the exporter came to its end and that the file was copied",
            Some(Advice::TooManyBytes { .. }) => "split the script into smaller ones",
            Some(Advice::NoTree(_)) => "see that it is a tree file and was copied whole, and export it again",
            Some(Advice::Deep(Fault { trouble: Trouble::Deep { limit }, .. })) if limit < LEVELS => {
                "give a higher limit, up to 128; or move inner functions and long nested expressions out, into functions \
                 or variables of their own"
            }
            _ => self.refusal.remedy(),
        }
    }
}

impl fmt::Display for Explained {
    fn fmt(&self, f: &mut fmt::Formatter<'_>) -> fmt::Result {
        write!(f, "refusal {}: {}", self.refusal.number(), self.fault())?;
        if let Some(place) = self.place() {
            write!(f, " ({place})")?;
        }
        write!(f, "; {}", self.remedy())
    }
}

/// A number with commas: 16,384.
fn grouped(number: u64) -> String {
    let digits = number.to_string();
    let groups: Vec<&str> =
        digits.as_bytes().rchunks(3).rev().map(|group| std::str::from_utf8(group).unwrap_or("")).collect();
    groups.join(",")
}

#[cfg(test)]
mod tests {
    use super::*;

    #[test]
    fn numbers_are_grouped() {
        let shown: Vec<String> = [0, 999, 1_000, 16_384, 1_234_567].map(grouped).to_vec();
        assert_eq!(shown, ["0", "999", "1,000", "16,384", "1,234,567"]);
    }

    #[test]
    fn three_has_three_texts() {
        let told = |tree: &[u8]| Lowerer::new().explain(tree, Refusal::NotATree).to_string();
        let all = [told(b""), told(&[1; 70_000]), told(b"\x01\x01\x00\x00\x00")];
        assert_eq!(
            all,
            [
                "refusal 3: the input is empty; see that the exporter came to its end and that the file was copied",
                "refusal 3: the input has 70,000 bytes, and a tree has at most 16,384; split the script into smaller ones",
                "refusal 3: the input is not a tree (byte 4, at the root: the tree has ended, and bytes follow it); see \
                 that it is a tree file and was copied whole, and export it again",
            ]
        );
    }

    #[test]
    fn both_lengths_may_be_told() {
        let explained =
            Explained { refusal: Refusal::TooLong, advice: Some(Advice::Lengths { tree: 32_769, list: 17_384 }) };
        let place = "the tree would have 32,769 bytes, 1 too many; the list would have 17,384 bytes, 1,000 too many";
        assert_eq!(explained.place().unwrap(), place);
    }
}
