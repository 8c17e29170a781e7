//! The safe layer over the entry.

use crate::{entry, Helpers, Joiner, List, Options, Refusal, ARCHIVE, LEVELS, LIST_OUT, TREE_OUT, WORK};
use std::fmt;

/// The lowering with its own three buffers, which every call uses again.
///
/// One `Lowerer` serves one thread at a time; several are independent of each other.
///
/// ```
/// use rest_spread::{Lowerer, Options};
///
/// let mut lowerer = Lowerer::new();
/// for tree in [b"\x01\x01\x00\x00", b"no t"] {
///     match lowerer.lower(Options::NONE, tree) {
///         Ok(lowered) => assert_eq!(lowered.tree, tree),
///         Err(refusal) => eprintln!("{}", lowerer.explain(tree, refusal)),
///     }
/// }
/// ```
pub struct Lowerer {
    /// The depth limit, if one was named.
    depth: Option<u32>,
    tree: Box<[u8]>,
    list: Box<[u8]>,
    work: Box<[u8]>,
}

/// A lowered tree. It lies in the buffers of its [`Lowerer`], until the next call.
///
/// ```
/// use rest_spread::{Lowerer, Options};
///
/// let mut lowerer = Lowerer::new();
/// let lowered = lowerer.lower(Options::LOOSE, b"\x01\x01\x00\x00")?;
/// assert_eq!((lowered.tree, lowered.list.bytes()), (&b"\x01\x01\x00\x00"[..], &[0; 4][..]));
/// assert!(lowered.helpers.is_empty() && lowered.leftovers().is_empty());
/// assert_eq!(lowered.options, Options::LOOSE);
/// # Ok::<(), rest_spread::Refusal>(())
/// ```
#[derive(Clone, Copy, Debug, PartialEq, Eq)]
#[non_exhaustive]
pub struct Lowered<'a> {
    /// The tree, with temporaries and helper calls.
    pub tree: &'a [u8],
    /// The declarations that belong to it.
    pub list: List<'a>,
    /// The helpers that it calls.
    pub helpers: Helpers,
    /// Those of the given options that are in force: not the 8. None of them is implemented; the tree is the same without
    /// them.
    pub options: Options,
}

impl Lowered<'_> {
    /// The program that is loaded: the tree with the declarations of the list in place. A [`Joiner`] that is kept does the
    /// same over one buffer.
    ///
    /// ```
    /// use rest_spread::{Lowerer, Options};
    ///
    /// let mut lowerer = Lowerer::new();
    /// let lowered = lowerer.lower(Options::NONE, b"\x01\x01\x00\x00")?;
    /// assert_eq!(lowered.joined()?, lowered.tree);
    /// # Ok::<(), rest_spread::Refusal>(())
    /// ```
    ///
    /// # Errors
    /// As of [`Joiner::join`]: [`Refusal::TooLong`] if it has more than 32,768 bytes; [`Refusal::NotATree`] or
    /// [`Refusal::NotAList`] if a mark stands twice in what was lowered.
    pub fn joined(&self) -> Result<Vec<u8>, Refusal> {
        Joiner::new().join(self.tree, self.list.bytes()).map(<[u8]>::to_vec)
    }
}

impl Lowerer {
    /// Makes the buffers, 114,688 bytes in all. The depth limit is 128.
    ///
    /// # Panics
    /// If the archive that was linked is of another version than this crate is for.
    #[must_use]
    pub fn new() -> Self {
        Self::within(None)
    }

    /// The same with another depth limit: a tree of more levels is refused with 4. Any number will do; with 0, and with
    /// everything above 128, each call is refused with 9.
    ///
    /// ```
    /// use rest_spread::{Lowerer, Options, Refusal};
    ///
    /// // A Program with an Empty in it has two levels.
    /// let tree = b"\x01\x01\x01\x00\x0d\x01\x01\x00";
    /// let refusal = |depth| Lowerer::with_depth(depth).lower(Options::NONE, tree).err();
    /// assert_eq!([2, 1, 0].map(refusal), [None, Some(Refusal::TooDeep), Some(Refusal::LimitOutside)]);
    /// ```
    ///
    /// # Panics
    /// As [`new`](Self::new) does.
    #[must_use]
    pub fn with_depth(depth: u32) -> Self {
        Self::within(Some(depth))
    }

    fn within(depth: Option<u32>) -> Self {
        compare(entry::version());
        let zeros = |length| vec![0; length].into_boxed_slice();
        Self { depth, tree: zeros(TREE_OUT), list: zeros(LIST_OUT), work: zeros(WORK) }
    }

    /// The depth limit: the one that was named, or 128.
    #[must_use]
    pub fn depth(&self) -> u32 {
        self.depth.unwrap_or(LEVELS)
    }

    /// Lowers a tree.
    ///
    /// # Errors
    /// The refusal that the documents have for this input. Then the buffers are zero, and nothing is to be loaded;
    /// [`explain`](Self::explain) tells more about it.
    pub fn lower(&mut self, options: Options, tree: &[u8]) -> Result<Lowered<'_>, Refusal> {
        let (options, tree_out, list_out, work) = (options.bits(), &mut self.tree, &mut self.list, &mut self.work);
        let outcome = match self.depth {
            None => entry::lower(options, tree, tree_out, list_out, work),
            Some(depth) => entry::lower_within(depth, options, tree, tree_out, list_out, work),
        };
        match Refusal::from_number(outcome.answer) {
            Some(refusal) => Err(refusal),
            None => Ok(Lowered {
                tree: &self.tree[..outcome.tree_len],
                list: List::new(&self.list[..outcome.list_len]),
                helpers: Helpers::from_bits(outcome.helpers),
                options: Options::from_bits(outcome.options.into()),
            }),
        }
    }
}

fn compare(linked: u32) {
    assert!(linked == ARCHIVE, "the archive is of version {linked}, and this loader is for {ARCHIVE}: build both anew");
}

impl Default for Lowerer {
    fn default() -> Self {
        Self::new()
    }
}

impl fmt::Debug for Lowerer {
    fn fmt(&self, f: &mut fmt::Formatter<'_>) -> fmt::Result {
        f.debug_struct("Lowerer").field("depth", &self.depth()).finish_non_exhaustive()
    }
}

#[cfg(test)]
mod tests {
    use super::*;

    /// `({...a})`
    const LISTING: &[u8] = b"\x01\x01\x01\x00\x03\x03\x01\x00\x18\x01\x01\x00\x1a\x01\x12\x01\x01\x00a";

    #[test]
    fn a_call_leaves_its_result_and_zeros() {
        let mut lowerer = Lowerer::new();
        for (tree, length) in [(LISTING, 24), (b"", 0), (LISTING, 24)] {
            let written = lowerer.lower(Options::NONE, tree).map_or(0, |lowered| lowered.tree.len());
            assert_eq!(written, length);
            let behind = [&lowerer.tree[length..], &lowerer.list[..], &lowerer.work[..]].concat();
            assert!(behind.iter().all(|&byte| byte == 0));
        }
    }

    #[test]
    #[should_panic(expected = "the archive is of version 7, and this loader is for ")]
    fn another_version_is_not_taken() {
        compare(7);
    }

    #[test]
    fn the_archive_is_of_this_version() {
        assert_eq!(entry::version(), ARCHIVE);
    }
}
