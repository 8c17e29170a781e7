//! The declarations that a lowering hands out, put into place.

use crate::{entry, Refusal, TREE_OUT};

/// Puts the declarations of a list into the tree that it belongs to. Its buffer has room for every tree and is used again.
///
/// Each entry becomes a `var` before the statement that it names, and the excluded keys one `const` at the head of the
/// program. New statements take the lowest marks that tree and list leave free.
///
/// ```
/// let mut joiner = rest_spread::Joiner::new();
///
/// // `a;` and an entry for it with no declarators.
/// let (tree, list) = (b"\x01\x01\x01\x00\x03\x03\x01\x00\x12\x01\x01\x00a", b"\x01\x00\x01\x00\x00\x00\x00\x00");
/// let joined = joiner.join(tree, list)?;
/// assert_eq!(joined, b"\x01\x01\x02\x00\x04\x07\x02\x00\x01\x00\x00\x03\x03\x01\x00\x12\x01\x01\x00a");
/// # Ok::<(), rest_spread::Refusal>(())
/// ```
///
/// A call takes some 0.7 MB of the stack.
#[derive(Clone, Debug)]
pub struct Joiner {
    tree: Vec<u8>,
}

impl Joiner {
    /// A joiner with a buffer of [`TREE_OUT`] bytes.
    #[must_use]
    pub fn new() -> Self {
        Joiner { tree: vec![0; TREE_OUT] }
    }

    /// The joined tree.
    ///
    /// # Errors
    /// [`Refusal::NotATree`] if the first bytes are no rewritten tree, [`Refusal::NotAList`] if the second are no list that
    /// goes with it, [`Refusal::NoSuchStatement`] if an entry names a statement that is not there, and
    /// [`Refusal::TooLong`] if the result has more than 32,768 bytes.
    pub fn join(&mut self, tree: &[u8], list: &[u8]) -> Result<&[u8], Refusal> {
        let joined = entry::join(tree, list, &mut self.tree);
        match Refusal::from_number(joined.answer) {
            Some(refusal) => Err(refusal),
            None => Ok(&self.tree[..joined.tree_len]),
        }
    }
}

impl Default for Joiner {
    fn default() -> Self {
        Self::new()
    }
}
