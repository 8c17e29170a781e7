//! The JavaScript text of a rewritten tree.

use crate::{entry, Refusal, TEXT};

/// Prints rewritten trees, such as lowered ones, as JavaScript. Its buffer has room for every text and is used again.
///
/// ```
/// let mut printer = rest_spread::Printer::new();
/// assert_eq!(printer.text(b"\x01\x01\x01\x00\x03\x03\x01\x00\x12\x01\x01\x00a")?, b"a;\n");
/// # Ok::<(), rest_spread::Refusal>(())
/// ```
#[derive(Clone, Debug)]
pub struct Printer {
    text: Vec<u8>,
}

impl Printer {
    /// A printer with a buffer of [`TEXT`] bytes.
    #[must_use]
    pub fn new() -> Self {
        Printer { text: vec![0; TEXT] }
    }

    /// The text of a tree, a line a statement.
    ///
    /// # Errors
    /// [`Refusal::NotATree`] if the bytes are no rewritten tree. A lowered tree is one unless a mark stands in it twice.
    pub fn text(&mut self, tree: &[u8]) -> Result<&[u8], Refusal> {
        let printed = entry::text(tree, &mut self.text);
        match Refusal::from_number(printed.answer) {
            Some(refusal) => Err(refusal),
            None => Ok(&self.text[..printed.text_len]),
        }
    }
}

impl Default for Printer {
    fn default() -> Self {
        Self::new()
    }
}
