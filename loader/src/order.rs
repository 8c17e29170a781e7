//! The order of whole trees.

use crate::{entry, Refusal};
use std::cmp::Ordering;

/// The order of two rewritten trees, such as results, of the first against the second: by kinds, then bit maps, then fields,
/// from the front. Temporaries go by where they first appear and not by their numbers, so two results are equal exactly if
/// they are alike but for these.
///
/// ```
/// use rest_spread::{order, Refusal};
/// use std::cmp::Ordering;
///
/// let (a, b) = (b"\x01\x01\x01\x00\x03\x03\x01\x00\x12\x01\x01\x00a", b"\x01\x01\x01\x00\x03\x03\x01\x00\x12\x01\x01\x00b");
/// assert_eq!([order(a, b), order(a, a), order(b, a)], [Ok(Ordering::Less), Ok(Ordering::Equal), Ok(Ordering::Greater)]);
/// assert_eq!(order(a, b""), Err(Refusal::NotATree));
/// ```
///
/// A call takes some 0.8 MB of the stack.
///
/// # Errors
/// [`Refusal::NotATree`] if one of the two is no rewritten tree.
pub fn order(first: &[u8], second: &[u8]) -> Result<Ordering, Refusal> {
    let ordered = entry::order(first, second);
    Refusal::from_number(ordered.answer).map_or(Ok(ordered.order.cmp(&0)), Err)
}
