//! How many literals lead to how many calls.

use crate::{entry, Refusal};

/// Of all patterns of `n` items of an object literal, each spread or ordinary, how many give `c` nested calls of the helper
/// `ObjectSpread2` when they are lowered. 0 for `c` above `n`.
///
/// ```
/// use rest_spread::{calls, Refusal};
///
/// // {...a, ...b} and {...a, b} give two, {a, ...b} gives one, {a, b} none.
/// assert_eq!([0, 1, 2, 3].map(|c| calls(2, c)), [Ok(1), Ok(1), Ok(2), Ok(0)]);
/// assert_eq!(calls(33, 0), Err(Refusal::PatternTooLong));
/// ```
///
/// # Errors
/// [`Refusal::PatternTooLong`] if `n` is above 32.
pub fn calls(n: u32, c: u32) -> Result<u32, Refusal> {
    let counted = entry::calls(n, c);
    Refusal::from_number(counted.answer).map_or(Ok(counted.number), Err)
}
