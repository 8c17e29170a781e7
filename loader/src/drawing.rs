//! Trees that are drawn from seeds: the same everywhere.

use crate::{entry, Refusal, DRAWN};

/// A drawn tree.
///
/// ```
/// let drawing = rest_spread::draw(9_000_000)?;
/// assert_eq!((drawing.seed, drawing.tree.len()), (9_000_000, 4));
/// # Ok::<(), rest_spread::Refusal>(())
/// ```
#[derive(Clone, Debug, PartialEq, Eq)]
pub struct Drawing {
    /// The seed that it was drawn from.
    pub seed: u32,
    /// Its bytes. A lowerer takes them.
    pub tree: Vec<u8>,
    /// The generator's state after it, which is the next seed of a series, and never 0.
    pub next: u32,
}

/// Draws the tree of a seed.
///
/// ```
/// use rest_spread::{draw, Refusal};
///
/// let drawing = draw(9_000_000)?;
/// assert_eq!((drawing.tree, drawing.next), (vec![1, 1, 0, 0], 1_781_098_816));
/// assert_eq!(draw(0).unwrap_err(), Refusal::ZeroSeed);
/// # Ok::<(), Refusal>(())
/// ```
///
/// # Errors
/// [`Refusal::ZeroSeed`] for 0.
pub fn draw(seed: u32) -> Result<Drawing, Refusal> {
    let mut tree = vec![0; DRAWN];
    let drawn = entry::draw(seed, &mut tree);
    if let Some(refusal) = Refusal::from_number(drawn.answer) {
        return Err(refusal);
    }
    tree.truncate(drawn.tree_len);
    Ok(Drawing { seed, tree, next: drawn.next })
}

/// A series of trees without end: each is drawn from the state after the one before it.
///
/// ```
/// use rest_spread::{draw, Series};
///
/// let trees: Vec<_> = Series::from_seed(5)?.take(3).collect();
/// assert_eq!(draw(trees[1].next)?, trees[2]);
/// # Ok::<(), rest_spread::Refusal>(())
/// ```
#[derive(Clone, Debug)]
pub struct Series {
    next: u32,
}

impl Series {
    /// The series that begins with the tree of this seed.
    ///
    /// # Errors
    /// [`Refusal::ZeroSeed`] for 0.
    pub fn from_seed(seed: u32) -> Result<Self, Refusal> {
        if seed == 0 {
            return Err(Refusal::ZeroSeed);
        }
        Ok(Series { next: seed })
    }
}

impl Iterator for Series {
    type Item = Drawing;

    fn next(&mut self) -> Option<Drawing> {
        let drawing = draw(self.next).ok()?;
        self.next = drawing.next;
        Some(drawing)
    }
}
