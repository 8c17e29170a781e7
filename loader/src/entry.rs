//! The functions of the archives. All `unsafe` of this crate is here.

#![allow(unsafe_code)]

use std::mem::{offset_of, size_of};

/// What [`lower`] and [`lower_within`] return. The bytes that it writes are in the slices.
///
/// ```
/// use rest_spread::entry;
///
/// let (mut tree, mut list, mut work) = ([1; 100], [1; 100], vec![1; 65_536]);
/// let outcome = entry::lower(0, b"\x01\x01\x00\x00", &mut tree, &mut list, &mut work);
/// assert_eq!((outcome.answer, outcome.tree_len, outcome.list_len), (0, 4, 4));
/// assert!(tree[4..].iter().chain(&list[4..]).chain(&work).all(|&byte| byte == 0));
/// ```
#[repr(C)]
#[derive(Clone, Copy, Debug, PartialEq, Eq)]
pub struct Outcome {
    /// 0, or the number of the refusal. At a refusal all else here is 0.
    pub answer: u8,
    /// The helpers that the written tree calls: bit 0 for number 1, and so on.
    pub helpers: u8,
    /// Those of the given options that are in force: 1, 2 and 4. None of them is implemented.
    pub options: u8,
    /// How many bytes of the tree slice are the lowered tree.
    pub tree_len: usize,
    /// How many bytes of the list slice are the list.
    pub list_len: usize,
}

/// What [`calls`] returns.
///
/// ```
/// let counted = rest_spread::entry::calls(33, 0);
/// assert_eq!((counted.answer, counted.number), (14, 0));
/// ```
#[repr(C)]
#[derive(Clone, Copy, Debug, PartialEq, Eq)]
pub struct Counted {
    /// 0, or 14.
    pub answer: u8,
    /// The number, 0 at a refusal.
    pub number: u32,
}

/// What [`draw`] returns. The bytes of the tree are in the slice.
///
/// ```
/// use rest_spread::entry;
///
/// let mut tree = [1; 10];
/// let drawn = entry::draw(9_000_000, &mut tree);
/// assert_eq!((drawn.answer, drawn.next, drawn.tree_len), (0, 1_781_098_816, 4));
/// assert_eq!(tree, [1, 1, 0, 0, 0, 0, 0, 0, 0, 0]);
/// ```
#[repr(C)]
#[derive(Clone, Copy, Debug, PartialEq, Eq)]
pub struct Drawn {
    /// 0, 7 if the tree is longer than the slice, or 8 for a zero seed. At a refusal all else here is 0.
    pub answer: u8,
    /// The generator's state after the tree.
    pub next: u32,
    /// How many bytes of the slice are the tree.
    pub tree_len: usize,
}

/// What [`order`] returns.
///
/// ```
/// let ordered = rest_spread::entry::order(b"", b"");
/// assert_eq!((ordered.answer, ordered.order), (3, 0));
/// ```
#[repr(C)]
#[derive(Clone, Copy, Debug, PartialEq, Eq)]
pub struct Ordered {
    /// 0, or 3 if one of the two is no rewritten tree.
    pub answer: u8,
    /// -1, 0 or 1: the first is less than the second, equal or greater. 0 at a refusal.
    pub order: i8,
}

/// What [`join`] returns. The bytes of the tree are in the slice.
///
/// ```
/// use rest_spread::entry;
///
/// let (tree, list, mut out) = (b"\x01\x01\x00\x00", [0; 4], [1; 5]);
/// let joined = entry::join(tree, &list, &mut out);
/// assert_eq!((joined.answer, joined.tree_len, out), (0, 4, [1, 1, 0, 0, 0]));
/// assert_eq!(entry::join(tree, b"", &mut out).answer, 12);
/// ```
#[repr(C)]
#[derive(Clone, Copy, Debug, PartialEq, Eq)]
pub struct Joined {
    /// 0, 3 if the tree is no rewritten tree, 12 if the list is none that goes with it, 13 if an entry's statement is not
    /// there, or 7 if the joined tree is longer than the slice or than 32,768 bytes.
    pub answer: u8,
    /// How many bytes of the slice are the tree, 0 at a refusal.
    pub tree_len: usize,
}

/// What [`text`] returns. The bytes of the text are in the slice.
///
/// ```
/// use rest_spread::entry;
///
/// let (tree, mut text) = (b"\x01\x01\x01\x00\x03\x03\x01\x00\x12\x01\x01\x00a", [1; 5]);
/// let printed = entry::text(tree, &mut text);
/// assert_eq!((printed.answer, printed.text_len, &text), (0, 3, b"a;\n\0\0"));
/// assert_eq!(entry::text(tree, &mut text[..2]).answer, 10);
/// ```
#[repr(C)]
#[derive(Clone, Copy, Debug, PartialEq, Eq)]
pub struct Printed {
    /// 0, 3 if the bytes are no rewritten tree, or 10 if the text is longer than the slice.
    pub answer: u8,
    /// How many bytes of the slice are the text, 0 at a refusal.
    pub text_len: usize,
}

/// Marsaglia's generator of 32-bit numbers, which [`advance`] advances in place.
///
/// ```
/// use rest_spread::entry::{advance, Xorshift};
///
/// let mut g = Xorshift { state: 1 };
/// assert_eq!((advance(&mut g), g.state), (270_369, 270_369));
/// ```
#[repr(C)]
#[derive(Clone, Copy, Debug, PartialEq, Eq)]
pub struct Xorshift {
    /// Its state: the number that it gave last, or the seed. From 0 it gives nothing but 0.
    pub state: u32,
}

// The layouts that the archives were compiled with.
const _: () = assert!(size_of::<Drawn>() == 16 && offset_of!(Drawn, answer) == 0);
const _: () = assert!(offset_of!(Drawn, next) == 4 && offset_of!(Drawn, tree_len) == 8);
const _: () = assert!(size_of::<Joined>() == 16);
const _: () = assert!(offset_of!(Joined, answer) == 0 && offset_of!(Joined, tree_len) == 8);
const _: () = assert!(size_of::<Ordered>() == 2);
const _: () = assert!(offset_of!(Ordered, answer) == 0 && offset_of!(Ordered, order) == 1);
const _: () = assert!(size_of::<Printed>() == 16);
const _: () = assert!(offset_of!(Printed, answer) == 0 && offset_of!(Printed, text_len) == 8);
const _: () = assert!(size_of::<Xorshift>() == 4 && offset_of!(Xorshift, state) == 0);
const _: () = assert!(size_of::<Counted>() == 8);
const _: () = assert!(offset_of!(Counted, answer) == 0 && offset_of!(Counted, number) == 4);
const _: () = assert!(size_of::<Outcome>() == 24);
const _: () = assert!(offset_of!(Outcome, answer) == 0 && offset_of!(Outcome, helpers) == 1);
const _: () = assert!(offset_of!(Outcome, options) == 2 && offset_of!(Outcome, tree_len) == 8);
const _: () = assert!(offset_of!(Outcome, list_len) == 16);

extern "C" {
    fn rest_spread_version() -> u32;

    // In libcounting.a.
    fn rest_spread_calls(n: u32, c: u32) -> Counted;

    // In libdrawing.a.
    fn rest_spread_draw(seed: u32, tree_out: *mut u8, tree_out_len: usize) -> Drawn;

    fn xorshift_next(g: *mut Xorshift) -> u32;

    // In libjoining.a.
    fn rest_spread_join(
        tree: *const u8,
        tree_len: usize,
        list: *const u8,
        list_len: usize,
        tree_out: *mut u8,
        tree_out_len: usize,
    ) -> Joined;

    // In libordering.a.
    fn rest_spread_order(first: *const u8, first_len: usize, second: *const u8, second_len: usize) -> Ordered;

    // In libprinter.a.
    fn rest_spread_text(tree: *const u8, tree_len: usize, text_out: *mut u8, text_out_len: usize) -> Printed;

    // In libresult.a.
    fn rest_spread_leftover(tree: *const u8, tree_len: usize) -> u8;

    // In Rattle each slice is one parameter. It is passed as its address and its length.
    fn rest_spread_lower(
        options: u32,
        tree: *const u8,
        tree_len: usize,
        tree_out: *mut u8,
        tree_out_len: usize,
        list_out: *mut u8,
        list_out_len: usize,
        work: *mut u8,
        work_len: usize,
    ) -> Outcome;

    fn rest_spread_lower_within(
        depth: u32,
        options: u32,
        tree: *const u8,
        tree_len: usize,
        tree_out: *mut u8,
        tree_out_len: usize,
        list_out: *mut u8,
        list_out_len: usize,
        work: *mut u8,
        work_len: usize,
    ) -> Outcome;
}

/// The version of the archive that was linked. It is [`ARCHIVE`](crate::ARCHIVE), or a [`Lowerer`](crate::Lowerer) would
/// not be made.
#[must_use]
pub fn version() -> u32 {
    // SAFETY: the function has no arguments, reads and writes nothing, and ends.
    unsafe { rest_spread_version() }
}

/// Lowers `tree`, of at most 128 levels, into `tree_out` and `list_out`.
///
/// Any options, any bytes and slices of any lengths will do; whatever the slices held before is of no account. After
/// success both outputs are zero behind their lengths. After a refusal they are zero throughout. `work` is zero after
/// every call.
#[must_use]
pub fn lower(options: u32, tree: &[u8], tree_out: &mut [u8], list_out: &mut [u8], work: &mut [u8]) -> Outcome {
    // SAFETY: the function is proved for every input: it reads `tree`, writes the three others, stays inside each of
    // them and ends. That the four lie apart and live until it returns is seen to by their types.
    unsafe {
        rest_spread_lower(
            options,
            tree.as_ptr(),
            tree.len(),
            tree_out.as_mut_ptr(),
            tree_out.len(),
            list_out.as_mut_ptr(),
            list_out.len(),
            work.as_mut_ptr(),
            work.len(),
        )
    }
}

/// The same within a depth limit: a tree of more levels than `depth` is refused with 4. Any number will do; 0 and
/// everything above 128 is refused with 9.
#[must_use]
pub fn lower_within(
    depth: u32,
    options: u32,
    tree: &[u8],
    tree_out: &mut [u8],
    list_out: &mut [u8],
    work: &mut [u8],
) -> Outcome {
    // SAFETY: as of `lower`.
    unsafe {
        rest_spread_lower_within(
            depth,
            options,
            tree.as_ptr(),
            tree.len(),
            tree_out.as_mut_ptr(),
            tree_out.len(),
            list_out.as_mut_ptr(),
            list_out.len(),
            work.as_mut_ptr(),
            work.len(),
        )
    }
}

/// Counts patterns of `n` items that give `c` nested calls. [`calls`](crate::calls()) has the same with a refusal by name.
#[must_use]
pub fn calls(n: u32, c: u32) -> Counted {
    // SAFETY: the function takes any two numbers, reads and writes nothing else, and ends.
    unsafe { rest_spread_calls(n, c) }
}

/// Draws the tree of a seed into `tree_out`. [`draw`](crate::draw()) has the same with a refusal by name.
///
/// Any seed and a slice of any length will do. After success the slice is zero behind the tree, after a refusal it is
/// zero throughout.
#[must_use]
pub fn draw(seed: u32, tree_out: &mut [u8]) -> Drawn {
    // SAFETY: the function is proved for every seed and every slice: it writes the slice, stays inside it and ends.
    unsafe { rest_spread_draw(seed, tree_out.as_mut_ptr(), tree_out.len()) }
}

/// Puts the declarations of `list` into `tree`, and writes the joined tree into `tree_out`. [`Joiner`](crate::Joiner) has the
/// same with a buffer and refusals by name.
///
/// Any bytes and a slice of any length will do. After success the slice is zero behind the tree, after a refusal it is
/// zero throughout.
#[must_use]
pub fn join(tree: &[u8], list: &[u8], tree_out: &mut [u8]) -> Joined {
    // SAFETY: the function is proved for every three slices: it reads two, writes the third, stays inside each and ends.
    unsafe {
        rest_spread_join(tree.as_ptr(), tree.len(), list.as_ptr(), list.len(), tree_out.as_mut_ptr(), tree_out.len())
    }
}

/// The order of two rewritten trees, of the first against the second. Any two slices.
#[must_use]
pub fn order(first: &[u8], second: &[u8]) -> Ordered {
    // SAFETY: the function is proved for every two slices: it reads them, writes nothing and ends.
    unsafe { rest_spread_order(first.as_ptr(), first.len(), second.as_ptr(), second.len()) }
}

/// Prints a rewritten tree into `text_out`. [`Printer`](crate::Printer) has the same with a buffer and a refusal by name.
///
/// Any bytes and a slice of any length will do. After success the slice is zero behind the text, after a refusal it is
/// zero throughout.
#[must_use]
pub fn text(tree: &[u8], text_out: &mut [u8]) -> Printed {
    // SAFETY: the function is proved for every two slices: it reads the one, writes the other, stays inside both and ends.
    unsafe { rest_spread_text(tree.as_ptr(), tree.len(), text_out.as_mut_ptr(), text_out.len()) }
}

/// Whether an object rest is left in a rewritten tree; `false` for bytes that are none. Any slice.
/// [`leftovers`](crate::Lowered::leftovers) says where.
///
/// ```
/// // var {...a};
/// let tree = b"\x01\x01\x01\x00\x04\x07\x01\x00\x01\x01\x00\x05\x01\x22\x03\x00\x00\x13\x01\x01\x00a";
/// assert!(rest_spread::entry::leftover(tree));
/// assert!(!rest_spread::entry::leftover(b"\x01\x01\x00\x00"));
/// ```
#[must_use]
pub fn leftover(tree: &[u8]) -> bool {
    // SAFETY: the function is proved for every slice: it reads it, writes nothing and ends.
    unsafe { rest_spread_leftover(tree.as_ptr(), tree.len()) == 1 }
}

/// Advances a generator, and gives its next number.
///
/// ```
/// use rest_spread::entry::{advance, Xorshift};
///
/// let mut g = Xorshift { state: 2_463_534_242 };
/// assert_eq!([advance(&mut g), advance(&mut g)], [723_471_715, 2_497_366_906]);
/// ```
pub fn advance(g: &mut Xorshift) -> u32 {
    // SAFETY: the function reads and writes the generator, which is lent to it alone, and ends.
    unsafe { xorshift_next(g) }
}
