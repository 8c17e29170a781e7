//! The entry, called over dirty slices of any lengths with guard bytes around them.

use rest_spread::entry::{self, Outcome};
use rest_spread::{LEVELS, LIST_OUT, TREE_OUT, WORK};

/// How many guard bytes stand before, between and behind the slices.
const GUARD: usize = 64;
/// The options that a call reports. 8 may be set and is retired.
const IN_FORCE: u32 = 1 + 2 + 4;
/// What every byte holds before a call.
const DIRT: u8 = 0xa5;

static ZEROS: [u8; 1 << 17] = [0; 1 << 17];

pub struct Rig {
    bytes: Vec<u8>,
    lengths: [usize; 3],
}

/// What a call left behind.
pub struct Ran<'a> {
    pub outcome: Outcome,
    pub tree: &'a [u8],
    pub list: &'a [u8],
    pub work: &'a [u8],
}

impl Rig {
    pub fn new(tree: usize, list: usize, work: usize) -> Self {
        Self { bytes: vec![DIRT; tree + list + work + 4 * GUARD], lengths: [tree, list, work] }
    }

    /// Slices as long as a `Lowerer` has them.
    pub fn whole() -> Self {
        Self::new(TREE_OUT, LIST_OUT, WORK)
    }

    /// Calls the entry that takes no limit.
    pub fn run(&mut self, options: u32, input: &[u8]) -> Ran<'_> {
        self.run_within(None, options, input)
    }

    /// Calls the entry that takes a limit, or the other, and sees that it touched no guard byte and kept its contract on the
    /// others.
    pub fn run_within(&mut self, depth: Option<u32>, options: u32, input: &[u8]) -> Ran<'_> {
        // A copy that is no longer than the input, so that a memory checker would see a read behind it.
        let input = &Box::<[u8]>::from(input)[..];
        self.bytes.fill(DIRT);
        let [guard_0, tree, guard_1, list, guard_2, work, guard_3] = parts(&mut self.bytes, self.lengths);
        let outcome = match depth {
            None => entry::lower(options, input, tree, list, work),
            Some(depth) => entry::lower_within(depth, options, input, tree, list, work),
        };
        for guard in [guard_0, guard_1, guard_2, guard_3] {
            assert!(guard.iter().all(|&byte| byte == DIRT), "a guard byte was written: {input:02x?}");
        }
        let ran = Ran { outcome, tree, list, work };
        ran.keep_contract(depth, options, input);
        ran
    }
}

impl Ran<'_> {
    /// The lowered tree, empty after a refusal.
    pub fn tree_out(&self) -> &[u8] {
        &self.tree[..self.outcome.tree_len]
    }

    /// The list, empty after a refusal.
    pub fn list_out(&self) -> &[u8] {
        &self.list[..self.outcome.list_len]
    }

    fn keep_contract(&self, depth: Option<u32>, options: u32, input: &[u8]) {
        let Outcome { answer, helpers, options: reported, tree_len, list_len } = self.outcome;
        let say = || format!("{:?} for limit {depth:?}, options {options} and {input:02x?}", self.outcome);
        assert!(is_zero(self.work), "work is not zero: {}", say());
        assert!(is_zero(&self.tree[tree_len..]), "the tree slice is not zero behind the tree: {}", say());
        assert!(is_zero(&self.list[list_len..]), "the list slice is not zero behind the list: {}", say());
        let is_limit = depth.is_none_or(|depth| (1..=LEVELS).contains(&depth));
        assert!(if is_limit { answer <= 7 || answer == 11 } else { answer == 9 }, "{}", say());
        if answer == 0 {
            assert!(tree_len <= TREE_OUT && list_len <= LIST_OUT, "{}", say());
            assert!(u32::from(reported) == options & IN_FORCE && helpers < 32, "{}", say());
            assert!(tree_len >= 4 && list_len >= 4, "{}", say());
        } else {
            assert_eq!((helpers, reported, tree_len, list_len), (0, 0, 0, 0), "{}", say());
        }
    }
}

/// The three slices, each with a guard before it, and the last guard.
fn parts(bytes: &mut [u8], [tree, list, work]: [usize; 3]) -> [&mut [u8]; 7] {
    let mut rest = bytes;
    [GUARD, tree, GUARD, list, GUARD, work, GUARD].map(|length| {
        let (part, behind) = std::mem::take(&mut rest).split_at_mut(length);
        rest = behind;
        part
    })
}

pub fn is_zero(bytes: &[u8]) -> bool {
    bytes.chunks(ZEROS.len()).all(|chunk| chunk == &ZEROS[..chunk.len()])
}
