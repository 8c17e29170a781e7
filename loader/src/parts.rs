//! Parts of a tree, put to the archive by themselves: in which statement a refusal is met, and how long a result would be
//! that is too long to be handed back. The lowering of a list's items is the sum of that of each, so halves will do.

use crate::kind::{Kind, Place, Sort};
use crate::walk::{Step, Walk};
use crate::{Lowerer, Options, Refusal};
use std::cmp::Reverse;
use std::ops::Range;

/// The most calls that a question may take.
const CALLS: usize = 2_000;

/// A list in a tree.
#[derive(Clone, Debug)]
struct Group {
    kind: Kind,
    /// The kind around it.
    outer: Option<Kind>,
    place: Place,
    /// Where its count stands.
    count: usize,
    /// Where each item stands.
    items: Vec<Range<usize>>,
    /// How many lists of statements it stands in.
    depth: usize,
}

/// The lengths of a tree and its list.
pub(crate) type Lengths = (usize, usize);

/// Asks the archive about parts of a tree.
pub(crate) struct Asking<'a> {
    lowerer: &'a mut Lowerer,
    left: usize,
}

impl<'a> Asking<'a> {
    pub fn new(lowerer: &'a mut Lowerer) -> Self {
        Self { lowerer, left: CALLS }
    }

    /// The mark of the innermost statement of a Program, Block or FunctionBody that is refused so by itself.
    pub fn statement(&mut self, tree: &[u8], refusal: Refusal) -> Option<u16> {
        let mut tree = tree.to_vec();
        let mut found = None;
        for depth in 0.. {
            let groups: Vec<Group> =
                lists(&tree)?.into_iter().filter(|g| holds_statements(g) && g.depth == depth).collect();
            let emptied = without(&tree, &groups);
            if found.is_some() && self.answer(&emptied)?.err() == Some(refusal) {
                break;
            }
            let Some(alone) = self.alone(&tree, &groups, refusal) else { break };
            found = Some(alone.1);
            tree = alone.0;
        }
        found
    }

    /// The tree with one item of one of these lists, and all others empty, and the mark of that item: the first for which
    /// the refusal stays.
    fn alone(&mut self, tree: &[u8], groups: &[Group], refusal: Refusal) -> Option<(Vec<u8>, u16)> {
        for (at, group) in groups.iter().enumerate() {
            // From the last to the first, so that the places of those before stay what they are.
            let after = without(tree, &groups[at + 1..]);
            for item in &group.items {
                let mark = u16::from_le_bytes([tree[item.start + 2], tree[item.start + 3]]);
                let kept = put(&after, group, &tree[item.clone()], 1);
                let kept = without(&kept, &groups[..at]);
                if self.answer(&kept)?.err() == Some(refusal) {
                    return Some((kept, mark));
                }
            }
        }
        None
    }

    /// How long the results would be, or `None` if that can't be told.
    pub fn lengths(&mut self, tree: &[u8]) -> Option<Lengths> {
        match self.answer(tree)? {
            Ok(lengths) => Some(lengths),
            Err(Refusal::TooLong) => self.in_halves(tree).or_else(|| self.by_text(tree)),
            Err(_) => None,
        }
    }

    /// The same, for a tree that is taken to be too long whether it is or not.
    pub fn in_halves(&mut self, tree: &[u8]) -> Option<Lengths> {
        let mut groups: Vec<Group> = lists(tree)?.into_iter().filter(|g| g.items.len() > 1).collect();
        groups.sort_by_key(|g| Reverse(g.items[g.items.len() - 1].end - g.items[0].start));
        let (group, middle) = groups.iter().find_map(|g| cut(tree, g).map(|middle| (g, middle)))?;
        self.sum(tree, group, middle)
    }

    fn sum(&mut self, tree: &[u8], group: &Group, middle: usize) -> Option<Lengths> {
        let seam = self.seam(tree, group, middle)?;
        let front = self.lengths(&part(tree, group, 0..middle))?;
        let back = self.lengths(&part(tree, group, middle..group.items.len()))?;
        let none = self.lengths(&part(tree, group, 0..0))?;
        Some((front.0 + back.0 + seam - none.0, front.1 + back.1 - none.1))
    }

    /// How many bytes more a literal has, lowered, than its halves together. It is measured on the spread before the cut
    /// and what stands behind it up to the next one. The items of other lists know nothing of each other.
    fn seam(&mut self, tree: &[u8], group: &Group, middle: usize) -> Option<usize> {
        let Some(next) = (middle..group.items.len()).find(|&at| is_spread(tree, group, at)) else { return Some(0) };
        let mut measure = |items| self.answer(&part(tree, group, items)).and_then(Result::ok).map(|lengths| lengths.0);
        let (whole, none) = (measure(middle - 1..next + 1)?, measure(0..0)?);
        (whole + none).checked_sub(measure(middle - 1..middle)? + measure(middle..next + 1)?)
    }

    /// By the longest text: each byte of it adds as much as the first.
    fn by_text(&mut self, tree: &[u8]) -> Option<Lengths> {
        let text = texts(tree)?.into_iter().filter(|text| text.len() > 1).max_by_key(|text| text.len())?;
        let cut = |length: u16| {
            let kept = text.start..text.start + usize::from(length);
            [&tree[..text.start - 2], &length.to_le_bytes()[..], &tree[kept], &tree[text.end..]].concat()
        };
        let (none, one) = (self.lengths(&cut(0))?, self.lengths(&cut(1))?);
        let all = |none: usize, one: usize| none + (one - none) * text.len();
        Some((all(none.0, one.0), all(none.1, one.1)))
    }

    /// What the archive says, if calls are left. Options have no say in it.
    fn answer(&mut self, tree: &[u8]) -> Option<Result<Lengths, Refusal>> {
        self.left = self.left.checked_sub(1)?;
        let lowered = self.lowerer.lower(Options::NONE, &numbered(tree)?);
        Some(lowered.map(|lowered| (lowered.tree.len(), lowered.list.bytes().len())))
    }
}

fn holds_statements(group: &Group) -> bool {
    group.place == Place::Statement
}

fn is_spread(tree: &[u8], group: &Group, item: usize) -> bool {
    group.kind == Kind::Object && tree[group.items[item].start] == Kind::Spread.number()
}

/// Before which item a list may be cut: a literal with spreads behind one of them, if there is another further on.
fn cut(tree: &[u8], group: &Group) -> Option<usize> {
    let middle = group.items.len() / 2;
    match group.kind {
        Kind::Object => match (0..group.items.len()).rev().find(|&at| is_spread(tree, group, at)) {
            None => Some(middle),
            Some(last) => {
                let fits = |at: &usize| is_spread(tree, group, at - 1);
                (middle.max(1)..=last).find(fits).or_else(|| (1..middle.min(last + 1)).rev().find(fits))
            }
        },
        // In the head of such a loop all declarators are moved together.
        Kind::Declaration if matches!(group.outer, Some(Kind::ForIn | Kind::ForOf)) => None,
        Kind::Program
        | Kind::Block
        | Kind::FunctionBody
        | Kind::Declaration
        | Kind::OtherStatement
        | Kind::OtherExpression
        | Kind::Sequence
        | Kind::Call
        | Kind::Array => Some(middle),
        _ => None,
    }
}

/// The lists of a tree, in byte order.
fn lists(tree: &[u8]) -> Option<Vec<Group>> {
    let mut all: Vec<Group> = Vec::new();
    // Of each open node its kind, where it begins, and the number of its last list.
    let mut open: Vec<(Kind, usize, Option<usize>)> = Vec::new();
    let mut depth = 0;
    let mut walk = Walk::new(tree);
    loop {
        let at = walk.at();
        let Some(step) = walk.next() else { break };
        match step {
            Step::Begins(kind) => open.push((kind, at, None)),
            Step::List(_) => {
                let (kind, Sort::List { place, .. }) = walk.field()? else { return None };
                open.last_mut()?.2 = Some(all.len());
                let outer = open.iter().rev().nth(1).map(|(kind, ..)| *kind);
                let group = Group { kind, outer, place, count: at, items: Vec::new(), depth };
                depth += usize::from(holds_statements(&group));
                all.push(group);
            }
            Step::Hole => all[open.last()?.2?].items.push(at..walk.at()),
            Step::Ends(_) => {
                let (_, begin, list) = open.pop()?;
                if list.is_some_and(|list| holds_statements(&all[list])) {
                    depth -= 1;
                }
                if let Some(list) = open.last().and_then(|outer| outer.2) {
                    all[list].items.push(begin..walk.at());
                }
            }
            _ => (),
        }
    }
    // Behind its items a list was given the nodes of later fields.
    for group in &mut all {
        group.items.truncate(u16::from_le_bytes([tree[group.count], tree[group.count + 1]]).into());
    }
    walk.is_whole().then_some(all)
}

/// Where the texts stand that the lowering copies and does not look at: those of names and strings.
fn texts(tree: &[u8]) -> Option<Vec<Range<usize>>> {
    const STRING: u8 = 1;
    let (mut all, mut sort) = (Vec::new(), STRING);
    let mut walk = Walk::new(tree);
    while let Some(step) = walk.next() {
        match step {
            Step::Byte(byte) => sort = byte,
            Step::Text(text) => {
                let (kind, _) = walk.field()?;
                if kind != Kind::Literal || sort == STRING {
                    all.push(walk.at() - text.len()..walk.at());
                }
            }
            _ => (),
        }
    }
    walk.is_whole().then_some(all)
}

/// The tree with these items of a list alone.
fn part(tree: &[u8], group: &Group, items: Range<usize>) -> Vec<u8> {
    let kept = match &group.items[items.clone()] {
        [] => &[],
        some => &tree[some[0].start..some[some.len() - 1].end],
    };
    put(tree, group, kept, items.len())
}

/// The tree with other items in a list, so many.
fn put(tree: &[u8], group: &Group, items: &[u8], count: usize) -> Vec<u8> {
    let count = u16::try_from(count).expect("no more items than there were");
    let end = group.items.last().map_or(group.count + 2, |last| last.end);
    [&tree[..group.count], &count.to_le_bytes()[..], items, &tree[end..]].concat()
}

/// The tree with these lists, which stand one behind the other, empty.
fn without(tree: &[u8], groups: &[Group]) -> Vec<u8> {
    groups.iter().rev().fold(tree.to_vec(), |tree, group| put(&tree, group, &[], 0))
}

/// The tree with its marks numbered again.
fn numbered(tree: &[u8]) -> Option<Vec<u8>> {
    let mut numbered = tree.to_vec();
    let mut walk = Walk::new(tree);
    let mut mark: u16 = 0;
    while let Some(step) = walk.next() {
        if let Step::Mark(_) = step {
            mark += 1;
            numbered[walk.at() - 2..walk.at()].copy_from_slice(&mark.to_le_bytes());
        }
    }
    walk.is_whole().then_some(numbered)
}

#[cfg(test)]
mod tests {
    use super::*;
    use crate::draw::{Chance, Grammar};

    /// Trees that fit, as if they did not: the sum of the halves is what the archive gives for the whole.
    #[test]
    fn halves_add_up() {
        let (grammar, mut lowerer) = (Grammar::new(), Lowerer::new());
        let (mut told, mut not) = (0, 0);
        for seed in 0..2_000 {
            let mut chance = Chance::new(8_000_000_093 + seed);
            let room = 20 + chance.below(600);
            let tree = grammar.tree(&mut chance, room);
            let mut asking = Asking::new(&mut lowerer);
            let Some(Ok(whole)) = asking.answer(&tree) else { continue };
            match asking.in_halves(&tree) {
                Some(halves) => {
                    assert_eq!(halves, whole, "seed {seed}: {tree:02x?}");
                    told += 1;
                }
                None => not += 1,
            }
        }
        assert!(told > 1_000, "{told} {not}");
    }

    /// The same for each list by itself, inner ones too.
    #[test]
    fn every_list_may_be_cut() {
        let (grammar, mut lowerer) = (Grammar::new(), Lowerer::new());
        let mut literals = 0;
        for seed in 0..2_000 {
            let mut chance = Chance::new(9_000_000_011 + seed);
            let room = 20 + chance.below(300);
            let tree = grammar.tree(&mut chance, room);
            let mut asking = Asking::new(&mut lowerer);
            let Some(Ok(whole)) = asking.answer(&tree) else { continue };
            for group in lists(&tree).unwrap().iter().filter(|group| group.items.len() > 1) {
                let Some(middle) = cut(&tree, group) else { continue };
                let Some(sum) = asking.sum(&tree, group, middle) else { continue };
                assert_eq!(sum, whole, "seed {seed}: {group:?}: {tree:02x?}");
                literals += usize::from((0..group.items.len()).any(|at| is_spread(&tree, group, at)));
            }
        }
        assert!(literals > 100, "{literals}");
    }
}
