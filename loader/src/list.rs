//! The list that belongs to a lowered tree.

use crate::kind::Kind;
use crate::node::{read_number, Field, Item, Items, Node};
use crate::stem::Stem;

/// The declarations that a lowered tree needs outside itself.
///
/// A loader declares each entry's temporaries right before the statement that has the entry's mark, and the excluded
/// keys ahead of the whole program.
///
/// ```
/// use rest_spread::List;
///
/// // one entry: before statement 1, temporary 2
/// let list = List::new(b"\x01\x00\x01\x00\x01\x00\x05\x01\x14\x03\x02\x00\x03\x00\x00");
/// assert!(list.is_whole());
/// for entry in list.entries() {
///     let temporaries: Vec<_> = entry.declarators.map(|declarator| declarator.temporary()).collect();
///     assert_eq!((entry.mark, temporaries), (1, vec![Some(2)]));
/// }
/// assert_eq!(list.excluded().count(), 0);
/// ```
#[derive(Clone, Copy, Debug, PartialEq, Eq)]
pub struct List<'a> {
    bytes: &'a [u8],
}

/// What one rewritten assignment hands out.
///
/// ```
/// # let list = rest_spread::List::new(b"\x01\x00\x07\x00\x01\x00\x05\x01\x14\x03\x02\x00\x03\x00\x00");
/// for entry in list.entries() {
///     println!("before statement {}: {} temporaries", entry.mark, entry.declarators.count());
/// }
/// # assert_eq!(list.entries().next().unwrap().mark, 7);
/// ```
#[derive(Clone, Debug, PartialEq, Eq)]
#[non_exhaustive]
pub struct Entry<'a> {
    /// The mark of the statement that the declarators belong before.
    pub mark: u16,
    /// The declarators, in order.
    pub declarators: Declarators<'a>,
}

/// A temporary, and the value that it starts with if it has one.
///
/// ```
/// use rest_spread::{Kind, List, Stem};
///
/// // an excluded key list: $excluded2 = []
/// let list = List::new(b"\x00\x00\x01\x00\x05\x03\x14\x03\x02\x00\x02\x20\x01\x00\x00");
/// let declarator = list.excluded().next().unwrap();
/// assert_eq!((declarator.temporary(), declarator.stem()), (Some(2), Some(Stem::Excluded)));
/// assert_eq!(declarator.value().map(|value| value.kind()), Some(Kind::Array));
/// ```
#[derive(Clone, Copy, Debug, PartialEq, Eq)]
pub struct Declarator<'a> {
    node: Node<'a>,
}

/// The entries of a list.
///
/// ```
/// let list = rest_spread::List::new(&[0; 4]);
/// assert!(list.entries().next().is_none());
/// ```
#[derive(Clone, Debug, PartialEq, Eq)]
pub struct Entries<'a> {
    left: u16,
    bytes: &'a [u8],
}

/// The declarators of an entry, or of the excluded keys.
///
/// ```
/// let list = rest_spread::List::new(b"\x00\x00\x01\x00\x05\x03\x14\x03\x02\x00\x02\x20\x01\x00\x00");
/// let numbers: Vec<_> = list.excluded().map(|declarator| declarator.temporary()).collect();
/// assert_eq!(numbers, [Some(2)]);
/// ```
#[derive(Clone, Debug, PartialEq, Eq)]
pub struct Declarators<'a>(Items<'a>);

impl<'a> List<'a> {
    /// The list that these bytes are. Bytes that are no list have the entries that can be made out; see
    /// [`is_whole`](Self::is_whole).
    #[must_use]
    pub fn new(bytes: &'a [u8]) -> Self {
        Self { bytes }
    }

    /// All of it.
    #[must_use]
    pub fn bytes(self) -> &'a [u8] {
        self.bytes
    }

    /// The entries, in the order of the walk.
    #[must_use]
    pub fn entries(self) -> Entries<'a> {
        let (left, bytes) = read_number(self.bytes).unwrap_or((0, &[]));
        Entries { left, bytes }
    }

    /// The excluded keys: temporaries, each with an array of strings and templates.
    #[must_use]
    pub fn excluded(self) -> Declarators<'a> {
        self.last().map_or(Declarators(Items::default()), |(excluded, _)| excluded)
    }

    /// Whether the bytes are a list and nothing else, with a temporary and its stem in each declarator. After a success
    /// they are.
    #[must_use]
    pub fn is_whole(self) -> bool {
        let is_named = |declarator: Declarator<'a>| declarator.temporary().is_some() && declarator.stem().is_some();
        let named = |mut declarators: Declarators<'a>| declarators.all(is_named);
        let entries = self.entries().all(|entry| named(entry.declarators));
        entries && self.last().is_some_and(|(excluded, behind)| named(excluded) && behind.is_empty())
    }

    /// The declarators behind all entries, and what follows them.
    fn last(self) -> Option<(Declarators<'a>, &'a [u8])> {
        let mut entries = self.entries();
        entries.by_ref().for_each(drop);
        let (count, bytes) = read_number(entries.bytes).filter(|_| entries.left == 0)?;
        Items::read(count, bytes, false).map(|(items, behind)| (Declarators(items), behind))
    }
}

impl<'a> Iterator for Entries<'a> {
    type Item = Entry<'a>;

    fn next(&mut self) -> Option<Entry<'a>> {
        let left = self.left.checked_sub(1)?;
        let (mark, bytes) = read_number(self.bytes)?;
        let (count, bytes) = read_number(bytes)?;
        let (declarators, bytes) = Items::read(count, bytes, false)?;
        *self = Entries { left, bytes };
        Some(Entry { mark, declarators: Declarators(declarators) })
    }
}

impl<'a> Iterator for Declarators<'a> {
    type Item = Declarator<'a>;

    fn next(&mut self) -> Option<Declarator<'a>> {
        self.0.next().and_then(Item::node).map(|node| Declarator { node })
    }
}

impl<'a> Declarator<'a> {
    /// All of it, a node of kind 5.
    #[must_use]
    pub fn bytes(self) -> &'a [u8] {
        self.node.bytes()
    }

    /// The number of its temporary.
    #[must_use]
    pub fn temporary(self) -> Option<u16> {
        match self.id()?.field(0) {
            Some(Field::Number(number)) => Some(number),
            _ => None,
        }
    }

    /// What its temporary is for.
    #[must_use]
    pub fn stem(self) -> Option<Stem> {
        match self.id()?.field(1) {
            Some(Field::Byte(stem)) => Stem::from_number(stem),
            _ => None,
        }
    }

    /// The value that the temporary starts with.
    #[must_use]
    pub fn value(self) -> Option<Node<'a>> {
        self.part(1)
    }

    fn id(self) -> Option<Node<'a>> {
        self.part(0).filter(|id| id.kind() == Kind::Temporary)
    }

    fn part(self, number: usize) -> Option<Node<'a>> {
        match self.node.field(number) {
            Some(Field::Node(part)) if self.node.kind() == Kind::Declarator => Some(part),
            _ => None,
        }
    }
}

#[cfg(test)]
mod tests {
    use super::*;

    /// The list of `({[k()]: {[l()]: a, ...b}, ...c} = d)`, and an excluded `$excluded4 = ["a"]` behind it.
    const LIST: &[u8] = b"\x01\x00\x01\x00\x03\x00\
        \x05\x01\x14\x03\x01\x00\x03\
        \x05\x03\x14\x03\x03\x00\x04\x1d\x03\x12\x01\x01\x00l\x00\x00\
        \x05\x03\x14\x03\x02\x00\x04\x1d\x03\x12\x01\x01\x00k\x00\x00\
        \x01\x00\
        \x05\x03\x14\x03\x04\x00\x02\x20\x01\x01\x00\x16\x07\x01\x00\x00\x01\x00a";

    #[test]
    fn entries_and_excluded_keys_are_handed_out() {
        let list = List::new(LIST);
        assert!(list.is_whole());
        let entries: Vec<Entry> = list.entries().collect();
        assert_eq!((entries.len(), entries[0].mark), (1, 1));
        let named: Vec<_> =
            entries[0].declarators.clone().map(|d| (d.stem(), d.temporary(), d.value().map(Node::kind))).collect();
        let (value, key) = (Some(Stem::Value), Some(Stem::Key));
        assert_eq!(named, [(value, Some(1), None), (key, Some(3), Some(Kind::Call)), (key, Some(2), Some(Kind::Call))]);
        let excluded: Vec<_> = list.excluded().collect();
        assert_eq!((excluded.len(), excluded[0].temporary(), excluded[0].stem()), (1, Some(4), Some(Stem::Excluded)));
        assert_eq!(excluded[0].value().unwrap().kind(), Kind::Array);
        assert_eq!(excluded[0].bytes(), &LIST[LIST.len() - 19..]);
    }

    #[test]
    fn the_empty_list_is_whole() {
        assert!(List::new(&[0; 4]).is_whole());
        assert_eq!(List::new(&[0; 4]).entries().count() + List::new(&[0; 4]).excluded().count(), 0);
    }

    #[test]
    fn a_list_that_is_cut_or_continued_is_not_whole() {
        for end in 0..LIST.len() {
            assert!(!List::new(&LIST[..end]).is_whole(), "cut at {end}");
        }
        assert!(!List::new(&[LIST, b"\x00"].concat()).is_whole());
    }

    #[test]
    fn any_bytes_can_be_gone_through() {
        for at in 0..LIST.len() {
            for byte in 0..=255 {
                let mut bytes = LIST.to_vec();
                bytes[at] = byte;
                let list = List::new(&bytes);
                let values =
                    list.entries().flat_map(|e| e.declarators).chain(list.excluded()).filter_map(|d| d.value());
                assert!(values.count() <= LIST.len());
                let _ = list.is_whole();
            }
        }
    }
}
