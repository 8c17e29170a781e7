//! Nodes in tree bytes. Whatever the bytes are, reading them ends and never panics: what is no node is `None`.

use crate::kind::{Kind, Sort};
use crate::walk::Walk;
use std::fmt;

/// A node: a kind, a bit map and the fields that stand.
///
/// ```
/// use rest_spread::{Field, Kind, Node};
///
/// // a.b
/// let (member, behind) = Node::read(b"\x1e\x03\x12\x01\x01\x00a\x01\x00b").unwrap();
/// assert_eq!((member.kind(), behind.len()), (Kind::Member, 0));
/// assert_eq!(member.field(1), Some(Field::Text(b"b")));
/// ```
#[derive(Clone, Copy, PartialEq, Eq, Hash)]
pub struct Node<'a> {
    bytes: &'a [u8],
    kind: Kind,
}

/// A field of a node.
///
/// ```
/// use rest_spread::{Field, Node};
///
/// let (empty, _) = Node::read(b"\x0d\x01\x07\x00").unwrap();
/// match empty.field(0) {
///     Some(Field::Mark(mark)) => assert_eq!(mark, 7),
///     other => panic!("{other:?}"),
/// }
/// ```
#[derive(Clone, Debug, PartialEq, Eq)]
#[non_exhaustive]
pub enum Field<'a> {
    /// A node.
    Node(Node<'a>),
    /// A list of nodes and holes.
    List(Items<'a>),
    /// A text, which may be any bytes.
    Text(&'a [u8]),
    /// A byte.
    Byte(u8),
    /// The mark of a statement.
    Mark(u16),
    /// A number.
    Number(u16),
}

/// An item of a list.
///
/// ```
/// use rest_spread::{Field, Item, Node};
///
/// // [, a]
/// let (array, _) = Node::read(b"\x20\x01\x02\x00\x00\x12\x01\x01\x00a").unwrap();
/// let Some(Field::List(items)) = array.field(0) else { panic!() };
/// let items: Vec<Item> = items.collect();
/// assert_eq!((items.len(), items[0]), (2, Item::Hole));
/// ```
#[derive(Clone, Copy, Debug, PartialEq, Eq)]
pub enum Item<'a> {
    /// A node.
    Node(Node<'a>),
    /// A hole, which only arrays and array patterns have.
    Hole,
}

/// The items of a list, holes among them.
///
/// ```
/// use rest_spread::{Field, Node};
///
/// // [,,]
/// let (array, _) = Node::read(b"\x20\x01\x02\x00\x00\x00").unwrap();
/// let Some(Field::List(items)) = array.field(0) else { panic!() };
/// assert_eq!((items.len(), items.nodes().count()), (2, 0));
/// ```
#[derive(Clone, Default, PartialEq, Eq)]
pub struct Items<'a> {
    left: u16,
    bytes: &'a [u8],
    holes: bool,
}

/// The fields of a node that stand, each with its number.
///
/// ```
/// use rest_spread::{Field, Node};
///
/// // a return without a value
/// let (node, _) = Node::read(b"\x0b\x01\x04\x00").unwrap();
/// assert_eq!(node.fields().collect::<Vec<_>>(), [(0, Field::Mark(4))]);
/// ```
#[derive(Clone, Debug, PartialEq, Eq)]
pub struct Fields<'a> {
    kind: Kind,
    map: u8,
    next: usize,
    bytes: &'a [u8],
}

impl<'a> Node<'a> {
    /// The node that `bytes` begin with, and what follows it.
    #[must_use]
    pub fn read(bytes: &'a [u8]) -> Option<(Self, &'a [u8])> {
        let mut walk = Walk::new(bytes);
        walk.by_ref().for_each(drop);
        let kind = Kind::from_number(*bytes.first()?)?;
        let (bytes, behind) = bytes.split_at(walk.at());
        walk.is_whole().then_some((Self { bytes, kind }, behind))
    }

    /// Its kind.
    #[must_use]
    pub fn kind(self) -> Kind {
        self.kind
    }

    /// All of it.
    #[must_use]
    pub fn bytes(self) -> &'a [u8] {
        self.bytes
    }

    /// The field with this number, from 0, if it stands.
    #[must_use]
    pub fn field(self, number: usize) -> Option<Field<'a>> {
        self.fields().find(|(at, _)| *at == number).map(|(_, field)| field)
    }

    /// The fields that stand. To go through a whole tree, take [`walk`](Self::walk): it goes over each byte once.
    #[must_use]
    pub fn fields(self) -> Fields<'a> {
        Fields { kind: self.kind, map: self.bytes[1], next: 0, bytes: &self.bytes[2..] }
    }

    /// Everything in it, in byte order.
    #[must_use]
    pub fn walk(self) -> Walk<'a> {
        Walk::new(self.bytes)
    }
}

impl fmt::Debug for Node<'_> {
    fn fmt(&self, f: &mut fmt::Formatter<'_>) -> fmt::Result {
        write!(f, "{}({:02x?})", self.kind.name(), self.bytes)
    }
}

impl<'a> Item<'a> {
    /// The node, if it is one.
    #[must_use]
    pub fn node(self) -> Option<Node<'a>> {
        match self {
            Item::Node(node) => Some(node),
            Item::Hole => None,
        }
    }
}

impl<'a> Items<'a> {
    /// So many items, which `bytes` begin with, and what follows them.
    pub(crate) fn read(count: u16, bytes: &'a [u8], holes: bool) -> Option<(Self, &'a [u8])> {
        let mut walk = Self { left: count, bytes, holes };
        walk.by_ref().for_each(drop);
        let (bytes, behind) = bytes.split_at(bytes.len() - walk.bytes.len());
        (walk.left == 0).then_some((Self { left: count, bytes, holes }, behind))
    }

    /// How many items are left, holes counted.
    #[must_use]
    pub fn len(&self) -> usize {
        self.left.into()
    }

    /// Whether none is left.
    #[must_use]
    pub fn is_empty(&self) -> bool {
        self.left == 0
    }

    /// The nodes alone.
    pub fn nodes(self) -> impl Iterator<Item = Node<'a>> {
        self.filter_map(Item::node)
    }
}

impl<'a> Iterator for Items<'a> {
    type Item = Item<'a>;

    fn next(&mut self) -> Option<Item<'a>> {
        let left = self.left.checked_sub(1)?;
        let (item, behind) = match self.bytes.split_first() {
            Some((0, behind)) if self.holes => (Item::Hole, behind),
            _ => Node::read(self.bytes).map(|(node, behind)| (Item::Node(node), behind))?,
        };
        (self.left, self.bytes) = (left, behind);
        Some(item)
    }
}

impl fmt::Debug for Items<'_> {
    fn fmt(&self, f: &mut fmt::Formatter<'_>) -> fmt::Result {
        f.debug_list().entries(self.clone()).finish()
    }
}

impl<'a> Iterator for Fields<'a> {
    type Item = (usize, Field<'a>);

    fn next(&mut self) -> Option<(usize, Field<'a>)> {
        let slots = self.kind.slots();
        let number = (self.next..slots.len()).find(|at| self.map >> at & 1 == 1)?;
        let (field, behind) = read_field(slots[number].sort, self.bytes)?;
        (self.next, self.bytes) = (number + 1, behind);
        Some((number, field))
    }
}

fn read_field(sort: Sort, bytes: &[u8]) -> Option<(Field<'_>, &[u8])> {
    match sort {
        Sort::Node(_) => Node::read(bytes).map(|(node, behind)| (Field::Node(node), behind)),
        Sort::List { holes, .. } => {
            let (count, bytes) = read_number(bytes)?;
            Items::read(count, bytes, holes).map(|(items, behind)| (Field::List(items), behind))
        }
        Sort::Text => {
            let (length, bytes) = read_number(bytes)?;
            bytes.split_at_checked(length.into()).map(|(text, behind)| (Field::Text(text), behind))
        }
        Sort::Byte(..) => bytes.split_first().map(|(&byte, behind)| (Field::Byte(byte), behind)),
        Sort::Mark => read_number(bytes).map(|(mark, behind)| (Field::Mark(mark), behind)),
        Sort::Number => read_number(bytes).map(|(number, behind)| (Field::Number(number), behind)),
    }
}

/// A number of two bytes, the low one first, and what follows it.
pub(crate) fn read_number(bytes: &[u8]) -> Option<(u16, &[u8])> {
    let (&two, behind) = bytes.split_first_chunk()?;
    Some((u16::from_le_bytes(two), behind))
}

#[cfg(test)]
mod tests {
    use super::*;

    /// `({...a})`, and behind it one byte more.
    const LISTING: &[u8] = b"\x01\x01\x01\x00\x03\x03\x01\x00\x18\x01\x01\x00\x1a\x01\x12\x01\x01\x00a!";

    #[test]
    fn a_node_is_taken_apart() {
        let (program, behind) = Node::read(LISTING).unwrap();
        assert_eq!((program.kind(), behind), (Kind::Program, &b"!"[..]));
        let Some(Field::List(mut body)) = program.field(0) else { panic!("a Program has a body") };
        let statement = body.next().and_then(Item::node).unwrap();
        assert_eq!((statement.kind(), body.next()), (Kind::ExpressionStatement, None));
        assert_eq!(statement.field(0), Some(Field::Mark(1)));
        let Some(Field::Node(object)) = statement.field(1) else { panic!("a statement has an expression") };
        assert_eq!(object.bytes(), &LISTING[8..19]);
        assert!(statement.field(2).is_none());
        let numbers: Vec<usize> = statement.fields().map(|(number, _)| number).collect();
        assert_eq!(numbers, [0, 1]);
    }

    #[test]
    fn holes_are_items() {
        let (array, behind) = Node::read(b"\x20\x01\x04\x00\x00\x15\x01\x02\x00\x00").unwrap();
        let Some(Field::List(items)) = array.field(0) else { panic!("an Array has items") };
        assert_eq!(items.len(), 4);
        let kinds: Vec<_> = items.map(|item| item.node().map(Node::kind)).collect();
        assert_eq!(kinds, [None, Some(Kind::Helper), None, None]);
        assert!(behind.is_empty());
        assert!(Node::read(b"\x1c\x01\x01\x00\x00").is_none(), "a Sequence has none");
    }

    /// Items are equal if they are the same list, whatever stands behind it.
    #[test]
    fn a_list_ends_where_it_ends() {
        let one = |bytes: &'static [u8]| Items::read(1, bytes, true).unwrap().0;
        assert_eq!(one(b"\x00abc"), one(b"\x00"));
        assert_ne!(one(b"\x00"), one(b"\x15\x01\x02"));
    }

    #[test]
    fn what_is_no_node_is_none() {
        for end in 0..LISTING.len() - 1 {
            assert!(Node::read(&LISTING[..end]).is_none(), "cut at {end}");
        }
        for kind in [0, 40, 255] {
            assert!(Node::read(&[kind, 0]).is_none(), "kind {kind}");
        }
        assert!(Node::read(&[13, 3, 0, 0]).is_none(), "a bit without a field");
        assert!(Node::read(&[13, 0, 0, 0]).is_none(), "a field that must stand");
    }

    #[test]
    fn any_depth_is_read() {
        let deep = |levels: usize| [&[31, 1].repeat(levels - 1)[..], &[24, 1, 0, 0]].concat();
        for levels in [64, 65, 16_000, 1_000_000] {
            let bytes = deep(levels);
            let (node, behind) = Node::read(&bytes).unwrap();
            assert_eq!((node.bytes().len(), behind.len()), (bytes.len(), 0));
        }
        assert!(Node::read(&[31, 1].repeat(100_000)).is_none());
    }
}
