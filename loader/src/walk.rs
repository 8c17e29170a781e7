//! Reading nodes, in a loop: however deep a tree is, the stack is not.

use crate::kind::{Kind, Sort};
use std::fmt;

/// What is met in a node, in byte order.
///
/// ```
/// use rest_spread::{Kind, Step, Walk};
///
/// let steps: Vec<Step> = Walk::new(b"\x12\x01\x01\x00a").collect();
/// assert_eq!(steps, [Step::Begins(Kind::Reference), Step::Text(b"a"), Step::Ends(Kind::Reference)]);
/// ```
#[derive(Clone, Copy, Debug, PartialEq, Eq)]
#[non_exhaustive]
pub enum Step<'a> {
    /// A node begins.
    Begins(Kind),
    /// The node that began last and has not ended yet ends.
    Ends(Kind),
    /// A list of so many items begins.
    List(u16),
    /// An item that is a hole.
    Hole,
    /// A text, which may be any bytes.
    Text(&'a [u8]),
    /// A byte.
    Byte(u8),
    /// A mark.
    Mark(u16),
    /// A number.
    Number(u16),
}

/// The steps of the node that some bytes begin with, from its beginning to its end.
///
/// Kinds alone are looked at: what may stand where is no concern of this. If the bytes are no node, the steps stop where
/// that shows, and [`is_whole`](Self::is_whole) says so.
///
/// ```
/// use rest_spread::{Kind, Step, Walk};
///
/// // [, a]
/// let bytes = b"\x20\x01\x02\x00\x00\x12\x01\x01\x00a";
/// let mut walk = Walk::new(bytes);
/// let holes = walk.by_ref().filter(|step| *step == Step::Hole).count();
/// assert!(walk.is_whole() && holes == 1 && walk.at() == bytes.len());
/// ```
#[derive(Clone, Debug, PartialEq, Eq)]
pub struct Walk<'a> {
    bytes: &'a [u8],
    at: usize,
    open: Vec<Open>,
    ended: Ended,
}

/// A node that has begun and not ended.
#[derive(Clone, Copy, Debug, PartialEq, Eq)]
struct Open {
    kind: Kind,
    map: u8,
    /// The number of the next field.
    next: u8,
    /// The items of the list that is being read, and those of them that are left.
    items: u16,
    left: u16,
}

#[derive(Clone, Copy, Debug, PartialEq, Eq)]
enum Ended {
    No,
    Whole,
    Broken,
}

impl<'a> Walk<'a> {
    /// The steps of the node that `bytes` begin with.
    #[must_use]
    pub fn new(bytes: &'a [u8]) -> Self {
        Self { bytes, at: 0, open: Vec::new(), ended: Ended::No }
    }

    /// The byte behind the last step.
    #[must_use]
    pub fn at(&self) -> usize {
        self.at
    }

    /// Whether the last step was the end of the node.
    #[must_use]
    pub fn is_whole(&self) -> bool {
        self.ended == Ended::Whole
    }

    /// The nodes that have begun and not ended, the outermost first, each with the field and the item that is being read.
    #[must_use]
    pub fn path(&self) -> Path {
        let turn = |open: &Open| Turn {
            kind: open.kind,
            field: usize::from(open.next).saturating_sub(1),
            item: (open.items - open.left).checked_sub(1),
        };
        Path(self.open.iter().filter(|open| open.next > 0).map(turn).collect())
    }

    /// The kind of the innermost open node, and the sort of the field of it that was read last.
    pub(crate) fn field(&self) -> Option<(Kind, Sort)> {
        let open = self.open.last()?;
        let slot = open.kind.slots().get(usize::from(open.next).checked_sub(1)?)?;
        Some((open.kind, slot.sort))
    }

    fn step(&mut self) -> Option<Step<'a>> {
        let Some(open) = self.open.last_mut() else { return self.begin() };
        let slots = open.kind.slots();
        if open.left > 0 {
            open.left -= 1;
            let holes = matches!(slots[usize::from(open.next) - 1].sort, Sort::List { holes: true, .. });
            if holes && self.bytes.get(self.at) == Some(&0) {
                self.at += 1;
                return Some(Step::Hole);
            }
            return self.begin();
        }
        open.items = 0;
        while usize::from(open.next) < slots.len() && open.map >> open.next & 1 == 0 {
            open.next += 1;
        }
        let Some(slot) = slots.get(usize::from(open.next)) else {
            let kind = open.kind;
            self.open.pop();
            return Some(Step::Ends(kind));
        };
        open.next += 1;
        match slot.sort {
            Sort::Node(_) => self.begin(),
            Sort::List { .. } => {
                let count = self.number()?;
                let open = self.open.last_mut()?;
                (open.items, open.left) = (count, count);
                Some(Step::List(count))
            }
            Sort::Text => {
                let length = usize::from(self.number()?);
                let text = self.bytes.get(self.at..self.at + length)?;
                self.at += length;
                Some(Step::Text(text))
            }
            Sort::Byte(..) => {
                let &byte = self.bytes.get(self.at)?;
                self.at += 1;
                Some(Step::Byte(byte))
            }
            Sort::Mark => self.number().map(Step::Mark),
            Sort::Number => self.number().map(Step::Number),
        }
    }

    fn begin(&mut self) -> Option<Step<'a>> {
        let &[kind, map] = self.bytes.get(self.at..)?.first_chunk()?;
        let kind = Kind::from_number(kind).filter(|kind| kind.takes_map(map))?;
        self.at += 2;
        self.open.push(Open { kind, map, next: 0, items: 0, left: 0 });
        Some(Step::Begins(kind))
    }

    fn number(&mut self) -> Option<u16> {
        let &two = self.bytes.get(self.at..)?.first_chunk()?;
        self.at += 2;
        Some(u16::from_le_bytes(two))
    }
}

impl<'a> Iterator for Walk<'a> {
    type Item = Step<'a>;

    fn next(&mut self) -> Option<Step<'a>> {
        if self.ended != Ended::No {
            return None;
        }
        let step = self.step();
        if step.is_none() {
            self.ended = Ended::Broken;
        } else if self.open.is_empty() {
            self.ended = Ended::Whole;
        }
        step
    }
}

/// The way from the root to a place in a tree. It prints as `Program.body[0] > ExpressionStatement.expr`, the middle of a
/// long one left out.
///
/// ```
/// use rest_spread::{Step, Walk};
///
/// // ({...a})
/// let tree = b"\x01\x01\x01\x00\x03\x03\x01\x00\x18\x01\x01\x00\x1a\x01\x12\x01\x01\x00a";
/// let mut walk = Walk::new(tree);
/// walk.find(|step| *step == Step::Mark(1));
/// assert_eq!(walk.path().to_string(), "Program.body[0] > ExpressionStatement.mark");
/// ```
#[derive(Clone, Debug, Default, PartialEq, Eq)]
pub struct Path(pub(crate) Vec<Turn>);

/// One step of a [`Path`]: a field of a node, and of a list the item.
///
/// ```
/// use rest_spread::{Kind, Walk};
///
/// let mut walk = Walk::new(b"\x01\x01\x00\x00");
/// walk.by_ref().nth(1);
/// let turn = walk.path().turns()[0];
/// assert_eq!((turn.kind, turn.field, turn.item), (Kind::Program, 0, None));
/// ```
#[derive(Clone, Copy, Debug, PartialEq, Eq)]
#[non_exhaustive]
pub struct Turn {
    /// The node's kind.
    pub kind: Kind,
    /// The field's number, from 0.
    pub field: usize,
    /// The item's number, from 0.
    pub item: Option<u16>,
}

impl Path {
    /// The steps, the root's first.
    #[must_use]
    pub fn turns(&self) -> &[Turn] {
        &self.0
    }
}

/// How many steps of a long path are shown at either end.
const SHOWN: usize = 3;

impl fmt::Display for Path {
    fn fmt(&self, f: &mut fmt::Formatter<'_>) -> fmt::Result {
        if self.0.is_empty() {
            return f.write_str("the root");
        }
        let mut shown: Vec<String> = self.0.iter().map(Turn::to_string).collect();
        if shown.len() > 2 * SHOWN + 1 {
            let left_out = format!("({} more)", shown.len() - 2 * SHOWN);
            shown.splice(SHOWN..shown.len() - SHOWN, [left_out]);
        }
        f.write_str(&shown.join(" > "))
    }
}

impl fmt::Display for Turn {
    fn fmt(&self, f: &mut fmt::Formatter<'_>) -> fmt::Result {
        write!(f, "{}.{}", self.kind.name(), self.kind.field_name(self.field).unwrap_or("?"))?;
        self.item.map_or(Ok(()), |item| write!(f, "[{item}]"))
    }
}

#[cfg(test)]
mod tests {
    use super::*;

    #[test]
    fn steps_come_in_byte_order() {
        // f([, a])
        let bytes = b"\x1d\x03\x12\x01\x01\x00f\x01\x00\x20\x01\x02\x00\x00\x12\x03\x01\x00a\x05\x00!";
        let mut walk = Walk::new(bytes);
        let steps: Vec<Step> = walk.by_ref().collect();
        assert!(walk.is_whole());
        assert_eq!(walk.at(), bytes.len() - 1);
        use Step::*;
        let reference = Kind::Reference;
        assert_eq!(
            steps,
            [
                Begins(Kind::Call),
                Begins(reference),
                Text(b"f"),
                Ends(reference),
                List(1),
                Begins(Kind::Array),
                List(2),
                Hole,
                Begins(reference),
                Text(b"a"),
                Number(5),
                Ends(reference),
                Ends(Kind::Array),
                Ends(Kind::Call),
            ]
        );
    }

    #[test]
    fn a_path_leads_to_a_step() {
        let bytes = b"\x1d\x03\x12\x01\x01\x00f\x01\x00\x20\x01\x02\x00\x00\x12\x01\x01\x00a";
        let mut walk = Walk::new(bytes);
        walk.find(|step| *step == Step::Text(b"a")).unwrap();
        assert_eq!(walk.path().to_string(), "Call.args[0] > Array.items[1] > Reference.name");
        assert_eq!(Path::default().to_string(), "the root");
    }

    #[test]
    fn a_long_path_is_cut_and_a_deep_tree_is_read() {
        let deep = [&[31, 1].repeat(100_000)[..], b"\x12\x01\x01\x00a"].concat();
        let mut walk = Walk::new(&deep);
        walk.find(|step| *step == Step::Text(b"a")).unwrap();
        let shown = walk.path().to_string();
        assert!(shown.contains(" > (99995 more) > "), "{shown}");
        walk.by_ref().for_each(drop);
        assert!(walk.is_whole());
    }
}
