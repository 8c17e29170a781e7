//! Making trees.

use crate::kind::{Kind, Slot, Sort};
use std::error::Error;
use std::fmt;

/// A node that is being made: its fields are given one after the other, bit 0 first.
///
/// Marks are not given. [`tree`](Self::tree) numbers them through the whole, in byte order, as an input has them. Fields
/// at the end that may be absent may be left out; one in the middle is passed over by [`none`](Self::none). A field that
/// does not fit its kind is noted, and `tree` tells of the first. What may stand where is for the lowering to judge.
///
/// ```
/// use rest_spread::Kind;
///
/// // ({...a})
/// let a = Kind::Reference.make().text("a");
/// let object = Kind::Object.make().list([Kind::Spread.make().node(a)]);
/// let statement = Kind::ExpressionStatement.make().node(object);
/// let tree = Kind::Program.make().list([statement]).tree()?;
/// assert_eq!(tree, b"\x01\x01\x01\x00\x03\x03\x01\x00\x18\x01\x01\x00\x1a\x01\x12\x01\x01\x00a");
/// # Ok::<(), rest_spread::Unfit>(())
/// ```
#[derive(Clone, Debug, PartialEq, Eq)]
#[must_use]
pub struct Make {
    kind: Kind,
    /// The bytes so far.
    bytes: Vec<u8>,
    /// Where in them a mark is still to be put.
    marks: Vec<usize>,
    /// The number of the next field.
    next: usize,
    unfit: Option<Unfit>,
}

/// A field that does not fit its kind.
///
/// ```
/// use rest_spread::Kind;
///
/// let unfit = Kind::Spread.make().tree().unwrap_err();
/// assert_eq!(unfit.to_string(), "Spread(arg): field arg must stand, and was not given");
/// ```
#[derive(Clone, Debug, PartialEq, Eq)]
pub struct Unfit {
    kind: Kind,
    field: usize,
    why: &'static str,
}

impl fmt::Display for Unfit {
    fn fmt(&self, f: &mut fmt::Formatter<'_>) -> fmt::Result {
        match self.kind.field_name(self.field) {
            Some(name) => write!(f, "{}: field {name} {}", self.kind, self.why),
            None => write!(f, "{}: there is no field {}", self.kind, self.field),
        }
    }
}

impl Error for Unfit {}

impl Kind {
    /// Begins a node of this kind.
    pub fn make(self) -> Make {
        let mut made = Make { kind: self, bytes: vec![self.number(), 0], marks: Vec::new(), next: 0, unfit: None };
        if self.slots().first().is_some_and(|slot| slot.sort == Sort::Mark) {
            made.marks.push(made.bytes.len());
            made.stand();
            made.bytes.extend([0, 0]);
        }
        made
    }
}

impl Make {
    /// The next field is this node.
    pub fn node(mut self, node: Make) -> Self {
        if self.fits("is no node", |sort| matches!(sort, Sort::Node(_))) {
            self.put(node);
        }
        self
    }

    /// The next field is a list of these nodes.
    pub fn list(self, nodes: impl IntoIterator<Item = Make>) -> Self {
        self.items(nodes.into_iter().map(Some))
    }

    /// The next field is a list of these nodes and holes.
    pub fn items(mut self, items: impl IntoIterator<Item = Option<Make>>) -> Self {
        if !self.fits("is no list", |sort| matches!(sort, Sort::List { .. })) {
            return self;
        }
        let holes = matches!(self.slot(self.next - 1), Some(Slot { sort: Sort::List { holes: true, .. }, .. }));
        let at = self.bytes.len();
        self.bytes.extend([0, 0]);
        let mut count: usize = 0;
        for item in items {
            count += 1;
            match item {
                Some(node) => self.put(node),
                None if holes => self.bytes.push(0),
                None => self.blame(self.next - 1, "has no holes"),
            }
        }
        match u16::try_from(count) {
            Ok(count) => self.bytes[at..at + 2].copy_from_slice(&count.to_le_bytes()),
            Err(_) => self.blame(self.next - 1, "has more than 65,535 items"),
        }
        self
    }

    /// The next field is this text, which may be any bytes.
    pub fn text(mut self, text: impl AsRef<[u8]>) -> Self {
        if self.fits("is no text", |sort| sort == Sort::Text) {
            let text = text.as_ref();
            match u16::try_from(text.len()) {
                Ok(length) => self.bytes.extend(length.to_le_bytes()),
                Err(_) => self.blame(self.next - 1, "has more than 65,535 bytes"),
            }
            self.bytes.extend(text);
        }
        self
    }

    /// The next field is this byte.
    pub fn byte(mut self, byte: u8) -> Self {
        if self.fits(
            "is no byte, or has no such value",
            |sort| matches!(sort, Sort::Byte(low, high) if (low..=high).contains(&byte)),
        ) {
            self.bytes.push(byte);
        }
        self
    }

    /// The next field is this number.
    pub fn number(mut self, number: u16) -> Self {
        if self.fits("is no number", |sort| sort == Sort::Number) {
            self.bytes.extend(number.to_le_bytes());
        }
        self
    }

    /// The next field is absent.
    pub fn none(mut self) -> Self {
        match self.slot(self.next) {
            Some(slot) if slot.optional => (),
            _ => self.blame(self.next, "must stand"),
        }
        self.next += 1;
        self
    }

    /// The node's own mark is this one, as in a tree that was lowered, and takes no part in the numbering.
    pub fn mark(mut self, mark: u16) -> Self {
        if self.marks.first() == Some(&2) {
            self.marks.remove(0);
            self.bytes[2..4].copy_from_slice(&mark.to_le_bytes());
        } else {
            self.blame(0, "is no mark, or was given already");
        }
        self
    }

    /// The bytes of the node and all that is in it.
    ///
    /// # Errors
    /// Of the first field that does not fit its kind.
    pub fn tree(mut self) -> Result<Vec<u8>, Unfit> {
        self.end();
        for (at, mark) in std::mem::take(&mut self.marks).into_iter().zip(1_usize..) {
            match u16::try_from(mark) {
                Ok(mark) => self.bytes[at..at + 2].copy_from_slice(&mark.to_le_bytes()),
                Err(_) => self.blame(0, "is beyond 65,535 marks"),
            }
        }
        self.unfit.map_or(Ok(self.bytes), Err)
    }

    fn slot(&self, number: usize) -> Option<Slot> {
        self.kind.slots().get(number).copied()
    }

    /// The next field stands.
    fn stand(&mut self) {
        self.bytes[1] |= 1 << self.next;
        self.next += 1;
    }

    fn fits(&mut self, why: &'static str, is: impl Fn(Sort) -> bool) -> bool {
        let fits = self.slot(self.next).is_some_and(|slot| is(slot.sort));
        if fits {
            self.stand();
        } else {
            self.blame(self.next, why);
        }
        fits
    }

    fn blame(&mut self, field: usize, why: &'static str) {
        self.unfit.get_or_insert(Unfit { kind: self.kind, field, why });
    }

    /// Sees that no field is missing at the end.
    fn end(&mut self) {
        let missing = (self.next..self.kind.slots().len()).find(|&at| self.slot(at).is_some_and(|slot| !slot.optional));
        if let Some(field) = missing {
            self.blame(field, "must stand, and was not given");
        }
    }

    fn put(&mut self, mut node: Make) {
        node.end();
        if let Some(unfit) = node.unfit {
            self.unfit.get_or_insert(unfit);
        }
        let at = self.bytes.len();
        self.marks.extend(node.marks.iter().map(|mark| mark + at));
        self.bytes.append(&mut node.bytes);
    }
}

#[cfg(test)]
mod tests {
    use super::*;

    fn name(name: &str) -> Make {
        Kind::Reference.make().text(name)
    }

    #[test]
    fn marks_are_numbered_in_byte_order() {
        let empty = || Kind::Empty.make();
        let block = Kind::Block.make().list([empty(), Kind::Block.make().list([empty()])]);
        let tree = Kind::Program.make().list([block, empty()]).tree().unwrap();
        assert_eq!(
            tree,
            b"\x01\x01\x02\x00\x02\x03\x01\x00\x02\x00\x0d\x01\x02\x00\x02\x03\x03\x00\x01\x00\x0d\x01\x04\x00\x0d\x01\x05\x00"
        );
        let kept = Kind::Block.make().mark(300).list([empty(), empty().mark(9), empty()]).tree().unwrap();
        assert_eq!(kept, b"\x02\x03\x2c\x01\x03\x00\x0d\x01\x01\x00\x0d\x01\x09\x00\x0d\x01\x02\x00");
    }

    #[test]
    fn absent_fields_and_holes() {
        // for (; a;) ;
        let head = Kind::For.make().none().node(name("a")).none().node(Kind::Empty.make());
        assert_eq!(head.tree().unwrap(), b"\x06\x15\x01\x00\x12\x01\x01\x00a\x0d\x01\x02\x00");
        let array = Kind::Array.make().items([None, Some(name("a")), None]);
        assert_eq!(array.tree().unwrap(), b"\x20\x01\x03\x00\x00\x12\x01\x01\x00a\x00");
        assert_eq!(Kind::Return.make().tree().unwrap(), b"\x0b\x01\x01\x00");
    }

    #[test]
    fn what_does_not_fit_is_told() {
        let told = |made: Make| made.tree().unwrap_err().to_string();
        assert_eq!(told(name("a").text("b")), "Reference(name' symbol+?): field symbol is no text");
        assert_eq!(told(name("a").number(1).number(2)), "Reference(name' symbol+?): there is no field 2");
        assert_eq!(told(Kind::Spread.make().none()), "Spread(arg): field arg must stand");
        assert_eq!(told(Kind::Spread.make()), "Spread(arg): field arg must stand, and was not given");
        assert_eq!(told(Kind::Sequence.make().items([None])), "Sequence(exprs*): field exprs has no holes");
        assert_eq!(told(Kind::Helper.make().byte(6)), "Helper(number=): field number is no byte, or has no such value");
        assert_eq!(told(name("a").mark(1)), "Reference(name' symbol+?): field name is no mark, or was given already");
        assert!(told(name(&"x".repeat(65_536))).ends_with("field name has more than 65,535 bytes"));
        let many = std::iter::repeat_n(None, 65_536);
        assert!(told(Kind::Array.make().items(many)).ends_with("field items has more than 65,535 items"));
        let within = Kind::Program.make().list([Kind::ExpressionStatement.make().node(Kind::Spread.make())]);
        assert_eq!(told(within), "Spread(arg): field arg must stand, and was not given", "from inside");
    }
}
