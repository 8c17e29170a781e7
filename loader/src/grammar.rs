//! Where an input stops being a tree. The archive's reader decides whether it is one; this is a second reader, which says
//! where and why, and is tested against the first and not proved.

use crate::kind::{Kind, Place, Slot, Sort};
use crate::walk::{Path, Turn};
use crate::TREE_IN;
use std::fmt;

/// The first byte at which an input is no tree, or is nested too deep.
///
/// ```
/// use rest_spread::{Advice, Lowerer, Options};
///
/// // The statement's kind is 99.
/// let tree = b"\x01\x01\x01\x00\x63\x03\x01\x00";
/// let mut lowerer = Lowerer::new();
/// let refusal = lowerer.lower(Options::NONE, tree).unwrap_err();
/// let Some(Advice::NoTree(fault)) = lowerer.explain(tree, refusal).advice else { panic!() };
/// assert_eq!(fault.to_string(), "byte 4, at Program.body[0]: there is no kind 99");
/// ```
#[derive(Clone, Debug, PartialEq, Eq)]
#[non_exhaustive]
pub struct Fault {
    /// The byte, from 0.
    pub at: usize,
    /// The way to it.
    pub path: Path,
    /// What is wrong there.
    pub trouble: Trouble,
}

/// What is wrong at a byte.
///
/// ```
/// use rest_spread::{Kind, Trouble};
///
/// assert_eq!(Trouble::Misplaced(Kind::Spread).to_string(), "a Spread can't stand here");
/// ```
#[derive(Clone, Copy, Debug, PartialEq, Eq)]
#[non_exhaustive]
pub enum Trouble {
    /// The bytes end before the tree does.
    Ends,
    /// There are bytes behind the tree.
    Behind,
    /// No kind has this number.
    NoKind(u8),
    /// A node of this kind can't stand here.
    Misplaced(Kind),
    /// The bit map lacks a field that must stand, or has one beyond the last.
    Map(Kind, u8),
    /// The byte is none of those that its field may have.
    Byte(u8),
    /// The mark is not the next one.
    Mark {
        /// The mark that stands.
        found: u16,
        /// The one that should.
        due: u16,
    },
    /// The node is one level below the limit.
    Deep {
        /// The depth limit.
        limit: u32,
    },
}

impl fmt::Display for Fault {
    fn fmt(&self, f: &mut fmt::Formatter<'_>) -> fmt::Result {
        write!(f, "byte {}, at {}: {}", self.at, self.path, self.trouble)
    }
}

impl fmt::Display for Trouble {
    fn fmt(&self, f: &mut fmt::Formatter<'_>) -> fmt::Result {
        match *self {
            Trouble::Ends => f.write_str("the bytes end before the tree does"),
            Trouble::Behind => f.write_str("the tree has ended, and bytes follow it"),
            Trouble::NoKind(number) => write!(f, "there is no kind {number}"),
            Trouble::Misplaced(kind) => write!(f, "{} {} can't stand here", article(kind), kind.name()),
            Trouble::Map(kind, map) => write!(f, "the bit map {map:08b} does not fit {kind}"),
            Trouble::Byte(byte) => write!(f, "{byte} is not among the values of this field"),
            Trouble::Mark { found, due } => write!(f, "the mark is {found}, and {due} is the next"),
            Trouble::Deep { limit } => write!(f, "the node is at level {}, and the limit is {limit}", limit + 1),
        }
    }
}

fn article(kind: Kind) -> &'static str {
    if kind.name().starts_with(['A', 'E', 'O']) {
        "an"
    } else {
        "a"
    }
}

/// The first fault of an input that is not too long, or none, within a depth limit of at most 128.
pub(crate) fn first_fault(bytes: &[u8], limit: u32) -> Option<Fault> {
    debug_assert!(bytes.len() <= TREE_IN);
    let mut reader = Reader { bytes, limit, at: 0, mark: 1, path: Vec::new() };
    let met = match reader.node(Place::Root, Side::Binding) {
        Err(met) => Some(met),
        Ok(()) => (reader.at < bytes.len()).then_some((reader.at, Trouble::Behind)),
    };
    met.map(|(at, trouble)| Fault { at, path: Path(reader.path), trouble })
}

/// Patterns bind or assign, through and through.
#[derive(Clone, Copy, PartialEq, Eq)]
enum Side {
    Binding,
    Target,
}

struct Reader<'a> {
    bytes: &'a [u8],
    limit: u32,
    at: usize,
    /// The next mark.
    mark: u16,
    path: Vec<Turn>,
}

/// What ends the reading: the byte, and what is wrong there.
type Met = (usize, Trouble);

impl Reader<'_> {
    fn node(&mut self, place: Place, side: Side) -> Result<(), Met> {
        let at = self.at;
        let number = self.byte()?;
        let kind = Kind::from_number(number).ok_or((at, Trouble::NoKind(number)))?;
        if !allows(place, side, kind) {
            return Err((at, Trouble::Misplaced(kind)));
        }
        if self.path.len() >= self.limit as usize {
            return Err((at, Trouble::Deep { limit: self.limit }));
        }
        let map = self.byte()?;
        if !kind.takes_map(map) {
            return Err((at + 1, Trouble::Map(kind, map)));
        }
        let side = below(place, side, kind);
        let level = self.path.len();
        let mut first_byte = 0;
        for (field, slot) in kind.slots().iter().enumerate().filter(|(field, _)| map >> field & 1 == 1) {
            self.path.push(Turn { kind, field, item: None });
            match slot.sort {
                Sort::Byte(..) => first_byte = self.value(bounds(place, kind, *slot))?,
                Sort::Node(Place::Assigned) if first_byte == 1 => self.node(Place::Pattern, Side::Target)?,
                Sort::Node(Place::Assigned) => self.node(Place::ObjectRest, Side::Target)?,
                sort => self.field(sort, side)?,
            }
            self.path.truncate(level);
        }
        Ok(())
    }

    fn field(&mut self, sort: Sort, side: Side) -> Result<(), Met> {
        match sort {
            Sort::Node(place) => self.node(place, side),
            Sort::List { place, holes } => {
                for item in 0..self.number()? {
                    self.path.last_mut().expect("a field has its turn").item = Some(item);
                    if holes && self.bytes.get(self.at) == Some(&0) {
                        self.at += 1;
                    } else {
                        self.node(place, side)?;
                    }
                }
                Ok(())
            }
            Sort::Text => {
                let length = usize::from(self.number()?);
                if length > self.bytes.len() - self.at {
                    return Err((self.bytes.len(), Trouble::Ends));
                }
                self.at += length;
                Ok(())
            }
            Sort::Mark => {
                let (at, due) = (self.at, self.mark);
                let found = self.number()?;
                self.mark += 1;
                (found == due).then_some(()).ok_or((at, Trouble::Mark { found, due }))
            }
            Sort::Number => self.number().map(drop),
            Sort::Byte(low, high) => self.value((low, high)).map(drop),
        }
    }

    fn value(&mut self, (low, high): (u8, u8)) -> Result<u8, Met> {
        let at = self.at;
        let byte = self.byte()?;
        (low..=high).contains(&byte).then_some(byte).ok_or((at, Trouble::Byte(byte)))
    }

    fn byte(&mut self) -> Result<u8, Met> {
        let byte = *self.bytes.get(self.at).ok_or((self.bytes.len(), Trouble::Ends))?;
        self.at += 1;
        Ok(byte)
    }

    fn number(&mut self) -> Result<u16, Met> {
        Ok(u16::from_le_bytes([self.byte()?, self.byte()?]))
    }
}

/// A Function's sort goes by its place; other bytes have the bounds of their field.
fn bounds(place: Place, kind: Kind, slot: Slot) -> (u8, u8) {
    match (kind, place, slot.sort) {
        (Kind::Function, Place::Statement, _) => (1, 1),
        (Kind::Function, Place::Child, _) => (1, 2),
        (Kind::Function, ..) => (2, 2),
        (_, _, Sort::Byte(low, high)) => (low, high),
        _ => (0, u8::MAX),
    }
}

/// The side of what stands below a node: a pattern's own, and a new one where a pattern begins.
fn below(place: Place, side: Side, kind: Kind) -> Side {
    match (kind, place) {
        (Kind::ObjectPattern | Kind::ArrayPattern, Place::Head) => Side::Target,
        (Kind::ObjectPattern | Kind::ArrayPattern | Kind::PatternProperty | Kind::Default, _) => side,
        _ => Side::Binding,
    }
}

fn allows(place: Place, side: Side, kind: Kind) -> bool {
    let pattern = |side: Side| match side {
        Side::Binding => is_binding(kind),
        Side::Target => is_target(kind),
    };
    match place {
        Place::Root => kind == Kind::Program,
        Place::Statement => is_statement(kind),
        Place::Expression => is_expression(kind),
        Place::Block => kind == Kind::Block,
        Place::Catch => kind == Kind::Catch,
        Place::Param => kind == Kind::Param,
        Place::Declarator => kind == Kind::Declarator,
        Place::FunctionBody => kind == Kind::FunctionBody,
        Place::ArrowBody => kind == Kind::FunctionBody || is_expression(kind),
        Place::Literal => kind == Kind::Literal,
        Place::Name => kind == Kind::Binding,
        Place::Init => kind == Kind::Declaration || is_expression(kind),
        Place::Head => kind == Kind::Declaration || is_target(kind),
        Place::Child => kind == Kind::Spread || is_statement(kind) || is_expression(kind),
        Place::Argument => kind == Kind::Spread || is_expression(kind),
        Place::Member => matches!(kind, Kind::Property | Kind::Spread),
        Place::Key => matches!(kind, Kind::StaticKey | Kind::PrivateKey) || is_expression(kind),
        Place::Binding => is_binding(kind),
        Place::Assigned => is_target(kind),
        Place::PatternProperty => kind == Kind::PatternProperty,
        Place::PatternItem => kind == Kind::Default || pattern(side),
        Place::Pattern => pattern(side),
        Place::ObjectRest if side == Side::Binding => kind == Kind::Binding,
        Place::ObjectRest => is_leaf(kind),
        Place::ClassMember => matches!(kind, Kind::ClassMember | Kind::StaticBlock),
        Place::Case => kind == Kind::Case,
    }
}

fn is_statement(kind: Kind) -> bool {
    use Kind::*;
    matches!(
        kind,
        Block
            | ExpressionStatement
            | Declaration
            | For
            | ForIn
            | ForOf
            | Try
            | Return
            | OtherStatement
            | Empty
            | Function
            | Switch
    )
}

fn is_expression(kind: Kind) -> bool {
    use Kind::*;
    is_leaf(kind)
        || matches!(kind, Function | Arrow | Literal | Template | Object | Assignment | Sequence | Call | Array | Class)
}

fn is_leaf(kind: Kind) -> bool {
    matches!(kind, Kind::Reference | Kind::Member | Kind::Parenthesised | Kind::OtherExpression)
}

fn is_binding(kind: Kind) -> bool {
    matches!(kind, Kind::Binding | Kind::ObjectPattern | Kind::ArrayPattern)
}

fn is_target(kind: Kind) -> bool {
    matches!(kind, Kind::ObjectPattern | Kind::ArrayPattern) || is_leaf(kind)
}

#[cfg(test)]
mod tests {
    use super::*;
    use crate::LEVELS;

    fn told(bytes: &[u8]) -> String {
        first_fault(bytes, LEVELS).map_or("none".into(), |fault| fault.to_string())
    }

    #[test]
    fn each_trouble_is_told_with_its_byte_and_its_path() {
        assert_eq!(told(b"\x01\x01\x00\x00"), "none");
        assert_eq!(told(b""), "byte 0, at the root: the bytes end before the tree does");
        assert_eq!(told(b"\x02"), "byte 0, at the root: a Block can't stand here");
        assert_eq!(told(b"\x01\x02"), "byte 1, at the root: the bit map 00000010 does not fit Program(body*)");
        assert_eq!(told(b"\x01\x01\x00\x00!"), "byte 4, at the root: the tree has ended, and bytes follow it");
        assert_eq!(told(b"\x01\x01\x01\x00\x00"), "byte 4, at Program.body[0]: there is no kind 0");
        assert_eq!(
            told(b"\x01\x01\x01\x00\x0d\x01\x02\x00"),
            "byte 6, at Program.body[0] > Empty.mark: the mark is 2, and 1 is the next"
        );
        assert_eq!(
            told(b"\x01\x01\x01\x00\x04\x07\x01\x00\x04\x00\x00"),
            "byte 8, at Program.body[0] > Declaration.kind: 4 is not among the values of this field"
        );
        assert_eq!(
            told(b"\x01\x01\x01\x00\x03\x03\x01\x00\x12\x01\x05\x00a"),
            "byte 13, at Program.body[0] > ExpressionStatement.expr > Reference.name: the bytes end before the tree does"
        );
    }

    /// An assignment's left goes by its operator, a pattern's parts by its side, a Function's sort by its place.
    #[test]
    fn places_go_by_what_is_around_them() {
        let statement = |expression: &[u8]| [b"\x01\x01\x01\x00\x03\x03\x01\x00", expression].concat();
        let object = b"\x22\x01\x00\x00\x12\x01\x01\x00b";
        assert_eq!(told(&statement(&[b"\x1b\x07\x01", &object[..]].concat())), "none");
        assert!(
            told(&statement(&[b"\x1b\x07\x02", &object[..]].concat())).ends_with("an ObjectPattern can't stand here")
        );
        let bound = b"\x1b\x07\x01\x24\x01\x01\x00\x13\x01\x01\x00a\x12\x01\x01\x00b";
        assert!(told(&statement(bound)).ends_with("ArrayPattern.items[0]: a Binding can't stand here"));
        let function = |sort: u8| [&[14, 11, 2, 0, sort][..], b"\x00\x00"].concat();
        assert_eq!(told(&statement(&function(2))), "none");
        assert!(told(&statement(&function(1))).ends_with("Function.sort: 1 is not among the values of this field"));
    }
}
