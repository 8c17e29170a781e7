//! The kinds of node and their fields, as `docs/FORMAT.md` has them.

use std::fmt;

macro_rules! kinds {
    ($($number:literal $name:ident [$($slot:expr),*],)*) => {
        /// A kind of node, with document 01's number.
        ///
        /// ```
        /// use rest_spread::Kind;
        ///
        /// assert_eq!(Kind::Object.number(), 24);
        /// assert_eq!(Kind::from_number(24), Some(Kind::Object));
        /// assert_eq!(Kind::Object.to_string(), "Object(properties*)");
        /// ```
        #[derive(Clone, Copy, Debug, PartialEq, Eq, PartialOrd, Ord, Hash)]
        #[non_exhaustive]
        #[repr(u8)]
        pub enum Kind {
            $(#[doc = concat!("Kind ", stringify!($number), ".")] $name = $number,)*
        }

        impl Kind {
            /// All kinds, by number.
            pub const ALL: &'static [Kind] = &[$(Kind::$name,)*];

            /// Its name.
            #[must_use]
            pub fn name(self) -> &'static str {
                match self {
                    $(Kind::$name => stringify!($name),)*
                }
            }

            /// Its fields, bit 0 first.
            pub(crate) fn slots(self) -> &'static [Slot] {
                match self {
                    $(Kind::$name => const { &[$($slot,)*] },)*
                }
            }
        }
    };
}

kinds! {
    1 Program [list("body", Place::Statement)],
    2 Block [MARK, list("body", Place::Statement)],
    3 ExpressionStatement [MARK, node("expr", Place::Expression)],
    4 Declaration [MARK, byte("kind", 1, 3), list("declarators", Place::Declarator)],
    5 Declarator [node("id", Place::Binding), node("init", Place::Expression).or_none()],
    6 For [MARK, node("init", Place::Init).or_none(), node("test", Place::Expression).or_none(),
        node("update", Place::Expression).or_none(), node("body", Place::Statement)],
    7 ForIn [MARK, node("left", Place::Head), node("right", Place::Expression), node("body", Place::Statement)],
    8 ForOf [MARK, node("left", Place::Head), node("right", Place::Expression), node("body", Place::Statement),
        byte("await", 0, 1).or_none()],
    9 Try [MARK, node("block", Place::Block), node("handler", Place::Catch).or_none(),
        node("finalizer", Place::Block).or_none()],
    10 Catch [node("param", Place::Param).or_none(), node("body", Place::Block)],
    11 Return [MARK, node("arg", Place::Expression).or_none()],
    12 OtherStatement [MARK, text("name"), list("children", Place::Child)],
    13 Empty [MARK],
    14 Function [MARK, byte("sort", 1, 2), node("name", Place::Name).or_none(), list("params", Place::Param),
        node("rest", Place::Binding).or_none(), node("body", Place::FunctionBody).or_none()],
    15 Param [node("pattern", Place::Binding), node("default", Place::Expression).or_none()],
    16 FunctionBody [list("directives", Place::Literal).or_none(), list("body", Place::Statement)],
    17 Arrow [list("params", Place::Param), node("rest", Place::Binding).or_none(), node("body", Place::ArrowBody)],
    18 Reference [text("name"), number("symbol").or_none()],
    19 Binding [text("name"), number("symbol").or_none()],
    20 Temporary [number("number"), byte("stem", 1, 4)],
    21 Helper [byte("number", 1, 5)],
    22 Literal [byte("sort", 1, 6), text("spelling"), text("form").or_none()],
    23 Template [list("quasis", Place::Literal), list("exprs", Place::Expression).or_none()],
    24 Object [list("properties", Place::Member)],
    25 Property [node("key", Place::Key), node("value", Place::Expression), byte("flags", 0, 31)],
    26 Spread [node("arg", Place::Expression)],
    27 Assignment [byte("op", 1, 2), node("left", Place::Assigned), node("right", Place::Expression)],
    28 Sequence [list("exprs", Place::Expression)],
    29 Call [node("callee", Place::Expression), list("args", Place::Argument)],
    30 Member [node("object", Place::Expression), text("name")],
    31 Parenthesised [node("expr", Place::Expression)],
    32 Array [list("items", Place::Argument).or_holes()],
    33 OtherExpression [text("name"), list("children", Place::Child)],
    34 ObjectPattern [list("properties", Place::PatternProperty), node("rest", Place::ObjectRest).or_none()],
    35 PatternProperty [node("key", Place::Key), node("value", Place::PatternItem), byte("flags", 0, 3)],
    36 ArrayPattern [list("items", Place::PatternItem).or_holes(), node("rest", Place::Pattern).or_none()],
    37 Default [node("left", Place::Pattern), node("right", Place::Expression)],
    38 StaticKey [text("name")],
    39 PrivateKey [text("name")],
    40 Class [text("name").or_none(), node("super", Place::Expression).or_none(), list("members", Place::ClassMember)],
    41 ClassMember [node("key", Place::Key), node("value", Place::Expression).or_none(), byte("flags", 0, 31)],
    42 StaticBlock [list("body", Place::Statement)],
    43 Switch [MARK, node("discriminant", Place::Expression), list("cases", Place::Case)],
    44 Case [node("test", Place::Expression).or_none(), list("body", Place::Statement)],
}

/// A field of a kind.
#[derive(Clone, Copy, Debug)]
pub(crate) struct Slot {
    pub name: &'static str,
    pub sort: Sort,
    pub optional: bool,
}

/// What a field is.
#[derive(Clone, Copy, Debug, PartialEq, Eq)]
pub(crate) enum Sort {
    Node(Place),
    List {
        place: Place,
        holes: bool,
    },
    Text,
    /// A byte, from the one to the other.
    Byte(u8, u8),
    Mark,
    Number,
}

/// Where a node stands: what may stand there is said in `grammar.rs`. The places below patterns go by the side that the
/// pattern is on.
#[derive(Clone, Copy, Debug, PartialEq, Eq)]
pub(crate) enum Place {
    Root,
    Statement,
    Expression,
    Block,
    Catch,
    Param,
    Declarator,
    FunctionBody,
    ArrowBody,
    Literal,
    Name,
    Init,
    Head,
    Child,
    Argument,
    Member,
    Key,
    Binding,
    /// Left of an assignment: a target, or a leaf if the operator is not `=`.
    Assigned,
    PatternProperty,
    PatternItem,
    Pattern,
    ObjectRest,
    ClassMember,
    Case,
}

const MARK: Slot = slot("mark", Sort::Mark);

const fn slot(name: &'static str, sort: Sort) -> Slot {
    Slot { name, sort, optional: false }
}

const fn node(name: &'static str, place: Place) -> Slot {
    slot(name, Sort::Node(place))
}

const fn list(name: &'static str, place: Place) -> Slot {
    slot(name, Sort::List { place, holes: false })
}

const fn text(name: &'static str) -> Slot {
    slot(name, Sort::Text)
}

const fn byte(name: &'static str, low: u8, high: u8) -> Slot {
    slot(name, Sort::Byte(low, high))
}

const fn number(name: &'static str) -> Slot {
    slot(name, Sort::Number)
}

impl Slot {
    const fn or_none(self) -> Slot {
        Slot { optional: true, ..self }
    }

    const fn or_holes(self) -> Slot {
        match self.sort {
            Sort::List { place, .. } => Slot { sort: Sort::List { place, holes: true }, ..self },
            _ => self,
        }
    }
}

impl Kind {
    /// The kind with this number.
    #[must_use]
    pub fn from_number(number: u8) -> Option<Self> {
        Self::ALL.get(usize::from(number).checked_sub(1)?).copied()
    }

    /// Its number, from 1.
    #[must_use]
    pub fn number(self) -> u8 {
        self as u8
    }

    /// The name of a field, by its number from 0.
    #[must_use]
    pub fn field_name(self, field: usize) -> Option<&'static str> {
        self.slots().get(field).map(|slot| slot.name)
    }

    /// Whether a bit map has every field that must stand, and none beyond the last.
    pub(crate) fn takes_map(self, map: u8) -> bool {
        let slots = self.slots();
        let stands = |at: usize| map >> at & 1 == 1;
        map >> slots.len() == 0 && (0..slots.len()).all(|at| slots[at].optional || stands(at))
    }
}

/// As `docs/FORMAT.md` writes it: `Block(# body*)`.
impl fmt::Display for Kind {
    fn fmt(&self, f: &mut fmt::Formatter<'_>) -> fmt::Result {
        let fields = self.slots().iter().map(|slot| {
            let (name, sign) = match slot.sort {
                Sort::Node(_) => (slot.name, ""),
                Sort::List { .. } => (slot.name, "*"),
                Sort::Text => (slot.name, "'"),
                Sort::Byte(..) => (slot.name, "="),
                Sort::Mark => ("", "#"),
                Sort::Number => (slot.name, "+"),
            };
            format!("{name}{sign}{}", if slot.optional { "?" } else { "" })
        });
        write!(f, "{}({})", self.name(), fields.collect::<Vec<_>>().join(" "))
    }
}

#[cfg(test)]
mod tests {
    use super::*;

    #[test]
    fn numbers_go_there_and_back() {
        for number in 0..=255 {
            let kind = Kind::from_number(number);
            assert_eq!(kind.is_some(), (1..=Kind::ALL.len()).contains(&number.into()));
            assert!(kind.is_none_or(|kind| kind.number() == number));
        }
    }

    /// The kinds in a row of the table in `docs/FORMAT.md` look so: `| 2 | Block(# body*) | 22 | Literal(..) |`.
    #[test]
    fn kinds_are_those_of_the_format() {
        let page = concat!(env!("CARGO_MANIFEST_DIR"), "/../docs/FORMAT.md");
        let page = std::fs::read_to_string(page).expect("docs/FORMAT.md");
        let mut seen = 0;
        for row in page.lines() {
            let cells: Vec<&str> = row.split('|').map(str::trim).collect();
            for pair in cells.windows(2) {
                let (Ok(number), true) = (pair[0].parse::<u8>(), pair[1].contains('(')) else { continue };
                let kind = Kind::from_number(number).unwrap_or_else(|| panic!("kind {number}"));
                assert_eq!(kind.to_string(), pair[1], "kind {number}");
                seen += 1;
            }
        }
        assert_eq!(seen, Kind::ALL.len());
    }

    /// A map has eight bits, and a mark is the first field wherever there is one.
    #[test]
    fn fields_fit_their_map() {
        for &kind in Kind::ALL {
            let slots = kind.slots();
            assert!(slots.len() <= 8, "{kind}");
            assert!(slots.iter().skip(1).all(|slot| slot.sort != Sort::Mark), "{kind}");
            assert!(!kind.takes_map(255) || slots.len() == 8, "{kind}");
        }
        assert!(Kind::Empty.takes_map(1) && !Kind::Empty.takes_map(0) && !Kind::Empty.takes_map(3));
    }
}
