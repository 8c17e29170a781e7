//! Object rest and spread that document 01 leaves in place.

use crate::kind::Kind;
use crate::walk::{Step, Walk};
use crate::{entry, List, Lowered};
use std::fmt;

/// An object rest or spread that stands in a result. An engine that knows ECMAScript up to 2017 does not take it: it is a
/// syntax error when the script is loaded.
///
/// ```
/// use rest_spread::{Kind, Left, Lowerer, Options};
///
/// // var [...[{...a}]] = b
/// let rest = Kind::ObjectPattern.make().list([]).node(Kind::Binding.make().text("a"));
/// let inner = Kind::ArrayPattern.make().list([rest]);
/// let outer = Kind::ArrayPattern.make().list([]).node(inner);
/// let declarator = Kind::Declarator.make().node(outer).node(Kind::Reference.make().text("b"));
/// let tree = Kind::Program.make().list([Kind::Declaration.make().byte(1).list([declarator])]).tree().unwrap();
///
/// let mut lowerer = Lowerer::new();
/// let lowered = lowerer.lower(Options::NONE, &tree)?;
/// let left = &lowered.leftovers()[0];
/// assert_eq!((left.what, left.marks()), (Left::Rest, &[1][..]));
/// # Ok::<(), rest_spread::Refusal>(())
/// ```
#[derive(Clone, Debug, PartialEq, Eq)]
#[non_exhaustive]
pub struct Leftover {
    /// What it is.
    pub what: Left,
    /// Whether it stands in the list, and not in the tree.
    pub in_list: bool,
    marks: Vec<u16>,
}

/// What is left.
///
/// ```
/// assert_eq!(rest_spread::Left::Spread.to_string(), "object spread");
/// ```
#[derive(Clone, Copy, Debug, PartialEq, Eq)]
pub enum Left {
    /// An object pattern with a rest.
    Rest,
    /// An object literal with a spread.
    Spread,
}

impl fmt::Display for Left {
    fn fmt(&self, f: &mut fmt::Formatter<'_>) -> fmt::Result {
        f.write_str(match self {
            Left::Rest => "object rest",
            Left::Spread => "object spread",
        })
    }
}

impl Leftover {
    /// The marks of the statements that it stands in, the outermost first; in the list the entry's comes first. New
    /// statements have marks above those of the input.
    #[must_use]
    pub fn marks(&self) -> &[u16] {
        &self.marks
    }

    /// The innermost of these statements that the input has, whose marks end before `next`.
    #[must_use]
    pub fn statement(&self, next: u16) -> Option<u16> {
        self.marks.iter().rev().copied().find(|mark| *mark < next)
    }
}

impl Lowered<'_> {
    /// What document 01 leaves of object rest and spread, in the tree and then in the list: below array rests of
    /// declarations, in rest parameters, in parameters of functions without a body, in declarators without a value, and in
    /// keys that are handed to the list, as values or in Templates. That nothing else is left is proved (docs/RULES.md, 'What
    /// is left'). It is looked for anew at each call. Whether a rest is left in the tree is what the proved
    /// [`entry::leftover`] says; where it stands is looked up beside it.
    #[must_use]
    pub fn leftovers(&self) -> Vec<Leftover> {
        let mut found = Vec::new();
        look(self.tree, &[], false, &mut found);
        if entry::leftover(self.tree) && !found.iter().any(|left| left.what == Left::Rest) {
            found.push(Leftover { what: Left::Rest, in_list: false, marks: Vec::new() });
        }
        in_list(self.list, &mut found);
        found
    }
}

fn in_list(list: List, found: &mut Vec<Leftover>) {
    for entry in list.entries() {
        for declarator in entry.declarators {
            look(declarator.bytes(), &[entry.mark], true, found);
        }
    }
    for declarator in list.excluded() {
        look(declarator.bytes(), &[], true, found);
    }
}

fn look(bytes: &[u8], around: &[u16], in_list: bool, found: &mut Vec<Leftover>) {
    // Of each open node its kind, and whether it has a mark.
    let mut open: Vec<(Kind, bool)> = Vec::new();
    let mut marks = around.to_vec();
    for step in Walk::new(bytes) {
        match step {
            Step::Begins(kind) => {
                let outer = open.last().map(|(kind, _)| *kind);
                let rest = outer == Some(Kind::ObjectPattern) && kind != Kind::PatternProperty;
                let spread = outer == Some(Kind::Object) && kind == Kind::Spread;
                if rest || spread {
                    let what = if rest { Left::Rest } else { Left::Spread };
                    found.push(Leftover { what, in_list, marks: marks.clone() });
                }
                open.push((kind, false));
            }
            Step::Mark(mark) => {
                marks.push(mark);
                open.last_mut().expect("a mark is a node's").1 = true;
            }
            Step::Ends(_) => {
                let marked = open.pop().is_some_and(|(_, marked)| marked);
                marks.truncate(marks.len() - usize::from(marked));
            }
            _ => (),
        }
    }
}
