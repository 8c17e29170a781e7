//! Reading trees and making them: every stored tree, input or result, is taken apart and put together again.

mod common;

use common::cases::{stored, to_hex};
use common::draw::{Chance, Grammar};
use common::make::{expression, program, reference, spreads};
use common::seeds;
use rest_spread::{Field, Item, Kind, List, Lowerer, Make, Node, Options, Step, Walk};

/// A node that is being put together again: what is made of it, how many fields were given, and the items of a list.
struct Open {
    made: Make,
    given: usize,
    items: Vec<Option<Make>>,
    wanted: usize,
}

impl Open {
    /// Passes over the fields before this one.
    fn up_to(&mut self, field: usize) {
        while self.given < field {
            self.made = self.made.clone().none();
            self.given += 1;
        }
        self.given = field + 1;
    }

    fn give(&mut self, field: usize, put: impl FnOnce(Make) -> Make) {
        self.up_to(field);
        self.made = put(self.made.clone());
    }

    fn give_item(&mut self, item: Option<Make>) {
        self.items.push(item);
        self.end_list();
    }

    fn end_list(&mut self) {
        if self.items.len() == self.wanted {
            let items = std::mem::take(&mut self.items);
            self.made = self.made.clone().items(items);
        }
    }
}

/// The bytes of a node, put together step by step; its marks as they were, or numbered anew.
fn rebuilt(bytes: &[u8], keep_marks: bool) -> Vec<u8> {
    let mut open: Vec<Open> = Vec::new();
    let mut walk = Walk::new(bytes);
    while let Some(step) = walk.next() {
        if let Step::Begins(kind) = step {
            open.push(Open { made: kind.make(), given: 0, items: Vec::new(), wanted: 0 });
            continue;
        }
        if let Step::Ends(_) = step {
            let done = open.pop().unwrap().made;
            let Some(outer) = open.last_mut() else {
                assert!(walk.is_whole() && walk.at() == bytes.len());
                return done.tree().unwrap();
            };
            let turn = *walk.path().turns().last().unwrap();
            match turn.item {
                Some(_) => outer.give_item(Some(done)),
                None => outer.give(turn.field, |made| made.node(done)),
            }
            continue;
        }
        let field = walk.path().turns().last().unwrap().field;
        let inner = open.last_mut().unwrap();
        match step {
            Step::List(count) => {
                inner.up_to(field);
                inner.wanted = count.into();
                inner.end_list();
            }
            Step::Hole => inner.give_item(None),
            Step::Text(text) => inner.give(field, |made| made.text(text)),
            Step::Byte(byte) => inner.give(field, |made| made.byte(byte)),
            Step::Number(number) => inner.give(field, |made| made.number(number)),
            // A mark is the first field, and stands already.
            Step::Mark(mark) => {
                inner.given = 1;
                if keep_marks {
                    inner.made = inner.made.clone().mark(mark);
                }
            }
            other => panic!("{other:?}"),
        }
    }
    panic!("no node: {bytes:02x?}")
}

/// Goes through a node by its fields, as deep as it is, and gives the number of its nodes and holes.
fn parts(node: Node) -> (usize, usize) {
    let (mut nodes, mut holes) = (0, 0);
    let mut left = vec![node];
    while let Some(node) = left.pop() {
        nodes += 1;
        for (number, field) in node.fields() {
            assert!(node.kind().field_name(number).is_some());
            match field {
                Field::Node(inner) => left.push(inner),
                Field::List(items) => {
                    let count = items.len();
                    let all: Vec<Item> = items.collect();
                    assert_eq!(all.len(), count);
                    holes += all.iter().filter(|item| **item == Item::Hole).count();
                    left.extend(all.into_iter().filter_map(Item::node));
                }
                _ => (),
            }
        }
    }
    (nodes, holes)
}

fn steps(bytes: &[u8]) -> (usize, usize) {
    let mut walk = Walk::new(bytes);
    let (mut nodes, mut holes) = (0, 0);
    for step in walk.by_ref() {
        nodes += usize::from(matches!(step, Step::Begins(_)));
        holes += usize::from(step == Step::Hole);
    }
    assert!(walk.is_whole());
    (nodes, holes)
}

#[test]
fn every_stored_tree_and_every_stored_result_is_read() {
    let (mut read, mut holes) = (0, 0);
    for case in stored() {
        // Of a refusal 5, 6, 7 or 11 the input is a tree.
        let input = [0, 5, 6, 7, 11].contains(&case.answer).then_some(&case.tree);
        for bytes in input.into_iter().chain((case.answer == 0).then_some(&case.tree_out)) {
            let (program, behind) = Node::read(bytes).unwrap_or_else(|| panic!("{}", case.name));
            assert_eq!((program.kind(), behind.len()), (Kind::Program, 0), "{}", case.name);
            let by_fields = parts(program);
            assert_eq!(by_fields, steps(bytes), "{}", case.name);
            read += 1;
            holes += by_fields.1;
        }
        if case.answer == 0 {
            let list = List::new(&case.list_out);
            assert!(list.is_whole(), "{}", case.name);
            for declarator in list.entries().flat_map(|entry| entry.declarators).chain(list.excluded()) {
                read += usize::from(declarator.value().is_some_and(|value| parts(value).0 > 0));
            }
        }
    }
    assert!(read > 800 && holes > 100, "{read} {holes}");
}

/// From 126 spreads in one literal on, a result is deeper than any input.
#[test]
fn deep_results_are_read() {
    let mut lowerer = Lowerer::new();
    for count in [60, 124, 125, 126, 127, 2_300] {
        let tree = program([spreads(count)]);
        let lowered = lowerer.lower(Options::NONE, &tree).unwrap();
        let (node, behind) = Node::read(lowered.tree).unwrap();
        assert_eq!(behind.len(), 0);
        let calls = node.walk().filter(|step| *step == Step::Begins(Kind::Call)).count();
        assert_eq!(calls, count);
        assert_eq!(rebuilt(lowered.tree, true), lowered.tree, "{count}");
    }
}

#[test]
fn every_stored_tree_and_result_is_put_together_again() {
    for case in stored().into_iter().filter(|case| case.answer == 0) {
        assert_eq!(to_hex(&rebuilt(&case.tree, false)), to_hex(&case.tree), "{}", case.name);
        assert_eq!(to_hex(&rebuilt(&case.tree_out, true)), to_hex(&case.tree_out), "{}", case.name);
        for declarator in List::new(&case.list_out).entries().flat_map(|entry| entry.declarators) {
            assert_eq!(rebuilt(declarator.bytes(), true), declarator.bytes(), "{}", case.name);
        }
    }
}

#[test]
fn drawn_trees_are_put_together_again() {
    let grammar = Grammar::new();
    for seed in seeds(3_000) {
        let mut chance = Chance::new(5_000_000_029 + seed);
        let room = 20 + chance.below(400);
        let tree = grammar.tree(&mut chance, room);
        assert_eq!(to_hex(&rebuilt(&tree, false)), to_hex(&tree), "seed {seed}");
    }
}

/// What an exporter would write: read by the archive as it was meant.
#[test]
fn what_is_made_is_accepted() {
    // x = [, {...a}];
    let spread = Kind::Object.make().list([Kind::Spread.make().node(reference("a"))]);
    let array = Kind::Array.make().items([None, Some(spread)]);
    let assign = Kind::Assignment.make().byte(1).node(reference("x")).node(array);
    let tree = program([expression(assign)]);
    let mut lowerer = Lowerer::new();
    let lowered = lowerer.lower(Options::NONE, &tree).unwrap();
    let (program, _) = Node::read(lowered.tree).unwrap();
    assert_eq!(parts(program).1, 1, "the hole is still there");
}
