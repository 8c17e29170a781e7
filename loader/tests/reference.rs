//! Drawn trees against the reference program (docs/DIFFERENCES.md), where `RUST_REFERENCE` names it.

mod common;

use common::cases::to_hex;
use common::draw::{damage, Chance, Grammar};
use common::{seeds, skip};
use rest_spread::{Field, Kind, Lowerer, Node, Options, LEVELS};
use std::env;
use std::io::Write;
use std::process::{Command, Stdio};
use std::thread;

#[test]
fn drawn_trees_are_lowered_as_the_reference_does() {
    let Some(program) = env::var_os("RUST_REFERENCE") else {
        return skip("RUST_REFERENCE names no program, so no tree is compared with the reference's");
    };
    let grammar = Grammar::new();
    let drawn = seeds(20_000).map(|seed| draw(&grammar, seed));
    let cases: Vec<Vec<u8>> = drawn.filter(|case| !is_beyond(&case[1..])).collect();
    let lines: String = cases.iter().map(|case| to_hex(case) + "\n").collect();
    // Document 01 copies a template key as it stands, and so does the program if it is told to.
    let mut child = Command::new(&program)
        .args(["--batch", "--template-key=node", "--retired", "--classes", "--stems", &format!("--limit={LEVELS}")])
        .stdin(Stdio::piped())
        .stdout(Stdio::piped())
        .spawn()
        .expect("RUST_REFERENCE names a program");
    let mut input = child.stdin.take().unwrap();
    let writer = thread::spawn(move || input.write_all(lines.as_bytes()));
    let output = child.wait_with_output().unwrap();
    writer.join().unwrap().unwrap();

    let answers = String::from_utf8(output.stdout).unwrap();
    assert_eq!(answers.lines().count(), cases.len());
    let mut lowerer = Lowerer::new();
    for (case, expected) in cases.iter().zip(answers.lines()) {
        assert_eq!(answer(&mut lowerer, case), expected, "{}", to_hex(case));
    }
}

/// An options byte and a tree; one tree in four is damaged.
fn draw(grammar: &Grammar, seed: u64) -> Vec<u8> {
    let mut chance = Chance::new(4_000_000_007 + seed);
    let room = 20 + chance.below(500);
    let mut tree = grammar.tree(&mut chance, room);
    if chance.once_in(4) {
        damage(&mut chance, &mut tree, &[]);
    }
    [&[chance.below(17) as u8][..], &tree].concat()
}

/// Whether a request may have another rule than the reference: 6, where in the target of an assignment, or of a head that
/// assigns, an object with a rest stands below another one; 8, where a number that is all digits has no form, or another's.
fn is_beyond(tree: &[u8]) -> bool {
    Node::read(tree).is_some_and(|(root, _)| is_or_has_such(root))
}

fn is_or_has_such(node: Node) -> bool {
    let assigns = matches!(node.kind(), Kind::Assignment | Kind::ForIn | Kind::ForOf);
    assigns && child(node, 1).is_some_and(|target| nests(target, false))
        || is_such_number(node)
        || node.fields().any(|(_, field)| match field {
            Field::Node(below) => is_or_has_such(below),
            Field::List(items) => items.nodes().any(is_or_has_such),
            _ => false,
        })
}

fn is_such_number(node: Node) -> bool {
    let (Kind::Literal, Some(Field::Byte(2)), Some(Field::Text(spelling))) =
        (node.kind(), node.field(0), node.field(1))
    else {
        return false;
    };
    let digits = spelling.strip_prefix(b"0x").unwrap_or(spelling);
    let is_plain = spelling.first() != Some(&b'0') || spelling.len() == 1;
    let is_own_form = is_plain && matches!(node.field(2), Some(Field::Text(form)) if form == spelling);
    !digits.is_empty() && digits.iter().all(u8::is_ascii_hexdigit) && !is_own_form
}

/// Whether an object with a rest stands below another one; `inside` says that one is around the target.
fn nests(target: Node, inside: bool) -> bool {
    match target.kind() {
        Kind::ObjectPattern => {
            let rests = target.field(1).is_some();
            inside && rests
                || items(target).any(|property| child(property, 1).is_some_and(|value| nests(value, inside || rests)))
        }
        Kind::ArrayPattern => items(target).any(|item| nests(item, inside)),
        Kind::Default => child(target, 0).is_some_and(|left| nests(left, inside)),
        _ => false,
    }
}

fn child(node: Node, number: usize) -> Option<Node> {
    match node.field(number) {
        Some(Field::Node(child)) => Some(child),
        _ => None,
    }
}

fn items(node: Node) -> impl Iterator<Item = Node> {
    match node.field(0) {
        Some(Field::List(items)) => Some(items),
        _ => None,
    }
    .into_iter()
    .flat_map(|items| items.nodes())
}

/// What the reference program prints for a case.
fn answer(lowerer: &mut Lowerer, case: &[u8]) -> String {
    match lowerer.lower(Options::from_bits(case[0].into()), &case[1..]) {
        Ok(lowered) => {
            let (helpers, options) = (lowered.helpers.bits(), lowered.options.bits());
            format!("0 {helpers} {options} {} {}", to_hex(lowered.tree), to_hex(lowered.list.bytes()))
        }
        Err(refusal) => format!("{} 0 0 - -", refusal.number()),
    }
}
