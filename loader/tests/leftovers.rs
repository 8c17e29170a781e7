//! What document 01 leaves of object rest and spread, one tree for each case, and nothing where nothing is left.

mod common;

use common::cases::stored;
use common::make::{assign, binding, expression, function, program, reference, rest_by_key, spreads};
use rest_spread::{entry, Kind, Left, Leftover, Lowerer, Make, Options, Series};

/// `{...a}`, a pattern.
fn rest(leaf: Make) -> Make {
    Kind::ObjectPattern.make().list([]).node(leaf)
}

/// `[...[{...a}]]`
fn below_array_rest() -> Make {
    Kind::ArrayPattern.make().list([]).node(Kind::ArrayPattern.make().list([rest(binding("a"))]))
}

/// `{...x}`, a literal.
fn spread() -> Make {
    Kind::Object.make().list([Kind::Spread.make().node(reference("x"))])
}

fn declaration(pattern: Make, value: Option<Make>) -> Make {
    let declarator = Kind::Declarator.make().node(pattern);
    let declarator = match value {
        Some(value) => declarator.node(value),
        None => declarator,
    };
    Kind::Declaration.make().byte(1).list([declarator])
}

fn left(statements: impl IntoIterator<Item = Make>) -> Vec<Leftover> {
    Lowerer::new().lower(Options::NONE, &program(statements)).unwrap().leftovers()
}

/// What, whether it is in the list, and the statement, of the only one.
fn only(statements: Vec<Make>, next: u16) -> (Left, bool, Option<u16>) {
    let all = left(statements);
    assert_eq!(all.len(), 1, "{all:?}");
    (all[0].what, all[0].in_list, all[0].statement(next))
}

fn empty() -> Make {
    Kind::Empty.make()
}

#[test]
fn below_an_array_rest_of_a_declaration() {
    let kept = declaration(below_array_rest(), Some(reference("b")));
    assert_eq!(only(vec![empty(), kept], 3), (Left::Rest, false, Some(2)));
}

/// `function f([[...[{...a}]] = b]) { }`: the pattern is moved into a new statement, whose mark the input does not have.
#[test]
fn below_an_array_rest_of_a_moved_pattern() {
    let default = Kind::Default.make().node(below_array_rest()).node(reference("b"));
    let param = Kind::Param.make().node(Kind::ArrayPattern.make().list([default]));
    let body = Kind::FunctionBody.make().none().list([]);
    let function = Kind::Function.make().byte(1).none().list([param]).none().node(body);
    let all = left([empty(), function.clone()]);
    assert_eq!(all[0].marks(), [2, 3]);
    assert_eq!(only(vec![empty(), function], 3), (Left::Rest, false, Some(2)));
}

#[test]
fn in_a_rest_parameter() {
    let body = Kind::FunctionBody.make().none().list([]);
    let function = Kind::Function.make().byte(1).none().list([]).node(rest(binding("a"))).node(body);
    assert_eq!(only(vec![function], 2), (Left::Rest, false, Some(1)));
}

#[test]
fn in_a_parameter_of_a_function_without_body() {
    let param = Kind::Param.make().node(rest(binding("a")));
    let function = Kind::Function.make().byte(1).none().list([param]);
    assert_eq!(only(vec![function], 2), (Left::Rest, false, Some(1)));
}

#[test]
fn in_a_declarator_without_a_value() {
    assert_eq!(only(vec![declaration(rest(binding("a")), None)], 2), (Left::Rest, false, Some(1)));
}

/// `({[{...x}]: a, ...b} = c)`: the key's value goes to the list as it is.
#[test]
fn in_the_value_of_a_key_in_the_list() {
    let in_key = |key: Make| vec![empty(), expression(rest_by_key(key))];
    assert_eq!(only(in_key(spread()), 3), (Left::Spread, true, Some(2)));
    let assigned = Kind::Call.make().node(reference("k")).list([assign(rest(reference("y")), reference("z"))]);
    assert_eq!(only(in_key(assigned), 3), (Left::Rest, true, Some(2)));
    let inside = Kind::Call.make().node(function([expression(spread())])).list([]);
    let all = left(in_key(inside));
    assert_eq!((all[0].what, all[0].marks()), (Left::Spread, &[2, 3, 4][..]), "entry, function, statement");
}

#[test]
fn nothing_else_is_left() {
    assert_eq!(left([spreads(3), declaration(rest(binding("r")), Some(reference("s")))]), []);
    // f(...a) and [...a] are no object spreads, nor is a rest that is an array's.
    let spread = || Kind::Spread.make().node(reference("a"));
    let call = Kind::Call.make().node(reference("f")).list([spread()]);
    let array = Kind::Array.make().list([spread()]);
    let pattern = Kind::ArrayPattern.make().list([]).node(binding("r"));
    assert_eq!(left([expression(call), expression(array), declaration(pattern, Some(reference("s")))]), []);
}

/// In the stored results each leftover is one of those above: a rest in the tree, or anything in the list.
#[test]
fn stored_results_have_no_spread_left_in_the_tree() {
    let mut lowerer = Lowerer::new();
    let (mut some, mut listed) = (0, 0);
    for case in stored() {
        let Ok(lowered) = lowerer.lower(Options::from_bits(case.options.into()), &case.tree) else { continue };
        for one in lowered.leftovers() {
            assert!(one.in_list || one.what == Left::Rest, "{}: {one:?}", case.name);
            some += 1;
            listed += usize::from(one.in_list);
        }
    }
    assert!(some > listed && listed > 0, "{some} {listed}");
}

/// The proved test says that a rest is left in the tree exactly where one is found, in stored results and in those of trees
/// that are drawn.
#[test]
fn what_is_found_is_what_the_proved_test_says() {
    let mut lowerer = Lowerer::new();
    let mut kept = 0;
    let drawn = Series::from_seed(1).unwrap().take(300).map(|drawing| drawing.tree);
    for tree in stored().into_iter().map(|case| case.tree).chain(drawn) {
        let Ok(lowered) = lowerer.lower(Options::NONE, &tree) else { continue };
        let found = lowered.leftovers();
        let rests: Vec<_> = found.iter().filter(|one| !one.in_list).collect();
        assert!(rests.iter().all(|one| !one.marks().is_empty()), "{rests:?}");
        assert_eq!(entry::leftover(lowered.tree), !rests.is_empty());
        kept += usize::from(!rests.is_empty());
    }
    assert!(kept > 0);
}
