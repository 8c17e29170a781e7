//! The second look: it agrees with the archive on what is a tree, and its byte, its statement and its lengths are right.

mod common;

use common::cases::{stored, Lowerers};
use common::draw::{damage, Chance, Grammar};
use common::make::{
    assign, blocks, expression, function, key_twice, key_without_form, nested, other, other_form, padded, program,
    reference, rest_below_array_rest, rests, spreads,
};
use common::seeds;
use rest_spread::{
    Advice, Fault, Kind, Lowerer, Make, Options, Refusal, Step, Trouble, Walk, LIST_OUT, TREE_IN, TREE_OUT,
};

/// What a second look finds, whatever the archive said: a fault of each sort.
fn fault(lowerer: &mut Lowerer, tree: &[u8]) -> Option<Fault> {
    let look = |lowerer: &mut Lowerer, refusal| lowerer.explain(tree, refusal).advice;
    match look(lowerer, Refusal::NotATree).or_else(|| look(lowerer, Refusal::TooDeep)) {
        Some(Advice::NoTree(fault) | Advice::Deep(fault)) => Some(fault),
        _ => None,
    }
}

/// 3 and 4 are given exactly where the second reader finds a fault, and it is of that sort.
fn agrees(lowerer: &mut Lowerer, tree: &[u8]) -> Option<Fault> {
    let answer = lowerer.lower(Options::NONE, tree).map_or_else(Refusal::number, |_| 0);
    let found = fault(lowerer, tree);
    let expected = match &found {
        _ if tree.is_empty() || tree.len() > TREE_IN => 3,
        Some(Fault { trouble: Trouble::Deep { limit }, .. }) => {
            assert_eq!(*limit, lowerer.depth());
            4
        }
        Some(_) => 3,
        None => 0,
    };
    let answered = if answer == 3 || answer == 4 { answer } else { 0 };
    assert_eq!(answered, expected, "{found:?}: {tree:02x?}");
    found
}

#[test]
fn stored_and_drawn_trees_have_no_fault_and_damaged_ones_that_of_the_archive() {
    let (mut lowerers, grammar) = (Lowerers::default(), Grammar::new());
    let cases: Vec<Vec<u8>> = stored().into_iter().map(|case| case.tree).collect();
    cases.iter().for_each(|tree| drop(agrees(lowerers.within(None), tree)));
    let (mut faults, mut deep) = (0, 0);
    for seed in seeds(30_000) {
        let mut chance = Chance::new(6_000_000_029 + seed);
        let mut tree = match chance.below(3) {
            0 => {
                let room = 20 + chance.below(400);
                grammar.tree(&mut chance, room)
            }
            _ => cases[chance.below(cases.len())].clone(),
        };
        if !chance.once_in(8) {
            let other = &cases[chance.below(cases.len())];
            damage(&mut chance, &mut tree, other);
        }
        // Few trees go far down, so that most limits are low.
        let depth = [None, Some(1 + chance.below(16)), Some(1 + chance.below(128))][chance.below(3)];
        let found = agrees(lowerers.within(depth.map(|depth| depth as u32)), &tree);
        faults += usize::from(found.is_some());
        deep += usize::from(found.is_some_and(|fault| matches!(fault.trouble, Trouble::Deep { .. })));
    }
    assert!(faults > 0 && deep > 0, "{faults} {deep}");
}

/// The byte is the first that is wrong: what stands before it can be gone on with, by another byte in its place.
#[test]
fn the_byte_is_the_first_that_is_wrong() {
    let (mut lowerer, grammar) = (Lowerer::new(), Grammar::new());
    let mut seen = [0; 5];
    for seed in seeds(3_000) {
        let mut chance = Chance::new(7_000_000_061 + seed);
        let room = 20 + chance.below(200);
        let mut tree = grammar.tree(&mut chance, room);
        damage(&mut chance, &mut tree, &[]);
        let Some(found) = fault(&mut lowerer, &tree) else { continue };
        let before = &tree[..found.at];
        let short = fault(&mut lowerer, before);
        assert!(
            found.at == 0
                || short.is_some_and(|f| f.at == found.at && f.trouble == Trouble::Ends)
                    == (found.trouble != Trouble::Behind),
            "seed {seed}: {found}"
        );
        let mut goes_on = |more: &[u8]| {
            let tree = [before, more].concat();
            fault(&mut lowerer, &tree).is_none_or(|fault| fault.at > found.at)
        };
        let sort = match found.trouble {
            // Nothing may follow a tree, and no node may be deeper.
            Trouble::Behind | Trouble::Deep { .. } => continue,
            Trouble::Mark { due, .. } => {
                assert!(goes_on(&due.to_le_bytes()), "seed {seed}: {found}");
                0
            }
            Trouble::Ends => 1,
            Trouble::NoKind(_) | Trouble::Misplaced(_) => 2,
            Trouble::Map(..) => 3,
            _ => 4,
        };
        assert!(sort == 0 || (0..=255).any(|byte| goes_on(&[byte])), "seed {seed}: {found}");
        if found.trouble != Trouble::Ends && sort > 0 {
            assert!(!goes_on(&tree[found.at..=found.at]), "seed {seed}: {found}");
        }
        seen[sort] += 1;
    }
    assert!(seen.iter().all(|&count| count > 0), "{seen:?}");
}

#[test]
fn a_path_leads_to_the_node_that_is_too_deep() {
    let mut lowerer = Lowerer::with_depth(64);
    let tree = blocks(64, []);
    let told = lowerer.explain(&tree, Refusal::TooDeep).to_string();
    let place = "byte 382, at Program.body[0] > Block.body[0] > Block.body[0] > (58 more) > Block.body[0] > \
                 Block.body[0] > Block.body[0]: the node is at level 65, and the limit is 64";
    assert!(told.contains(place), "{told}");
}

fn statement(tree: &[u8]) -> Option<u16> {
    statement_within(&mut Lowerer::new(), tree)
}

fn statement_within(lowerer: &mut Lowerer, tree: &[u8]) -> Option<u16> {
    let refusal = lowerer.lower(Options::NONE, tree).unwrap_err();
    match lowerer.explain(tree, refusal).advice {
        Some(Advice::Statement { mark }) => Some(mark),
        other => panic!("{other:?} for {refusal}"),
    }
}

/// Each refusal of the walk, at the root, in a block, in a function in an expression, and behind others of its sort.
#[test]
fn the_statement_is_that_of_the_refusal() {
    for fault in [rest_below_array_rest(), key_without_form(), other_form()] {
        let bad = || expression(fault.clone());
        let good = || expression(reference("a"));
        assert_eq!(statement(&program([bad()])), Some(1));
        assert_eq!(statement(&program([good(), spreads(2), bad(), bad()])), Some(3));
        assert_eq!(statement(&program([good(), nested(3, [good(), bad(), good()])])), Some(6));
        // @2 f(@3 function() { @4 a; }, @5 function() { @6 { @7 a; @8 BAD } });
        let call = |second: Make| {
            let functions = [function([good()]), function([Kind::Block.make().list([good(), second])])];
            expression(Kind::Call.make().node(reference("f")).list(functions))
        };
        assert_eq!(statement(&program([good(), call(bad())])), Some(8));
        // The statement itself, though it has functions in it.
        let own = assign(reference("x"), function([good()]));
        let both = Kind::Sequence.make().list([own, fault.clone()]);
        assert_eq!(statement(&program([good(), expression(both)])), Some(2));
        // A loop without a block: its body is no statement of a container.
        let head = Kind::For.make().none().none().none().node(bad());
        assert_eq!(statement(&program([good(), head])), Some(2));
    }
}

#[test]
fn every_stored_refusal_in_the_walk_has_its_statement() {
    let (mut lowerers, mut count) = (Lowerers::default(), 0);
    for case in stored().into_iter().filter(|case| [5, 6, 11].contains(&case.answer)) {
        let marks = Walk::new(&case.tree).filter(|step| matches!(step, Step::Mark(_))).count();
        let mark = statement_within(lowerers.within(case.depth), &case.tree).unwrap();
        assert!((1..=marks).contains(&mark.into()), "{}", case.name);
        count += 1;
    }
    assert!(count > 20, "{count}");
}

fn lengths(tree: &[u8]) -> Option<(usize, usize)> {
    let mut lowerer = Lowerer::new();
    assert_eq!(lowerer.lower(Options::NONE, tree).unwrap_err(), Refusal::TooLong);
    match lowerer.explain(tree, Refusal::TooLong).advice {
        Some(Advice::Lengths { tree, list }) => Some((tree, list)),
        None => None,
        other => panic!("{other:?}"),
    }
}

/// The lengths are known of how these trees are made; `make.rs` has them.
#[test]
fn lengths_are_told_of_results_that_are_too_long() {
    for count in [840, 900, 1_000, 1_022] {
        assert_eq!(lengths(&program([rests(count)])), Some((11 + 39 * count, 4)), "{count}");
    }
    for name in [8_164, 8_165, 8_200] {
        let told = lengths(&program([key_twice(name)])).unwrap();
        assert_eq!(told.1, 63 + 2 * name, "a text decides");
    }
    // Both, and neither by itself.
    assert_eq!(lengths(&program([rests(400), rests(439), other(29)])), Some((TREE_OUT + 1 + 7, 4)));
    let both = lengths(&program([key_twice(8_100), rests(400), key_twice(100), other(0)])).unwrap();
    assert_eq!(both.1, 63 + 63 - 4 + 16_400);
    // { x, ...function() { var {...r} = s, .. }, .. }: a literal that is cut behind its spreads.
    let property = || Kind::Property.make().node(Kind::StaticKey.make().text("x")).node(reference("x")).byte(2);
    let pairs = |count: usize| {
        let spread = Kind::Spread.make().node(function([rests(20)]));
        let properties = std::iter::repeat_n([property(), spread], count).flatten();
        program([nested(1, [expression(Kind::Object.make().list(properties))])])
    };
    let mut lowerer = Lowerer::new();
    let mut length = |count: usize| lowerer.lower(Options::NONE, &pairs(count)).unwrap().tree.len();
    let (ten, more) = (length(10), length(11) - length(10));
    assert!(pairs(45).len() <= TREE_IN);
    assert_eq!(lengths(&pairs(45)), Some((ten + 35 * more, 4)));
}

/// A list that is too long by one byte, and a tree, each beside one that fits.
#[test]
fn the_words_say_which_and_by_how_much() {
    let told = |tree: &[u8]| {
        let mut lowerer = Lowerer::new();
        lowerer.explain(tree, Refusal::TooLong).place()
    };
    assert_eq!(told(&program([rests(839), other(29)])).unwrap(), "the tree would have 32,769 bytes, 1 too many");
    assert_eq!(told(&program([key_twice(8_161)])).unwrap(), "the list would have 16,385 bytes, 1 too many");
    assert_eq!(LIST_OUT + 1, 16_385);
}

/// Template keys in template keys double at each level. Then the look gives up, and says nothing.
#[test]
fn what_can_not_be_told_is_not() {
    let quasi = || Kind::Literal.make().byte(1).text("").text("");
    let deeper = |key: Make, _| common::make::rest_by_key(Kind::Template.make().list([quasi()]).list([key]));
    let tree = program([expression((0..14).fold(common::make::rest_by_key(reference("k")), deeper))]);
    assert_eq!(lengths(&tree), None);
}

#[test]
fn a_refusal_that_has_no_place_has_no_advice() {
    let mut lowerer = Lowerer::new();
    for refusal in
        [Refusal::UnknownOptions, Refusal::ShortWork, Refusal::LimitOutside, Refusal::from_number(200).unwrap()]
    {
        let explained = lowerer.explain(b"", refusal);
        assert_eq!((explained.advice.clone(), explained.place()), (None, None));
        assert_eq!(explained.fault(), refusal.fault());
    }
    // Asked about a tree that is good: nothing is made up.
    let good = padded(&[spreads(3)], TREE_IN);
    for &refusal in Refusal::ALL {
        assert_eq!(lowerer.explain(&good, refusal).advice, None, "{refusal}");
    }
}
