//! Each refusal, by the documents' small input for it, and which of two is given.

mod common;

use common::cases::from_hex;
use common::make::{assign, blocks, expression, key_twice, nested, other, padded, program, reference, rests};
use common::rig::Rig;
use rest_spread::{Kind, Lowerer, Options, Refusal, LEVELS, LIST_OUT, TREE_IN, TREE_OUT, WORK};

/// `({...a})`: a result of 24 bytes, and a list of 4.
const LISTING: &[u8] = b"\x01\x01\x01\x00\x03\x03\x01\x00\x18\x01\x01\x00\x1a\x01\x12\x01\x01\x00a";
/// `[...[{...a}]] = b`
const FIVE: &str = "01010100030301001b070124030000240101002203000012010100611201010062";
/// `var {[/q/]: a, ...r} = s`
const SIX: &str = "0101010004070100010100050322030100230716030603002f712f13010100610113010100721201010073";
/// `let {5: a, ...r} = s`, with the form `6`
const ELEVEN: &str = "0101010004070100020100050322030100230716070201003501003613010100610013010100721201010073";

fn refused(options: u32, tree: &[u8]) -> Option<Refusal> {
    Lowerer::new().lower(Options::from_bits(options), tree).err()
}

#[test]
fn options_above_15_are_refused_with_1() {
    for options in [16, 17, 32, 255, 256, 1 << 16, u32::MAX] {
        assert_eq!(refused(options, LISTING), Some(Refusal::UnknownOptions), "{options}");
    }
    for options in 0..16 {
        assert_eq!(refused(options, LISTING), None, "{options}");
    }
}

/// The retired option may be set, and shows nowhere.
#[test]
fn options_with_the_8_and_without_it_are_one() {
    let (mut with, mut without) = (Lowerer::new(), Lowerer::new());
    for options in 0..8 {
        let with = with.lower(Options::from_bits(options + 8), LISTING).unwrap();
        assert_eq!(with, without.lower(Options::from_bits(options), LISTING).unwrap());
        assert_eq!(with.options.bits(), options);
    }
    assert_eq!(refused(24, LISTING), Some(Refusal::UnknownOptions));
}

#[test]
fn short_work_is_refused_with_2() {
    assert_eq!(Rig::new(TREE_OUT, LIST_OUT, WORK - 1).run(0, LISTING).outcome.answer, 2);
    assert_eq!(Rig::new(TREE_OUT, LIST_OUT, WORK).run(0, LISTING).outcome.answer, 0);
}

#[test]
fn what_is_no_tree_is_refused_with_3() {
    assert_eq!(refused(0, b""), Some(Refusal::NotATree));
    for end in 0..LISTING.len() {
        assert_eq!(refused(0, &LISTING[..end]), Some(Refusal::NotATree), "cut at {end}");
    }
    assert_eq!(refused(0, &[LISTING, b"\x00"].concat()), Some(Refusal::NotATree));
    assert_eq!(refused(0, &padded(&[], TREE_IN)), None);
    assert_eq!(refused(0, &padded(&[], TREE_IN + 1)), Some(Refusal::NotATree));
}

fn refused_within(depth: u32, tree: &[u8]) -> Option<Refusal> {
    Lowerer::with_depth(depth).lower(Options::NONE, tree).err()
}

#[test]
fn what_is_deeper_than_the_limit_is_refused_with_4() {
    assert_eq!(refused(0, &blocks(127, [])), None);
    assert_eq!(refused(0, &blocks(128, [])), Some(Refusal::TooDeep));
    assert_eq!(refused_within(1, &program([])), None);
    assert_eq!(refused_within(1, &blocks(1, [])), Some(Refusal::TooDeep));
    for depth in 2..=LEVELS {
        assert_eq!(refused_within(depth, &blocks(depth as usize - 1, [])), None, "{depth}");
        assert_eq!(refused_within(depth, &blocks(depth as usize, [])), Some(Refusal::TooDeep), "{depth}");
    }
}

#[test]
fn a_limit_of_0_or_above_128_is_refused_with_9() {
    for depth in [0, 129, 130, 255, 256, 257, 384, 1 << 16, (1 << 16) + 64, u32::MAX] {
        for tree in [LISTING, b""] {
            assert_eq!(refused_within(depth, tree), Some(Refusal::LimitOutside), "{depth}");
        }
    }
    let depths = [Lowerer::new(), Lowerer::default(), Lowerer::with_depth(64), Lowerer::with_depth(0)];
    assert_eq!(depths.map(|lowerer| lowerer.depth()), [LEVELS, LEVELS, 64, 0]);
}

#[test]
fn an_object_rest_below_an_array_rest_is_refused_with_5() {
    assert_eq!(refused(0, &from_hex(FIVE)), Some(Refusal::RestBelowArrayRest));
}

#[test]
fn a_key_without_a_form_is_refused_with_6() {
    assert_eq!(refused(0, &from_hex(SIX)), Some(Refusal::KeyWithoutForm));
}

#[test]
fn a_form_that_is_not_its_numbers_is_refused_with_11() {
    assert_eq!(refused(0, &from_hex(ELEVEN)), Some(Refusal::OtherForm));
}

#[test]
fn what_does_not_fit_its_slice_is_refused_with_7() {
    assert_eq!(Rig::new(23, LIST_OUT, WORK).run(0, LISTING).outcome.answer, 7);
    assert_eq!(Rig::new(TREE_OUT, 3, WORK).run(0, LISTING).outcome.answer, 7);
    assert_eq!(Rig::new(24, 4, WORK).run(0, LISTING).outcome.answer, 0);
}

/// 839 declarators make 32,732 bytes; a statement that is left alone makes up the rest.
#[test]
fn a_tree_over_32768_bytes_is_refused_with_7() {
    let tree = |length: usize| program([rests(839), other(length - 32_732 - 8)]);
    for slice in [TREE_OUT, TREE_OUT + 1, 40_000] {
        let mut rig = Rig::new(slice, LIST_OUT, WORK);
        assert_eq!(rig.run(0, &tree(TREE_OUT)).outcome.tree_len, TREE_OUT);
        assert_eq!(rig.run(0, &tree(TREE_OUT + 1)).outcome.answer, 7);
    }
    assert_eq!(Rig::new(TREE_OUT - 1, LIST_OUT, WORK).run(0, &tree(TREE_OUT)).outcome.answer, 7);
    assert_eq!(refused(0, &tree(TREE_OUT + 1)), Some(Refusal::TooLong));
}

/// A key that is handed out twice makes a list of twice its length and 63 bytes, `{...a} = b` one of 11 more.
#[test]
fn a_list_over_16384_bytes_is_refused_with_7() {
    let rest = Kind::ObjectPattern.make().list([]).node(reference("a"));
    let more = expression(assign(rest, reference("b")));
    let tree = |length: usize| program([key_twice((length - 63 - 11) / 2), more.clone()]);
    for slice in [LIST_OUT, LIST_OUT + 1, 40_000] {
        let mut rig = Rig::new(TREE_OUT, slice, WORK);
        assert_eq!(rig.run(0, &tree(LIST_OUT)).outcome.list_len, LIST_OUT);
        assert_eq!(rig.run(0, &tree(LIST_OUT + 2)).outcome.answer, 7);
    }
    assert_eq!(Rig::new(TREE_OUT, LIST_OUT - 1, WORK).run(0, &tree(LIST_OUT)).outcome.answer, 7);
    assert_eq!(refused(0, &tree(LIST_OUT + 2)), Some(Refusal::TooLong));
}

/// The documents' order: 9, 1, 2, over-length, 3 or 4 by place, 5, 6 or 11 by walk, 7.
#[test]
fn the_first_refusal_is_given() {
    let five = from_hex(FIVE);
    let six = from_hex(SIX);
    let long = padded(&[nested(128, [])], TREE_IN + 1);
    let within = |depth, options, slices: [usize; 3], tree: &[u8]| {
        Rig::new(slices[0], slices[1], slices[2]).run_within(depth, options, tree).outcome.answer
    };
    let answer = |options, slices, tree: &[u8]| within(None, options, slices, tree);
    assert_eq!(within(Some(129), 16, [0, 0, 0], &long), 9);
    assert_eq!(within(Some(1), 16, [0, 0, 0], &long), 1);
    assert_eq!(answer(16, [0, 0, 0], &long), 1);
    assert_eq!(answer(15, [0, 0, 0], &long), 2);
    assert_eq!(answer(15, [0, 0, WORK], &long), 3);
    assert_eq!(answer(15, [0, 0, WORK], &blocks(128, [])), 4);
    assert_eq!(answer(15, [0, 0, WORK], &five), 5);
    assert_eq!(answer(15, [0, 0, WORK], &six), 6);
    assert_eq!(answer(15, [0, 0, WORK], LISTING), 7);
}
