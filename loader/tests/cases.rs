//! Every stored case, through both layers.

mod common;

use common::cases::{stored, to_hex, Case, Lowerers};
use common::rig::Rig;
use rest_spread::{Field, Kind, Lowered, Node, Options, Refusal};

/// One `Lowerer` takes all cases of a limit, so what a case leaves in its buffers would show in the next.
#[test]
fn the_safe_layer_gives_what_is_stored() {
    let mut lowerers = Lowerers::default();
    let cases = stored();
    for case in &cases {
        let options = Options::from_bits(case.options.into());
        match lowerers.within(case.depth).lower(options, &case.tree) {
            Ok(lowered) => gives(case, lowered),
            Err(refusal) => assert_eq!(refusal.number(), case.answer, "{}", case.name),
        }
    }
    assert!(cases.len() >= 700, "{} cases", cases.len());
    use Refusal::{NoSuchStatement, NotAList, PatternTooLong, ShortWork, TextTooLong, ZeroSeed};
    let elsewhere = [ShortWork, ZeroSeed, TextTooLong, NotAList, NoSuchStatement, PatternTooLong];
    for refusal in Refusal::ALL.iter().filter(|refusal| !elsewhere.contains(refusal)) {
        assert!(cases.iter().any(|case| case.answer == refusal.number()), "no case has {refusal}");
    }
}

fn gives(case: &Case, lowered: Lowered) {
    assert_eq!(0, case.answer, "{}", case.name);
    assert_eq!(lowered.helpers.bits(), case.helpers, "{}", case.name);
    assert_eq!(lowered.options.bits(), case.reported.into(), "{}", case.name);
    assert_eq!(to_hex(lowered.tree), to_hex(&case.tree_out), "{}", case.name);
    assert_eq!(to_hex(lowered.list.bytes()), to_hex(&case.list_out), "{}", case.name);
}

#[test]
fn the_entry_gives_what_is_stored_and_zeros() {
    let mut rig = Rig::whole();
    for case in stored() {
        let ran = rig.run_within(case.depth, case.options.into(), &case.tree);
        assert_eq!(ran.outcome.answer, case.answer, "{}", case.name);
        assert_eq!(to_hex(ran.tree_out()), to_hex(&case.tree_out), "{}", case.name);
        assert_eq!(to_hex(ran.list_out()), to_hex(&case.list_out), "{}", case.name);
    }
}

/// Counts the entries, declarators and excluded keys, and takes the list apart to its last byte.
#[test]
fn every_stored_list_is_gone_through() {
    let mut lowerers = Lowerers::default();
    let (mut entries, mut declared, mut excluded) = (0, 0, 0);
    for case in stored() {
        let lowered = lowerers.within(case.depth).lower(Options::from_bits(case.options.into()), &case.tree);
        let Ok(lowered) = lowered else { continue };
        let list = lowered.list;
        assert!(list.is_whole(), "{}", case.name);
        let mut bytes = 4;
        for entry in list.entries() {
            assert!(entry.mark > 0, "{}", case.name);
            bytes += 4;
            entries += 1;
            for declarator in entry.declarators {
                bytes += declarator.bytes().len();
                declared += 1;
            }
        }
        for declarator in list.excluded() {
            bytes += declarator.bytes().len();
            excluded += 1;
            let value = declarator.value().unwrap_or_else(|| panic!("{}: excluded keys have a value", case.name));
            let Some(Field::List(keys)) = value.field(0) else { panic!("{}: of strings", case.name) };
            let kinds = keys.map(|key| key.node().map(Node::kind));
            let is_key = |kind| matches!(kind, Some(Kind::Literal | Kind::Template));
            assert!(kinds.into_iter().all(is_key), "{}", case.name);
        }
        assert_eq!(bytes, list.bytes().len(), "{}", case.name);
    }
    assert!(entries > 100 && declared > entries && excluded > 100, "{entries} {declared} {excluded}");
}
