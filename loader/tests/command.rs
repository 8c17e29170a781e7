//! The command `loader`, as a person or a script runs it.

#[path = "common/command.rs"]
mod command;
mod common;

use command::loader;
use common::cases::{stored, to_hex, Case};
use common::folder;
use common::json::Json;
use common::make::{
    binding, blocks, expression, key_twice, key_without_form, program, reference, rest_below_array_rest, rests, spreads,
};
use rest_spread::{Helper, Kind, Make, Refusal};
use std::fs;

#[test]
fn one_input_gets_a_summary() {
    let ran = loader(&[], &program([key_twice(10)]));
    assert_eq!((ran.status, ran.err.as_str()), (0, ""));
    assert_eq!(
        ran.out,
        "standard input: lowered\n  \
           tree      87 bytes in, 275 bytes out\n  \
           list      83 bytes out\n  \
           helpers   objectWithoutProperties, toPropertyKey\n  \
           entries   3\n            \
                     before statement 1: $value1\n            \
                     before statement 1: $value2, $key3 = OtherExpression of 16 bytes\n            \
                     before statement 1: $value4, $key5 = OtherExpression of 16 bytes\n  \
           excluded  0\n"
    );
}

#[test]
fn a_summary_shows_excluded_keys_and_options() {
    // { ({a, ...r} = s); }
    let tree = b"\x01\x01\x01\x00\x02\x03\x01\x00\x01\x00\x03\x03\x02\x00\x1b\x07\x01\x22\x03\x01\x00\
        \x23\x07\x26\x01\x01\x00a\x12\x01\x01\x00a\x02\x12\x01\x01\x00r\x12\x01\x01\x00s";
    let ran = loader(&["--options", "9", "-"], tree);
    assert_eq!(ran.status, 0, "{}", ran.err);
    for line in [
        "  options   loose (not implemented, and without effect)",
        "            before statement 2: $value1",
        "  excluded  1",
        "            $excluded2 = [\"a\"]",
    ] {
        assert!(ran.out.lines().any(|l| l == line), "{line}\n{}", ran.out);
    }
}

#[test]
fn a_long_summary_is_cut() {
    // Each in a block, so that its keys are excluded by a temporary: { var {a, ...r} = s }
    let rest =
        b"\x05\x03\x22\x03\x01\x00\x23\x07\x26\x01\x01\x00a\x13\x01\x01\x00a\x02\x13\x01\x01\x00r\x12\x01\x01\x00s";
    let head = b"\x01\x01\x01\x00\x02\x03\x01\x00\x01\x00\x04\x07\x02\x00\x01\x1e\x00";
    let ran = loader(&[], &[&head[..], &rest.repeat(30)].concat());
    assert!(ran.out.contains("  excluded  30\n") && ran.out.contains("            and 10 more\n"), "{}", ran.out);
}

/// The limit of a case, as words, behind these.
fn words<'a>(mut words: Vec<&'a str>, depth: &'a str) -> Vec<&'a str> {
    if !depth.is_empty() {
        words.extend(["--depth", depth]);
    }
    words
}

fn depth(case: &Case) -> String {
    case.depth.map_or(String::new(), |depth| depth.to_string())
}

#[test]
fn a_refusal_is_explained_and_its_number_is_the_status() {
    for case in stored().iter().filter(|case| case.answer > 0 && case.tree.len() < 500) {
        let input = [&[case.options][..], &case.tree].concat();
        let ran = loader(&words(vec!["--options-first"], &depth(case)), &input);
        assert_eq!((ran.status, ran.out.as_str()), (case.answer.into(), ""), "{}", case.name);
        let begins = format!("standard input: refused with {}\n  what      ", case.answer);
        assert!(ran.err.starts_with(&begins) && ran.err.contains("\n  to do     "), "{}", ran.err);
    }
}

/// Each refusal says where, as far as a second look can tell, and that this is not proved.
#[test]
fn a_refusal_says_where() {
    let told = [
        (&b""[..], "what      the input is empty"),
        (&[1; 70_000], "what      the input has 70,000 bytes, and a tree has at most 16,384"),
        (b"\x01\x01\x00\x00!", "where     byte 4, at the root: the tree has ended, and bytes follow it"),
        (&blocks(128, []), "> Block.body[0]: the node is at level 129, and the limit is 128"),
        (&blocks(128, []), "what      the tree is nested deeper than the limit of 128\n"),
        (&blocks(128, []), "to do     move inner functions"),
        (&program([spreads(1), expression(rest_below_array_rest())]), "where     statement 2"),
        (&program([spreads(1), expression(key_without_form())]), "where     statement 2"),
        (&program([rests(900)]), "where     the tree would have 35,111 bytes, 2,343 too many"),
        (&program([key_twice(8_161)]), "where     the list would have 16,385 bytes, 1 too many"),
    ];
    for (input, words) in told {
        let ran = loader(&[], input);
        assert!(ran.err.contains(words) && ran.out.is_empty(), "{words}: {}", ran.err);
        let is_advice = ran.err.contains("(by a second look, which is not proved)");
        assert_eq!(is_advice, ran.err.contains("  where "), "{}", ran.err);
    }
    let ran = loader(&["--depth", "64"], &blocks(64, []));
    for words in [
        "what      the tree is nested deeper than the limit of 64\n",
        "> Block.body[0]: the node is at level 65, and the limit is 64\n",
        "to do     give a higher limit, up to 128; or move inner functions",
    ] {
        assert!(ran.status == 4 && ran.err.contains(words), "{}", ran.err);
    }
    let ran = loader(&["--depth=0"], b"");
    let told = "refused with 9\n  what      the depth limit is 0 or above 128\n  to do     give a limit from 1 to 128";
    assert!(ran.status == 9 && ran.err.contains(told), "{}", ran.err);
    let ran = loader(&["--options-first"], &[0; 70_001]);
    assert!(ran.err.contains("the input has 70,000 bytes"), "the options are no part of it: {}", ran.err);
}

#[test]
fn hexadecimal_is_that_of_the_program_lower() {
    for case in stored().iter().filter(|case| case.tree.len() < 200).step_by(4) {
        let input = [&[case.options][..], &case.tree].concat();
        let ran = loader(&words(vec!["--hex", "--options-first"], &depth(case)), &input);
        let (tree, list) = (to_hex(&case.tree_out), to_hex(&case.list_out));
        let lines = format!("{} {} {}\n{tree}\n{list}\n", case.answer, case.helpers, case.reported);
        assert_eq!((ran.status, ran.out), (case.answer.into(), lines), "{}", case.name);
        assert_eq!(ran.err.contains("refused"), case.answer > 0, "{}", case.name);
    }
    assert_eq!(loader(&["-x", "-f"], b"").out, "3 0 0\n\n\n", "no options byte and no tree");
}

#[test]
fn several_inputs_get_a_line_each_a_table_of_failures_and_a_count() {
    let folder = folder("several_lines");
    let name = |name: &str| folder.join(name).to_str().unwrap().to_owned();
    fs::write(name("good"), program([spreads(1)])).unwrap();
    fs::write(name("deep"), blocks(128, [])).unwrap();
    let (good, deep, none) = (name("good"), name("deep"), name("none"));

    let ran = loader(&[&good, &deep, &good, &none], b"");
    assert_eq!(ran.status, 4, "the first failure's");
    let line = "lowered from 19 to 24 bytes; 0 entries, 0 excluded key lists; helpers: objectSpread2";
    let count = "4 inputs: 2 lowered, 1 refused, 1 not read or written";
    assert_eq!(ran.out, format!("{good}: {line}\n{good}: {line}\n{count}\n"));
    let table: Vec<&str> = ran.err.lines().collect();
    assert_eq!((table.len(), table[0]), (3, "failed, each with its status:"), "{}", ran.err);
    assert!(
        table[1].starts_with(&format!("    4  {deep}  the tree is nested deeper than the limit of 128 (byte 766, "))
    );
    assert!(table[2].starts_with(&format!("   74  {none}  can't be read: ")), "{}", table[2]);

    let ran = loader(&[&good, &good], b"");
    assert_eq!((ran.status, ran.err.as_str()), (0, ""), "no failure, no table");
    assert_eq!(loader(&[&none, &deep], b"").status, 74, "the first failure's");
    let ran = loader(&["--hex", &good, &deep], b"");
    assert_eq!((ran.status, ran.out.lines().count()), (4, 6));
    assert!(ran.err.ends_with("2 inputs: 1 lowered, 1 refused, 0 not read or written\n"), "{}", ran.err);
}

/// `var [...[{...a}]] = b`
fn left_over() -> Make {
    let rest = Kind::ObjectPattern.make().list([]).node(binding("a"));
    let inner = Kind::ArrayPattern.make().list([rest]);
    let outer = Kind::ArrayPattern.make().list([]).node(inner);
    Kind::Declaration.make().byte(1).list([Kind::Declarator.make().node(outer).node(reference("b"))])
}

#[test]
fn what_is_left_is_warned_of_and_refused_if_that_is_asked() {
    let tree = program([spreads(1), left_over()]);
    let ran = loader(&[], &tree);
    assert_eq!(ran.status, 0);
    assert!(ran.out.starts_with("standard input: lowered\n"));
    let words = "object rest in the tree, statement 2";
    assert_eq!(ran.err, format!("standard input: warning: {words}: an engine of ES2017 does not take it\n"));

    let ran = loader(&["--strict"], &tree);
    assert_eq!((ran.status, ran.out.as_str()), (65, ""));
    assert!(ran.err.starts_with("standard input: refused by --strict\n") && ran.err.contains(words), "{}", ran.err);
    assert_eq!(loader(&["--strict"], &program([spreads(1)])).status, 0);
    let ran = loader(&["--strict", "--hex"], &tree);
    assert_eq!((ran.status, ran.out.as_str()), (65, ""), "no three lines of a refusal that is not the archive's");
}

#[test]
fn json_has_a_line_for_each_input() {
    let folder = folder("json");
    let name = |name: &str| folder.join(name).to_str().unwrap().to_owned();
    let (good, bad, none) = (name("g \"o\" \u{e9}\n"), name("bad"), name("none"));
    fs::write(&good, program([expression(common::make::rest_by_key(reference("k"))), left_over()])).unwrap();
    fs::write(&bad, b"").unwrap();
    let ran = loader(&["--json", "--into", folder.to_str().unwrap(), "--options", "3", &good, &bad, &none], b"");
    assert_eq!(ran.status, 3);
    let lines: Vec<Json> = ran.out.lines().map(Json::read).collect();
    assert_eq!(lines.len(), 3);

    let one = &lines[0];
    assert_eq!((one.at("input").text(), one.at("status").number()), (good.as_str(), 0));
    let written = fs::read(format!("{good}.lowered")).unwrap();
    assert_eq!(one.at("tree_bytes").number() as usize, written.len());
    assert_eq!(one.at("bytes_in").number(), fs::metadata(&good).unwrap().len());
    assert_eq!(one.at("list_bytes").number(), fs::metadata(format!("{good}.list")).unwrap().len());
    let texts = |value: &Json| value.list().iter().map(|item| item.text().to_owned()).collect::<Vec<_>>();
    assert_eq!(texts(one.at("helpers")), ["objectWithoutProperties", "toPropertyKey"]);
    assert_eq!(texts(one.at("options")), ["loose", "useBuiltIns"]);
    let entry = &one.at("entries").list()[0];
    assert_eq!(entry.at("mark").number(), 1);
    assert_eq!(texts(entry.at("declarators")), ["$value1", "$key2 = Reference of 5 bytes"]);
    assert_eq!(one.at("excluded").list().len(), 0);
    let left = &one.at("leftovers").list()[0];
    assert_eq!(
        (left.at("what").text(), left.at("in").text(), left.at("statement").number()),
        ("object rest", "tree", 2)
    );
    assert_eq!(one.at("written").list().len(), 2);

    let two = &lines[1];
    assert_eq!((two.at("status").number(), two.at("refusal").number()), (3, 3));
    assert_eq!((two.at("fault").text(), two.at("where")), ("the input is empty", &Json::None));
    assert!(two.at("removed").list().is_empty() && !two.at("remedy").text().is_empty());
    let three = &lines[2];
    assert_eq!(three.at("status").number(), 74);
    assert!(three.at("failure").text().starts_with("can't be read: "));
    assert!(ran.err.contains("failed, each with its status:"), "failures are told there, too: {}", ran.err);
}

#[test]
fn versions_and_helpers_are_printed() {
    let ran = loader(&["--version"], b"");
    let expected = format!("loader {}, archive {}\n", env!("CARGO_PKG_VERSION"), rest_spread::ARCHIVE);
    assert_eq!((ran.status, ran.out, ran.err.as_str()), (0, expected, ""));
    let ran = loader(&["--helpers"], b"");
    assert_eq!((ran.status, ran.err.as_str()), (0, ""));
    for helper in Helper::ALL {
        assert!(ran.out.contains(helper.source()), "{helper}");
    }
    let file = concat!(env!("CARGO_MANIFEST_DIR"), "/../helpers/helpers.js");
    assert_eq!(fs::read_to_string(file).unwrap(), ran.out, "with Babel's notice");
}

#[test]
fn a_word_may_be_joined_to_its_option() {
    let folder = folder("joined");
    let file = folder.join("a=b");
    let ran = loader(&[&format!("--tree={}", file.display()), "--options=3"], &program([spreads(1)]));
    assert_eq!((ran.status, ran.err.as_str()), (0, ""));
    assert_eq!(fs::read(&file).unwrap().len(), 24);
    assert!(ran.out.contains("options   loose, useBuiltIns"), "{}", ran.out);
}

#[test]
fn more_than_a_tree_may_have_is_refused() {
    let folder = folder("long");
    let file = folder.join("long").to_str().unwrap().to_owned();
    fs::write(&file, vec![1; 10_000_000]).unwrap();
    assert_eq!(loader(&[&file], b"").status, 3);
}

#[test]
fn help_and_what_is_not_understood() {
    let ran = loader(&["--help"], b"");
    assert!(
        ran.status == 0 && ran.out.contains("--options-first") && ran.out.contains("--depth N") && ran.err.is_empty()
    );
    assert!(ran.out.lines().all(|line| line.len() <= 80), "within 80 columns");
    for refusal in Refusal::ALL {
        assert_ne!(refusal.number(), 64, "a status of its own");
    }
    for words in [
        &["--what"][..],
        &["--options"],
        &["--options", "loose"],
        &["--options", "-1"],
        &["--tree", "t", "a", "b"],
        &["-", "-"],
        &["--into", "d", "a/same", "b/same"],
        &["--hex=1"],
        &["--what=1"],
        &["--hex", "--json"],
        &["--options=loose"],
        &["--depth"],
        &["--depth", "deep"],
        &["--depth", "-1"],
        &["--depth=4294967296"],
    ] {
        let ran = loader(words, b"");
        assert_eq!((ran.status, ran.out.as_str()), (64, ""), "{words:?}");
        assert!(ran.err.starts_with("loader: ") && ran.err.ends_with("loader --help says what can be asked\n"));
    }
    assert_eq!(loader(&["--tree", "no/such/folder/t"], &program([])).status, 74);
    assert_eq!(loader(&["--", "--no-such-file"], b"").status, 74);
}
