//! The C header: it says what the Rust side says, and the C example over it works.

mod common;

use common::make::{blocks, expression, key_without_form, other_form, program, rest_below_array_rest, rests, spreads};
use common::{folder, skip};
use rest_spread::{
    Helper, Options, Refusal, ARCHIVE, DRAWN, LEVELS, LIST_OUT, LONGEST_PATTERN, TEXT, TREE_IN, TREE_OUT, WORK,
};
use std::collections::HashMap;
use std::io::Write;
use std::path::{Path, PathBuf};
use std::process::{Command, Stdio};
use std::{env, fs};

/// The folder of the header and the example.
const C: &str = concat!(env!("CARGO_MANIFEST_DIR"), "/../c");

#[test]
fn the_header_has_the_numbers_of_the_safe_layer() {
    let text = fs::read_to_string(Path::new(C).join("rest_spread.h")).unwrap();
    let mut numbers: HashMap<&str, usize> = HashMap::new();
    for line in text.lines().filter_map(|line| line.strip_prefix("#define REST_SPREAD_")) {
        let mut words = line.split_whitespace();
        let name = words.next().unwrap();
        if let Some(number) = words.next() {
            numbers.insert(name, number.parse().unwrap());
        }
    }
    let mut has = |name: &str, number: usize| assert_eq!(numbers.remove(name), Some(number), "{name}");
    has("VERSION", ARCHIVE as usize);
    has("LEVELS", LEVELS as usize);
    has("LONGEST_PATTERN", LONGEST_PATTERN as usize);
    has("TREE_IN", TREE_IN);
    has("TREE_OUT", TREE_OUT);
    has("LIST_OUT", LIST_OUT);
    has("WORK", WORK);
    has("DRAWN", DRAWN);
    has("TEXT", TEXT);
    has("LOOSE", Options::LOOSE.bits() as usize);
    has("USE_BUILT_INS", Options::USE_BUILT_INS.bits() as usize);
    has("OBJECT_REST_NO_SYMBOLS", Options::OBJECT_REST_NO_SYMBOLS.bits() as usize);
    has("LOWERED", 0);
    for refusal in Refusal::ALL {
        has(&upper(&format!("{refusal:?}")), refusal.number().into());
    }
    for helper in Helper::ALL {
        has(&upper(&format!("{helper:?}")), 1 << (helper.number() - 1));
    }
    assert!(numbers.is_empty(), "{numbers:?}");
}

/// `NotATree` is `NOT_A_TREE`, and `ObjectSpread2` is `OBJECT_SPREAD_2`.
fn upper(name: &str) -> String {
    let words = name.chars().enumerate().map(|(at, letter)| {
        let begins = at > 0 && !letter.is_lowercase();
        format!("{}{}", if begins { "_" } else { "" }, letter.to_ascii_uppercase())
    });
    words.collect()
}

/// Compiles the example in a folder, or says that there is no compiler.
fn compiled(folder: &Path, name: &str) -> Option<PathBuf> {
    let compiler = env::var("CC").unwrap_or("cc".into());
    let program_file = Path::new(env!("CARGO_TARGET_TMPDIR")).join(name);
    let compiled = Command::new(&compiler)
        .args(["-std=c99", "-Wall", "-Wextra", "-Werror", "-pedantic", "lower.c"])
        .args(env!("REST_SPREAD_ARCHIVES").split(':'))
        .arg("-o")
        .arg(&program_file)
        .current_dir(folder)
        .output();
    match compiled {
        Err(why) => {
            skip(&format!("the C example is not compiled: {compiler}: {why}"));
            None
        }
        Ok(compiled) => {
            assert!(compiled.status.success(), "{}", String::from_utf8_lossy(&compiled.stderr));
            Some(program_file)
        }
    }
}

/// With a header of another version than the archive's, nothing is lowered.
#[test]
fn the_c_example_compares_versions() {
    let folder = folder("other_version");
    for file in ["lower.c", "rest_spread.h"] {
        let text = fs::read_to_string(Path::new(C).join(file)).unwrap();
        let other = text.replace(&format!("REST_SPREAD_VERSION {ARCHIVE}\n"), "REST_SPREAD_VERSION 77\n");
        assert_eq!(other != text, file == "rest_spread.h");
        fs::write(folder.join(file), other).unwrap();
    }
    let Some(program) = compiled(&folder, "other_version_in_c") else { return };
    let ended = Command::new(program).stdin(Stdio::null()).output().unwrap();
    assert_eq!(ended.status.code(), Some(70));
    let said = format!("the archive is of version {ARCHIVE}, the header of 77\n");
    assert_eq!(String::from_utf8(ended.stderr).unwrap(), said);
}

#[test]
fn the_c_example_works() {
    let Some(program_file) = compiled(Path::new(C), "lower_in_c") else { return };
    let run_with = |words: &[&str], input: &[u8]| {
        let mut child = Command::new(&program_file)
            .args(words)
            .stdin(Stdio::piped())
            .stdout(Stdio::piped())
            .stderr(Stdio::piped())
            .spawn()
            .expect("what was compiled");
        child.stdin.take().unwrap().write_all(input).unwrap();
        let output = child.wait_with_output().unwrap();
        let [out, err] = [output.stdout, output.stderr].map(|bytes| String::from_utf8(bytes).unwrap());
        (output.status.code().unwrap(), out, err)
    };
    let run = |input: &[u8]| run_with(&[], input);
    let lowered = "lowered: helpers 1, tree of 24 bytes, list of 4\n";
    assert_eq!(run(&program([spreads(1)])), (0, lowered.into(), String::new()));
    let refused = [
        (vec![], 3),
        (b"no tree".to_vec(), 3),
        (vec![0; 20_000], 3),
        (blocks(128, []), 4),
        (program([expression(rest_below_array_rest())]), 5),
        (program([expression(key_without_form())]), 6),
        (program([rests(900)]), 7),
        (program([expression(other_form())]), 11),
    ];
    for (tree, number) in refused {
        let (status, out, err) = run(&tree);
        assert_eq!((status, out.as_str()), (number, ""), "{err}");
        let rest = err.strip_prefix(&format!("refused with {number}: "));
        assert!(rest.is_some_and(|rest| rest.len() > 10), "{err}");
    }
    let listing = program([spreads(1)]);
    let statuses = ["0", "1", "4", "5", "128", "129", "4294967301"].map(|depth| run_with(&[depth], &listing).0);
    assert_eq!(statuses, [9, 4, 4, 0, 0, 9, 9]);
    assert_eq!(run_with(&["5"], &listing), (0, lowered.into(), String::new()));
}

#[test]
fn the_header_is_taken_by_cpp() {
    let compiler = env::var("CXX").unwrap_or("c++".into());
    let checked = Command::new(&compiler)
        .args(["-fsyntax-only", "-Wall", "-Wextra", "-Werror", "-x", "c++", "rest_spread.h"])
        .current_dir(C)
        .output();
    match checked {
        Ok(checked) => assert!(checked.status.success(), "{}", String::from_utf8_lossy(&checked.stderr)),
        Err(why) => skip(&format!("the header is not tried in C++: {compiler}: {why}")),
    }
}
