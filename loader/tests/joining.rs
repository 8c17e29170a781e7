//! Declarations that are handed out, put into place: the stored cases, results of the lowering, and the command.

#[path = "common/command.rs"]
mod command;
mod common;

use command::loader;
use common::cases::{from_hex, to_hex};
use common::make::{expression, program, reference};
use common::{folder, seeds};
use rest_spread::{entry, Joiner, Lowerer, Options, Printer, Refusal, Series, LIST_OUT, TREE_OUT};
use std::path::Path;
use std::{env, fs};

/// `{ ({a, ...r} = s); }`
const IN_A_BLOCK: &str = "01010100020301000100030302001f011b0701220301002307260101006112010100610212010100721201010073";
/// No entries, no excluded keys.
const EMPTY: [u8; 4] = [0; 4];

struct Case {
    name: String,
    slice: usize,
    tree: Vec<u8>,
    list: Vec<u8>,
    answer: u8,
    joined: Vec<u8>,
}

/// The cases of joining that the program `vectors` has, which come last.
fn stored() -> Vec<Case> {
    let path = Path::new(env!("CARGO_MANIFEST_DIR")).join("../crates/vectors/stdin");
    let bytes = fs::read(&path).unwrap_or_else(|why| panic!("{}: {why}", path.display()));
    let (mut at, mut all) = (0, Vec::new());
    for number in 1.. {
        let Some(&kind) = bytes.get(at) else { break };
        at += 1;
        let wide = |behind: usize| usize::from(u16::from_le_bytes([bytes[at + behind], bytes[at + behind + 1]]));
        let length = match kind {
            0 => 6 + wide(2),
            1 => 10 + wide(4) + wide(6) + wide(8),
            2 => 14 + wide(8) + wide(10) + wide(12),
            3 => 10 + wide(8),
            _ => 9 + wide(3) + wide(5) + wide(7),
        };
        if kind == 4 {
            let (tree, rest) = bytes[at + 9..at + length].split_at(wide(3));
            let (list, joined) = rest.split_at(wide(5));
            let name = format!("crates/vectors/stdin, case {number}");
            let [tree, list, joined] = [tree, list, joined].map(<[u8]>::to_vec);
            all.push(Case { name, slice: wide(1), tree, list, answer: bytes[at], joined });
        }
        at += length;
    }
    all
}

/// All cases of a vector file: slice, tree, list, answer and joined tree.
fn read_file(path: &Path) -> Vec<Case> {
    let text = fs::read_to_string(path).unwrap();
    let lines = text.lines().enumerate().filter(|(_, line)| !line.starts_with('#') && !line.is_empty());
    let cases = lines.map(|(number, line)| {
        let words: Vec<&str> = line.split(' ').collect();
        let [slice, tree, list, answer, joined] = words[..] else { panic!("{number}: five words") };
        Case {
            name: format!("{}:{}", path.display(), number + 1),
            slice: if slice == "-" { TREE_OUT } else { slice.parse().unwrap() },
            tree: spelled(tree),
            list: spelled(list),
            answer: answer.parse().unwrap(),
            joined: spelled(joined),
        }
    });
    cases.collect()
}

/// Parts are joined by `+`, and `A*N` is A, N times.
fn spelled(word: &str) -> Vec<u8> {
    let parts = word.split('+').map(|part| {
        let (hex, times) = part.split_once('*').unwrap_or((part, "1"));
        from_hex(hex).repeat(times.parse().unwrap())
    });
    parts.collect::<Vec<_>>().concat()
}

/// The call, in a slice with no zero in it: answer and every byte.
fn run(case: &Case, slice: usize, answer: u8, joined: &[u8]) {
    let mut out = vec![7; slice];
    let found = entry::join(&case.tree, &case.list, &mut out);
    assert_eq!((found.answer, found.tree_len), (answer, joined.len()), "{}, {slice}", case.name);
    let mut bytes = joined.to_vec();
    bytes.resize(slice, 0);
    assert!(out == bytes, "{}, {slice}: other bytes", case.name);
}

/// Each case in its slice; one that is joined also in one that is exact and in one that is a byte short; one that is refused
/// before room is looked at also in none.
fn run_all(cases: &[Case]) {
    let mut joiner = Joiner::new();
    for case in cases {
        run(case, case.slice, case.answer, &case.joined);
        match case.answer {
            0 => {
                run(case, case.joined.len(), 0, &case.joined);
                run(case, case.joined.len() - 1, Refusal::TooLong.number(), b"");
                assert_eq!(joiner.join(&case.tree, &case.list), Ok(&case.joined[..]), "{}", case.name);
            }
            7 => {}
            number => {
                run(case, 0, number, b"");
                assert_eq!(joiner.join(&case.tree, &case.list).err(), Refusal::from_number(number), "{}", case.name);
            }
        }
    }
}

#[test]
fn stored_joinings() {
    let cases = stored();
    assert_eq!(cases.len(), 80);
    run_all(&cases);
}

/// The whole file, if the folder that `REST_SPREAD_CASES` names has it.
#[test]
fn whole_joinings() {
    let path = env::var_os("REST_SPREAD_CASES").map(|folder| Path::new(&folder).join("cr10.txt"));
    if let Some(path) = path.filter(|path| path.is_file()) {
        let cases = read_file(&path);
        assert_eq!(cases.len(), 190);
        run_all(&cases);
    }
}

/// What the program `join` is run on is what the lowering gives, and its stored output is what is loaded.
#[test]
fn a_result_is_joined() {
    let mut lowerer = Lowerer::new();
    let lowered = lowerer.lower(Options::NONE, &from_hex(IN_A_BLOCK)).unwrap();
    let here = Path::new(env!("CARGO_MANIFEST_DIR"));
    let stdin = fs::read(here.join("../crates/join/stdin")).unwrap();
    assert_eq!(stdin[2..], [lowered.tree, lowered.list.bytes()].concat());
    let joined = lowered.joined().unwrap();
    assert_eq!(fs::read_to_string(here.join("../crates/join/stdout")).unwrap(), format!("0\n{}\n", to_hex(&joined)));
    // What comes out has no list any more, so an empty one changes nothing.
    assert_eq!(Joiner::default().join(&joined, &EMPTY), Ok(&joined[..]));
}

#[test]
fn refusals_by_name() {
    let tree = program([expression(reference("a"))]);
    let mut joiner = Joiner::new();
    assert_eq!(joiner.join(b"", &EMPTY), Err(Refusal::NotATree));
    assert_eq!(joiner.join(&tree, b""), Err(Refusal::NotAList));
    assert_eq!(joiner.join(&tree, &[0; 5]), Err(Refusal::NotAList));
    assert_eq!(joiner.join(&tree, &vec![0; LIST_OUT + 1]), Err(Refusal::NotAList));
    assert_eq!(joiner.join(&tree, &[1, 0, 9, 0, 0, 0, 0, 0]), Err(Refusal::NoSuchStatement));
    assert_eq!(joiner.join(&tree, &EMPTY), Ok(&tree[..]));
}

/// Drawn trees that are lowered: the joined tree has a text, and as many statements more as there are entries and consts.
#[test]
fn drawn_trees_are_joined() {
    let (mut lowerer, mut joiner, mut printer) = (Lowerer::new(), Joiner::new(), Printer::new());
    let (mut done, mut more) = (0, 0);
    let count = seeds(300).end;
    for drawing in Series::from_seed(41).unwrap().take(usize::try_from(count).unwrap()) {
        let Ok(lowered) = lowerer.lower(Options::NONE, &drawing.tree) else { continue };
        let entries = lowered.list.entries().count();
        let consts = usize::from(lowered.list.excluded().count() > 0);
        match joiner.join(lowered.tree, lowered.list.bytes()) {
            Ok(joined) => {
                let grown = lowered.list.bytes().len() - EMPTY.len();
                // A var has five bytes before its declarators where the entry has two, the const five and a count.
                assert_eq!(joined.len(), lowered.tree.len() + grown + 3 * entries + 7 * consts);
                assert!(printer.text(joined).is_ok());
                done += 1;
                more += usize::from(entries > 0);
            }
            // A mark that stands twice, in the tree or between it and its list.
            Err(refusal) => assert!(matches!(refusal, Refusal::NotATree | Refusal::NotAList | Refusal::TooLong)),
        }
    }
    assert!(done > 0 && more > 0 || count < 300, "{done} {more}");
}

#[test]
fn the_command_joins() {
    let folder = folder("joins");
    let file = folder.join("joined.tree");
    let input = from_hex(IN_A_BLOCK);
    let ran = loader(&["--join", file.to_str().unwrap(), "-"], &input);
    assert_eq!((ran.status, ran.err.as_str()), (0, ""));
    let mut lowerer = Lowerer::new();
    let joined = lowerer.lower(Options::NONE, &input).unwrap().joined().unwrap();
    assert_eq!(fs::read(&file).unwrap(), joined);
    let ran = loader(&["--text", "-"], &input);
    assert_eq!((ran.status, ran.out.as_bytes()), (0, Printer::new().text(&joined).unwrap()));
    assert!(ran.out.starts_with("const _excluded2"), "{}", ran.out);
    assert_eq!(loader(&["--join", "x", "a", "b"], b"").status, 64);
    assert_eq!(loader(&["--join", "x", "--sort", "a"], b"").status, 64);
}
