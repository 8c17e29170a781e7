//! The stored cases. A line has what the program `lower` reads (options byte and tree, in hexadecimal), then the
//! answer, the helper mask, the options mask, the tree and the list, `-` for none. Where it has a word more, the first is
//! the depth limit, `-` for none. Lines with `#` are remarks on the case below them.

use rest_spread::Lowerer;
use std::collections::{BTreeMap, HashSet};
use std::path::{Path, PathBuf};
use std::{env, fs};

pub struct Case {
    /// The file, the line, and the remark above it.
    pub name: String,
    /// The depth limit, if one is named.
    pub depth: Option<u32>,
    pub options: u8,
    pub tree: Vec<u8>,
    pub answer: u8,
    pub helpers: u8,
    pub reported: u8,
    pub tree_out: Vec<u8>,
    pub list_out: Vec<u8>,
}

/// The base's files. Their cases run with its limit, so that each 4 still says what it said, and their options masks lose
/// the 8, which is retired. In `tests/data` their results are restated with stems; elsewhere they are not, so that they
/// are read there alone.
const BASE: [&str; 4] = ["document01", "extra", "readings", "recorded"];
const BASE_DEPTH: u32 = 64;
const RETIRED: u8 = 8;
/// The files of the requests that are in force: those in `tests/data`, and those that hold as they are elsewhere.
/// `tools/cases.py` says of all of them what holds.
const REQUESTS: [&str; 4] = ["classes", "numbers", "parts", "stems"];
const WHOLE: [&str; 4] = ["cr12", "cr5", "cr6", "cr8"];
/// A part of a file that holds no longer, by the first words of its head.
const NO_LONGER: &str = "---- with temporaries, while request 4 is not in force";

/// All cases of lowering: those in `tests/data`, those of the program `vectors`, and those in the folder that
/// `REST_SPREAD_CASES` names. What stands twice comes once.
pub fn stored() -> Vec<Case> {
    let here = Path::new(env!("CARGO_MANIFEST_DIR"));
    let mut cases = read_folder(&here.join("tests/data"), BASE.iter().chain(&REQUESTS));
    cases.extend(read_vectors(&here.join("../crates/vectors/stdin")));
    let whole = env::var_os("REST_SPREAD_CASES");
    cases.extend(whole.iter().flat_map(|folder| read_folder(Path::new(folder), WHOLE.iter())));
    let mut seen = HashSet::new();
    cases.retain(|case| seen.insert((case.depth, case.options, case.tree.clone())));
    cases
}

/// A `Lowerer` for each limit, made when it is first asked for.
#[derive(Default)]
pub struct Lowerers(BTreeMap<Option<u32>, Lowerer>);

impl Lowerers {
    pub fn within(&mut self, depth: Option<u32>) -> &mut Lowerer {
        self.0.entry(depth).or_insert_with(|| depth.map_or_else(Lowerer::new, Lowerer::with_depth))
    }
}

fn read_folder<'a>(folder: &Path, names: impl Iterator<Item = &'a &'a str>) -> Vec<Case> {
    let files: Vec<PathBuf> =
        names.map(|name| folder.join(name).with_extension("txt")).filter(|path| path.is_file()).collect();
    assert!(!files.is_empty(), "{} has no file with cases", folder.display());
    files.iter().flat_map(|path| read_file(path)).collect()
}

fn read_file(path: &Path) -> Vec<Case> {
    let file = path.file_stem().unwrap().to_string_lossy().into_owned();
    let is_base = BASE.contains(&file.as_str());
    let text = fs::read_to_string(path).unwrap();
    let mut cases = Vec::new();
    let (mut remark, mut holds) = ("", true);
    for (number, line) in text.lines().enumerate() {
        match line.strip_prefix('#') {
            Some(words) => {
                remark = words.trim();
                holds = if remark.starts_with("----") { !remark.starts_with(NO_LONGER) } else { holds };
            }
            None => {
                if holds {
                    let mut case = read_line(format!("{file}.txt:{}: {remark}", number + 1), line);
                    if is_base {
                        case.depth = Some(BASE_DEPTH);
                        case.reported &= !RETIRED;
                    }
                    cases.push(case);
                }
                remark = "";
            }
        }
    }
    cases
}

fn read_line(name: String, line: &str) -> Case {
    let mut words: Vec<&str> = line.split(' ').collect();
    let depth = if words.len() == 7 { words.remove(0) } else { "-" };
    let [input, answer, helpers, reported, tree_out, list_out] = words[..] else {
        panic!("{name}: six words or seven")
    };
    let input = from_hex(input);
    Case {
        depth: (depth != "-").then(|| depth.parse().unwrap()),
        options: input[0],
        tree: input[1..].to_vec(),
        answer: answer.parse().unwrap(),
        helpers: helpers.parse().unwrap(),
        reported: reported.parse().unwrap(),
        tree_out: from_hex(tree_out),
        list_out: from_hex(list_out),
        name,
    }
}

/// The cases of lowering that the program `vectors` replays. `tools/cases.py` says how they are stored, and shows them by
/// number.
fn read_vectors(path: &Path) -> Vec<Case> {
    let bytes = fs::read(path).unwrap_or_else(|why| panic!("{}: {why}", path.display()));
    let mut left = &bytes[..];
    let mut cases = Vec::new();
    for number in 1.. {
        let Some((&kind, behind)) = left.split_first() else { break };
        left = behind;
        if kind == 0 {
            // A case of reading: limit and answer, the tree's length and the mark.
            let [_, _, low, high, _, _] = take(&mut left);
            left = &left[usize::from(u16::from_le_bytes([low, high]))..];
            continue;
        }
        if kind == 3 {
            // A case of drawing: the seed and the state after its tree, the tree's length.
            let [_, _, _, _, _, _, _, _, low, high] = take(&mut left);
            left = &left[usize::from(u16::from_le_bytes([low, high]))..];
            continue;
        }
        if kind == 4 {
            // A case of joining: the answer, the lengths of the slice, of the tree, of the list and of the joined tree.
            let ([_, _, _], lengths) = (take(&mut left), [(); 3].map(|()| u16::from_le_bytes(take(&mut left))));
            left = &left[lengths.map(usize::from).iter().sum()..];
            continue;
        }
        let depth = (kind == 2).then(|| u32::from_le_bytes(take(&mut left)));
        let [options, answer, helpers, reported] = take(&mut left);
        let lengths: [usize; 3] = [(); 3].map(|()| u16::from_le_bytes(take(&mut left)).into());
        let [tree, tree_out, list_out] = lengths.map(|length| {
            let (bytes, behind) = left.split_at(length);
            left = behind;
            bytes.to_vec()
        });
        let name = format!("crates/vectors/stdin, case {number}");
        cases.push(Case { name, depth, options, tree, answer, helpers, reported, tree_out, list_out });
    }
    cases
}

fn take<const N: usize>(from: &mut &[u8]) -> [u8; N] {
    let (bytes, behind) = from.split_first_chunk().expect("a whole case");
    *from = behind;
    *bytes
}

pub fn from_hex(text: &str) -> Vec<u8> {
    let digits = text.strip_prefix('-').unwrap_or(text).as_bytes();
    digits.chunks(2).map(|two| u8::from_str_radix(std::str::from_utf8(two).unwrap(), 16).unwrap()).collect()
}

pub fn to_hex(bytes: &[u8]) -> String {
    bytes.iter().map(|byte| format!("{byte:02x}")).collect()
}
