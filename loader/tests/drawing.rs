//! Trees that are drawn from seeds: the stored ones, series, and what the lowering makes of them.

#[path = "common/command.rs"]
mod command;
mod common;

use command::loader;
use common::folder;
use rest_spread::entry::{self, advance, Xorshift};
use rest_spread::{draw, Lowerer, Options, Refusal, Series, DRAWN};
use std::fs;
use std::path::Path;

/// The cases of drawing that the program `vectors` has: a seed, the state after its tree, and the tree.
fn stored() -> Vec<(u32, u32, Vec<u8>)> {
    let path = Path::new(env!("CARGO_MANIFEST_DIR")).join("../crates/vectors/stdin");
    let bytes = fs::read(&path).unwrap_or_else(|why| panic!("{}: {why}", path.display()));
    let mut rest = &bytes[..];
    let mut all = Vec::new();
    while let Some((&kind, case)) = rest.split_first() {
        let wide = |at: usize| usize::from(u16::from_le_bytes([case[at], case[at + 1]]));
        let number = |at: usize| u32::from_le_bytes(case[at..at + 4].try_into().unwrap());
        let length = match kind {
            0 => 6 + wide(2),
            1 => 10 + wide(4) + wide(6) + wide(8),
            2 => 14 + wide(8) + wide(10) + wide(12),
            3 => 10 + wide(8),
            _ => 9 + wide(3) + wide(5) + wide(7),
        };
        if kind == 3 {
            all.push((number(0), number(4), case[10..length].to_vec()));
        }
        rest = &case[length..];
    }
    all
}

#[test]
fn stored_drawings() {
    let stored = stored();
    assert_eq!(stored.len(), 60);
    for (seed, next, tree) in stored {
        if seed == 0 {
            assert_eq!(draw(seed), Err(Refusal::ZeroSeed));
            continue;
        }
        let drawing = draw(seed).unwrap();
        assert_eq!((drawing.next, &drawing.tree), (next, &tree), "{seed}");
        // A slice of every kind of length: as long as the tree, longer, a byte shorter, none.
        for length in [tree.len(), tree.len() + 5, tree.len() - 1, 0] {
            let mut out = vec![7; length];
            let drawn = entry::draw(seed, &mut out);
            let fits = length >= tree.len();
            let expected = if fits { (0, next, tree.len()) } else { (7, 0, 0) };
            assert_eq!((drawn.answer, drawn.next, drawn.tree_len), expected, "{seed} {length}");
            let mut bytes = if fits { tree.clone() } else { Vec::new() };
            bytes.resize(length, 0);
            assert_eq!(out, bytes, "{seed} {length}");
        }
    }
}

#[test]
fn the_first_numbers() {
    let mut g = Xorshift { state: 1 };
    let numbers: Vec<u32> = (0..4).map(|_| advance(&mut g)).collect();
    assert_eq!(numbers, [270_369, 67_634_689, 2_647_435_461, 307_599_695]);
    assert_eq!(g.state, 307_599_695);
}

#[test]
fn a_zero_seed_is_refused_before_a_short_slice() {
    let drawn = entry::draw(0, &mut []);
    assert_eq!((drawn.answer, drawn.next, drawn.tree_len), (8, 0, 0));
    assert!(Series::from_seed(0).is_err());
}

/// A series goes on from state to state, and every tree of it is read.
#[test]
fn a_series_is_lowered() {
    let mut lowerer = Lowerer::new();
    let mut seed = 77;
    for drawing in Series::from_seed(seed).unwrap().take(300) {
        assert_eq!(drawing.seed, seed);
        assert!(drawing.tree.len() <= DRAWN && drawing.next != 0);
        if let Err(refusal) = lowerer.lower(Options::NONE, &drawing.tree) {
            use Refusal::{KeyWithoutForm, OtherForm, RestBelowArrayRest, TooLong};
            assert!([RestBelowArrayRest, KeyWithoutForm, OtherForm, TooLong].contains(&refusal), "{seed}: {refusal}");
        }
        seed = drawing.next;
    }
}

#[test]
fn the_command_draws() {
    let folder = folder("draws");
    let into = folder.to_str().unwrap();
    let ran = loader(&["--draw", "9000003", "--count", "3", "--into", into], b"");
    assert_eq!((ran.status, ran.err.as_str()), (0, ""));
    let lines: Vec<&str> = ran.out.lines().collect();
    assert_eq!(lines.len(), 3);
    for (drawing, line) in Series::from_seed(9_000_003).unwrap().zip(lines) {
        let path = folder.join(format!("{}.tree", drawing.seed));
        assert_eq!(fs::read(&path).unwrap(), drawing.tree);
        assert_eq!(line, format!("{}: {} bytes", path.display(), drawing.tree.len()));
    }
    assert_eq!(loader(&["--draw", "0", "--into", into], b"").status, 8);
    for words in [&["--draw", "1"][..], &["--count", "1"], &["--draw", "1", "--into", into, "x"], &["--draw", "x"]] {
        assert_eq!(loader(words, b"").status, 64, "{words:?}");
    }
}
