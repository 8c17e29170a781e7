//! How many literals lead to how many calls: the stored cases, the request's figures, and the lowering itself.

mod common;

use common::make::{expression, program, reference};
use common::skip;
use rest_spread::{calls, entry, Kind, Lowerer, Options, Refusal, Step, Walk, LONGEST_PATTERN};
use std::path::{Path, PathBuf};
use std::{env, fs};

/// The lines `N C ANSWER NUMBER` of a file. How many there are, and how many are refused.
fn replay(path: &Path) -> (usize, usize) {
    let text = fs::read_to_string(path).unwrap_or_else(|why| panic!("{}: {why}", path.display()));
    let (mut all, mut refused) = (0, 0);
    for line in text.lines().filter(|line| !line.starts_with('#')) {
        let numbers: Vec<u32> = line.split(' ').map(|word| word.parse().unwrap()).collect();
        let [n, c, answer, number] = numbers[..] else { panic!("four numbers: {line}") };
        let counted = entry::calls(n, c);
        assert_eq!((u32::from(counted.answer), counted.number), (answer, number), "{line}");
        assert_eq!(calls(n, c), Refusal::from_number(answer as u8).map_or(Ok(number), Err), "{line}");
        all += 1;
        refused += usize::from(answer > 0);
    }
    (all, refused)
}

#[test]
fn stored_cases() {
    let own = Path::new(env!("CARGO_MANIFEST_DIR")).join("../tools/calls.txt");
    let (all, refused) = replay(&own);
    assert!(all > 100 && refused > 5, "{all} {refused}");
}

#[test]
fn more_stored_cases() {
    match env::var_os("REST_SPREAD_CASES").map(|folder| PathBuf::from(folder).join("cr14.txt")) {
        Some(path) if path.is_file() => assert!(replay(&path).0 > 0),
        _ => skip("REST_SPREAD_CASES names no folder with a cr14.txt"),
    }
}

/// The figures of the request: 1, 1, and from 2 on twice the ways to choose c - 1 of n - 1, which are Pascal's.
#[test]
fn every_figure() {
    let mut ways: Vec<u32> = vec![1];
    for n in 0..=LONGEST_PATTERN {
        for c in 0..=n + 3 {
            let figure = match c {
                0 => 1,
                _ if c > n => 0,
                1 => 1,
                _ => 2 * ways[c as usize - 1],
            };
            assert_eq!(calls(n, c), Ok(figure), "{n} {c}");
        }
        let row: u64 = (0..=n).map(|c| u64::from(calls(n, c).unwrap())).sum();
        assert_eq!(row, 1 << n, "all patterns of {n}");
        if n > 0 {
            let inner: Vec<u32> = ways.windows(2).map(|two| two[0] + two[1]).collect();
            ways = [&[1][..], &inner, &[1]].concat();
        }
    }
    for n in [33, 34, 1_000, u32::MAX] {
        assert_eq!([0, 1, 33, u32::MAX].map(|c| calls(n, c)), [Err(Refusal::PatternTooLong); 4], "{n}");
    }
    assert_eq!(calls(32, u32::MAX), Ok(0));
}

/// Each pattern of up to 8 items, lowered: the calls that are counted in the result.
#[test]
fn the_lowering_gives_the_figures() {
    let mut lowerer = Lowerer::new();
    for n in 0..=8_u32 {
        let mut counts = vec![0; n as usize + 1];
        for pattern in 0..1_u32 << n {
            let item = |at: u32| match pattern >> at & 1 {
                1 => Kind::Spread.make().node(reference("a")),
                _ => Kind::Property.make().node(Kind::StaticKey.make().text("x")).node(reference("b")).byte(0),
            };
            let tree = program([expression(Kind::Object.make().list((0..n).map(item)))]);
            let lowered = lowerer.lower(Options::NONE, &tree).unwrap();
            let made = Walk::new(lowered.tree).filter(|step| *step == Step::Begins(Kind::Call)).count();
            counts[made] += 1;
        }
        let figures: Vec<u32> = (0..=n).map(|c| calls(n, c).unwrap()).collect();
        assert_eq!(counts, figures, "{n}");
    }
}
