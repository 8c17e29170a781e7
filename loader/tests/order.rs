//! The order of whole trees: by the entry, and by the command.

#[path = "common/command.rs"]
mod command;
mod common;

use command::{loader, loader_in};
use common::folder;
use rest_spread::{draw, entry, order, Lowerer, Options, Refusal, Series};
use std::cmp::Ordering;
use std::{fs, thread};

/// `a;` with this name.
fn named(name: &str) -> Vec<u8> {
    let mut tree = b"\x01\x01\x01\x00\x03\x03\x01\x00\x12\x01".to_vec();
    tree.extend((name.len() as u16).to_le_bytes());
    tree.extend(name.as_bytes());
    tree
}

/// `a;` below so many Parenthesised.
fn deep(levels: usize, name: &str) -> Vec<u8> {
    let tree = named(name);
    let mut out = tree[..8].to_vec();
    out.extend(b"\x1f\x01".repeat(levels));
    out.extend(&tree[8..]);
    out
}

#[test]
fn one_of_three() {
    let trees: Vec<Vec<u8>> = Series::from_seed(11).unwrap().take(60).map(|drawing| drawing.tree).collect();
    for a in &trees {
        assert_eq!(order(a, a), Ok(Ordering::Equal));
        for b in &trees {
            let there = order(a, b).unwrap();
            assert_eq!(order(b, a), Ok(there.reverse()));
            let ordered = entry::order(a, b);
            assert_eq!((ordered.answer, ordered.order), (0, there as i8));
            for c in &trees[..10] {
                if there.is_lt() && order(b, c).unwrap().is_le() {
                    assert_eq!(order(a, c), Ok(Ordering::Less));
                }
            }
        }
    }
}

#[test]
fn no_tree_is_refused() {
    let tree = named("a");
    for (first, second) in [(&b""[..], &tree[..]), (&tree, b""), (&tree, &tree[1..])] {
        assert_eq!(order(first, second), Err(Refusal::NotATree));
    }
}

/// Temporaries go by where they first appear.
#[test]
fn temporaries_by_place() {
    let temporary = |number: u8| [20, 3, number, 0, 1];
    let tree = |numbers: [u8; 3]| {
        let mut tree = b"\x01\x01\x01\x00\x03\x03\x01\x00\x20\x01\x03\x00".to_vec();
        tree.extend(numbers.map(temporary).concat());
        tree
    };
    assert_eq!(order(&tree([1, 2, 1]), &tree([9, 4, 9])), Ok(Ordering::Equal));
    assert_eq!(order(&tree([1, 2, 1]), &tree([9, 4, 4])), Ok(Ordering::Less));
}

#[test]
fn the_deepest_in_a_thread_with_a_megabyte() {
    let run = || {
        let (a, b) = (deep(16_377, "aa"), deep(16_377, "ab"));
        [order(&a, &b), order(&a, &a), order(&b, &a)]
    };
    let said = thread::Builder::new().stack_size(1 << 20).spawn(run).unwrap().join().unwrap();
    assert_eq!(said, [Ok(Ordering::Less), Ok(Ordering::Equal), Ok(Ordering::Greater)]);
}

/// `--sort` says the same wherever the files stand in the line, and puts equal ones on one.
#[test]
fn the_command_sorts() {
    let folder = folder("order");
    let mut lowerer = Lowerer::new();
    let mut names = Vec::new();
    for drawing in Series::from_seed(5).unwrap().take(40) {
        if let Ok(lowered) = lowerer.lower(Options::NONE, &drawing.tree) {
            for copy in ["a", "b"] {
                let name = format!("{}{copy}", drawing.seed);
                fs::write(folder.join(&name), lowered.tree).unwrap();
                names.push(name);
            }
        }
    }
    let sorted = |names: &[String]| {
        let words: Vec<&str> = ["--sort"].into_iter().chain(names.iter().map(String::as_str)).collect();
        loader_in(&folder, &words, b"")
    };
    let once = sorted(&names);
    names.reverse();
    let again = sorted(&names);
    assert_eq!((once.status, &once.err[..]), (0, ""));
    assert_eq!(once.out, again.out);
    let lines: Vec<Vec<&str>> = once.out.lines().map(|line| line.split(' ').collect()).collect();
    assert_eq!(lines.iter().map(Vec::len).sum::<usize>(), names.len());
    let tree = |name: &str| fs::read(folder.join(name)).unwrap();
    for pair in lines.windows(2) {
        assert_eq!(order(&tree(pair[0][0]), &tree(pair[1][0])), Ok(Ordering::Less));
    }
    for line in &lines {
        assert!(line.len() % 2 == 0, "{line:?}");
        assert!(line.iter().all(|name| order(&tree(line[0]), &tree(name)) == Ok(Ordering::Equal)));
    }
}

#[test]
fn what_the_command_does_not_sort() {
    let folder = folder("order-refused");
    fs::write(folder.join("tree"), draw(5).unwrap().tree).unwrap();
    fs::write(folder.join("none"), b"").unwrap();
    let ran = loader_in(&folder, &["--sort", "none", "tree"], b"");
    assert_eq!((ran.status, &ran.out[..]), (3, "tree\n"));
    assert!(ran.err.starts_with("none: "), "{}", ran.err);
    assert_eq!(loader_in(&folder, &["--sort", "missing", "none", "tree"], b"").status, 74);
    for words in [&["--sort"][..], &["--sort", "-"], &["--sort", "--hex", "tree"]] {
        assert_eq!(loader(words, b"").status, 64, "{words:?}");
    }
}
