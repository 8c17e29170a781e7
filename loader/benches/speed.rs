//! How long a call takes: `cargo bench`.
//!
//! A call clears three buffers of 114,688 bytes in all, so the table has, beside its time, that of clearing them and
//! copying the input, and the ratio. Where `RUST_REFERENCE` names the reference program (docs/DIFFERENCES.md), it runs
//! on the same trees; its time has the reading and printing of hexadecimal in it, and its start taken off.

#[path = "../tests/common/mod.rs"]
mod common;

use common::cases::{stored, to_hex};
use common::make::{blocks, key_twice, other, padded, program, rests, spreads};
use rest_spread::{Lowerer, Options, LIST_OUT, TREE_IN, TREE_OUT, WORK};
use std::env;
use std::ffi::OsStr;
use std::hint::black_box;
use std::io::Write;
use std::process::{Command, Stdio};
use std::thread;
use std::time::{Duration, Instant};

fn main() {
    let reference = env::var_os("RUST_REFERENCE");
    if reference.is_none() {
        println!("RUST_REFERENCE names no program, so the last column is empty.");
    }
    println!("Times are in microseconds, the best of some rounds.\n");
    println!(
        "{:32}{:>8}{:>8}{:>8}{:>10}{:>10}{:>8}{:>12}",
        "", "in", "out", "list", "call", "clear", "ratio", "reference"
    );
    for (name, tree) in trees() {
        row(name, &tree, reference.as_deref());
    }
}

/// Ordinary trees and the largest.
fn trees() -> Vec<(&'static str, Vec<u8>)> {
    let cases = stored();
    let remark = |words: &str| cases.iter().find(|case| case.name.contains(words)).expect(words).tree.clone();
    let mut recorded: Vec<_> = cases.iter().filter(|c| c.answer == 0 && c.name.starts_with("recorded")).collect();
    recorded.sort_by_key(|case| case.tree.len());
    let of_length = |part: usize| recorded[(recorded.len() - 1) * part / 100].tree.clone();
    let plain = vec![other(8); 1_000];
    vec![
        ("the empty program", program([])),
        ("a slip handler", remark("a slip handler")),
        ("a loop over channels", remark("a loop over channels")),
        ("recorded, of median length", of_length(50)),
        ("recorded, at nine tenths", of_length(90)),
        ("recorded, the longest", of_length(100)),
        ("60 levels of blocks", blocks(59, [spreads(1)])),
        ("a whole tree, nothing to lower", padded(&plain, TREE_IN)),
        ("a whole tree, one literal", padded(&[spreads(2_300)], TREE_IN)),
        ("the longest result", program([rests(839), other(28)])),
        ("the longest list", program([key_twice(8_163)])),
        ("refused at its last byte", [padded(&plain, TREE_IN - 1), vec![0]].concat()),
        ("refused with 7", program([rests(1_000)])),
    ]
}

fn row(name: &str, tree: &[u8], reference: Option<&OsStr>) {
    let mut lowerer = Lowerer::new();
    let result = lowerer.lower(Options::NONE, tree).map(|lowered| (lowered.tree.len(), lowered.list.bytes().len()));
    let (out, list) = result.unwrap_or_default();
    let call = best(|| {
        let _ = black_box(lowerer.lower(Options::NONE, black_box(tree)));
    });
    let (mut tree_out, mut list_out, mut work) = (vec![1; TREE_OUT], vec![1; LIST_OUT], vec![1; WORK]);
    let clear = best(|| {
        for buffer in [&mut tree_out, &mut list_out, &mut work] {
            black_box(buffer).fill(0);
        }
        black_box(&mut tree_out)[..tree.len()].copy_from_slice(black_box(tree));
    });
    let last = reference.map_or(String::new(), |program| format!("{:.1}", of_reference(program, tree)));
    println!("{name:32}{:>8}{out:>8}{list:>8}{call:>10.1}{clear:>10.1}{:>8.1}{last:>12}", tree.len(), call / clear);
}

/// The time of a call: the best of 20 rounds of about 5 ms.
fn best(mut call: impl FnMut()) -> f64 {
    let mut round = |calls: u32| {
        let begin = Instant::now();
        (0..calls).for_each(|_| call());
        begin.elapsed()
    };
    let mut calls = 1;
    while round(calls) < Duration::from_millis(5) {
        calls *= 2;
    }
    let least = (0..20).map(|_| round(calls)).min().unwrap();
    least.as_secs_f64() * 1e6 / f64::from(calls)
}

/// The reference program's time for a tree, from runs on one and on many.
fn of_reference(program: &OsStr, tree: &[u8]) -> f64 {
    let line = format!("00{}\n", to_hex(tree));
    let many = 4_000_000 / line.len().max(2_000);
    let least = |times: usize| (0..5).map(|_| run(program, line.repeat(times))).min().unwrap();
    let (one, all) = (least(1), least(1 + many));
    all.saturating_sub(one).as_secs_f64() * 1e6 / many as f64
}

fn run(program: &OsStr, lines: String) -> Duration {
    let begin = Instant::now();
    let mut child = Command::new(program)
        .args(["--batch", "--template-key=node", "--classes", "--stems", "--limit=128"])
        .stdin(Stdio::piped())
        .stdout(Stdio::piped())
        .spawn()
        .expect("RUST_REFERENCE names a program");
    let mut input = child.stdin.take().unwrap();
    let writer = thread::spawn(move || input.write_all(lines.as_bytes()));
    child.wait_with_output().unwrap();
    writer.join().unwrap().unwrap();
    begin.elapsed()
}
