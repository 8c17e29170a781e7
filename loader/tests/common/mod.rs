//! What the tests and the benchmark share.
#![allow(dead_code)]

pub mod cases;
pub mod draw;
pub mod json;
pub mod make;
pub mod rig;

use std::env;
use std::io::{self, Write};
use std::ops::Range;
use std::path::PathBuf;

/// Says that something is not tested, in spite of the harness, which keeps what a passing test prints.
pub fn skip(why: &str) {
    let _ = io::stderr().write_all(format!("\nSKIPPED: {why}\n").as_bytes());
}

/// A seed for each tree that a test draws: as many as usual, or as `REST_SPREAD_TREES` says.
pub fn seeds(usual: u64) -> Range<u64> {
    0..env::var("REST_SPREAD_TREES").map_or(usual, |number| number.parse().expect("REST_SPREAD_TREES is a number"))
}

/// A folder of its own for each test, empty.
pub fn folder(name: &str) -> PathBuf {
    let path = PathBuf::from(env!("CARGO_TARGET_TMPDIR")).join(name);
    let _ = std::fs::remove_dir_all(&path);
    std::fs::create_dir_all(&path).unwrap();
    path
}
