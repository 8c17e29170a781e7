//! Text of results, through the whole way from a tree to JavaScript.

use rest_spread::{entry, Lowerer, Options, Printer, Refusal};
use std::fs;

fn read(path: &str) -> Vec<u8> {
    fs::read(format!("{}/../{path}", env!("CARGO_MANIFEST_DIR"))).unwrap()
}

#[test]
fn the_handler_prints_as_the_program_prints_it() {
    let mut lowerer = Lowerer::new();
    let lowered = lowerer.lower(Options::NONE, &read("examples/slip.tree")).unwrap();
    let mut printer = Printer::new();
    assert_eq!(printer.text(lowered.tree).unwrap(), read("crates/text/stdout"));
    assert_eq!(printer.text(b""), Err(Refusal::NotATree));
}

#[test]
fn a_slice_that_is_a_byte_short_is_refused_and_zero() {
    let tree = read("examples/slip.lowered.tree");
    let text = read("crates/text/stdout");
    let mut short = vec![1; text.len() - 1];
    assert_eq!(entry::text(&tree, &mut short).answer, Refusal::TextTooLong.number());
    assert!(short.iter().all(|&b| b == 0));
    let mut exact = vec![1; text.len()];
    assert_eq!(entry::text(&tree, &mut exact).text_len, text.len());
    assert_eq!(exact, text);
}
