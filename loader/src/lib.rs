//! The proved lowering of object rest and spread, for a loader in Rust.
//!
//! ```
//! use rest_spread::{Helper, Lowerer, Options, Refusal};
//!
//! // ({...a})
//! let tree = b"\x01\x01\x01\x00\x03\x03\x01\x00\x18\x01\x01\x00\x1a\x01\x12\x01\x01\x00a";
//!
//! let mut lowerer = Lowerer::new();
//! let lowered = lowerer.lower(Options::NONE, tree)?;
//! assert_eq!(lowered.tree.len(), 24);
//! assert!(lowered.helpers.contains(Helper::ObjectSpread2));
//! assert_eq!(lowered.list.entries().count(), 0);
//!
//! assert_eq!(lowerer.lower(Options::NONE, b"").unwrap_err(), Refusal::NotATree);
//! # Ok::<(), Refusal>(())
//! ```
//!
//! | Module | Holds |
//! |---|---|
//! | [`entry`] | the archives' functions, with all the `unsafe` there is |
//! | [`Lowerer`], [`Lowered`] | the safe layer: buffers that are used again, and what a call hands back |
//! | [`Refusal`], [`Explained`] | why a tree was not lowered, where, and what to do about it |
//! | [`Helpers`], [`Options`] | the masks, by name, and the helpers' text |
//! | [`List`], [`Node`], [`Walk`] | what the list hands out; reading trees |
//! | [`Make`] | making trees |
//! | [`Leftover`] | object rest and spread that stay in a result |
//! | [`calls()`] | how many literals lead to how many calls |
//! | [`draw()`], [`Series`] | trees drawn from seeds, for a load that is the same everywhere |
//! | [`order()`] | which of two trees comes first |
//! | [`Joiner`] | the program that is loaded: a tree with the declarations of its list in place |
//! | [`Printer`] | a tree as JavaScript |
//!
//! `docs/FORMAT.md` of the repository describes the tree bytes.

#![deny(unsafe_code)]
#![warn(missing_docs)]

mod advice;
mod calls;
#[cfg(test)]
#[path = "../tests/common/draw.rs"]
#[allow(dead_code)]
mod draw;
mod drawing;
pub mod entry;
mod grammar;
mod helpers;
mod joiner;
mod kind;
mod leftover;
mod list;
mod lowerer;
mod make;
mod node;
mod options;
mod order;
mod parts;
mod printer;
mod refusal;
mod stem;
mod walk;

pub use advice::{Advice, Explained};
pub use calls::calls;
pub use drawing::{draw, Drawing, Series};
pub use grammar::{Fault, Trouble};
pub use helpers::{Helper, Helpers};
pub use joiner::Joiner;
pub use kind::Kind;
pub use leftover::{Left, Leftover};
pub use list::{Declarator, Declarators, Entries, Entry, List};
pub use lowerer::{Lowered, Lowerer};
pub use make::{Make, Unfit};
pub use node::{Field, Fields, Item, Items, Node};
pub use options::Options;
pub use order::order;
pub use printer::Printer;
pub use refusal::Refusal;
pub use stem::Stem;
pub use walk::{Path, Step, Turn, Walk};

/// The version of the archive that this crate is for. It goes up with what the archive's functions promise.
pub const ARCHIVE: u32 = 4;
/// The longest tree that is read.
pub const TREE_IN: usize = 16_384;
/// The highest depth limit, and the one where none is named. The Program is at level 1.
pub const LEVELS: u32 = 128;
/// The longest tree that is written.
pub const TREE_OUT: usize = 32_768;
/// The longest list that is written.
pub const LIST_OUT: usize = 16_384;
/// The bytes of work that a call needs.
pub const WORK: usize = 65_536;
/// The bytes that have room for every drawn tree.
pub const DRAWN: usize = 5_121;
/// The bytes that have room for every text: nine for each byte of the longest tree that is written.
pub const TEXT: usize = 294_912;
/// The most items of a literal that [`calls()`] counts patterns of.
pub const LONGEST_PATTERN: u32 = 32;
