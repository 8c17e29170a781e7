//! Slices of awkward lengths through the entry. The rig has guard bytes around each, and sees that the others are zero.

mod common;

use common::cases::stored;
use common::make::{key_twice, program, rests, spreads};
use common::rig::Rig;
use common::seeds;
use rest_spread::{LIST_OUT, TREE_OUT, WORK};

/// Around every length at which something changes, and around the powers of two.
fn awkward(needed: &[usize], longest: usize) -> Vec<usize> {
    let powers = (0..).map(|n| 1 << n).take_while(|&length| length <= longest);
    let ends = powers.chain(needed.iter().copied()).chain([longest]);
    let mut lengths: Vec<usize> = ends.flat_map(|end: usize| end.saturating_sub(2)..=end + 2).collect();
    lengths.sort();
    lengths.dedup();
    lengths
}

/// Tree slices of every length up to a little more than is needed, with list slices of every length where the tree
/// fits or nearly fits, else with the shortest and the longest.
#[test]
fn small_results_in_slices_of_every_length() {
    let mut calls = 0;
    let small = stored().into_iter().filter(|case| case.answer == 0 && case.tree_out.len() < 100);
    for case in small.take(seeds(10_000).end as usize) {
        let (tree, list) = (case.tree_out.len(), case.list_out.len());
        for tree_slice in 0..tree + 3 {
            let near = tree_slice + 3 > tree;
            for list_slice in (0..list + 3).filter(|&length| near || length < 3 || length + 3 > list) {
                let mut rig = Rig::new(tree_slice, list_slice, WORK);
                let ran = rig.run_within(case.depth, case.options.into(), &case.tree);
                let fits = tree <= tree_slice && list <= list_slice;
                assert_eq!(ran.outcome.answer, if fits { 0 } else { 7 }, "{tree_slice} {list_slice}: {}", case.name);
                if fits {
                    assert_eq!((ran.tree_out(), ran.list_out()), (&case.tree_out[..], &case.list_out[..]));
                }
                calls += 1;
            }
        }
    }
    assert!(calls > 10_000, "{calls}");
}

/// Trees that fill the tree slice, fill the list slice, or nest deep, in slices around each length that matters.
#[test]
fn large_results_in_slices_of_awkward_lengths() {
    for tree in [program([rests(800)]), program([spreads(2_300)]), program([key_twice(8_000)])] {
        let (needs_tree, needs_list) = {
            let mut rig = Rig::whole();
            let outcome = rig.run(0, &tree).outcome;
            assert_eq!(outcome.answer, 0);
            (outcome.tree_len, outcome.list_len)
        };
        for slice in awkward(&[needs_tree], TREE_OUT) {
            let answer = Rig::new(slice, LIST_OUT, WORK).run(0, &tree).outcome.answer;
            assert_eq!(answer, if needs_tree <= slice { 0 } else { 7 }, "a tree slice of {slice}");
        }
        for slice in awkward(&[needs_list], LIST_OUT) {
            let answer = Rig::new(TREE_OUT, slice, WORK).run(0, &tree).outcome.answer;
            assert_eq!(answer, if needs_list <= slice { 0 } else { 7 }, "a list slice of {slice}");
        }
    }
}

#[test]
fn work_of_awkward_lengths() {
    let tree = program([rests(100), spreads(100), key_twice(100)]);
    for slice in awkward(&[49_152], WORK).into_iter().chain([100_000, 1_000_000]) {
        for (tree_slice, list_slice) in [(TREE_OUT, LIST_OUT), (0, 0), (1, LIST_OUT), (TREE_OUT, 1)] {
            let answer = Rig::new(tree_slice, list_slice, slice).run(0, &tree).outcome.answer;
            let fits = tree_slice == TREE_OUT && list_slice == LIST_OUT;
            let expected = match (slice < WORK, fits) {
                (true, _) => 2,
                (false, true) => 0,
                (false, false) => 7,
            };
            assert_eq!(answer, expected, "work of {slice}, {tree_slice} and {list_slice}");
        }
    }
}

/// Whatever is refused is refused for slices of no length, too.
#[test]
fn slices_of_no_length() {
    for case in stored() {
        let run = |mut rig: Rig| rig.run_within(case.depth, case.options.into(), &case.tree).outcome.answer;
        let answer = run(Rig::new(0, 0, WORK));
        assert_eq!(answer, if case.answer == 0 { 7 } else { case.answer }, "{}", case.name);
        let answer = run(Rig::new(0, 0, 0));
        assert_eq!(answer, if [9, 1].contains(&case.answer) { case.answer } else { 2 }, "{}", case.name);
    }
}
