//! Trees by chance. The rig sees to the contract after every call: zeros, guards, lengths, masks.

mod common;

use common::cases::stored;
use common::draw::{damage, Chance, Grammar};
use common::make::blocks;
use common::rig::Rig;
use common::seeds;
use rest_spread::{List, Node, LEVELS};

/// How many calls gave each answer.
#[derive(Debug, Default)]
struct Answers([usize; 12]);

impl Answers {
    fn add(&mut self, answer: u8) {
        self.0[usize::from(answer)] += 1;
    }

    /// Each of these answers was given, if there were trees enough for the seldom ones.
    fn have(&self, answers: &[usize]) {
        println!("{self:?}");
        let few = self.0.iter().sum::<usize>() < 20_000;
        assert!(few || answers.iter().all(|&answer| self.0[answer] > 0), "{self:?}");
    }
}

#[test]
fn drawn_trees_are_trees() {
    let (grammar, mut rig, mut answers) = (Grammar::new(), Rig::whole(), Answers::default());
    for seed in seeds(20_000) {
        let mut chance = Chance::new(seed);
        let room = if chance.once_in(50) { 16_000 } else { 20 + chance.below(600) };
        let tree = grammar.tree(&mut chance, room);
        let ran = rig.run(chance.below(16) as u32, &tree);
        answers.add(ran.outcome.answer);
        assert!(![1, 2].contains(&ran.outcome.answer));
        assert!(ran.outcome.answer != 3 || tree.len() > 16_384, "seed {seed}: {tree:02x?}");
        if ran.outcome.answer == 0 {
            assert!(List::new(ran.list_out()).is_whole(), "seed {seed}: {:02x?}", ran.list_out());
            assert_eq!(Node::read(&tree).map(|(_, behind)| behind.len()), Some(0), "seed {seed}");
        }
    }
    answers.have(&[0, 5, 6]);
}

#[test]
fn damaged_trees_are_lowered_or_refused() {
    let mut cases: Vec<Vec<u8>> =
        stored().into_iter().map(|case| case.tree).filter(|tree| tree.len() < 3_000).collect();
    cases.extend([blocks(130, []), blocks(200, [])]);
    let (grammar, mut rig, mut answers) = (Grammar::new(), Rig::whole(), Answers::default());
    for seed in seeds(300_000) {
        let mut chance = Chance::new(1_000_000_007 + seed);
        let mut tree = match chance.below(4) {
            0 => {
                let room = 20 + chance.below(400);
                grammar.tree(&mut chance, room)
            }
            _ => cases[chance.below(cases.len())].clone(),
        };
        let other = &cases[chance.below(cases.len())];
        damage(&mut chance, &mut tree, other);
        let options = if chance.once_in(50) { chance.below(1 << 20) } else { chance.below(16) };
        let depth = chance.once_in(2).then(|| chance.below(132) as u32);
        let ran = rig.run_within(depth, options as u32, &tree);
        answers.add(ran.outcome.answer);
        if ran.outcome.answer == 0 {
            assert!(List::new(ran.list_out()).is_whole(), "seed {seed}: {:02x?}", ran.list_out());
        }
    }
    answers.have(&[0, 1, 3, 4, 5, 6, 9]);
}

/// An answer other than 4 stays at every higher limit, with every byte, and no limit is one of 128.
#[test]
fn a_higher_limit_changes_4_alone() {
    let cases: Vec<Vec<u8>> = stored().into_iter().map(|case| case.tree).filter(|tree| tree.len() < 1_000).collect();
    let (grammar, mut rig, mut answers) = (Grammar::new(), Rig::whole(), Answers::default());
    for seed in seeds(20_000) {
        let mut chance = Chance::new(9_000_000_043 + seed);
        let mut tree = match chance.below(4) {
            0 => {
                let room = 20 + chance.below(400);
                grammar.tree(&mut chance, room)
            }
            _ => cases[chance.below(cases.len())].clone(),
        };
        if chance.once_in(4) {
            damage(&mut chance, &mut tree, &[]);
        }
        let highest = if chance.once_in(2) { 16 } else { LEVELS as usize };
        let depth = 1 + chance.below(highest);
        let higher = depth + chance.below(LEVELS as usize + 1 - depth);
        let mut run = |depth: Option<usize>| {
            let ran = rig.run_within(depth.map(|depth| depth as u32), 0, &tree);
            (ran.outcome, ran.tree_out().to_vec(), ran.list_out().to_vec())
        };
        let (low, high) = (run(Some(depth)), run(Some(higher)));
        answers.add(low.0.answer);
        assert!(low.0.answer == 4 || low == high, "seed {seed}: {depth} and {higher}: {tree:02x?}");
        assert!(run(Some(LEVELS as usize)) == run(None), "seed {seed}: {tree:02x?}");
    }
    answers.have(&[0, 3, 4, 5, 6]);
}

/// Damaged trees in slices of lengths by chance, so that the output is full anywhere.
#[test]
fn damaged_trees_in_slices_of_any_length() {
    let cases: Vec<Vec<u8>> = stored().into_iter().map(|case| case.tree).filter(|tree| tree.len() < 1_000).collect();
    let mut answers = Answers::default();
    for seed in seeds(50_000) {
        let mut chance = Chance::new(2_000_000_011 + seed);
        let mut tree = cases[chance.below(cases.len())].clone();
        if chance.once_in(2) {
            let other = &cases[chance.below(cases.len())];
            damage(&mut chance, &mut tree, other);
        }
        let (tree_slice, list_slice) = (chance.below(2 * tree.len() + 50), chance.below(100));
        let work = if chance.once_in(10) { chance.below(65_536) } else { 65_536 + chance.below(100) };
        let ran = Rig::new(tree_slice, list_slice, work).run(chance.below(16) as u32, &tree).outcome;
        answers.add(ran.answer);
    }
    answers.have(&[0, 2, 3, 5, 6, 7]);
}

/// Bytes that come from no tree at all, and lists and nodes of such bytes.
#[test]
fn noise_is_refused() {
    let mut rig = Rig::whole();
    for seed in seeds(50_000) {
        let mut chance = Chance::new(3_000_000_019 + seed);
        let longest = if chance.once_in(20) { 40_000 } else { 64 };
        let highest = if chance.once_in(2) { 40 } else { 256 };
        let noise: Vec<u8> = (0..chance.below(longest)).map(|_| chance.below(highest) as u8).collect();
        let answer = rig.run(0, &noise).outcome.answer;
        assert!(answer == 3 || answer == 0 && noise == [1, 1, 0, 0], "seed {seed}");
        let list = List::new(&noise);
        let values = list.entries().flat_map(|entry| entry.declarators).chain(list.excluded());
        assert!(values.filter_map(|declarator| declarator.value()).count() <= noise.len());
        assert!(Node::read(&noise).is_none_or(|(node, rest)| node.bytes().len() + rest.len() == noise.len()));
    }
}
