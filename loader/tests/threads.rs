//! Several `Lowerer`s at once, and how little else a call needs.

mod common;

use common::cases::{stored, Lowerers};
use common::make::{binding, blocks, key_twice, program, reference, rests, spreads};
use rest_spread::{Kind, Lowerer, Make, Options};
use std::thread;

/// Two threads go over the cases in opposite directions, so that they are never on the same one for long.
#[test]
fn two_lowerers_in_two_threads() {
    let cases = stored();
    let run = |backwards: bool| {
        let mut lowerers = Lowerers::default();
        for round in 0..10 {
            for at in 0..cases.len() {
                let case = &cases[if backwards { cases.len() - 1 - at } else { at }];
                match lowerers.within(case.depth).lower(Options::from_bits(case.options.into()), &case.tree) {
                    Ok(lowered) => {
                        assert_eq!(lowered.tree, case.tree_out, "{}, round {round}", case.name);
                        assert_eq!(lowered.list.bytes(), case.list_out, "{}, round {round}", case.name);
                    }
                    Err(refusal) => assert_eq!(refusal.number(), case.answer, "{}, round {round}", case.name),
                }
            }
        }
    };
    thread::scope(|scope| {
        scope.spawn(|| run(false));
        scope.spawn(|| run(true));
    });
}

#[test]
fn a_lowerer_may_be_sent_to_another_thread() {
    let mut lowerer = Lowerer::new();
    let length = |lowerer: &mut Lowerer| lowerer.lower(Options::NONE, &program([spreads(3)])).unwrap().tree.len();
    let here = length(&mut lowerer);
    assert_eq!(thread::spawn(move || length(&mut lowerer)).join().unwrap(), here);
}

#[test]
fn the_buffers_are_used_again() {
    let mut lowerer = Lowerer::new();
    let tree = program([spreads(3)]);
    let mut places = || {
        let lowered = lowerer.lower(Options::NONE, &tree).unwrap();
        (lowered.tree.as_ptr() as usize, lowered.list.bytes().as_ptr() as usize)
    };
    assert_eq!(places(), places());
}

/// `for (var {...a} of z) for (..) ..`, so many times.
fn loops(times: usize) -> Make {
    let pattern = || Kind::ObjectPattern.make().list([]).node(binding("a"));
    let head = || Kind::Declaration.make().byte(1).list([Kind::Declarator.make().node(pattern())]);
    (0..times).fold(Kind::Empty.make(), |body, _| Kind::ForOf.make().node(head()).node(reference("z")).node(body))
}

/// `for ({...a} of z) for (..) ..`, so many times.
fn assigning_loops(times: usize) -> Make {
    let head = || Kind::ObjectPattern.make().list([]).node(reference("a"));
    (0..times).fold(Kind::Empty.make(), |body, _| Kind::ForOf.make().node(head()).node(reference("z")).node(body))
}

/// Levels are limited, so the stack is: the header asks for 1 MB, and says that 0.66 MB was the most that a call took. So
/// three quarters of it are enough here. The first trees go down to the 128th level, the others are among the longest.
#[test]
fn a_small_stack_is_enough() {
    let expression = |begin: &[u8], times: usize| {
        [b"\x01\x01\x01\x00\x03\x03\x01\x00", &begin.repeat(times)[..], b"\x12\x01\x01\x00z"].concat()
    };
    let trees = vec![
        blocks(123, [spreads(1)]),
        program([loops(123)]),
        program([assigning_loops(125)]),
        expression(b"\x1f\x01", 125),                                      // (z)
        expression(b"\x1d\x03\x12\x01\x01\x00f\x01\x00", 125),             // f(z)
        expression(b"\x18\x01\x01\x00\x1a\x01", 62),                       // {...z}
        expression(b"\x1b\x07\x01\x22\x03\x00\x00\x12\x01\x01\x00a", 124), // {...a} = z
        expression(b"\x1b\x07\x01\x24\x01\x01\x00\x22\x03\x00\x00\x12\x01\x01\x00a", 123), // [{...a}] = z
        expression(b"\x11\x05\x01\x00\x0f\x01\x22\x03\x00\x00\x13\x01\x01\x00a", 123), // ({...a}) => z
        program([rests(839)]),
        program([spreads(2_300)]),
        program([key_twice(8_000)]),
    ];
    let run = move || {
        let mut lowerer = Lowerer::new();
        for tree in &trees {
            lowerer.lower(Options::NONE, tree).unwrap();
        }
    };
    thread::Builder::new().stack_size(3 << 18).spawn(run).unwrap().join().unwrap();
}
