//! Boxes against the words of their request.

use crate::cages;
use crate::calls::fitting_spares;
use crate::examples::{self, Example};
use crate::rng::Rng;
use crate::tables::{Answer, Bounds, Call, Store, Tables};
use crate::tests::{after_requests, loaded, put_over, run};

/// Runs a box with spare tables of any content. Answers the content, too.
fn refine_box(store: &mut Store, bounds: Bounds, below: u32) -> (Answer, Tables) {
    store.room.spares = fitting_spares(store, &mut Rng::new(31));
    let spares = store.room.spares.clone();
    (run(store, &Call::RefineBox { bounds, below }), spares)
}

/// The box of one point: vertex 3 of the tetrahedron, which triangles 1, 2 and 3 have.
fn at_apex() -> Bounds {
    Bounds::about([0, 0, 9], [0, 0, 9])
}

/// The lowest slot that the request speaks of, read from the tables.
fn lowest(store: &Store, bounds: &Bounds, below: u32) -> Option<u32> {
    let in_box = |slot: u32| {
        let corners = &store.tables.corners[3 * slot as usize..][..3];
        corners.iter().any(|&corner| bounds.holds(store.point(corner as usize)))
    };
    let below = |slot: u32| u32::from(store.tables.generations[slot as usize]) < below;
    (0..store.counts.triangles).find(|&slot| below(slot) && in_box(slot))
}

#[test]
fn boxes_end_as_the_examples_say_and_are_refines_of_the_lowest_slots() {
    for Example { refusal, store, call } in examples::boxes(&mut Rng::new(32)) {
        let Call::RefineBox { bounds, below } = call else { panic!("{call:?}") };
        let (mut boxed, mut each) = (store.clone(), store.clone());
        let answer = run(&mut boxed, &call);
        assert_eq!(answer.refusal, refusal, "{call:?}");
        if refusal == 18 {
            continue;
        }
        let mut sums = Answer::default();
        while let Some(triangle) = lowest(&each, &bounds, below) {
            let one = run(&mut each, &Call::Refine { triangle });
            sums.refusal = one.refusal;
            if one.refusal != 0 {
                break;
            }
            (sums.handled, sums.splits, sums.flips) =
                (sums.handled + 1, sums.splits + one.splits, sums.flips + one.flips);
        }
        sums.spares = each.counts;
        assert_eq!(boxed.room.spares, put_over(&each.tables, each.counts, &store.room.spares), "{call:?}");
        if refusal == 0 {
            assert_eq!(answer, Answer { counts: each.counts, ..sums }, "{call:?}");
            assert_eq!(boxed.tables, each.tables, "{call:?}");
        } else {
            assert_eq!(answer, Answer { splits: 0, flips: 0, counts: store.counts, ..sums }, "{call:?}");
            assert_eq!(boxed.tables, store.tables, "{call:?}");
        }
    }
}

#[test]
fn a_box_about_a_vertex_refines_its_triangles_and_then_nothing() {
    let mut store = loaded(&cages::tetrahedron());
    let (answer, _) = refine_box(&mut store, at_apex(), 1);
    assert_eq!((answer.refusal, answer.handled, answer.splits, answer.flips), (0, 3, 3, 3));
    assert_eq!(store.tables, after_requests(&cages::tetrahedron(), &[1, 2, 3]).tables);
    let (again, _) = refine_box(&mut store, at_apex(), 1);
    assert_eq!(again, Answer { counts: answer.counts, spares: answer.counts, ..Answer::default() });
}

#[test]
fn a_box_without_a_vertex_and_generation_0_succeed_with_zeros() {
    let before = loaded(&cages::tetrahedron());
    for (bounds, below) in [(Bounds::about([1; 3], [8; 3]), 20), (Bounds::EVERYWHERE, 0)] {
        let mut store = before.clone();
        let (answer, spares) = refine_box(&mut store, bounds, below);
        assert_eq!(answer, Answer { counts: before.counts, spares: before.counts, ..Answer::default() });
        assert_eq!(store.room.spares, put_over(&before.tables, before.counts, &spares));
        assert_eq!(store.tables, before.tables);
    }
}

#[test]
fn the_faces_of_a_box_are_in_it() {
    // Vertex 1 is at 9 on the first axis, alone.
    let holding = [(9, 9), (9, 12), (1, 9), (9, i32::MAX)];
    let beside = [(10, 12), (10, i32::MAX), (1, 8)];
    for (refines, (low, high)) in holding.map(|x| (3, x)).into_iter().chain(beside.map(|x| (0, x))) {
        let bounds = Bounds { low: [low, 0, 0], high: [high, 0, 0] };
        let (answer, _) = refine_box(&mut loaded(&cages::tetrahedron()), bounds, 1);
        assert_eq!((answer.refusal, answer.handled), (0, refines), "{bounds:?}");
    }
}
