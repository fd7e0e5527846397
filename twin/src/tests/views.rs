//! Views against the words of their request, and what is claimed of them.

use crate::cages;
use crate::examples::Example;
use crate::rng::Rng;
use crate::tables::{Answer, Call, FARTHEST, Store};
use crate::tests::{after_requests, loaded, run};
use crate::viewed::{is_exact, violated_by_view};
use crate::views;

/// No number, with bits that a copy as a number may change.
const NO_NUMBER: u32 = 0xFFA1_2345;

/// What a call that is carried out has shown in a table of so many entries.
fn shown(store: &mut Store, entries: usize) -> Vec<u32> {
    store.room.view = vec![NO_NUMBER; entries];
    assert_eq!(run(store, &Call::ViewTriangles), Answer { counts: store.counts, ..Answer::default() });
    store.room.view.clone()
}

#[test]
fn views_end_as_the_examples_say() {
    for Example { refusal, store, call } in views::told(&mut Rng::new(51)) {
        let mut after = store.clone();
        let answer = run(&mut after, &call);
        assert_eq!(answer.refusal, refusal, "{call:?}");
        assert_eq!(violated_by_view(&store, &call, &answer, &after), None, "{call:?}");
        assert_eq!((&after.tables, after.counts), (&store.tables, store.counts), "the mesh is only read");
        if refusal > 0 {
            assert_eq!(answer, Answer { refusal, counts: store.counts, ..Answer::default() }, "{call:?}");
            assert_eq!(after.room, store.room, "{call:?}");
        }
    }
}

#[test]
fn triangles_are_shown_in_slot_order_corner_by_corner() {
    let mut store = loaded(&cages::tetrahedron());
    let numbers: Vec<f32> = shown(&mut store, 36).into_iter().map(f32::from_bits).collect();
    const NINE: f32 = 9.0 / 1024.0;
    let [o, x, y, z] = [[0.0; 3], [NINE, 0.0, 0.0], [0.0, NINE, 0.0], [0.0, 0.0, NINE]];
    assert_eq!(numbers, [o, x, y, o, z, x, x, z, y, y, z, o].concat());
    assert_eq!(shown(&mut store, 40)[36..], [NO_NUMBER; 4]);
}

#[test]
fn a_triangle_is_shown_where_its_vertices_are_seen() {
    let mut store = after_requests(&cages::disc(5), &[0, 0, 3, 7, 2]);
    let triangles = store.triangles();
    let numbers = shown(&mut store, 9 * triangles);
    let seen = |vertex: u32| run(&mut store.clone(), &Call::ViewPoint { vertex }).seen;
    let corners = store.tables.corners[..3 * triangles].iter();
    assert_eq!(numbers, corners.flat_map(|&corner| seen(corner)).collect::<Vec<_>>());
}

#[test]
fn every_coordinate_is_seen_exactly_and_comes_back() {
    let mut store = loaded(&cages::strip(1));
    for x in -FARTHEST..=FARTHEST {
        let seen = x as f32 / 1024.0;
        assert!(is_exact(seen.to_bits(), x) && (seen * 1024.0) as i32 == x, "{x}");
    }
    for x in [0, 1, -1, 1023, 1024, -1025, FARTHEST - 1, 1 - FARTHEST, FARTHEST - 3, FARTHEST, -FARTHEST] {
        store.tables.positions[..3].fill(x);
        let seen = run(&mut store, &Call::ViewPoint { vertex: 0 }).seen;
        assert_eq!(seen.map(|bits| f64::from(f32::from_bits(bits)) * 1024.0), [f64::from(x); 3]);
    }
}

#[test]
fn what_is_not_exact_is_told() {
    for x in [1, -1, 7, 1023, 1024, -1025, 8_388_609, FARTHEST - 1, 1 - FARTHEST, FARTHEST, -FARTHEST] {
        let bits = (x as f32 / 1024.0).to_bits();
        for wrong in [bits + 1, bits - 1, bits ^ 1 << 31, bits + (1 << 23), bits - (1 << 23), 0, NO_NUMBER, 0x7F80_0000]
        {
            assert!(!is_exact(wrong, x), "{wrong:#x} for {x}");
        }
    }
    assert!(!is_exact(1 << 31, 0) && !is_exact(1, 0));
    // The first coordinate beyond the range is the first that has no f32.
    assert!(!is_exact(((FARTHEST + 1) as f32 / 1024.0).to_bits(), FARTHEST + 1));
}

#[test]
fn claims_tell_wrong_views() {
    let mut before = loaded(&cages::tetrahedron());
    before.room.view = vec![NO_NUMBER; 38];
    let mut after = before.clone();
    let answer = run(&mut after, &Call::ViewTriangles);
    let violated =
        |call: &Call, answer: &Answer, after: &Store| violated_by_view(&before, call, answer, after).is_some();
    assert!(!violated(&Call::ViewTriangles, &answer, &after));
    for place in 0..38 {
        let mut spoilt = after.clone();
        spoilt.room.view[place] ^= 1 << 22;
        assert!(violated(&Call::ViewTriangles, &answer, &spoilt), "entry {place}");
    }
    // A table that another call wrote, or one that refuses.
    assert!(violated(&Call::WholeStep, &answer, &after));
    assert!(violated(&Call::ViewTriangles, &Answer { refusal: 20, ..answer }, &after));
    let seen = run(&mut before.clone(), &Call::ViewPoint { vertex: 1 });
    assert!(!violated(&Call::ViewPoint { vertex: 1 }, &seen, &before));
    assert!(violated(&Call::ViewPoint { vertex: 2 }, &seen, &before));
    assert!(violated(&Call::ViewPoint { vertex: 4 }, &Answer { refusal: 8, ..seen }, &before));
    // A mesh that is not only read.
    assert!(violated(&Call::ViewPoint { vertex: 1 }, &seen, &before.clone().locked(0)));
}
