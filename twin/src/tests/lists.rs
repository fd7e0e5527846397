//! Lists of triangles and previews against the words of their requests.

use crate::cages;
use crate::calls::fitting_spares;
use crate::examples::{self, Example};
use crate::handmade::store_cage;
use crate::rng::Rng;
use crate::tables::{Answer, Call, HALF_AWAY, Store, Tables};
use crate::tests::{after_requests, loaded, put_over, run};

/// Runs a list with spare tables of any content. Answers the content, too.
fn refine_list(store: &mut Store, entries: &[u32]) -> (Answer, Tables) {
    store.room.spares = fitting_spares(store, &mut Rng::new(21));
    let spares = store.room.spares.clone();
    (run(store, &Call::RefineList { list: entries.to_vec() }), spares)
}

#[test]
fn lists_end_as_the_examples_say() {
    for Example { refusal, store, call } in examples::lists(&mut Rng::new(22)) {
        let mut after = store.clone();
        let answer = run(&mut after, &call);
        assert_eq!(answer.refusal, refusal, "{call:?}");
        if refusal > 0 {
            assert_eq!((answer.splits, answer.flips, answer.counts), (0, 0, store.counts), "{call:?}");
            assert_eq!((after.tables, after.counts), (store.tables, store.counts), "{call:?}");
        }
    }
}

#[test]
fn a_list_of_one_does_what_refine_does() {
    for cage in cages::shapes() {
        for triangle in 0..=cage.triangles.len() as u32 {
            let mut store = Store::junk(90, 150, &mut Rng::new(23));
            assert!(store_cage(&mut store, HALF_AWAY, &cage.bytes()));
            let mut refined = store.clone();
            let expected = run(&mut refined, &Call::Refine { triangle });
            let (answer, _) = refine_list(&mut store, &[triangle]);
            let Answer { handled, spares, .. } = answer;
            assert_eq!(answer, Answer { handled, spares, ..expected });
            assert_eq!((handled, spares), (usize::from(expected.refusal == 0), expected.counts));
            assert_eq!(store.tables, refined.tables);
        }
    }
}

#[test]
fn two_calls_are_not_one_list() {
    let mut once = loaded(&cages::tetrahedron());
    let (answer, _) = refine_list(&mut once, &[0, 0]);
    assert_eq!((answer.splits, answer.handled), (1, 2));
    let mut twice = loaded(&cages::tetrahedron());
    assert_eq!([(); 2].map(|()| refine_list(&mut twice, &[0]).0.splits), [1, 1]);
    assert_eq!((once.counts.triangles, twice.counts.triangles), (6, 8));
}

#[test]
fn what_another_entry_has_raised_is_passed_over() {
    // Triangles 0 and 1 are a base chain, and rise together.
    let mut store = after_requests(&cages::tetrahedron(), &[0, 0, 0]);
    let mut refined = store.clone();
    let expected = run(&mut refined, &Call::Refine { triangle: 0 });
    let (answer, _) = refine_list(&mut store, &[0, 1]);
    assert_eq!((answer.splits, answer.flips, answer.handled), (expected.splits, expected.flips, 2));
    assert_eq!(store.tables, refined.tables);
}

#[test]
fn an_empty_list_leaves_the_mesh_in_the_spares() {
    let mut store = loaded(&cages::disc(5));
    let before = store.clone();
    let (answer, spares) = refine_list(&mut store, &[]);
    assert_eq!(answer, Answer { counts: before.counts, spares: before.counts, ..Answer::default() });
    assert_eq!(store.room.spares, put_over(&before.tables, before.counts, &spares));
    assert_eq!(store.tables, before.tables);
}

#[test]
fn a_list_that_fails_leaves_the_mesh_and_what_it_made_in_the_spares() {
    let (made, failed) = (&[1, 0, 1], &[1, 0, 1, 4, 2]);
    let mut store = loaded(&cages::tetrahedron());
    let before = store.clone();
    let (done, spares) = refine_list(&mut store, made);
    assert_eq!((done.refusal, done.splits, done.flips, done.handled), (0, 2, 1, 3));
    assert_eq!(done.spares, done.counts);
    // Slots past the counts keep what each of the tables had there.
    assert_eq!(store.tables, put_over(&store.room.spares, done.counts, &before.tables));
    assert_eq!(store.room.spares, put_over(&store.tables, done.counts, &spares));
    let mut standing = before.clone();
    let (refused, _) = refine_list(&mut standing, failed);
    let expected = Answer { refusal: 8, counts: before.counts, handled: 3, spares: done.counts, ..Answer::default() };
    assert_eq!(refused, expected);
    assert_eq!(standing, Store { room: store.room, ..before });
}

#[test]
fn a_preview_foresees_the_list_and_leaves_the_mesh() {
    let rng = &mut Rng::new(24);
    for Example { store, call, .. } in examples::lists(rng).into_iter().chain(examples::orders(rng)) {
        let Call::RefineList { list } = &call else {
            continue;
        };
        let (mut made, mut previewed) = (store.clone(), store.clone());
        let answer = run(&mut made, &call);
        let preview = Call::Preview { list: list.clone() };
        let foreseen = run(&mut previewed, &preview);
        let [vertices, triangles] = foreseen.foreseen;
        assert_eq!((vertices, triangles), (answer.counts.vertices, answer.counts.triangles), "{call:?}");
        assert_eq!(foreseen, Answer { counts: store.counts, foreseen: foreseen.foreseen, ..answer }, "{call:?}");
        assert_eq!(previewed, Store { room: made.room, ..store }, "{call:?}");
        let before = previewed.clone();
        assert_eq!(run(&mut previewed, &preview), foreseen, "{call:?}");
        assert_eq!(previewed, before, "{call:?}");
    }
}

#[test]
fn a_preview_answers_the_counts_of_the_mesh_where_the_list_is_refused() {
    let mut store = loaded(&cages::tetrahedron());
    for (list, refusal) in [(vec![0, 1, 9], 17), (vec![0, 1, 9], 8)] {
        let answer = run(&mut store, &Call::Preview { list });
        assert_eq!((answer.refusal, answer.foreseen), (refusal, [4, 4]));
        store.room.spares = fitting_spares(&store, &mut Rng::new(25));
    }
}
