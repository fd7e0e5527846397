//! Curves against the words of their request, and what is claimed of them.

use crate::cages::{self, Cage};
use crate::curve_examples::{self, Told, lone};
use crate::curved::{all_rims, rim_vertices, violated_by_curve};
use crate::curves::with_rim;
use crate::damage::small_stores;
use crate::examples::Example;
use crate::handmade::{self, pocket};
use crate::rng::Rng;
use crate::tables::{Answer, BOUNDARY, Call, FARTHEST, HALF_AWAY, HALF_UP, Store};
use crate::tests::{after_requests, loaded, loaded_by, run};

/// What the later entries of tables hold.
const LEFT: i32 = i32::MIN;

/// The points of a curve that is carried out, in a table that does for every rim.
fn curve(store: &Store, vertex: u32) -> Vec<[i32; 3]> {
    let mut store = store.clone();
    store.room.curve = vec![LEFT; 9 * store.vertices() + 1];
    let answer = run(&mut store, &Call::RimCurve { vertex });
    let length = answer.length;
    assert_eq!(answer, Answer { length, counts: store.counts, ..Answer::default() });
    let (written, rest) = store.room.curve.split_at(9 * length as usize);
    assert!(length > 1 && rest.iter().all(|&entry| entry == LEFT));
    written.chunks_exact(3).map(|point| [point[0], point[1], point[2]]).collect()
}

/// Meshes of all sorts, with the vertices that are on a rim.
fn with_rims(seed: u64) -> Vec<(Store, Vec<u32>)> {
    let rng = &mut Rng::new(seed);
    let mut stores = small_stores(rng);
    stores.extend((0..300).map(|_| handmade::random(rng)));
    stores.extend([1, 2].map(|generation| pocket(generation).store(0, 0, rng)));
    let with = |store: Store| {
        let rims = all_rims(&store).concat().iter().map(|&side| store.tables.corners[side]).collect();
        (store, rims)
    };
    stores.into_iter().map(with).collect()
}

#[test]
fn curves_are_those_computed_by_hand() {
    for Told { example: Example { mut store, call, .. }, curve } in curve_examples::written(&mut Rng::new(81)) {
        let before = store.clone();
        let answer = run(&mut store, &call);
        let length = curve.len() as u32 / 9;
        assert_eq!(answer, Answer { length, counts: before.counts, ..Answer::default() }, "{call:?}");
        assert_eq!(store.room.curve, curve, "{call:?}");
        assert_eq!(violated_by_curve(&before, &call, &answer, &store), None, "{call:?}");
    }
}

#[test]
fn curves_end_as_the_examples_say() {
    for Example { refusal, store, call } in curve_examples::others(&mut Rng::new(82)) {
        let mut after = store.clone();
        let answer = run(&mut after, &call);
        assert_eq!(answer.refusal, refusal, "{call:?}");
        assert_eq!(violated_by_curve(&store, &call, &answer, &after), None, "{call:?}");
        assert_eq!((&after.tables, after.counts), (&store.tables, store.counts), "the mesh is only read");
        if refusal > 0 {
            assert_eq!(answer, Answer { refusal, counts: store.counts, ..Answer::default() }, "{call:?}");
            assert_eq!(after.room, store.room, "{call:?}");
        }
    }
}

#[test]
fn each_vertex_with_a_boundary_side_has_a_rim_and_no_other_has() {
    for (store, on_rim) in with_rims(83) {
        for vertex in 0..store.counts.vertices {
            let sides = store.tables.corners.iter().zip(&store.tables.links).take(3 * store.triangles());
            let out = sides.filter(|&(&corner, &link)| corner == vertex && link == BOUNDARY).count();
            assert!(out < 2, "one fan has one end");
            assert_eq!(on_rim.contains(&vertex), out == 1);
            let mut table = store.clone();
            table.room.curve = vec![0; 9 * store.vertices()];
            let answer = run(&mut table, &Call::RimCurve { vertex });
            assert_eq!(answer.refusal, if out == 1 { 0 } else { 24 });
            let rim = rim_vertices(&store, vertex).unwrap_or_default();
            assert_eq!(answer.length as usize, rim.len());
        }
    }
}

#[test]
fn from_the_next_vertex_a_curve_is_the_same_turned_by_one() {
    for (store, on_rim) in with_rims(84) {
        for vertex in on_rim {
            let mut points = curve(&store, vertex);
            points.rotate_left(3);
            let rim = rim_vertices(&store, vertex).expect("it is on a rim");
            assert_eq!(curve(&store, rim[1]), points);
        }
    }
}

#[test]
fn evenly_spaced_vertices_give_thirds_of_the_way_and_stay() {
    // Along the side of a sheet the vertices are 27 apart: the points are 9 apart, and each vertex is its middle one.
    let mut cage = cages::sheet(1, 6);
    for (vertex, point) in cage.points.iter_mut().enumerate() {
        *point = [27 * (vertex as i32 % 7), 54 * (vertex as i32 / 7), 0];
    }
    let store = loaded(&cage);
    let rim = rim_vertices(&store, 0).expect("all are on the rim");
    let points = curve(&store, 0);
    for (place, nine) in points.chunks_exact(3).enumerate() {
        let [before, at, after] = [place + 13, place, place + 1].map(|place| store.point(rim[place % 14] as usize));
        if (0..3).all(|axis| at[axis] - before[axis] == after[axis] - at[axis]) {
            let third = |axis: usize| (after[axis] - at[axis]) / 3;
            assert_eq!(nine[1], at);
            assert_eq!([nine[0], nine[2]], [-1, 1].map(|way| [0, 1, 2].map(|axis| at[axis] + way * third(axis))));
        }
    }
    let straight = |place: usize| points[3 * place + 1] == store.point(rim[place] as usize);
    assert_eq!((0..14).filter(|&place| straight(place)).count(), 10);
}

#[test]
fn the_rule_does_not_matter() {
    let rng = &mut Rng::new(85);
    for _ in 0..200 {
        let mut cage = lone();
        cage.points.iter_mut().flatten().for_each(|coordinate| *coordinate = rng.between(-60, 60));
        let [up, away] = [HALF_UP, HALF_AWAY].map(|rule| curve(&loaded_by(rule, &cage), 0));
        assert_eq!(up, away);
        let negated = cage.points.iter().map(|&[x, y, z]| [-x, y, z]).collect();
        let mirrored: Vec<_> = up.into_iter().map(|[x, y, z]| [-x, y, z]).collect();
        assert_eq!(curve(&loaded(&Cage { points: negated, ..cage }), 0), mirrored);
    }
}

#[test]
fn equal_rims_have_equal_curves() {
    let rng = &mut Rng::new(86);
    for vertices in 3..20 {
        let points: Vec<[i32; 3]> = (0..vertices).map(|_| [(); 3].map(|()| rng.between(-FARTHEST, FARTHEST))).collect();
        let shells = [cages::disc(vertices), cages::band(vertices), cages::strip(vertices - 2)];
        let [one, two, three] = shells.map(|shell| {
            let (store, vertex) = with_rim(&shell, &points, rng);
            curve(&store, vertex)
        });
        assert!(one == two && two == three, "{vertices}");
    }
}

#[test]
fn each_rim_split_adds_two_vertices_to_its_rim() {
    let length = |requests: &[u32]| curve(&after_requests(&cages::strip(1), requests), 0).len() / 3;
    assert_eq!([length(&[]), length(&[0]), length(&[0, 0])], [3, 3, 5]);
    assert_eq!([length(&[0, 0, 1]), length(&[0, 0, 1, 2])], [7, 9]);
    // Of two rims the other one stays.
    let store = after_requests(&cages::band(4), &[0, 0]);
    let mut lengths: Vec<usize> = all_rims(&store).iter().map(Vec::len).collect();
    lengths.sort_unstable();
    assert_eq!(lengths, [4, 6]);
}

#[test]
fn claims_tell_wrong_curves() {
    let mut before = loaded(&cages::disc(5).with(&lone()));
    before.room.curve = vec![LEFT; 47];
    let (mut after, call) = (before.clone(), Call::RimCurve { vertex: 0 });
    let answer = run(&mut after, &call);
    let violated = |call: &Call, answer: &Answer, after: &Store| violated_by_curve(&before, call, answer, after);
    assert_eq!(violated(&call, &answer, &after), None);
    for place in 0..47 {
        let mut spoilt = after.clone();
        spoilt.room.curve[place] += 1;
        assert!(violated(&call, &answer, &spoilt).is_some(), "entry {place}");
    }
    // Another rim, another length, another call, a refusal, and a mesh that is not only read.
    assert!(violated(&Call::RimCurve { vertex: 7 }, &answer, &after).is_some());
    assert!(violated(&Call::RimCurve { vertex: 5 }, &answer, &after).is_some());
    assert!(violated(&call, &Answer { length: 3, ..answer }, &after).is_some());
    assert!(violated(&call, &Answer { length: 6, ..answer }, &after).is_some());
    assert!(violated(&Call::Limit, &answer, &after).is_some());
    assert!(violated(&call, &Answer { refusal: 25, ..answer }, &after).is_some());
    assert!(violated(&call, &Answer { refusal: 25, ..answer }, &before).is_some());
    assert!(violated(&call, &answer, &after.clone().locked(0)).is_some());
}

#[test]
fn claims_tell_coordinates_that_are_not_the_nearest() {
    // One vertex at z, the others at 0, in a table of 27 entries: point 1 of the vertex is 19z/27.
    for z in -60..=60 {
        let mut cage = lone();
        cage.points = vec![[0, 0, z], [0; 3], [0; 3]];
        let mut before = loaded(&cage);
        before.room.curve = vec![LEFT; 27];
        let (mut after, call) = (before.clone(), Call::RimCurve { vertex: 0 });
        let answer = run(&mut after, &call);
        let found = f64::from(after.room.curve[5]);
        assert!((found - 19.0 * f64::from(z) / 27.0).abs() < 0.5, "{z}");
        for off in [-1, 1] {
            let mut spoilt = after.clone();
            spoilt.room.curve[5] += off;
            assert!(violated_by_curve(&before, &call, &answer, &spoilt).is_some(), "{z} and {off}");
        }
    }
}
