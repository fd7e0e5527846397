//! Hand-made examples of curves: of a lone triangle, of a pocket, of a rim that was split, and of vertices and tables
//! that are refused.

use crate::bench::{Bench, Outcome, difference};
use crate::cages::{self, Cage};
use crate::calls::some_coordinates;
use crate::damage::refined;
use crate::examples::{self, Example, example};
use crate::handmade::pocket;
use crate::rng::Rng;
use crate::tables::{Call, FARTHEST, LAST_GENERATION, Store};

/// An example with the curve that it writes.
pub struct Told {
    pub example: Example,
    pub curve: Vec<i32>,
}

/// The curve of a vertex, in a table of so many entries.
fn curve(refusal: u32, mut store: Store, vertex: u32, entries: usize, rng: &mut Rng) -> Example {
    store.room.curve = some_coordinates(entries, rng);
    example(refusal, store, Call::RimCurve { vertex })
}

/// One that is carried out, with a table of just its entries, point by point.
fn told(store: &Store, vertex: u32, points: &[[i32; 3]], rng: &mut Rng) -> Told {
    let curve = points.concat();
    Told { example: self::curve(0, store.clone(), vertex, curve.len(), rng), curve }
}

/// A lone triangle, in two coordinates of which the points of its curve are whole.
pub fn lone() -> Cage {
    let mut cage = cages::strip(1);
    cage.points = vec![[0, 0, 1], [27, 0, -5], [0, 27, 3]];
    cage
}

/// The three points of each vertex of this triangle.
const AT_0: [[i32; 3]; 3] = [[1, 10, 2], [4, 4, 0], [10, 1, -1]];
const AT_1: [[i32; 3]; 3] = [[16, 1, -2], [19, 4, -3], [16, 10, -2]];
const AT_2: [[i32; 3]; 3] = [[10, 16, 0], [4, 19, 2], [1, 16, 2]];

/// Those of the vertices 0, 4, 5 and 1 where its side 0→1 is split at 4 and 5, which have z −1 and −3.
const SPLIT: [[i32; 3]; 12] = [
    [0, 10, 2],
    [1, 4, 1],
    [3, 1, 0],
    [6, 0, 0],
    [9, 0, -1],
    [12, 0, -2],
    [15, 0, -2],
    [18, 0, -3],
    [21, 0, -4],
    [23, 1, -4],
    [22, 4, -4],
    [17, 10, -2],
];

/// A store with these points for vertices.
fn placed(mut store: Store, points: &[[i32; 3]]) -> Store {
    store.tables.positions[..3 * points.len()].copy_from_slice(&points.concat());
    store
}

/// A pocket with the vertices of its rim at −27 and at 54 on the first axis, and the first of them.
fn pocket_at(generation: u8, rng: &mut Rng) -> (Store, u32) {
    let mut store = pocket(generation).store(2, 2, rng);
    let [one, other] = [store.tables.corners[0], store.tables.corners[1]];
    for (vertex, x) in [(one, -27), (other, 54)] {
        store.tables.positions[3 * vertex as usize..][..3].copy_from_slice(&[x, 0, 1]);
    }
    (store, one)
}

/// The lone triangle from each vertex; with heights that leave 13 of 27 parts over, and with farthest ones; with its
/// side 0→1 split in three at vertices 4 and 5; and the pocket, where the vertex before is the vertex after.
pub fn written(rng: &mut Rng) -> Vec<Told> {
    let triangle = refined(&lone(), &[], 1, rng);
    let low = placed(triangle.clone(), &[[0; 3], [0, 0, -13], [0, 0, 14]]);
    let far = placed(triangle.clone(), &[[FARTHEST; 3], [FARTHEST; 3], [-FARTHEST; 3]]);
    let split = refined(&lone(), &[0, 0], 1, rng);
    let (folded, vertex) = pocket_at(0, rng);
    let of_far = [4349649, 11806189, 15534459, 15534459, 11806189, 4349649, -3106892, -6835162, -3106892];
    vec![
        told(&triangle, 0, &[AT_0, AT_1, AT_2].concat(), rng),
        told(&triangle, 1, &[AT_1, AT_2, AT_0].concat(), rng),
        told(&triangle, 2, &[AT_2, AT_0, AT_1].concat(), rng),
        told(&low, 0, &[5, 0, -4, -7, -7, -3, 3, 8, 8].map(|z| [0, 0, z]), rng),
        told(&far, 0, &of_far.map(|x| [x; 3]), rng),
        told(&split, 0, &[&SPLIT[..], &AT_2].concat(), rng),
        told(&folded, vertex, &[6, -3, 6, 21, 30, 21].map(|x| [x, 0, 1]), rng),
    ]
}

/// Tables of other lengths than the curve's: 27 entries for the lone triangle, 18 for the pocket. What does for one rim
/// of a mesh need not do for another.
fn lengths(rng: &mut Rng) -> Vec<Example> {
    let triangle = refined(&lone(), &[], 1, rng);
    let folded = pocket_at(6, rng).0;
    let both = refined(&cages::disc(4).with(&lone()), &[], 1, rng);
    let mut all = Vec::new();
    for (refusal, entries) in [(25, 0), (25, 1), (25, 18), (25, 24), (25, 26), (0, 27), (0, 28), (0, 99)] {
        all.push(curve(refusal, triangle.clone(), 2, entries, rng));
        all.push(curve(refusal, both.clone(), 7, entries, rng));
    }
    for (refusal, entries) in [(25, 9), (25, 17), (0, 18), (0, 19), (0, 27)] {
        all.push(curve(refusal, folded.clone(), folded.tables.corners[1], entries, rng));
    }
    for (refusal, entries) in [(25, 27), (25, 35), (0, 36), (0, 72)] {
        all.push(curve(refusal, both.clone(), 0, entries, rng));
    }
    all
}

/// Vertices that are on no rim, and what comes before: 1, 7, 8, 24, 25.
fn orders(rng: &mut Rng) -> Vec<Example> {
    let closed = |rng: &mut Rng| refined(&cages::tetrahedron(), &[], 4, rng);
    let disc = |rng: &mut Rng| refined(&cages::disc(5), &[], 4, rng);
    let mut unequal = disc(rng);
    unequal.tables.links.pop();
    let mut unsound = disc(rng);
    unsound.tables.generations[3] = LAST_GENERATION + 1;
    let inner = refined(&cages::strip(1), &[0], 4, rng);
    let mut all = Vec::new();
    for entries in [0, 27, 99] {
        // The vertex in the middle of the disc, and the new one of a face split, are on no rim.
        all.push(curve(24, disc(rng), 5, entries, rng));
        all.push(curve(24, inner.clone(), 3, entries, rng));
        all.push(curve(24, closed(rng), 0, entries, rng));
        all.push(curve(24, closed(rng), 3, entries, rng));
        all.push(curve(24, refined(&cages::foil(), &[], 1, rng), 0, entries, rng));
        for vertex in [6, 7, u32::MAX] {
            all.push(curve(8, disc(rng), vertex, entries, rng));
        }
        all.push(curve(8, closed(rng), 4, entries, rng));
        for vertex in [0, 5, 6, u32::MAX] {
            all.push(curve(1, unequal.clone(), vertex, entries, rng));
            all.push(curve(7, unsound.clone(), vertex, entries, rng));
            all.push(curve(7, Store::fresh(9, 9), vertex, entries, rng));
        }
    }
    // Locks do not matter, nor do odd triangles.
    all.push(curve(0, disc(rng).locked(0), 0, 45, rng));
    all.push(curve(0, inner, 0, 27, rng));
    all
}

/// All that are told by their refusals alone.
pub fn others(rng: &mut Rng) -> Vec<Example> {
    [lengths(rng), orders(rng)].into_iter().flatten().collect()
}

/// All of these on both services; the curves that are known are tested here as well.
pub fn as_told(bench: &mut Bench, rng: &mut Rng) -> Outcome {
    for Told { example: Example { mut store, call, .. }, curve } in written(rng) {
        let before = store.clone();
        let answer = bench.compare(&mut store, &call)?;
        if answer.refusal != 0 || answer.length as usize != curve.len() / 9 || store.room.curve != curve {
            let what = format!("the curve {:?}, by hand {curve:?}", store.room.curve);
            return Err(difference(what, before, &call));
        }
    }
    examples::compare_all(bench, others(rng))
}
