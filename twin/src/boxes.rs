//! Boxes: of every generation, with faces at, beside and between vertices, with every set of refusals, without room for
//! all of their splits, with triangles that cannot be refined any more, and all on small meshes.

use crate::bench::{Bench, Outcome, difference};
use crate::cages::{self, Cage};
use crate::calls::{self, NO_GENERATIONS};
use crate::damage::refined;
use crate::handmade::Gluing;
use crate::lists::{tight_stores, with_other_spares, with_spares};
use crate::rng::Rng;
use crate::tables::{Bounds, Call, LAST_GENERATION, Store};

const LAST: u32 = LAST_GENERATION as u32;

fn compare_box(bench: &mut Bench, store: &Store, bounds: Bounds, below: u32) -> Outcome {
    bench.compare_only(store, &Call::RefineBox { bounds, below })?;
    Ok(())
}

/// Closed meshes and shells, refined here and there.
pub fn some_stores(spare: usize, rng: &mut Rng) -> Vec<Store> {
    let closed = [cages::tetrahedron(), cages::foil(), cages::torus(3, 4)];
    let open = [cages::strip(1), cages::disc(5), cages::sheet(2, 2)];
    let cages = closed.into_iter().chain(open);
    let store = |cage: Cage| {
        let requests: Vec<u32> = (0..rng.below(8)).map(|_| rng.below(cage.triangles.len()) as u32).collect();
        with_spares(refined(&cage.shuffled(rng).scattered(rng), &requests, spare, rng), rng)
    };
    cages.map(store).collect()
}

/// Every generation, and numbers that are none, for a box about one vertex and one that holds all: without room, with a
/// little and with much.
pub fn generations(bench: &mut Bench, rng: &mut Rng) -> Outcome {
    for spare in [0, 6, 600] {
        for store in some_stores(spare, rng) {
            let point = store.point(rng.below(store.vertices()));
            for below in (0..=LAST).chain(NO_GENERATIONS) {
                compare_box(bench, &store, Bounds::about(point, point), below)?;
                compare_box(bench, &store, Bounds::EVERYWHERE, below)?;
            }
        }
    }
    Ok(())
}

/// For each vertex boxes with one face just at it, just before it and just behind it, and a box of one point at and
/// beside it.
pub fn faces(bench: &mut Bench, rng: &mut Rng) -> Outcome {
    for store in some_stores(40, rng) {
        for (vertex, axis) in (0..store.vertices()).flat_map(|vertex| (0..3).map(move |axis| (vertex, axis))) {
            for beside in [-1, 0, 1] {
                let mut point = store.point(vertex);
                point[axis] += beside;
                let whole = rng.pick(&[Bounds::EVERYWHERE, Bounds::about([-i32::MAX; 3], [i32::MAX; 3])]);
                let (mut from, mut to) = (whole, whole);
                from.low[axis] = point[axis];
                to.high[axis] = point[axis];
                for bounds in [from, to, Bounds::about(point, point)] {
                    compare_box(bench, &store, bounds, 1 + rng.below(4) as u32)?;
                }
            }
        }
    }
    Ok(())
}

/// Boxes to a few generations, many of them between two vertices. A flip may bring a corner into such a box, so that a
/// lower slot is refined after a higher one.
pub fn between(bench: &mut Bench, rng: &mut Rng) -> Outcome {
    for _ in 0..100 {
        for store in some_stores(100, rng) {
            for below in 2..6 {
                compare_box(bench, &store, calls::some_bounds(&store, rng), below)?;
            }
        }
    }
    Ok(())
}

/// Boxes that are refused with 18: above the last generation, and with the low corner above the high one by a little
/// and by much, in each coordinate.
fn no_boxes() -> Vec<(Bounds, u32)> {
    let mut list: Vec<(Bounds, u32)> = NO_GENERATIONS.map(|below| (Bounds::EVERYWHERE, below)).to_vec();
    for axis in 0..3 {
        for (low, high) in [(1, 0), (-7, -8), (i32::MAX, i32::MIN), (i32::MIN + 1, i32::MIN)] {
            let mut bounds = Bounds::EVERYWHERE;
            (bounds.low[axis], bounds.high[axis]) = (low, high);
            list.extend([(bounds, 0), (bounds, 2), (bounds, u32::MAX)]);
        }
    }
    list
}

/// Every set of the conditions 1, 17, 18 and 7, of which the first has to be answered, and what follows 7 beside them.
pub fn orders(bench: &mut Bench, rng: &mut Rng) -> Outcome {
    let boxes = [(Bounds::EVERYWHERE, 0), (Bounds::EVERYWHERE, LAST), (Bounds::about([7; 3], [7; 3]), 1)];
    for (disagree, misfit, unsound) in (0..8).map(|code| (code & 4 > 0, code & 2 > 0, code & 1 > 0)) {
        let mut store = refined(&cages::tetrahedron(), &[0, 0], 1, rng);
        if unsound {
            store.tables.links.swap(0, 4);
        }
        if disagree {
            store.tables.corners.pop();
        }
        store.room.spares = calls::fitting_spares(&store, rng);
        if misfit {
            store.room.spares.generations.push(0);
        }
        for (bounds, below) in no_boxes().into_iter().chain(boxes) {
            let no_box = below > LAST || (0..3).any(|axis| bounds.low[axis] > bounds.high[axis]);
            let conditions = [(disagree, 1), (misfit, 17), (no_box, 18), (unsound, 7)];
            let call = Call::RefineBox { bounds, below };
            let answer = bench.compare_only(&store, &call)?;
            let first = conditions.iter().find(|(holds, _)| *holds).map(|&(_, refusal)| refusal);
            if first.is_some_and(|refusal| refusal != answer.refusal) {
                return Err(difference(format!("refused with {}, not with {first:?}", answer.refusal), store, &call));
            }
        }
    }
    Ok(())
}

/// Tables with slots for so many splits, which boxes use up half-way, and spare tables of other sizes.
pub fn without_room(bench: &mut Bench, rng: &mut Rng) -> Outcome {
    for store in tight_stores(rng).into_iter().chain(with_other_spares(rng)) {
        compare_box(bench, &store, Bounds::EVERYWHERE, LAST)?;
        for below in [1, 2, 5] {
            compare_box(bench, &store, calls::some_bounds(&store, rng), below)?;
        }
    }
    Ok(())
}

/// Hand-made tables of the last generations, loose triangles and glued ones. A base of generation 19 at the boundary
/// cannot be refined: a box to generation 20 fails there, at once or after others, or where a refine brings it forth.
pub fn ripe(bench: &mut Bench, rng: &mut Rng) -> Outcome {
    for round in 0..400 {
        let generations = (0..1 + rng.below(6)).map(|_| LAST_GENERATION - rng.below(5) as u8);
        let mut gluing = Gluing::new(generations.collect());
        gluing.glue_at_random(round % 40, rng);
        let room = rng.pick(&[0, 1, 2, 30]);
        let store = with_spares(gluing.store(room, 2 * room, rng), rng);
        for below in LAST - 2..=LAST {
            compare_box(bench, &store, Bounds::EVERYWHERE, below)?;
            compare_box(bench, &store, calls::some_bounds(&store, rng), below)?;
        }
    }
    Ok(())
}

/// All boxes between a few coordinates, in order or not, on meshes whose vertices are at the corners of a cube.
pub fn all_small(bench: &mut Bench, rng: &mut Rng) -> Outcome {
    const SIDE: i32 = 9;
    let between = |code: usize| [0, SIDE / 2, SIDE][code % 3];
    for mut cage in [cages::tetrahedron(), cages::strip(2), cages::disc(5), cages::double_pyramid(4)] {
        for (number, point) in cage.points.iter_mut().enumerate() {
            *point = [0, 1, 2].map(|axis| SIDE * (number >> axis & 1) as i32);
        }
        for spare in [2, 20] {
            let store = with_spares(refined(&cage, &[0, 1], spare, rng), rng);
            for code in 0..729 {
                let [low, high] = [code / 27, code % 27].map(|code| [code, code / 3, code / 9].map(between));
                for below in [1, 2, 3] {
                    compare_box(bench, &store, Bounds { low, high }, below)?;
                }
            }
        }
    }
    Ok(())
}
