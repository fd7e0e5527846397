//! Locks: what the papers say of them, each triangle locked alone beside each refine, each of a base chain, several at
//! random, in whole steps, numbers that are no lock, and locks set and cleared.

use crate::bench::{Bench, Outcome};
use crate::cages;
use crate::calls;
use crate::damage::{at_generation, refined, small_stores, sound_and_refused};
use crate::examples::{self, Example, boxed, example, limit, list, load, refine};
use crate::handmade::{self, chain};
use crate::lists::with_spares;
use crate::picks;
use crate::random_cages::random_cage;
use crate::rng::Rng;
use crate::tables::{Bounds, Call, LAST_GENERATION, Store};

fn lock(triangle: u32) -> Call {
    Call::SetLock { triangle, on: true }
}

fn unlock(triangle: u32) -> Call {
    Call::SetLock { triangle, on: false }
}

/// Calls beside locks. Of the tetrahedron, all triangles are even; after a refine of triangle 0 there are 0, 4 and 5 in
/// its place, odd ones, with their bases at 1, 2 and 3.
pub fn told(rng: &mut Rng) -> Vec<Example> {
    let tetrahedron = cages::tetrahedron();
    let split = |room: usize, rng: &mut Rng| refined(&tetrahedron, &[0], room, rng);
    let loaded = |room: usize, rng: &mut Rng| refined(&tetrahedron, &[], room, rng);
    let rim = |rng: &mut Rng| refined(&cages::strip(1), &[0], 4, rng);
    let pyramid = |generation: u8, rng: &mut Rng| at_generation(&cages::double_pyramid(13), generation, 0, rng);
    let long = |even_end: bool, room: usize, rng: &mut Rng| chain(10, even_end, 0, &[], rng).store(room, 2 * room, rng);
    let apex = [[0, 0, 9]; 2];
    vec![
        // Even ones: the one refined counts, and not what only has a side across.
        example(19, loaded(4, rng).locked(0), refine(0)),
        example(0, loaded(4, rng).locked(1).locked(2).locked(3), refine(0)),
        // An odd one whose base meets the one refined is flipped, and another is not.
        example(19, split(4, rng).locked(0), refine(1)),
        example(0, split(4, rng).locked(4).locked(2).locked(3), refine(1)),
        // An odd one refined, and the even one across its base, which is split.
        example(19, split(4, rng).locked(0), refine(0)),
        example(19, split(4, rng).locked(1), refine(0)),
        example(0, split(4, rng).locked(4).locked(5).locked(2).locked(3), refine(0)),
        // A rim split: the odd one at the boundary, and not those beside it, whose bases are elsewhere.
        example(19, rim(rng).locked(0), refine(0)),
        example(0, rim(rng).locked(1).locked(2), refine(0)),
        // The last of a chain of ten, over an even triangle and over the boundary.
        example(19, long(true, 10, rng).locked(0), refine(10)),
        example(19, long(true, 10, rng).locked(1), refine(10)),
        example(19, long(true, 10, rng).locked(5), refine(10)),
        example(0, long(true, 10, rng).locked(10), refine(9)),
        example(19, long(false, 10, rng).locked(0), refine(9)),
        example(19, long(false, 10, rng).locked(1), refine(9)),
        example(0, long(false, 10, rng).locked(9), refine(8)),
        // 9 comes before 19, and 19 before 11.
        example(9, at_generation(&tetrahedron, LAST_GENERATION, 4, rng).locked(0), refine(0)),
        example(9, chain(1, false, 18, &[], rng).store(2, 2, rng).locked(0), refine(0)),
        example(19, loaded(0, rng).locked(0), refine(0)),
        example(11, loaded(0, rng).locked(1), refine(0)),
        example(19, long(true, 0, rng).locked(0), refine(10)),
        example(8, loaded(0, rng).locked(3), refine(4)),
        // The whole step: any lock, after 13 and before 11; one that is not in use does not count.
        example(19, loaded(4, rng).locked(3), Call::WholeStep),
        example(19, loaded(0, rng).locked(3), Call::WholeStep),
        example(0, loaded(4, rng).locked(4), Call::WholeStep),
        example(12, split(9, rng).locked(0), Call::WholeStep),
        example(9, pyramid(LAST_GENERATION, rng).locked(0), Call::WholeStep),
        example(13, pyramid(0, rng).locked(0), Call::WholeStep),
        limit(0, loaded(0, rng).locked(2), 12),
        // Lists fail where a refine does, and boxes; an empty list and a box of nothing do not.
        list(19, loaded(9, rng).locked(1), &[0, 1, 9], rng),
        list(8, loaded(9, rng).locked(1), &[0, 9, 1], rng),
        list(0, loaded(9, rng).locked(1), &[0, 2, 3], rng),
        list(0, loaded(0, rng).locked(1), &[], rng),
        boxed(19, loaded(9, rng).locked(1), apex, 1, rng),
        boxed(19, loaded(9, rng).locked(3), apex, 1, rng),
        boxed(0, loaded(9, rng).locked(0), apex, 1, rng),
        boxed(0, loaded(0, rng).locked(0), [[1; 3], [8; 3]], 20, rng),
        // Tables of another length.
        example(1, with_length(loaded(4, rng), 13), refine(0)),
        example(1, with_length(loaded(4, rng), 11), lock(0)),
        example(1, with_length(loaded(4, rng), 36), load(&tetrahedron)),
        example(17, with_spare_length(loaded(4, rng), 11, rng), Call::RefineList { list: vec![] }),
        example(17, with_spare_length(loaded(4, rng), 13, rng), Call::Preview { list: vec![0] }),
        // Locks set and cleared, a load over one, and numbers that are none.
        example(0, loaded(0, rng), lock(3)),
        example(0, loaded(0, rng).locked(3), lock(3)),
        example(0, loaded(0, rng), unlock(3)),
        example(8, loaded(1, rng), lock(4)),
        example(8, loaded(1, rng), unlock(4)),
        example(7, Store::fresh(9, 9), lock(0)),
        example(0, loaded(0, rng).locked(0), load(&tetrahedron)),
        example(7, with_value(loaded(4, rng), 3, 2), refine(0)),
        example(7, with_value(loaded(4, rng), 0, 255), unlock(0)),
        example(0, with_value(loaded(4, rng), 4, 2), refine(0)),
        example(0, with_value(loaded(4, rng), 4, 255), Call::WholeStep),
    ]
}

/// The same with a number for a lock.
fn with_value(mut store: Store, slot: usize, lock: u8) -> Store {
    store.tables.locks[slot] = lock;
    store
}

/// The same with another number of locks.
fn with_length(mut store: Store, length: usize) -> Store {
    store.tables.locks.resize(length, 0);
    store
}

/// The same with spare tables that fit, but for the number of their locks.
fn with_spare_length(store: Store, length: usize, rng: &mut Rng) -> Store {
    let mut store = with_spares(store, rng);
    store.room.spares.locks.resize(length, 0);
    store
}

/// All of these on both services.
pub fn as_told(bench: &mut Bench, rng: &mut Rng) -> Outcome {
    examples::compare_all(bench, told(rng))
}

/// The same without any slots to spare.
fn without_room(store: &Store) -> Store {
    let mut full = store.clone();
    full.tables.cut_to([store.vertices(), store.triangles()]);
    full
}

/// Every refine of small meshes beside every lock, with the slots that there are and without any: there 11 holds, too,
/// and near generation 20 also 9.
pub fn each_alone(bench: &mut Bench, rng: &mut Rng) -> Outcome {
    let mut stores = small_stores(rng);
    for round in 0..80 {
        let store = handmade::random(rng);
        stores.push(if round % 4 == 0 { handmade::raised(&store, rng) } else { store });
    }
    for mut store in stores {
        store.tables.locks.fill(0);
        for slot in 0..store.triangles() {
            let locked = store.clone().locked(slot);
            for triangle in 0..store.counts.triangles {
                bench.compare_only(&locked, &Call::Refine { triangle })?;
                bench.compare_only(&without_room(&locked), &Call::Refine { triangle })?;
            }
        }
    }
    Ok(())
}

/// Every chain length over an even triangle and over the boundary, with each triangle of the chain and around it locked
/// in turn, with room, just room and too little: refined, listed and in a box that holds everything.
pub fn chains(bench: &mut Bench, rng: &mut Rng) -> Outcome {
    for (odd, even_end) in (0..40).map(|code| (1 + code / 4, code % 2 == 0)) {
        let lowest = 2 * rng.below((20 - 2 * odd) / 2 + 1) as u8;
        let more: Vec<u8> = (0..12).map(|_| lowest + rng.below(2 * odd + 1) as u8).collect();
        let mut gluing = handmade::chain(odd, even_end, lowest, &more, rng);
        gluing.glue_at_random(300, rng);
        let first = (odd - usize::from(!even_end)) as u32;
        let (v, f) = handmade::added(odd, even_end);
        for (vertices, triangles) in [(v, f), (v - 1, f), (v, f - 1), (30, 60)] {
            let store = with_spares(gluing.store(vertices, triangles, rng), rng);
            for locked in (0..store.triangles()).map(|slot| store.clone().locked(slot)) {
                bench.compare_only(&locked, &Call::Refine { triangle: first })?;
                bench.compare_only(&locked, &Call::RefineList { list: (0..=first).rev().collect() })?;
                let below = u32::from(lowest) + rng.below(4) as u32;
                bench.compare_only(&locked, &Call::RefineBox { bounds: Bounds::EVERYWHERE, below: below.min(20) })?;
            }
        }
    }
    Ok(())
}

/// Several locks at random, one or many, on hand-made tables and on loaded cages that are refined here and there: one
/// call of each kind, and a short history.
pub fn several(bench: &mut Bench, rounds: usize, rng: &mut Rng) -> Outcome {
    for _ in 0..rounds {
        let mut store = if rng.percent(40) { handmade::random(rng) } else { some_refined(rng) };
        for _ in 0..rng.pick(&[1, 2, 3, 8]) {
            let slot = picks::near_work(&store, rng) as usize % store.triangles();
            store = store.locked(slot);
        }
        for call in calls::one_of_each(&mut store, rng) {
            bench.compare_only(&store, &call)?;
        }
        calls::compare_some(bench, &mut store, 10, rng)?;
    }
    Ok(())
}

/// A cage, be it a foil, after some refines.
fn some_refined(rng: &mut Rng) -> Store {
    let shape = rng.pick(&[cages::tetrahedron, cages::foil, || cages::disc(5), || cages::sheet(2, 3)]);
    let cage = shape().shuffled(rng).scattered(rng);
    let requests: Vec<u32> = (0..rng.below(16)).map(|made| rng.below(cage.triangles.len() + 2 * made) as u32).collect();
    let room = rng.pick(&[0, 1, 4, 60]);
    refined(&cage, &requests, room, rng)
}

/// Whole steps and limit queries with one lock, in use or past use, or none, with rings of 13, without room, and at the
/// last generation.
pub fn whole_steps(bench: &mut Bench, rng: &mut Rng) -> Outcome {
    let pyramids = [12, 13].map(cages::double_pyramid);
    for cage in [cages::tetrahedron(), cages::foil(), cages::torus(3, 4)].into_iter().chain(pyramids) {
        for generation in [0, 4, LAST_GENERATION - 2, LAST_GENERATION] {
            for room in [cage.triangles.len(), 1] {
                let mut store = at_generation(&cage.shuffled(rng).scattered(rng), generation, room, rng);
                store.room.table = vec![7; 3 * store.vertices()];
                let slots = store.triangle_slots();
                store.tables.locks[slots - 1] = 0;
                bench.compare_only(&store, &Call::WholeStep)?;
                for locked in (0..slots).map(|slot| store.clone().locked(slot)) {
                    bench.compare_only(&locked, &Call::WholeStep)?;
                    bench.compare_only(&locked, &Call::Limit)?;
                }
            }
        }
    }
    Ok(())
}

/// Every number for a lock, in use and past use: each call.
pub fn values(bench: &mut Bench, rng: &mut Rng) -> Outcome {
    let sound = refined(&cages::tetrahedron(), &[0, 0], 4, rng);
    for value in 0..=255 {
        for slot in [0, sound.triangles() - 1, sound.triangles(), sound.triangle_slots() - 1] {
            let mut store = with_value(sound.clone(), slot, value);
            let load = Call::Load { rule: picks::either_rule(rng), cage: random_cage(rng).bytes() };
            for call in calls::one_of_each(&mut store, rng).iter().chain([&load]) {
                bench.compare_only(&store, call)?;
            }
        }
    }
    Ok(())
}

/// Locks of all triangles in use, and of numbers past them, set, set again, cleared and cleared again.
pub fn set_and_clear(bench: &mut Bench, rng: &mut Rng) -> Outcome {
    for mut store in small_stores(rng).into_iter().flat_map(sound_and_refused) {
        for triangle in picks::all_numbers(store.counts.triangles, store.triangle_slots()) {
            for on in [true, true, false, false, rng.percent(50)] {
                bench.compare(&mut store, &Call::SetLock { triangle, on })?;
            }
        }
    }
    Ok(())
}
