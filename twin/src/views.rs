//! Views: what the papers say of them, tables of every length, coordinates at which a conversion may go wrong, on every
//! axis, every coordinate once, and every set of refusals.

use crate::bench::{Bench, Outcome};
use crate::cages::{self, Cage};
use crate::calls;
use crate::damage::{refined, small_stores, sound_and_refused};
use crate::examples::{self, Example, example};
use crate::handmade;
use crate::picks;
use crate::rng::Rng;
use crate::tables::{Call, FARTHEST, LAST_GENERATION, MOST_VERTEX_SLOTS, Store};

fn point(refusal: u32, store: Store, vertex: u32) -> Example {
    example(refusal, store, Call::ViewPoint { vertex })
}

/// All triangles, in a table of so many entries.
fn all(refusal: u32, mut store: Store, entries: usize, rng: &mut Rng) -> Example {
    store.room.view = calls::some_numbers(entries, rng);
    example(refusal, store, Call::ViewTriangles)
}

/// Views of the tetrahedron, which wants 36 entries, loaded and refined, and of tables that are refused.
pub fn told(rng: &mut Rng) -> Vec<Example> {
    let loaded = |room: usize, rng: &mut Rng| refined(&cages::tetrahedron(), &[], room, rng);
    let split = refined(&cages::tetrahedron(), &[0, 0], 4, rng);
    let mut unequal = loaded(4, rng);
    unequal.tables.links.pop();
    let mut unsound = loaded(4, rng);
    unsound.tables.generations[3] = LAST_GENERATION + 1;
    vec![
        point(0, loaded(0, rng), 0),
        point(0, loaded(4, rng), 3),
        point(8, loaded(4, rng), 4),
        point(8, loaded(0, rng), u32::MAX),
        point(0, split.clone(), 5),
        // A table that is just long enough, longer, as long as all slots would want, and shorter.
        all(0, loaded(4, rng), 36, rng),
        all(0, loaded(4, rng), 37, rng),
        all(0, loaded(4, rng), 45, rng),
        all(0, loaded(4, rng), 108, rng),
        all(0, loaded(0, rng), 36, rng),
        all(20, loaded(4, rng), 35, rng),
        all(20, loaded(4, rng), 27, rng),
        all(20, loaded(4, rng), 1, rng),
        all(20, loaded(4, rng), 0, rng),
        // Eight triangles, some of them odd; locks do not count, nor does a boundary.
        all(0, split.clone(), 72, rng),
        all(20, split.clone(), 71, rng),
        all(0, split.locked(7), 72, rng),
        all(0, refined(&cages::strip(1), &[], 0, rng), 9, rng),
        all(20, refined(&cages::strip(1), &[], 0, rng), 8, rng),
        all(0, refined(&cages::foil(), &[], 0, rng), 18, rng),
        // 1 comes before 7, and 7 before 8 and 20.
        point(1, unequal.clone(), 0),
        point(1, unequal.clone(), 4),
        all(1, unequal.clone(), 36, rng),
        all(1, unequal, 0, rng),
        point(7, unsound.clone(), 0),
        point(7, unsound.clone(), 4),
        all(7, unsound.clone(), 36, rng),
        all(7, unsound, 0, rng),
        point(7, Store::fresh(9, 9), 0),
        all(7, Store::fresh(9, 9), 0, rng),
    ]
}

/// All of these on both services.
pub fn as_told(bench: &mut Bench, rng: &mut Rng) -> Outcome {
    examples::compare_all(bench, told(rng))
}

/// All triangles in a table of this length.
fn compare_length(bench: &mut Bench, store: &mut Store, length: usize, rng: &mut Rng) -> Outcome {
    store.room.view = calls::some_numbers(length, rng);
    bench.compare(store, &Call::ViewTriangles)?;
    Ok(())
}

/// All triangles in tables of all the lengths tried.
pub fn compare_lengths(bench: &mut Bench, store: &mut Store, rng: &mut Rng) -> Outcome {
    calls::view_lengths(store).into_iter().try_for_each(|length| compare_length(bench, store, length, rng))
}

/// Small meshes in tables of every length, up to more than a triangle over.
pub fn lengths(bench: &mut Bench, rng: &mut Rng) -> Outcome {
    for mut store in small_stores(rng) {
        (0..9 * store.triangles() + 12).try_for_each(|length| compare_length(bench, &mut store, length, rng))?;
    }
    Ok(())
}

/// Coordinates at which a conversion may go wrong, without their signs: about every power of two, and the last ones.
fn telling() -> Vec<i32> {
    let about_powers = (0..=24).flat_map(|power| (-3..=3).map(move |off| (1 << power) + off));
    let mut sizes: Vec<i32> = about_powers.chain(FARTHEST - 60..=FARTHEST).collect();
    sizes.retain(|size| (0..=FARTHEST).contains(size));
    sizes.sort_unstable();
    sizes.dedup();
    sizes
}

/// All triangles, and each of the first so many vertices.
fn compare_all(bench: &mut Bench, store: &mut Store, vertices: usize, rng: &mut Rng) -> Outcome {
    compare_length(bench, store, 9 * store.triangles() + rng.pick(&[0, 1, 9]), rng)?;
    for vertex in 0..vertices.min(store.vertices()) as u32 {
        bench.compare(store, &Call::ViewPoint { vertex })?;
    }
    Ok(())
}

/// These coordinates, below and above zero, on every axis.
pub fn coordinates(bench: &mut Bench, rng: &mut Rng) -> Outcome {
    let signed: Vec<i32> = telling().into_iter().flat_map(|size| [size, -size]).collect();
    for cage in [cages::tetrahedron(), cages::strip(1), cages::torus(3, 4)] {
        let mut store = refined(&cage.shuffled(rng), &[0], 3, rng);
        let entries = 3 * store.vertices();
        for first in 0..signed.len() {
            let some = signed.iter().cycle().skip(first).copied();
            store.tables.positions.iter_mut().zip(some).take(entries).for_each(|(entry, x)| *entry = x);
            compare_all(bench, &mut store, 1, rng)?;
        }
    }
    Ok(())
}

/// Every coordinate from 0 on in the corners of lone triangles, as many as there can be; those below zero are in the
/// mirror images.
pub fn every_coordinate(bench: &mut Bench, rng: &mut Rng) -> Outcome {
    let lone = (0..MOST_VERTEX_SLOTS as u32 / 3).map(|t| [3 * t, 3 * t + 1, 3 * t + 2]).collect();
    let mut store = refined(&Cage::of(lone), &[], 0, rng);
    let entries = store.tables.positions.len();
    for first in (0..=FARTHEST).step_by(entries) {
        let next = (first..).map(|x| x.min(FARTHEST));
        store.tables.positions.iter_mut().zip(next).for_each(|(entry, x)| *entry = x);
        compare_length(bench, &mut store, entries, rng)?;
    }
    Ok(())
}

/// Hand-made tables with coordinates of any number of bits.
pub fn random(bench: &mut Bench, rounds: usize, rng: &mut Rng) -> Outcome {
    for _ in 0..rounds {
        let mut store = handmade::random(rng);
        let entries = 3 * store.vertices();
        store.tables.positions[..entries].fill_with(|| {
            let reach = 1 << rng.below(25);
            rng.between(-reach, reach)
        });
        compare_all(bench, &mut store, 4, rng)?;
    }
    Ok(())
}

/// Sound tables, damaged ones and those that do not fit each other, with vertices in use, past use and far off, and
/// with tables of all the lengths tried.
pub fn orders(bench: &mut Bench, rng: &mut Rng) -> Outcome {
    for mut store in small_stores(rng).into_iter().flat_map(sound_and_refused) {
        compare_lengths(bench, &mut store, rng)?;
        for vertex in picks::all_numbers(store.counts.vertices, store.vertex_slots()) {
            bench.compare(&mut store, &Call::ViewPoint { vertex })?;
        }
    }
    Ok(())
}
