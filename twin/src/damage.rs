//! Damaged tables: single entries overwritten, counts and lengths off.

use crate::bench::{Bench, Outcome};
use crate::cages;
use crate::calls;
use crate::handmade;
use crate::journal_calls;
use crate::picks;
use crate::rng::Rng;
use crate::tables::{
    BOUNDARY, Call, Counts, FARTHEST, HALF_AWAY, HALF_UP, LAST_GENERATION, NO_RULES, NOTE_ENTRIES, Service, Store,
};
use crate::twin::Twin;

/// The store with a cage in it, by either rule, after a list of refines, with some slots to spare that hold anything,
/// and with the note of the last refine.
pub fn refined(cage: &cages::Cage, requests: &[u32], spare: usize, rng: &mut Rng) -> Store {
    let most = requests.len() * 4 + spare;
    let mut store = Store::junk(cage.points.len() + most, cage.triangles.len() + 2 * most, rng);
    assert!(handmade::store_cage(&mut store, picks::either_rule(rng), &cage.bytes()), "the cage has its fans");
    store.room.note = calls::some_entries(NOTE_ENTRIES, rng);
    for &triangle in requests {
        Twin::UNBROKEN.answer(&mut store, &Call::RefineNoted { triangle }).expect("the twin stays inside");
    }
    store.tables.cut_to([store.vertices() + spare, store.triangles() + 2 * spare]);
    store
}

/// A loaded cage whose generations are all raised to the same even one.
pub fn at_generation(cage: &cages::Cage, generation: u8, spare: usize, rng: &mut Rng) -> Store {
    let mut store = refined(cage, &[], spare, rng);
    store.tables.generations[..cage.triangles.len()].fill(generation);
    store
}

/// Small sound tables of all sorts: closed, open, back to back, several components, mixed generations, hand-made.
pub fn small_stores(rng: &mut Rng) -> Vec<Store> {
    let octahedron = cages::double_pyramid(4);
    let mut stores = vec![
        refined(&cages::tetrahedron(), &[], 4, rng),
        refined(&cages::tetrahedron(), &[0, 0, 0, 0], 2, rng),
        refined(&cages::tetrahedron(), &[0, 3, 7, 9], 1, rng),
        refined(&cages::foil(), &[], 3, rng),
        refined(&cages::foil(), &[0, 1], 2, rng),
        refined(&cages::foil().with(&cages::strip(1)), &[2], 2, rng),
        refined(&cages::strip(1), &[0], 1, rng),
        refined(&cages::strip(2), &[0, 1, 0], 0, rng),
        refined(&cages::disc(3), &[1, 0], 1, rng),
        refined(&octahedron, &[0, 4], 1, rng),
    ];
    for (odd, even_end) in [(3, true), (4, true), (3, false), (10, true)] {
        let mut gluing = handmade::chain(odd, even_end, 0, &[0, 0, 2], rng);
        gluing.glue_at_random(60, rng);
        stores.push(gluing.store(1, 2, rng));
    }
    stores
}

/// A sound store, the same with tables that are not sound, and with tables that do not fit each other.
pub fn sound_and_refused(sound: Store) -> [Store; 3] {
    let (mut unsound, mut disagreeing) = (sound.clone(), sound.clone());
    unsound.tables.generations[0] = LAST_GENERATION + 1;
    disagreeing.tables.locks.pop();
    [sound, unsound, disagreeing]
}

/// Every single entry of small sound tables overwritten with every interesting value.
pub fn single_entries(bench: &mut Bench, rng: &mut Rng) -> Outcome {
    for store in small_stores(rng) {
        let Counts { vertices, triangles, .. } = store.counts;
        for place in 0..store.tables.positions.len() {
            for value in [0, 1, -1, FARTHEST, -FARTHEST, FARTHEST + 1, -FARTHEST - 1, i32::MAX, i32::MIN] {
                compare_damaged(bench, &store, rng, |damaged| damaged.tables.positions[place] = value)?;
            }
        }
        let vertex_slots = store.vertex_slots() as u32;
        let far = [vertex_slots, vertex_slots + 1, 1 << 16, 1 << 31, u32::MAX];
        for place in 0..store.tables.corners.len() {
            for value in (0..vertices + 2).chain(far) {
                compare_damaged(bench, &store, rng, |damaged| damaged.tables.corners[place] = value)?;
            }
        }
        let sides = 3 * store.triangle_slots() as u32;
        let far = [sides - 1, sides, sides + 1, 1 << 18, 1 << 31, u32::MAX - 1, BOUNDARY];
        for place in 0..store.tables.links.len() {
            for value in (0..3 * triangles + 3).chain(far) {
                compare_damaged(bench, &store, rng, |damaged| damaged.tables.links[place] = value)?;
            }
        }
        for place in 0..store.tables.generations.len() {
            for value in (0..=23).chain([40, 127, 128, 253, 254, 255]) {
                compare_damaged(bench, &store, rng, |damaged| damaged.tables.generations[place] = value)?;
            }
        }
        for place in 0..store.tables.locks.len() {
            for value in [0, 1, 2, 3, 128, 254, 255] {
                compare_damaged(bench, &store, rng, |damaged| damaged.tables.locks[place] = value)?;
            }
        }
    }
    Ok(())
}

/// Compares one call of each kind but load on a damaged copy, and a replay.
fn compare_damaged(bench: &mut Bench, store: &Store, rng: &mut Rng, damage: impl Fn(&mut Store)) -> Outcome {
    let mut damaged = store.clone();
    damage(&mut damaged);
    for call in calls::one_of_each(&mut damaged, rng) {
        bench.compare_only(&damaged, &call)?;
    }
    journal_calls::compare_some(bench, &damaged, rng)
}

/// Counts off by one, at the slots, past them and far off; and every rule, and what is none.
pub fn counts(bench: &mut Bench, rng: &mut Rng) -> Outcome {
    for store in small_stores(rng) {
        let near = |count: u32, slots: usize| {
            let slots = slots as u32;
            let far = [1 << 16, 1 << 31, count | 1 << 30, picks::WRAPPING, u32::MAX];
            [0, 1, count - 1, count, count + 1, slots - 1, slots, slots + 1].into_iter().chain(far)
        };
        for vertices in near(store.counts.vertices, store.vertex_slots()) {
            for triangles in near(store.counts.triangles, store.triangle_slots()) {
                compare_damaged(bench, &store, rng, |damaged| {
                    damaged.counts = Counts { vertices, triangles, ..store.counts };
                })?;
            }
        }
        for rule in [HALF_UP, HALF_AWAY].into_iter().chain(NO_RULES) {
            compare_damaged(bench, &store, rng, |damaged| damaged.counts.rule = rule)?;
        }
    }
    Ok(())
}

/// Tables of other lengths: no multiple of 3, unequal, empty, at the maxima and above them.
pub fn lengths(bench: &mut Bench, rng: &mut Rng) -> Outcome {
    let store = refined(&cages::tetrahedron(), &[0, 0], 4, rng);
    let changes = |length: usize| [0, 1, 3, length - 3, length - 1, length, length + 1, length + 3];
    for positions in changes(store.tables.positions.len()) {
        for corners in changes(store.tables.corners.len()) {
            for links in changes(store.tables.links.len()) {
                for generations in changes(store.tables.generations.len()) {
                    if rng.percent(15) {
                        let other = rng.pick(&changes(store.tables.locks.len()));
                        let locks = rng.pick(&[generations, generations, other]);
                        compare_lengths(bench, &store, [positions, corners, links, generations, locks], rng)?;
                    }
                }
            }
        }
    }
    let [positions, corners, links, generations, locks] = store.tables.lengths();
    for locks in changes(locks).into_iter().chain([3 * locks]) {
        compare_lengths(bench, &store, [positions, corners, links, generations, locks], rng)?;
    }
    let (most_vertices, most_triangles) = (3 * 32_768, 3 * 65_536);
    for (positions, corners) in [(0, 0), (1, 1), (3, 3), (-3, -3), (3, 0), (0, 3), (0, -1), (2, 0)] {
        let positions = (most_vertices + positions) as usize;
        let corners = (most_triangles + corners) as usize;
        compare_lengths(bench, &store, [positions, corners, corners, corners / 3, corners / 3], rng)?;
    }
    compare_lengths(bench, &store, [0; 5], rng)?;
    compare_lengths(bench, &store, [most_vertices as usize, 3 * 20, 3 * 20, 20, 20], rng)?;
    compare_lengths(bench, &store, [3 * 20, most_triangles as usize, most_triangles as usize, 65_536, 65_536], rng)
}

fn compare_lengths(bench: &mut Bench, store: &Store, lengths: [usize; 5], rng: &mut Rng) -> Outcome {
    let mut changed = store.clone();
    changed.tables.positions.resize(lengths[0], 5);
    changed.tables.corners.resize(lengths[1], 6);
    changed.tables.links.resize(lengths[2], 7);
    changed.tables.generations.resize(lengths[3], 8);
    changed.tables.locks.resize(lengths[4], 9);
    let load = Call::Load { rule: picks::some_rule(rng), cage: cages::strip(2).bytes() };
    let of_each = calls::one_of_each(&mut changed, rng);
    for call in of_each.iter().chain([&load]) {
        bench.compare_only(&changed, call)?;
    }
    // Spare tables that agree, or do not, with each other, but not with the mesh's: for the list, the box and what has
    // a report.
    changed.room.spares = store.tables.clone();
    for call in &of_each[11..] {
        bench.compare_only(&changed, call)?;
    }
    journal_calls::compare_some(bench, &changed, rng)
}
