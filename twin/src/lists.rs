//! Lists of triangles: of every length, with an entry that fails at every place, without room for all of their splits,
//! with spare tables of other sizes, and all short ones.

use crate::bench::{Bench, Outcome};
use crate::cages::{self, Cage};
use crate::calls;
use crate::coverage::LONGEST_LIST;
use crate::damage::refined;
use crate::rng::Rng;
use crate::tables::{Call, LAST_GENERATION, Store, Tables};

fn compare_list(bench: &mut Bench, store: &Store, list: &[u32]) -> Outcome {
    bench.compare_only(store, &Call::RefineList { list: list.to_vec() })?;
    Ok(())
}

/// The same with spare tables of its sizes.
pub fn with_spares(mut store: Store, rng: &mut Rng) -> Store {
    store.room.spares = calls::fitting_spares(&store, rng);
    store
}

/// A mesh of this cage, refined here and there, and beside it a lone triangle that cannot be refined any more. Answers
/// its slot, too.
fn beside_a_ripe_one(cage: &Cage, rng: &mut Rng) -> (Store, u32) {
    let ripe = cage.triangles.len();
    let requests: Vec<u32> = (0..rng.below(12)).map(|_| rng.below(ripe) as u32).collect();
    let cage = cage.shuffled(rng).scattered(rng).with(&cages::strip(1));
    let mut store = refined(&cage, &requests, 90, rng);
    store.tables.generations[ripe] = LAST_GENERATION;
    (with_spares(store, rng), ripe as u32)
}

/// Lists of every length, closed meshes and shells, and each of them with an entry that fails at every place: one that
/// never comes into use, one that an entry before it may have made, or the one that cannot be refined.
pub fn lengths(bench: &mut Bench, rng: &mut Rng) -> Outcome {
    for cage in [cages::tetrahedron(), cages::torus(3, 4), cages::disc(7), cages::band(5), cages::sheet(3, 3)] {
        let (store, ripe) = beside_a_ripe_one(&cage, rng);
        let in_use = store.counts.triangles;
        for length in 0..=LONGEST_LIST {
            let mut list = calls::entries_in_use(&store, length, rng);
            list.iter_mut().filter(|entry| **entry == ripe).for_each(|entry| *entry = 0);
            compare_list(bench, &store, &list)?;
            for place in 0..length {
                let made = in_use + rng.below(2 * place + 1) as u32;
                let good =
                    std::mem::replace(&mut list[place], rng.pick(&[in_use + 200, u32::MAX, made, made, ripe, ripe]));
                compare_list(bench, &store, &list)?;
                list[place] = good;
            }
        }
    }
    Ok(())
}

/// Tables with slots for so many splits, and with one vertex or triangle slot fewer.
pub fn tight_stores(rng: &mut Rng) -> Vec<Store> {
    let mut stores = Vec::new();
    for cage in [cages::torus(3, 4), cages::double_pyramid(8), cages::disc(9), cages::strip(10)] {
        for spare in 0..24 {
            let store = refined(&cage.shuffled(rng).scattered(rng), &[], spare, rng);
            let mut vertex_less = store.clone();
            vertex_less.tables.cut_to([store.vertex_slots() - 1, store.triangle_slots()]);
            let mut triangle_less = store.clone();
            triangle_less.tables.cut_to([store.vertex_slots(), store.triangle_slots() - 1]);
            stores.extend([store, vertex_less, triangle_less].map(|store| with_spares(store, rng)));
        }
    }
    stores
}

/// Lists that end where there are no slots left.
pub fn without_room(bench: &mut Bench, rng: &mut Rng) -> Outcome {
    for store in tight_stores(rng) {
        compare_list(bench, &store, &calls::entries_in_use(&store, LONGEST_LIST, rng))?;
    }
    Ok(())
}

/// Each spare table of another length, and all of them, for a sound mesh, one that is not sound, and tables that
/// disagree.
pub fn with_other_spares(rng: &mut Rng) -> Vec<Store> {
    let mut stores = Vec::new();
    let sound = refined(&cages::tetrahedron(), &[0, 0], 3, rng);
    let mut unsound = sound.clone();
    unsound.tables.links.swap(0, 4);
    let mut disagreeing = sound.clone();
    disagreeing.tables.links.pop();
    for mut store in [sound, unsound, disagreeing] {
        let fitting = store.tables.lengths();
        let mut tried: Vec<[usize; 5]> = vec![fitting, [0; 5], fitting.map(|length| 2 * length), [9, 9, 9, 3, 3]];
        for table in 0..5 {
            for length in calls::other_lengths(fitting[table]).into_iter().chain([0, 2 * fitting[table]]) {
                let mut lengths = fitting;
                lengths[table] = length;
                tried.push(lengths);
            }
        }
        for lengths in tried {
            store.room.spares = Tables::junk(lengths, rng);
            stores.push(store.clone());
        }
    }
    stores
}

/// Lists with such spare tables.
pub fn spare_sizes(bench: &mut Bench, rng: &mut Rng) -> Outcome {
    for store in with_other_spares(rng) {
        for list in [&[] as &[u32], &[1, 0, 1], &[0, 99]] {
            compare_list(bench, &store, list)?;
        }
    }
    Ok(())
}

/// All lists of up to three entries on small meshes, with room for none, for some and for all of their splits.
pub fn all_short(bench: &mut Bench, rng: &mut Rng) -> Outcome {
    let open = [cages::strip(1), cages::strip(2), cages::disc(3)];
    for cage in [cages::tetrahedron(), cages::foil()].into_iter().chain(open) {
        for spare in [0, 1, 2, 9] {
            let store = with_spares(refined(&cage, &[], spare, rng), rng);
            all_from(bench, &store, &mut Vec::new(), 3)?;
        }
        let grown = with_spares(refined(&cage, &[0, 0, 1], 9, rng), rng);
        all_from(bench, &grown, &mut Vec::new(), 3)?;
    }
    Ok(())
}

/// All lists that begin with this one and have up to so many entries more, of triangles in use, of those that the
/// entries may make, and of one past them.
fn all_from(bench: &mut Bench, store: &Store, list: &mut Vec<u32>, more: usize) -> Outcome {
    compare_list(bench, store, list)?;
    if more == 0 {
        return Ok(());
    }
    for triangle in 0..=store.counts.triangles + 2 * list.len() as u32 {
        list.push(triangle);
        all_from(bench, store, list, more - 1)?;
        list.pop();
    }
    Ok(())
}
