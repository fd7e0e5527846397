//! Locks against the words of their request, and what is claimed of them.

use crate::cages;
use crate::calls;
use crate::damage::small_stores;
use crate::examples::Example;
use crate::fault::Seeded;
use crate::handmade;
use crate::locked::violated_by_lock;
use crate::locks;
use crate::mesh::{Mesh, Side};
use crate::rng::Rng;
use crate::tables::{Answer, Call, Store};
use crate::tests::{after_requests, loaded, refined, run};

#[test]
fn calls_beside_locks_end_as_the_examples_say() {
    for Example { refusal, store, call } in locks::told(&mut Rng::new(41)) {
        let mut after = store.clone();
        let answer = run(&mut after, &call);
        assert_eq!(answer.refusal, refusal, "{call:?}");
        assert_eq!(violated_by_lock(&store, &call, &answer, &after), None, "{call:?}");
        if refusal > 0 {
            assert_eq!((after.tables, after.counts), (store.tables, store.counts), "{call:?}");
        }
    }
}

#[test]
fn a_lock_is_set_and_cleared_and_nothing_else() {
    let before = after_requests(&cages::tetrahedron(), &[0, 0]);
    let mut store = before.clone();
    for (on, lock) in [(true, 1), (true, 1), (false, 0), (false, 0)] {
        let answer = run(&mut store, &Call::SetLock { triangle: 5, on });
        assert_eq!(answer, Answer { counts: before.counts, ..Answer::default() });
        let mut expected = before.clone();
        expected.tables.locks[5] = lock;
        assert_eq!(store, expected);
    }
}

#[test]
fn loads_and_splits_leave_nothing_locked() {
    let mut store = loaded(&cages::strip(1));
    assert_eq!(store.tables.locks[..1], [0]);
    for triangle in [0, 0, 1, 2] {
        run(&mut store, &Call::Refine { triangle });
    }
    assert_eq!(store.tables.locks[..9], [0; 9]);
    let mut store = loaded(&cages::tetrahedron());
    run(&mut store, &Call::WholeStep);
    assert_eq!(store.tables.locks[..12], [0; 12]);
}

/// What a refine alters as it can be read off before: the odd triangles of the base chain, its end, and the odd ones
/// whose base meets that.
fn read_off(mesh: &Mesh, t: usize) -> Vec<usize> {
    let chain = mesh.base_chain(t);
    let across = |number| mesh.across(Side::new(chain.end(), number));
    let bases = [0, 1, 2].into_iter().filter_map(across).filter(|side| side.number == 0);
    let flipped = bases.map(|side| side.triangle).filter(|&slot| mesh.triangles[slot].is_odd());
    sorted(chain.odd.iter().copied().chain([chain.end()]).chain(flipped).collect())
}

fn sorted(mut slots: Vec<usize>) -> Vec<usize> {
    slots.sort_unstable();
    slots.dedup();
    slots
}

#[test]
fn what_a_refine_alters_can_be_read_off_before() {
    let rng = &mut Rng::new(42);
    let mut stores = small_stores(rng);
    stores.extend((0..2000).map(|_| handmade::random(rng)));
    for store in stores {
        let mesh = Mesh::read(&store.tables, store.counts, Seeded(None));
        for t in 0..mesh.triangles.len() {
            let mut altered = sorted(mesh.altered(t));
            altered.retain(|&slot| slot < mesh.triangles.len());
            assert_eq!(altered, read_off(&mesh, t), "{t} of {store:?}");
        }
    }
}

#[test]
fn locked_triangles_stay_through_long_histories() {
    let rng = &mut Rng::new(43);
    let mut refused = 0;
    for _ in 0..40 {
        let mut store = loaded(&cages::torus(3, 3)).locked(4).locked(9);
        let before = store.clone();
        for _ in 0..60 {
            let triangle = rng.below(store.triangles()) as u32;
            refused += u32::from(run(&mut store, &Call::Refine { triangle }).refusal == 19);
            run(&mut store, &Call::WholeStep);
        }
        for slot in [4, 9] {
            let corners = |store: &Store| [0, 1, 2].map(|i| store.tables.corners[3 * slot + i]);
            assert_eq!(corners(&store), corners(&before));
            assert_eq!((store.tables.generations[slot], store.tables.locks[slot]), (0, 1));
        }
        assert_eq!(store.tables.positions[..27], before.tables.positions[..27]);
    }
    assert!(refused > 100, "{refused}");
}

/// What is claimed of a refine, with its outcome spoilt.
fn violated_when(before: &Store, triangle: u32, spoil: impl Fn(&mut Store)) -> bool {
    let mut after = before.clone();
    let call = Call::Refine { triangle };
    let answer = run(&mut after, &call);
    assert_eq!((answer.refusal, violated_by_lock(before, &call, &answer, &after)), (0, None));
    spoil(&mut after);
    violated_by_lock(before, &call, &answer, &after).is_some()
}

#[test]
fn claims_tell_what_a_locked_triangle_has_lost() {
    let store = loaded(&cages::tetrahedron()).locked(1);
    assert!(!violated_when(&store, 0, |after| after.tables.generations[2] += 1));
    assert!(violated_when(&store, 0, |after| after.tables.corners.swap(3, 4)));
    assert!(violated_when(&store, 0, |after| after.tables.generations[1] += 1));
    assert!(violated_when(&store, 0, |after| after.tables.positions[10] += 1));
    assert!(violated_when(&store, 0, |after| after.tables.links[3] = u32::MAX));
    assert!(violated_when(&store, 0, |after| after.tables.locks[1] = 0));
    assert!(violated_when(&store, 0, |after| after.tables.locks[2] = 1));
    assert!(violated_when(&store, 0, |after| after.tables.locks[5] = 1));
    let unlocked = loaded(&cages::tetrahedron());
    assert!(!violated_when(&unlocked, 0, |after| after.tables.corners.swap(3, 4)));
}

#[test]
fn a_link_names_its_side_and_not_one_between_the_same_vertices() {
    let mut store = Store::junk(60, 100, &mut Rng::new(44));
    assert!(handmade::store_cage(&mut store, 1, &cages::foil().bytes()));
    let store = refined(store, &[0, 1]);
    // Sides of all six triangles run between vertices 3 and 4.
    let ends = |store: &Store, side: usize| {
        [side, side - side % 3 + (side + 1) % 3].map(|corner| store.tables.corners[corner])
    };
    let mut found = 0;
    for slot in 0..store.triangles() {
        let store = store.clone().locked(slot);
        for triangle in 0..store.counts.triangles {
            let refined = refined(store.clone(), &[triangle]);
            if refined.counts == store.counts {
                continue;
            }
            for side in 3 * slot..3 * slot + 3 {
                let named = refined.tables.links[side] as usize;
                let mut others = (0..3 * refined.triangles()).filter(|&other| other != named);
                if let Some(other) = others.find(|&other| ends(&refined, other) == ends(&refined, named)) {
                    assert!(violated_when(&store, triangle, |after| after.tables.links[side] = other as u32));
                    found += 1;
                }
            }
        }
    }
    assert!(found > 0);
}

#[test]
fn a_list_that_fails_at_a_lock_leaves_what_it_made_in_the_spares() {
    let mut store = loaded(&cages::tetrahedron()).locked(2);
    store.room.spares = calls::fitting_spares(&store, &mut Rng::new(45));
    let before = store.clone();
    let made = refined(before.clone(), &[0, 1]);
    let answer = run(&mut store, &Call::RefineList { list: vec![0, 1, 2, 3] });
    let expected = Answer { refusal: 19, counts: before.counts, handled: 2, spares: made.counts, ..Answer::default() };
    assert_eq!(answer, expected);
    assert_eq!(store.tables, before.tables);
    assert_eq!(store.room.spares.locks[..8], [0, 0, 1, 0, 0, 0, 0, 0]);
}
