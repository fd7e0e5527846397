//! Notes of every length, altered in every entry, rearranged, used after changes of the mesh and on other meshes, late
//! and twice, and whole histories taken back.

use crate::bench::{Bench, Outcome, difference};
use crate::cages;
use crate::calls::{self, some_entries};
use crate::damage::{refined, small_stores, sound_and_refused};
use crate::fault::Seeded;
use crate::handmade::{self, Gluing, chain};
use crate::mesh::Mesh;
use crate::note::{Nine, Note, nine};
use crate::picks;
use crate::random_cages::random_cage;
use crate::rng::Rng;
use crate::tables::{BOUNDARY, Call, NOTE_ENTRIES, Service, Store};
use crate::twin::Twin;

/// The store as the twin leaves it after a call that is carried out.
pub fn after(mut store: Store, call: &Call) -> Store {
    let answer = Twin::UNBROKEN.answer(&mut store, call).expect("the twin stays inside");
    assert_eq!(answer.refusal, 0, "{call:?} is carried out");
    store
}

/// The store after a refine, with its note and as many entries after it as any note may take.
pub fn noted(mut store: Store, triangle: u32, rng: &mut Rng) -> Store {
    store.room.note = some_entries(NOTE_ENTRIES, rng);
    after(store, &Call::RefineNoted { triangle })
}

/// The same with a note of other entries.
pub fn with_note(mut store: Store, note: Vec<u32>) -> Store {
    store.room.note = note;
    store
}

/// The note of a store without what comes after it, as far as it can be read.
pub fn read(store: &Store) -> Note {
    Note::read(&store.room.note).expect("a refine has written it")
}

/// What a note has of a slot that stands.
pub fn standing(store: &Store, slot: usize) -> Nine {
    nine(&Mesh::read(&store.tables, store.counts, Seeded(None)), slot)
}

/// Small sound tables with room for any refine.
pub fn roomy_stores(rng: &mut Rng) -> Vec<Store> {
    let mut stores = small_stores(rng);
    for store in &mut stores {
        let [vertex_slots, triangle_slots] = store.tables.slots().map(|slots| slots + 24);
        let mut wider = Store::junk(vertex_slots, triangle_slots, rng);
        wider.tables.take_over(&store.tables, store.counts);
        (wider.counts, wider.room) = (store.counts, store.room.clone());
        *store = wider;
    }
    stores
}

/// These tables after the refine of some of their triangles, each with its note.
pub fn refined_with_notes(store: &Store, most: usize, rng: &mut Rng) -> Vec<Store> {
    let mut triangles: Vec<u32> = (0..store.counts.triangles).collect();
    rng.shuffle(&mut triangles);
    let fits = |triangle: &u32| {
        let refine = Call::Refine { triangle: *triangle };
        Twin::UNBROKEN.answer(&mut store.clone(), &refine).is_ok_and(|answer| answer.refusal == 0)
    };
    triangles.into_iter().filter(fits).take(most).map(|triangle| noted(store.clone(), triangle, rng)).collect()
}

/// Takes back by an altered note. If it is accepted and has the old counts, what it restores is the same.
pub fn compare_altered(bench: &mut Bench, store: &Store, note: Vec<u32>) -> Outcome {
    let altered = with_note(store.clone(), note);
    let mut made = altered.clone();
    let same_counts = altered.room.note.get(1..3) == store.room.note.get(1..3);
    if bench.compare(&mut made, &Call::TakeBack)?.refusal == 0 && same_counts {
        let expected = after(store.clone(), &Call::TakeBack);
        if (&made.tables, made.counts) != (&expected.tables, expected.counts) {
            let what = "an altered note restores another mesh".to_string();
            return Err(difference(what, altered, &Call::TakeBack));
        }
    }
    Ok(())
}

/// Every refine of small meshes, with notes of every length about that needed, and of no entries and few.
pub fn lengths(bench: &mut Bench, rng: &mut Rng) -> Outcome {
    for store in roomy_stores(rng) {
        for triangle in 0..store.counts.triangles {
            let mut long = with_note(store.clone(), some_entries(NOTE_ENTRIES, rng));
            bench.compare(&mut long, &Call::RefineNoted { triangle })?;
            let wanted = 4 + 9 * long.room.note[3] as usize;
            for length in (0..6).chain(wanted.saturating_sub(10)..wanted + 3).chain([NOTE_ENTRIES + 1]) {
                let store = with_note(store.clone(), some_entries(length, rng));
                bench.compare_only(&store, &Call::RefineNoted { triangle })?;
            }
        }
    }
    Ok(())
}

/// Sound tables, damaged ones and those that do not fit each other, with and without room, with triangles in use, past
/// use and far off, and with notes that are there and that are not.
pub fn orders(bench: &mut Bench, rng: &mut Rng) -> Outcome {
    for store in small_stores(rng).into_iter().flat_map(sound_and_refused) {
        for triangle in picks::all_numbers(store.counts.triangles, store.triangle_slots()) {
            let length = rng.pick(&[0, 3, 12, 13, 30, NOTE_ENTRIES]);
            let store = with_note(store.clone(), some_entries(length, rng));
            bench.compare_only(&store, &Call::RefineNoted { triangle })?;
        }
        let note = store.room.note.clone();
        for length in (0..note.len().min(50)).chain([note.len()]) {
            bench.compare_only(&with_note(store.clone(), note[..length].to_vec()), &Call::TakeBack)?;
        }
        for _ in 0..20 {
            let note = calls::some_note(&store, rng);
            bench.compare_only(&with_note(store.clone(), note), &Call::TakeBack)?;
        }
    }
    Ok(())
}

/// Notes right after the refine, but with an entry of the tables changed: positions moved a little, locks turned,
/// generations, corners and links others.
pub fn stale(bench: &mut Bench, rng: &mut Rng) -> Outcome {
    let stores: Vec<Store> = roomy_stores(rng).iter().flat_map(|store| refined_with_notes(store, 4, rng)).collect();
    for store in stores {
        let (vertices, triangles) = (store.vertices(), store.triangles());
        let mut compare = |change: &dyn Fn(&mut Store)| {
            let mut changed = store.clone();
            change(&mut changed);
            bench.compare_only(&changed, &Call::TakeBack)
        };
        for place in 0..3 * vertices + 3 {
            for by in [1, -1, 3, 1024] {
                compare(&|store| {
                    let entry = &mut store.tables.positions[place];
                    *entry = entry.wrapping_add(by);
                })?;
            }
        }
        for slot in 0..triangles + 2 {
            compare(&|store| store.tables.locks[slot] ^= 1)?;
            compare(&|store| store.tables.locks[slot] = 2)?;
            for by in [1, 2, 4] {
                compare(&|store| store.tables.generations[slot] = store.tables.generations[slot].wrapping_add(by))?;
            }
        }
        for place in 0..3 * triangles + 3 {
            compare(&|store| store.tables.corners[place] ^= 1)?;
            compare(&|store| store.tables.links[place] = BOUNDARY)?;
        }
        compare(&|store| store.counts.rule = 3 - store.counts.rule)?;
        compare(&|store| store.tables.generations[..triangles].iter_mut().for_each(|generation| *generation += 2))?;
    }
    Ok(())
}

/// A note of all slots in use for the refine of a triangle, from which the mesh can be restored wherever its vertices
/// are the first ones.
fn full_note(store: &Store, triangle: u32) -> Vec<u32> {
    let slots = (0..store.triangles()).map(|slot| standing(store, slot)).collect();
    Note { triangle, vertices: store.counts.vertices, triangles: store.counts.triangles, slots }.entries()
}

/// A foil of which so many sides are closed.
fn foil_of_sides(closed: usize, rng: &mut Rng) -> Store {
    let mut gluing = Gluing::new(vec![0; 2]);
    for side in 0..closed {
        assert!(gluing.glue(side, 5 - side), "even triangles can be glued");
    }
    gluing.store(9, 18, rng)
}

/// Notes of all slots of a mesh, for each of its triangles, after one to three refines of another.
fn compare_full(bench: &mut Bench, old: &Store, start: &Store) -> Outcome {
    let notes: Vec<Vec<u32>> = (0..old.counts.triangles).map(|triangle| full_note(old, triangle)).collect();
    let in_use = start.counts.triangles;
    for first in 0..in_use.min(8) {
        let mut store = start.clone();
        for triangle in [first, in_use - 1, in_use] {
            Twin::UNBROKEN.answer(&mut store, &Call::Refine { triangle }).expect("the twin stays inside");
            for note in &notes {
                bench.compare_only(&with_note(store.clone(), note.clone()), &Call::TakeBack)?;
            }
        }
    }
    Ok(())
}

/// Such notes after refines of the same mesh, of it raised, of it with a triangle locked, and of a foil with a side
/// open that was closed.
pub fn of_others(bench: &mut Bench, rng: &mut Rng) -> Outcome {
    for store in roomy_stores(rng) {
        let raised = handmade::raised(&store, rng);
        let slot = rng.below(store.triangles());
        for (old, start) in [(&store, &store), (&store, &raised), (&raised, &store)] {
            compare_full(bench, old, start)?;
        }
        compare_full(bench, &store, &store.clone().locked(slot))?;
    }
    let seed = rng.next();
    let [open, closed] = [2, 3].map(|sides| foil_of_sides(sides, &mut Rng::new(seed)));
    compare_full(bench, &open, &closed)?;
    compare_full(bench, &closed, &open)
}

/// Refines with a note, and with one entry less, and takes back by notes altered at random.
fn compare_some_altered(bench: &mut Bench, mut store: Store, triangle: u32, rng: &mut Rng) -> Outcome {
    store.room.note = some_entries(NOTE_ENTRIES, rng);
    let mut long = store.clone();
    if bench.compare(&mut long, &Call::RefineNoted { triangle })?.refusal == 0 {
        store.room.note.truncate(3 + 9 * long.room.note[3] as usize);
        bench.compare_only(&store, &Call::RefineNoted { triangle })?;
        for _ in 0..20 {
            let mut note = long.room.note.clone();
            calls::alter(&mut note, rng);
            compare_altered(bench, &long, note)?;
        }
    }
    Ok(())
}

/// Every number of slots that a note can have, and one whose links alone change, all three.
pub fn crowds(bench: &mut Bench, rng: &mut Rng) -> Outcome {
    for odd in 1..=10 {
        for beside in 0..=odd + 2 {
            let store = handmade::crowded(odd, beside).store(10, 20, rng);
            compare_some_altered(bench, store, odd as u32, rng)?;
        }
    }
    (0..2).try_for_each(|triangle| compare_some_altered(bench, handmade::wrapped().store(2, 4, rng), triangle, rng))
}

/// Every chain length over an even triangle and over the boundary, with other triangles about it, locked or not.
pub fn chains(bench: &mut Bench, rng: &mut Rng) -> Outcome {
    for (odd, even_end) in (0..160).map(|code| (1 + code / 16, code % 4 != 0)) {
        let lowest = 2 * rng.below((20 - 2 * odd) / 2 + 1) as u8;
        let more: Vec<u8> = (0..40).map(|_| lowest + rng.below(2 * odd + 1) as u8).collect();
        let mut gluing = chain(odd, even_end, lowest, &more, rng);
        gluing.glue_at_random(rng.pick(&[0, 300, 900]), rng);
        let mut store = gluing.store(12, 24, rng);
        for _ in 0..rng.pick(&[0, 2, 9]) {
            let slot = odd + 1 + rng.below(store.triangles() - odd - 1);
            store = store.locked(slot);
        }
        compare_some_altered(bench, store, (odd - usize::from(!even_end)) as u32, rng)?;
    }
    Ok(())
}

/// A history in which notes are kept: after each further call each of them is tried, and so is the last one again.
pub fn late(bench: &mut Bench, rounds: usize, rng: &mut Rng) -> Outcome {
    for _ in 0..rounds {
        let mut store = match rng.below(3) {
            0 => handmade::random(rng),
            _ => refined(&rng.pick(&[cages::tetrahedron, cages::foil, || cages::disc(5)])(), &[], 30, rng),
        };
        let mut notes: Vec<Vec<u32>> = Vec::new();
        for _ in 0..8 {
            store.room.note = some_entries(NOTE_ENTRIES, rng);
            let triangle = rng.below(store.triangles()) as u32;
            if bench.compare(&mut store, &Call::RefineNoted { triangle })?.refusal == 0 {
                notes.push(store.room.note.clone());
            }
            let others = rng.below(3);
            calls::compare_some(bench, &mut store, others, rng)?;
            for note in &notes {
                bench.compare_only(&with_note(store.clone(), note.clone()), &Call::TakeBack)?;
            }
            if let Some(note) = notes.last().filter(|_| rng.percent(40)) {
                store.room.note.clone_from(note);
                bench.compare(&mut store, &Call::TakeBack)?;
                bench.compare(&mut store, &Call::TakeBack)?;
            }
        }
    }
    Ok(())
}

/// Loads, refined at random and deep at one place, each refine with its note; then all of them taken back, last first,
/// to the load.
pub fn back_to_load(bench: &mut Bench, rounds: usize, rng: &mut Rng) -> Outcome {
    for _ in 0..rounds {
        let (cage, rule) = (random_cage(rng), picks::either_rule(rng));
        let mut store = Store::junk(cage.points.len() + 200, cage.triangles.len() + 400, rng);
        if bench.compare(&mut store, &Call::Load { rule, cage: cage.bytes() })?.refusal != 0 {
            continue;
        }
        for _ in 0..rng.pick(&[0, 0, 1, 4]) {
            let slot = rng.below(store.triangles());
            store = store.locked(slot);
        }
        let (loaded, mut notes) = (store.clone(), Vec::new());
        let deep = rng.pick(&[0, 40, 90]);
        for _ in 0..60 {
            let any = rng.below(store.triangles()) as u32;
            let triangle = if rng.percent(deep) { picks::deepest_triangle(&store) } else { any };
            store.room.note = some_entries(NOTE_ENTRIES, rng);
            if bench.compare(&mut store, &Call::RefineNoted { triangle })?.refusal == 0 {
                notes.push(store.room.note.clone());
            }
        }
        for note in notes.into_iter().rev() {
            store.room.note = note;
            let before = store.clone();
            if bench.compare(&mut store, &Call::TakeBack)?.refusal != 0 {
                let what = "the last refine of a history is not taken back".to_string();
                return Err(difference(what, before, &Call::TakeBack));
            }
        }
        let mut expected = store.clone();
        expected.tables.take_over(&loaded.tables, loaded.counts);
        expected.counts = loaded.counts;
        if store != expected {
            let what = "taken back to the load, the mesh is another".to_string();
            return Err(difference(what, store, &Call::TakeBack));
        }
    }
    Ok(())
}
