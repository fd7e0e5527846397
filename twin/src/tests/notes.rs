//! Notes against the words of their request, and what is claimed of them.

use crate::cages;
use crate::damage::small_stores;
use crate::examples::Example;
use crate::fault::Seeded;
use crate::handmade;
use crate::mesh::{Mesh, Side};
use crate::note::Note;
use crate::note_examples;
use crate::noted::{violated_beside_plain, violated_by_note, violated_by_repeat, violated_by_return};
use crate::rng::Rng;
use crate::tables::{Answer, Call, NOTE_ENTRIES, Store};
use crate::tests::{after_requests, loaded, run};

/// The store after a refine with a note that is long enough for all, and its answer.
fn noted(before: &Store, triangle: u32) -> (Answer, Store) {
    let mut store = before.clone();
    store.room.note = vec![7; NOTE_ENTRIES + 2];
    let answer = run(&mut store, &Call::RefineNoted { triangle });
    assert_eq!(answer.refusal, 0);
    (answer, store)
}

#[test]
fn notes_end_as_the_examples_say() {
    for Example { refusal, store, call } in note_examples::told(&mut Rng::new(61)) {
        let mut after = store.clone();
        let answer = run(&mut after, &call);
        assert_eq!(answer.refusal, refusal, "{call:?} by {:?}", store.room.note);
        assert_eq!(violated_by_note(&store, &call, &answer, &after), None, "{call:?}");
        if refusal > 0 {
            assert_eq!(answer, Answer { refusal, counts: store.counts, ..Answer::default() }, "{call:?}");
            assert_eq!(after, store, "{call:?}");
        }
    }
}

#[test]
fn a_note_has_the_slots_that_change_as_they_were() {
    let store = loaded(&cages::tetrahedron());
    let (_, refined) = noted(&store, 0);
    // Side 0 of triangle 0 stays where it is, so that nothing changes in the triangle across it.
    let slots = [[0, 0, 1, 2, 5, 8, 11, 0, 0], [2, 1, 3, 2, 4, 9, 1, 0, 0], [3, 2, 3, 0, 7, 3, 2, 0, 0]];
    assert_eq!(refined.room.note[..4], [0, 4, 4, 3]);
    assert_eq!(refined.room.note[4..31], slots.concat());
    assert_eq!(refined.room.note[31..], [7; NOTE_ENTRIES + 2 - 31]);
}

#[test]
fn what_is_taken_back_is_as_before_but_for_what_is_given_up() {
    let before = after_requests(&cages::disc(5), &[0, 0, 3, 7, 2]);
    for triangle in 0..before.counts.triangles {
        let (_, refined) = noted(&before, triangle);
        let mut returned = refined.clone();
        assert_eq!(run(&mut returned, &Call::TakeBack), Answer { counts: before.counts, ..Answer::default() });
        let in_use = before.triangles();
        assert_eq!(returned.tables.corners[..3 * in_use], before.tables.corners[..3 * in_use]);
        assert_eq!(returned.tables.corners[3 * in_use..], refined.tables.corners[3 * in_use..]);
        assert_eq!(returned.tables.links[..3 * in_use], before.tables.links[..3 * in_use]);
        assert_eq!(returned.tables.links[3 * in_use..], refined.tables.links[3 * in_use..]);
        assert_eq!(returned.tables.generations[..in_use], before.tables.generations[..in_use]);
        assert_eq!(returned.tables.positions, refined.tables.positions);
        assert_eq!(run(&mut returned, &Call::TakeBack).refusal, 21);
    }
}

/// The slots of a note as they can be read off before: those split or flipped, and those across side 1 of each, and
/// across side 2 of the one split first, sides that move.
fn read_off(mesh: &Mesh, t: usize) -> Vec<u32> {
    let end = mesh.base_chain(t).end();
    let mut slots: Vec<usize> = mesh.altered(t).into_iter().filter(|&slot| slot < mesh.triangles.len()).collect();
    let moving = slots.iter().map(|&slot| Side::new(slot, 1)).chain([Side::new(end, 2)]);
    let across: Vec<usize> = moving.filter_map(|side| mesh.across(side)).map(|side| side.triangle).collect();
    slots.extend(across);
    slots.sort_unstable();
    slots.dedup();
    slots.into_iter().map(|slot| slot as u32).collect()
}

#[test]
fn the_slots_of_a_note_can_be_read_off_before() {
    let rng = &mut Rng::new(62);
    let mut stores = small_stores(rng);
    stores.extend((0..2000).map(|_| handmade::random(rng)));
    stores.extend([handmade::crowded(10, 12), handmade::wrapped()].map(|gluing| gluing.store(0, 0, rng)));
    let mut most = 0;
    for store in stores {
        let mesh = Mesh::read(&store.tables, store.counts, Seeded(None));
        for t in 0..mesh.triangles.len() {
            let mut refined = mesh.clone();
            refined.refine(t);
            let slots: Vec<u32> = Note::of(t as u32, &mesh, &refined).slots.iter().map(|nine| nine[0]).collect();
            assert_eq!(slots, read_off(&mesh, t), "{t} of {store:?}");
            most = most.max(slots.len());
        }
    }
    assert_eq!(4 + 9 * most, NOTE_ENTRIES);
}

#[test]
fn notes_are_read_as_they_are_written() {
    let (_, refined) = noted(&loaded(&cages::tetrahedron()), 2);
    let note = Note::read(&refined.room.note).expect("it is long enough");
    assert_eq!(note.entries(), refined.room.note[..31]);
    assert_eq!(Note::read(&note.entries()), Some(note));
    for length in 0..31 {
        assert_eq!(Note::read(&refined.room.note[..length]), None, "{length} entries");
    }
    // 4+9k is 30, 6 and 0 in 32 bits.
    for k in [0x38E3_8E39 * 26, 0x38E3_8E39 * 2, 0x1C71_C71Cu64] {
        let mut entries = refined.room.note.clone();
        entries[3] = k as u32;
        assert_eq!(Note::read(&entries), None, "{k}");
    }
}

#[test]
fn claims_tell_wrong_notes() {
    let mut before = loaded(&cages::tetrahedron());
    before.room.note = vec![7; NOTE_ENTRIES + 2];
    let (answer, refined) = noted(&before, 0);
    let call = Call::RefineNoted { triangle: 0 };
    let wrong = |answer: &Answer, after: &Store| violated_by_note(&before, &call, answer, after).is_some();
    assert!(!wrong(&answer, &refined));
    for place in 0..NOTE_ENTRIES + 2 {
        let mut spoilt = refined.clone();
        spoilt.room.note[place] ^= 1;
        assert!(wrong(&answer, &spoilt), "entry {place}");
    }
    assert!(wrong(&Answer { refusal: 22, ..answer }, &refined));
    // A slot that changes and is not in the note.
    let mut spoilt = refined.clone();
    spoilt.tables.links[3] ^= 1;
    assert!(wrong(&answer, &spoilt));
}

#[test]
fn claims_tell_wrong_take_backs() {
    let before = loaded(&cages::tetrahedron());
    let (answer, refined) = noted(&before, 0);
    let mut returned = refined.clone();
    let back = run(&mut returned, &Call::TakeBack);
    let wrong = |answer: &Answer, after: &Store| {
        let by_note = violated_by_note(&refined, &Call::TakeBack, answer, after);
        by_note.or_else(|| violated_by_return(&before, &refined, (answer, after)))
    };
    assert_eq!(wrong(&back, &returned), None);
    assert!(wrong(&Answer { refusal: 21, ..back }, &returned).is_some());
    assert!(wrong(&Answer { splits: 1, ..back }, &returned).is_some());
    let spoils: [fn(&mut Store); 7] = [
        |store| store.tables.corners[0] += 1,
        |store| store.tables.links[9] += 1,
        |store| store.tables.generations[2] += 1,
        |store| store.tables.locks[1] = 1,
        |store| store.tables.generations[5] = 0,
        |store| store.tables.positions[12] += 1,
        |store| store.counts.vertices += 1,
    ];
    for (number, spoil) in spoils.iter().enumerate() {
        let mut spoilt = returned.clone();
        spoil(&mut spoilt);
        assert!(wrong(&back, &spoilt).is_some(), "{number}");
    }
    // Refined again, it is the mesh of before the take-back, and without a note the same.
    let mut again = returned.clone();
    let repeated = run(&mut again, &Call::Refine { triangle: 0 });
    assert_eq!(violated_by_repeat(&refined, (&repeated, &again)), None);
    assert!(violated_by_repeat(&returned, (&repeated, &again)).is_some());
    assert_eq!(violated_beside_plain((&repeated, &again), (&answer, &refined)), None);
    assert!(violated_beside_plain((&repeated, &again), (&answer, &returned)).is_some());
    assert!(violated_beside_plain((&repeated, &again), (&Answer { flips: 1, ..answer }, &refined)).is_some());
}
