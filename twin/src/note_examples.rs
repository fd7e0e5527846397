//! Hand-made examples of notes: refines with notes that are written or too short, and take-backs by these, by notes
//! that are altered, stale or of another mesh, and in turn.

use crate::bench::{Bench, Outcome};
use crate::cages;
use crate::calls::some_entries;
use crate::damage::{at_generation, refined};
use crate::examples::{self, Example, example};
use crate::fault::Seeded;
use crate::handmade::chain;
use crate::mesh::Mesh;
use crate::note::Note;
use crate::notes::{after, noted, read, standing, with_note};
use crate::rng::Rng;
use crate::tables::{Call, LAST_GENERATION, NOTE_ENTRIES, Store};

/// The same with its note changed.
fn with(mut store: Store, change: impl FnOnce(&mut Vec<u32>)) -> Store {
    change(&mut store.room.note);
    store
}

/// The same with a note.
fn saying(store: &Store, note: &Note) -> Store {
    with_note(store.clone(), note.entries())
}

/// A refine with a note of so many entries.
fn with_entries(refusal: u32, store: Store, triangle: u32, entries: usize, rng: &mut Rng) -> Example {
    example(refusal, with_note(store, some_entries(entries, rng)), Call::RefineNoted { triangle })
}

fn back(refusal: u32, store: Store) -> Example {
    example(refusal, store, Call::TakeBack)
}

/// Refines with notes. That of a loaded tetrahedron's triangle 0 has the slots 0, 2 and 3; that of a lone triangle has
/// one.
fn written(rng: &mut Rng) -> Vec<Example> {
    let tetrahedron = cages::tetrahedron();
    let loaded = |room: usize, rng: &mut Rng| refined(&tetrahedron, &[], room, rng);
    let lone = |requests: &[u32], rng: &mut Rng| refined(&cages::strip(1), requests, 4, rng);
    let long = |even_end: bool, room: usize, rng: &mut Rng| chain(10, even_end, 0, &[], rng).store(room, 2 * room, rng);
    let mut unequal = loaded(4, rng);
    unequal.tables.links.pop();
    vec![
        with_entries(0, loaded(4, rng), 0, 31, rng),
        with_entries(0, loaded(4, rng), 0, 32, rng),
        with_entries(0, loaded(1, rng), 0, NOTE_ENTRIES, rng),
        with_entries(22, loaded(4, rng), 0, 30, rng),
        with_entries(22, loaded(4, rng), 0, 4, rng),
        with_entries(22, loaded(4, rng), 0, 3, rng),
        with_entries(22, loaded(4, rng), 0, 0, rng),
        with_entries(0, lone(&[], rng), 0, 13, rng),
        with_entries(22, lone(&[], rng), 0, 12, rng),
        with_entries(0, lone(&[0], rng), 0, NOTE_ENTRIES, rng),
        with_entries(22, lone(&[0], rng), 0, 12, rng),
        with_entries(0, long(true, 10, rng), 10, NOTE_ENTRIES, rng),
        with_entries(0, long(false, 10, rng), 9, NOTE_ENTRIES, rng),
        // A lock beside the work is noted, if its link follows.
        with_entries(0, loaded(4, rng).locked(2), 0, 31, rng),
        // 22 comes after all the refusals of a refine.
        with_entries(11, loaded(0, rng), 0, 0, rng),
        with_entries(11, long(true, 9, rng), 10, 5, rng),
        with_entries(19, loaded(4, rng).locked(0), 0, 0, rng),
        with_entries(19, loaded(0, rng).locked(0), 0, 0, rng),
        with_entries(9, at_generation(&tetrahedron, LAST_GENERATION, 4, rng), 0, 0, rng),
        with_entries(8, loaded(4, rng), 4, 0, rng),
        with_entries(7, Store::fresh(9, 9), 0, 0, rng),
        with_entries(1, unequal, 0, 0, rng),
    ]
}

/// Take-backs of refines of the tetrahedron.
fn taken_back(rng: &mut Rng) -> Vec<Example> {
    let tetrahedron = cages::tetrahedron();
    let split = noted(refined(&tetrahedron, &[], 4, rng), 0, rng);
    let (note, stood) = (read(&split), after(split.clone(), &Call::TakeBack));
    // Triangle 0 is odd, and 1 the even one across its base: refining either is the same work.
    let flipped = noted(refined(&tetrahedron, &[0], 4, rng), 0, rng);
    let more =
        Note { slots: [&note.slots[..1], &[standing(&split, 1)][..], &note.slots[1..]].concat(), ..note.clone() };
    let forged = |triangle: u32| Note { triangle, vertices: 5, triangles: 6, slots: vec![] };
    let mut unequal = split.clone();
    unequal.tables.links.pop();
    let mut unsound = split.clone();
    unsound.tables.generations[3] = LAST_GENERATION + 1;
    let mut moved = split.clone();
    moved.tables.positions[12] += 1;
    vec![
        back(0, split.clone()),
        back(0, saying(&split, &note)),
        back(21, stood.clone()),
        back(21, with(split.clone(), |note| note.truncate(30))),
        back(21, with(split.clone(), |note| note.truncate(3))),
        back(21, with(split.clone(), Vec::clear)),
        // A lock of a slot in the note makes it stale, be it that a link alone changed there, and so does one of a slot
        // that the split took; of another it does not.
        back(0, split.clone().locked(1)),
        back(21, split.clone().locked(2)),
        back(21, split.clone().locked(0)),
        back(21, split.clone().locked(4)),
        back(21, split.clone().locked(5)),
        back(0, noted(refined(&tetrahedron, &[], 4, rng).locked(2), 0, rng)),
        back(21, with(noted(refined(&tetrahedron, &[], 4, rng).locked(2), 0, rng), |note| note[4 + 9 + 8] = 0)),
        // Notes that no refine wrote: its triangle is not in use, or no slot is given back.
        back(21, saying(&split, &forged(99))),
        back(21, saying(&split, &forged(0))),
        back(21, saying(&stood, &forged(0))),
        back(21, with(split.clone(), |note| note[0] = 99)),
        // Altered, and accepted: what is restored is the same. One has a slot more, as it stands, between the others.
        back(0, flipped.clone()),
        back(0, with(flipped.clone(), |note| note[0] = 1)),
        back(21, with(flipped, |note| note[0] = 2)),
        back(0, saying(&split, &more)),
        // Another order, a slot twice, one that was not in use, and more slots than 32 bits can count entries of.
        back(21, saying(&split, &Note { slots: note.slots.iter().rev().copied().collect(), ..note.clone() })),
        back(21, saying(&split, &Note { slots: [&note.slots[..1], &note.slots[..]].concat(), ..note.clone() })),
        back(
            21,
            saying(&split, &Note { slots: [&note.slots[..], &[standing(&split, 4)][..]].concat(), ..note.clone() }),
        ),
        back(21, with(split.clone(), |note| note[3] = u32::MAX)),
        back(21, with(split.clone(), |note| note[3] = 0x1C71_C71D)),
        // Other counts.
        back(21, with(split.clone(), |note| note[1] += 1)),
        back(21, with(split.clone(), |note| note[2] -= 2)),
        back(21, with(split.clone(), |note| note[2] = u32::MAX)),
        // The new vertex is elsewhere.
        back(21, moved),
        // 1 and 7 come first.
        back(1, unequal.clone()),
        back(1, with(unequal, Vec::clear)),
        back(7, unsound.clone()),
        back(7, with(unsound, Vec::clear)),
        back(7, Store::fresh(9, 9)),
    ]
}

/// Notes that fit another mesh as far as corners and links go, and one that takes two refines back.
fn later(rng: &mut Rng) -> Vec<Example> {
    let load = examples::load(&cages::tetrahedron());
    let loaded = after(Store::junk(40, 60, rng), &load);
    let all = [0, 1, 2].iter().fold(loaded.clone(), |store, &triangle| after(store, &examples::refine(triangle)));
    let all = noted(all, 3, rng);
    let smoothed = with_note(after(loaded.clone(), &Call::WholeStep), all.room.note.clone());
    assert_eq!((&all.tables.corners, &all.tables.links), (&smoothed.tables.corners, &smoothed.tables.links));
    let grown = [0; 3].iter().fold(loaded, |store, &triangle| after(store, &examples::refine(triangle)));
    let once = noted(grown, 0, rng);
    let by_two = [3, 1]
        .iter()
        .fold(after(once.clone(), &Call::TakeBack), |store, &triangle| after(store, &examples::refine(triangle)));
    assert_eq!((&once.tables, once.counts), (&by_two.tables, by_two.counts));
    vec![back(0, all), back(21, smoothed), back(0, once), back(0, by_two)]
}

/// Two refines of triangle 0 taken back in turn, the second first, by their notes: of a tetrahedron, where the second
/// flips, and of a lone triangle, where it is at the boundary. Before that the note of the first is refused.
fn in_turn(rng: &mut Rng) -> Vec<Example> {
    let in_use = |store: &Store| Mesh::read(&store.tables, store.counts, Seeded(None));
    let mut all = Vec::new();
    for cage in [cages::tetrahedron(), cages::strip(1)] {
        let loaded = refined(&cage, &[], 4, rng);
        let first = noted(loaded.clone(), 0, rng);
        let second = noted(first.clone(), 0, rng);
        let with_first = |store: Store| with_note(store, first.room.note.clone());
        let returned = with_first(after(second.clone(), &Call::TakeBack));
        let end = after(returned.clone(), &Call::TakeBack);
        assert_eq!(in_use(&end), in_use(&loaded));
        all.extend([back(21, with_first(second.clone())), back(0, second), back(0, returned)]);
    }
    all
}

pub fn told(rng: &mut Rng) -> Vec<Example> {
    [written(rng), taken_back(rng), later(rng), in_turn(rng)].into_iter().flatten().collect()
}

/// All of these on both services.
pub fn as_told(bench: &mut Bench, rng: &mut Rng) -> Outcome {
    examples::compare_all(bench, told(rng))
}
