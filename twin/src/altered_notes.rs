//! Takes back by notes that were altered.

use crate::bench::{Bench, Outcome};
use crate::cages;
use crate::calls;
use crate::damage::refined;
use crate::note::{Nine, Note};
use crate::notes::{compare_altered, noted, read, refined_with_notes, roomy_stores, standing};
use crate::picks;
use crate::rng::Rng;
use crate::tables::Store;

/// Each entry of notes with each of some other numbers, one at a time; one of the notes has a locked slot.
pub fn altered(bench: &mut Bench, rng: &mut Rng) -> Outcome {
    let mut stores: Vec<Store> = roomy_stores(rng).iter().flat_map(|store| refined_with_notes(store, 5, rng)).collect();
    let locked = refined(&cages::tetrahedron(), &[], 4, rng).locked(2);
    stores.push(noted(locked, 0, rng));
    for store in stores {
        let entries = read(&store).entries();
        for place in 0..entries.len() {
            for number in calls::other_numbers(entries[place]) {
                let mut note = store.room.note.clone();
                note[place] = number;
                compare_altered(bench, &store, note)?;
            }
        }
    }
    Ok(())
}

/// Notes with every triangle, with any counts, cut and going on, with k off, and so far that 4+9k is short again in 32
/// bits, with slots left out, twice, exchanged, in another order, with all slots as they stand, with corners turned,
/// and with two vertices exchanged.
pub fn rearranged(bench: &mut Bench, rng: &mut Rng) -> Outcome {
    let stores: Vec<Store> = roomy_stores(rng).iter().flat_map(|store| refined_with_notes(store, 4, rng)).collect();
    for store in stores {
        let note = read(&store);
        for notes in [with_other_heads(&store, &note), with_other_slots(&store, &note, rng)] {
            for other in notes {
                compare_altered(bench, &store, other.entries())?;
            }
        }
        for (k, length) in other_lengths(&note) {
            let mut entries = note.entries();
            entries[3] = k;
            entries.resize(length, 7);
            compare_altered(bench, &store, entries)?;
        }
    }
    Ok(())
}

fn with_other_heads(store: &Store, note: &Note) -> Vec<Note> {
    let all = picks::all_numbers(store.counts.triangles, store.triangle_slots());
    let triangles = all.map(|triangle| Note { triangle, ..note.clone() });
    let counts = [0, 1, 2, 3, 4].into_iter().flat_map(|v| [0, 1, 2, 4, 6].map(|f| (v, f))).map(|(v, f)| Note {
        vertices: store.counts.vertices.saturating_sub(v),
        triangles: store.counts.triangles.saturating_sub(f),
        ..note.clone()
    });
    let alone = (0..store.counts.triangles + 2).map(|triangle| Note {
        triangle,
        vertices: store.counts.vertices,
        triangles: store.counts.triangles,
        slots: Vec::new(),
    });
    triangles.chain(counts).chain(alone).collect()
}

/// The corners of a slot turned, its links, both, and it turned over.
const TURNS: [fn(&mut Nine); 4] = [
    |nine| nine[1..4].rotate_left(1),
    |nine| nine[4..7].rotate_left(1),
    |nine| {
        nine[1..4].rotate_left(1);
        nine[4..7].rotate_left(1);
    },
    |nine| nine.swap(1, 2),
];

fn with_other_slots(store: &Store, note: &Note, rng: &mut Rng) -> Vec<Note> {
    let mut all = Vec::new();
    let mut add = |slots: Vec<Nine>| all.push(Note { slots, ..note.clone() });
    let slots = &note.slots;
    add(Vec::new());
    add(slots.iter().rev().copied().collect());
    for place in 0..slots.len() {
        let (before, rest) = slots.split_at(place);
        add([before, &rest[1..]].concat());
        add([before, &rest[..1], rest].concat());
        for turn in TURNS {
            let mut turned = slots.clone();
            turn(&mut turned[place]);
            add(turned);
        }
        let mut exchanged = slots.clone();
        exchanged.swap(place, rng.below(slots.len()));
        add(exchanged);
    }
    // All that stand beside, each alone, those that are given up among them, and all old ones together.
    let stands = |slot: &u32| slots.iter().all(|nine| nine[0] != *slot);
    let mut full = slots.clone();
    for slot in (0..store.counts.triangles).filter(stands) {
        let stood = standing(store, slot as usize);
        let place = slots.partition_point(|nine| nine[0] < slot);
        let (before, rest) = slots.split_at(place);
        add([before, &[stood][..], rest].concat());
        if slot < note.triangles {
            full.push(stood);
        }
    }
    full.sort_unstable();
    // Two corners of the triangle exchanged in all of these: links, generations and what is placed stay.
    if let Some(&own) = full.iter().find(|nine| nine[0] == note.triangle) {
        for side in 0..3 {
            let (a, b) = (own[1 + side], own[1 + (side + 1) % 3]);
            let mut exchanged = full.clone();
            for corner in exchanged.iter_mut().flat_map(|nine| &mut nine[1..4]) {
                *corner = if *corner == a {
                    b
                } else if *corner == b {
                    a
                } else {
                    *corner
                };
            }
            add(exchanged);
        }
    }
    add(full);
    all
}

/// Numbers for k, each with a length of the note: those about the right one, and those for which 4+9k in 32 bits is the
/// right length and up to 8 more, or beside 0.
fn other_lengths(note: &Note) -> Vec<(u32, usize)> {
    // Nine times this number is 1 in 32 bits.
    const NINTH: u32 = 0x38E3_8E39;
    let (k, wanted) = (note.slots.len() as u32, note.entries().len());
    let about = [k.saturating_sub(1), k, k + 1, 0, u32::MAX, 1 << 31, 1 << 29].into_iter();
    let near = about.flat_map(|k| [wanted - 9, wanted - 1, wanted, wanted + 1, wanted + 9].map(|length| (k, length)));
    let wrapping = (1..9).map(|more| (NINTH.wrapping_mul(9 * k + more), wanted + more as usize));
    let below = (0..6).map(|below| (NINTH.wrapping_mul(u32::MAX - below), wanted + 9));
    near.chain(wrapping).chain(below).chain((0..wanted).map(|length| (k, length))).collect()
}
