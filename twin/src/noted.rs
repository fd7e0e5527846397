//! What is claimed of notes, read from the tables themselves: a note has what exactly the old slots held that change;
//! what is taken back is exactly that; and nothing else is written.

use crate::tables::{Answer, Call, Counts, NOTE_ENTRIES, Store, Tables};

/// What a call has written to a note, or by one, that it must not.
pub fn violated_by_note(before: &Store, call: &Call, answer: &Answer, after: &Store) -> Option<String> {
    match (call, answer.refusal) {
        (Call::RefineNoted { triangle }, 0) => wrong_note(before, *triangle, after),
        _ if before.room.note != after.room.note => Some("a note was written that is only kept".to_string()),
        (Call::TakeBack, 0) => wrongly_taken_back(before, answer, after),
        _ => None,
    }
}

/// The slot and what it holds.
fn held(tables: &Tables, slot: usize) -> [u32; 9] {
    let (corners, links) = (&tables.corners[3 * slot..][..3], &tables.links[3 * slot..][..3]);
    let bytes = [tables.generations[slot], tables.locks[slot]].map(u32::from);
    std::array::from_fn(|i| match i {
        0 => slot as u32,
        1..4 => corners[i - 1],
        4..7 => links[i - 4],
        _ => bytes[i - 7],
    })
}

fn wrong_note(before: &Store, triangle: u32, after: &Store) -> Option<String> {
    let changed = |slot: &usize| held(&before.tables, *slot) != held(&after.tables, *slot);
    let slots: Vec<usize> = (0..before.triangles()).filter(changed).collect();
    let mut due = vec![triangle, before.counts.vertices, before.counts.triangles, slots.len() as u32];
    due.extend(slots.into_iter().flat_map(|slot| held(&before.tables, slot)));
    if due.len() > NOTE_ENTRIES {
        return Some(format!("the note has {} entries", due.len()));
    }
    due.extend(before.room.note.get(due.len()..).unwrap_or_default());
    let wrong = due.iter().zip(&after.room.note).position(|(due, entry)| due != entry);
    let short = (due.len() > after.room.note.len()).then_some(after.room.note.len());
    wrong.or(short).map(|place| format!("entry {place} of the note is not {}", due[place]))
}

/// By a take-back the slots of the note and the counts change to what the note says, and nothing else.
fn wrongly_taken_back(before: &Store, answer: &Answer, after: &Store) -> Option<String> {
    let mut expected = before.clone();
    let [_, vertices, triangles, k, ref slots @ ..] = before.room.note[..] else {
        return Some("a note of less than four entries was accepted".to_string());
    };
    for nine in slots.chunks_exact(9).take(k as usize) {
        let (slot, tables) = (nine[0] as usize, &mut expected.tables);
        tables.corners[3 * slot..][..3].copy_from_slice(&nine[1..4]);
        tables.links[3 * slot..][..3].copy_from_slice(&nine[4..7]);
        tables.generations[slot] = nine[7] as u8;
        tables.locks[slot] = nine[8] as u8;
    }
    expected.counts = Counts { vertices, triangles, ..before.counts };
    if *answer != (Answer { counts: expected.counts, ..Answer::default() }) {
        return Some(format!("a take-back to {:?} answers {answer:?}", expected.counts));
    }
    (*after != expected).then(|| "a take-back leaves something else than its note has".to_string())
}

/// What is wrong with a refine that has a note beside the same without one: it is the same, but for 22.
pub fn violated_beside_plain(plain: (&Answer, &Store), noted: (&Answer, &Store)) -> Option<String> {
    let ((answer, after), (noted_answer, noted_after)) = (plain, noted);
    let short = noted_answer.refusal == 22 && answer.refusal == 0;
    let same = answer == noted_answer && after.tables == noted_after.tables;
    (!same && !short).then(|| format!("answered {answer:?} without a note, {noted_answer:?} with one"))
}

/// What is wrong with a refine that was noted and is taken back at once: all slots in use are as before it, those given
/// up are as the refine left them.
pub fn violated_by_return(before: &Store, refined: &Store, returned: (&Answer, &Store)) -> Option<String> {
    let (answer, after) = returned;
    if answer.refusal != 0 {
        return Some(format!("a note is refused with {} as it was written", answer.refusal));
    }
    let mut expected = refined.clone();
    expected.tables.take_over(&before.tables, before.counts);
    expected.counts = before.counts;
    (*after != expected).then(|| "a refine taken back does not leave the mesh of before".to_string())
}

/// What is wrong with a take-back after which the noted triangle is refined again: what was in use before it is so
/// again.
pub fn violated_by_repeat(before: &Store, repeated: (&Answer, &Store)) -> Option<String> {
    let (answer, after) = repeated;
    let mut expected = after.tables.clone();
    expected.take_over(&before.tables, before.counts);
    let same = answer.refusal == 0 && after.counts == before.counts && after.tables == expected;
    (!same).then(|| format!("refined again after a take-back, the mesh is another: {answer:?}"))
}
