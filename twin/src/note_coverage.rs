//! What a run has met of notes: how many slots they have and what changes in these, how long they are, what is accepted
//! and why they are refused, and what other condition holds beside a refusal.

use crate::conditions::Twin;
use crate::fault::Seeded;
use crate::mesh::Mesh;
use crate::note::{Note, nine};
use crate::tables::{Answer, Call, Store};

#[derive(Default)]
pub struct NoteCoverage {
    /// Notes written, by their slots.
    pub slots: [u64; 26],
    /// Slots of notes written, as `CHANGED` tells them apart.
    changed: [u64; 5],
    /// Notes lent to refines that are carried out or refused with 22, as `LENGTHS` lists them.
    lengths: [u64; 7],
    /// Notes accepted, as `ACCEPTED` lists what they have.
    accepted: [u64; 7],
    /// Notes refused with 21, as `REFUSED` lists the first reason.
    refused: [u64; 19],
    /// Calls for which two conditions hold, as `BESIDE` lists them.
    beside: [u64; 4],
}

const CHANGED: [&str; 5] = ["split or flipped", "one link alone", "two links alone", "three links alone", "locked"];
const LENGTHS: [&str; 7] = ["none", "one to three", "short", "one short", "just enough", "one over", "longer"];
const ACCEPTED: [&str; 7] = [
    "slots that changed alone",
    "slots that stand, too",
    "no entries left over",
    "entries left over",
    "an odd triangle",
    "an even one",
    "a locked slot",
];
const REFUSED: [&str; 19] = [
    "under four entries",
    "under 4+9k",
    "4+9k beyond 32 bits",
    "slots do not rise",
    "slots from the old F on",
    "old V or F above the slots",
    "generation or lock beyond a byte",
    "not sound",
    "8",
    "9",
    "19",
    "11",
    "another V",
    "another F alone",
    "other corners",
    "other links alone",
    "other generations alone",
    "other locks alone",
    "other positions alone",
];
const BESIDE: [&str; 4] = ["11 and 22", "19 and 22", "1 and 21", "7 and 21"];

fn mesh_of(store: &Store) -> Mesh {
    Mesh::read(&store.tables, store.counts, Seeded(None))
}

/// The note that refining a triangle of a sound mesh has to write, with room for everything and nothing locked.
fn due_note(old: &Mesh, triangle: u32) -> (Note, Mesh) {
    let mut new = old.clone();
    new.refine(triangle as usize);
    (Note::of(triangle, old, &new), new)
}

/// The place in the list of the first reason for which a note is refused.
fn reason(before: &Store) -> usize {
    let entries = &before.room.note;
    let Some(note) = Note::read(entries) else {
        return match entries.get(3) {
            None => 0,
            Some(&k) => 1 + usize::from(4 + 9 * u64::from(k) > u64::from(u32::MAX)),
        };
    };
    if !note.slots_rise() {
        return 3;
    }
    if !note.slots_are_old() {
        return 4;
    }
    let [vertex_slots, triangle_slots] = before.tables.slots();
    if note.vertices as usize > vertex_slots || note.triangles as usize > triangle_slots {
        return 5;
    }
    if note.slots.iter().any(|nine| nine[7] > 255 || nine[8] > 255) {
        return 6;
    }
    let Ok(restored) = Twin::UNBROKEN.restored(&before.tables, before.counts, &note) else {
        return 7;
    };
    let mut refined = restored.mesh;
    match refined.refine_in(before.tables.slots(), note.triangle as usize) {
        Err(8) => 8,
        Err(9) => 9,
        Err(19) => 10,
        Err(_) => 11,
        Ok(_) => 12 + difference(&refined, &mesh_of(before)),
    }
}

/// The first in which two meshes differ: V, F, corners, links, generations, locks, positions.
fn difference(one: &Mesh, other: &Mesh) -> usize {
    if one.points.len() != other.points.len() {
        return 0;
    }
    if one.triangles.len() != other.triangles.len() {
        return 1;
    }
    let pairs = || one.triangles.iter().zip(&other.triangles);
    let same = [
        pairs().all(|(one, other)| one.corners == other.corners),
        pairs().all(|(one, other)| one.links == other.links),
        pairs().all(|(one, other)| one.generation == other.generation),
        one.locks == other.locks,
    ];
    2 + same.iter().position(|same| !same).unwrap_or(same.len())
}

impl NoteCoverage {
    /// Notes a call on the tables as they were before it, and its answer.
    pub fn note(&mut self, before: &Store, call: &Call, answer: &Answer) {
        let unread = || Note::read(&before.room.note).is_none();
        match (call, answer.refusal) {
            (&Call::RefineNoted { triangle }, 0 | 22) => self.note_refine(before, triangle, answer),
            (&Call::RefineNoted { triangle }, refusal @ (11 | 19)) => {
                let (note, _) = due_note(&mesh_of(before), triangle);
                let short = before.room.note.len() < note.entries().len();
                self.beside[usize::from(refusal == 19)] += u64::from(short);
            }
            (Call::TakeBack, 0) => self.note_accepted(before),
            (Call::TakeBack, 21) => self.refused[reason(before)] += 1,
            (Call::TakeBack, refusal) => self.beside[2 + usize::from(refusal == 7)] += u64::from(unread()),
            _ => {}
        }
    }

    fn note_refine(&mut self, before: &Store, triangle: u32, answer: &Answer) {
        let old = mesh_of(before);
        let (note, new) = due_note(&old, triangle);
        let (length, wanted) = (before.room.note.len(), note.entries().len());
        let place = match length {
            0 => 0,
            1..4 => 1,
            length if length + 1 < wanted => 2,
            length if length <= wanted + 1 => length + 4 - wanted,
            _ => 6,
        };
        self.lengths[place] += 1;
        if answer.refusal != 0 {
            return;
        }
        self.slots[note.slots.len()] += 1;
        for slot in note.slots.iter().map(|nine| nine[0] as usize) {
            let (before, after) = (&old.triangles[slot], &new.triangles[slot]);
            let links = (0..3).filter(|&side| before.links[side] != after.links[side]).count();
            self.changed[if before.corners == after.corners { links } else { 0 }] += 1;
            self.changed[4] += u64::from(old.is_locked(slot));
        }
    }

    fn note_accepted(&mut self, before: &Store) {
        let note = Note::read(&before.room.note).expect("it is accepted");
        let present = mesh_of(before);
        let restored = Twin::UNBROKEN.restored(&before.tables, before.counts, &note).expect("it is accepted");
        let stands = |nine_of: &[u32; 9]| nine(&present, nine_of[0] as usize) == *nine_of;
        let left_over = before.room.note.len() > note.entries().len();
        let even = !restored.mesh.triangles[note.triangle as usize].is_odd();
        self.accepted[usize::from(note.slots.iter().any(stands))] += 1;
        self.accepted[2 + usize::from(left_over)] += 1;
        self.accepted[4 + usize::from(even)] += 1;
        self.accepted[6] += u64::from(note.slots.iter().any(|nine| nine[8] == 1));
    }

    /// The counts of what has names, with their titles.
    pub fn named(&self) -> [(&str, &[&str], &[u64]); 5] {
        [
            ("slots of notes written, by what changes", &CHANGED, &self.changed),
            ("notes for refines", &LENGTHS, &self.lengths),
            ("notes accepted", &ACCEPTED, &self.accepted),
            ("notes refused with 21", &REFUSED, &self.refused),
            ("conditions of notes that hold at once", &BESIDE, &self.beside),
        ]
    }
}
