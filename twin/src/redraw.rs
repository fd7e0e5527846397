//! A viewer that draws by reports alone.

use crate::note::Note;
use crate::tables::{Answer, Call, Store};

/// What is drawn of a triangle: its corners, where they are, and its generation.
type Drawn = ([u32; 3], [[i32; 3]; 3], u8);

/// What is drawn of each slot in use, if anything.
#[derive(Clone, Debug, PartialEq, Eq)]
pub struct Picture {
    drawn: Vec<Option<Drawn>>,
}

/// Reads a slot of sound tables.
fn read(store: &Store, slot: usize) -> Option<Drawn> {
    let corners = [0, 1, 2].map(|i| store.tables.corners[3 * slot + i]);
    Some((corners, corners.map(|corner| store.point(corner as usize)), store.tables.generations[slot]))
}

impl Picture {
    /// All of a sound mesh.
    pub fn of(store: &Store) -> Picture {
        Picture { drawn: (0..store.triangles()).map(|slot| read(store, slot)).collect() }
    }

    /// Draws anew what a call has changed: the slots that it reports; after a take-back those of the note, without
    /// those given up, which are from the restored F on; after a load and a whole step everything, and so after a
    /// refine without a report. After any other call the picture stays, and after a refused one.
    pub fn redraw(&mut self, call: &Call, answer: &Answer, after: &Store) {
        if answer.refusal != 0 || matches!(call.plain(), Call::Preview { .. }) {
            return;
        }
        self.drawn.resize(after.triangles(), None);
        let slots: Vec<u32> = match call {
            Call::Reported(_) => after.room.report[..answer.reported as usize].to_vec(),
            Call::TakeBack => {
                let note = Note::read(&after.room.note).expect("it is accepted");
                note.slots.iter().map(|nine| nine[0]).collect()
            }
            Call::Load { .. } | Call::WholeStep => (0..after.counts.triangles).collect(),
            refine if refine.refines() => (0..after.counts.triangles).collect(),
            _ => Vec::new(),
        };
        for slot in slots {
            self.drawn[slot as usize] = read(after, slot as usize);
        }
    }
}
