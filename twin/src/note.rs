//! Refine with a note, and take back.

use crate::conditions::Twin;
use crate::fault::Fault;
use crate::mesh::{Mesh, Side, Triangle};
use crate::report::Made;
use crate::split::Work;
use crate::tables::{Answer, BOUNDARY, Counts, HALF_UP, NOTE_ENTRIES, Tables, refuse_unless};

/// What a note has of a slot: its number, its corners, its links, its generation and its lock.
pub type Nine = [u32; 9];

/// What the entries of a note say.
#[derive(Clone, Debug, PartialEq, Eq)]
pub struct Note {
    pub triangle: u32,
    /// V and F of before.
    pub vertices: u32,
    pub triangles: u32,
    pub slots: Vec<Nine>,
}

impl Note {
    /// Reads a note, or none where it has fewer entries than it says.
    pub fn read(entries: &[u32]) -> Option<Note> {
        let &[triangle, vertices, triangles, k, ref rest @ ..] = entries else {
            return None;
        };
        let (nines, _) = rest.as_chunks::<9>();
        let slots = nines.get(..k as usize)?.to_vec();
        Some(Note { triangle, vertices, triangles, slots })
    }

    /// The note of what refining a triangle makes of a mesh: all old slots that hold something else afterwards.
    pub fn of(triangle: u32, old: &Mesh, new: &Mesh) -> Note {
        let changed = (0..old.triangles.len()).filter(|&slot| nine(old, slot) != nine(new, slot));
        let slots = changed.map(|slot| nine(old, slot)).collect();
        let Counts { vertices, triangles, .. } = old.counts();
        Note { triangle, vertices, triangles, slots }
    }

    pub fn entries(&self) -> Vec<u32> {
        let head = [self.triangle, self.vertices, self.triangles, self.slots.len() as u32];
        head.into_iter().chain(self.slots.iter().copied().flatten()).collect()
    }

    pub fn slots_rise(&self) -> bool {
        self.slots.is_sorted_by(|one, next| one[0] < next[0])
    }

    pub fn slots_are_old(&self) -> bool {
        self.slots.iter().all(|nine| nine[0] < self.triangles)
    }
}

/// The nine numbers of a slot.
pub fn nine(mesh: &Mesh, slot: usize) -> Nine {
    let Triangle { corners, links, generation } = mesh.triangles[slot];
    let [[a, b, c], [d, e, f]] = [corners.map(|corner| corner as u32), links.map(Side::to_link)];
    [slot as u32, a, b, c, d, e, f, u32::from(generation), u32::from(mesh.locks[slot])]
}

/// Puts nine numbers into their slot; none where there is no such slot, or where a number is too large for its table.
fn put_back(tables: &mut Tables, &[slot, a, b, c, d, e, f, generation, lock]: &Nine) -> Option<()> {
    let slot = slot as usize;
    *tables.generations.get_mut(slot)? = generation.try_into().ok()?;
    *tables.locks.get_mut(slot)? = lock.try_into().ok()?;
    tables.corners.get_mut(3 * slot..3 * slot + 3)?.copy_from_slice(&[a, b, c]);
    tables.links.get_mut(3 * slot..3 * slot + 3)?.copy_from_slice(&[d, e, f]);
    Some(())
}

/// What a note restores: the tables, and the mesh that is then in use.
pub struct Restored {
    pub tables: Tables,
    pub mesh: Mesh,
}

impl Twin {
    /// Refine with a note: 1, 7, 8, 9, 19, 11, 22.
    pub fn refine_noted(&self, tables: &mut Tables, counts: Counts, t: u32, note: &mut [u32]) -> Result<Made, u32> {
        let has_head = note.len() >= 4;
        refuse_unless(has_head || !self.fault.has(Fault::NoteBeforeTables), 22)?;
        let made = self.made_with_note(tables, counts, t, note.len());
        if made.is_err() && self.fault.has(Fault::NoteOnRefusal) {
            note.iter_mut().take(1).for_each(|entry| *entry = t);
        }
        let (mesh, work, entries) = made?;
        let has_room = self.note_has_room(note.len(), entries.len());
        if has_room || self.fault.has(Fault::ShortNoteFilled) {
            note.iter_mut().zip(&entries).for_each(|(entry, &number)| *entry = number);
        }
        if has_room || self.fault.has(Fault::ShortNoteRefines) {
            mesh.write(tables);
        }
        refuse_unless(has_room, 22)?;
        let rest = note.get_mut(entries.len()..).unwrap_or_default();
        match self.fault.0 {
            Some(Fault::NoteClearsRest) => rest.fill(0),
            Some(Fault::NotePastLast) => rest.iter_mut().take(1).for_each(|entry| *entry = 0),
            _ => {}
        }
        let answer = Answer { splits: work.splits, flips: work.flips, counts: mesh.counts(), ..Answer::default() };
        Ok(Made { answer, report: mesh.report() })
    }

    /// The mesh refined, and the entries of its note.
    fn made_with_note(
        &self,
        tables: &Tables,
        counts: Counts,
        t: u32,
        length: usize,
    ) -> Result<(Mesh, Work, Vec<u32>), u32> {
        refuse_unless(self.tables_agree(tables), 1)?;
        let old = self.sound_mesh(tables, counts)?;
        self.note_refused_early(&old, t, length)?;
        let mut mesh = old.clone();
        let work = mesh.refine_in(tables.slots(), t as usize)?;
        let entries = self.entries_of(t, &old, &mesh);
        Ok((mesh, work, entries))
    }

    /// With a fault 22 is found before 11 or 19: by a refine that has room for everything, and nothing locked.
    fn note_refused_early(&self, old: &Mesh, t: u32, length: usize) -> Result<(), u32> {
        let mut start = old.clone();
        match self.fault.0 {
            Some(Fault::NoteBeforeRoom) => {}
            Some(Fault::NoteBeforeLocks) => start.locks.fill(0),
            _ => return Ok(()),
        }
        let mut refined = start.clone();
        let made = refined.refine_in([usize::MAX / 2; 2], t as usize).is_ok();
        refuse_unless(!made || length >= Note::of(t, &start, &refined).entries().len(), 22)
    }

    /// The opposite of condition 22.
    fn note_has_room(&self, length: usize, wanted: usize) -> bool {
        match self.fault.0 {
            Some(Fault::ShortNoteByOne) => length + 1 >= wanted,
            Some(Fault::LongerNoteRefused) => length == wanted,
            Some(Fault::NoteForAllWanted) => length >= NOTE_ENTRIES,
            Some(Fault::EmptyNoteIsNone) => length >= wanted || length == 0,
            _ => length >= wanted,
        }
    }

    /// What is written: with a fault a wrong note.
    fn entries_of(&self, t: u32, old: &Mesh, new: &Mesh) -> Vec<u32> {
        let mut note = Note::of(t, old, new);
        let slot = |nine: &Nine| nine[0] as usize;
        match self.fault.0 {
            Some(Fault::NoteWithoutLinksAlone) => {
                note.slots.retain(|nine| old.triangles[slot(nine)].corners != new.triangles[slot(nine)].corners);
            }
            Some(Fault::NoteHighestFirst) => note.slots.reverse(),
            Some(Fault::NoteOfAfter) => note.slots.iter_mut().for_each(|entry| *entry = nine(new, slot(entry))),
            Some(Fault::NoteOfNewVertices) => note.vertices = new.counts().vertices,
            Some(Fault::NoteOfNewTriangles) => note.triangles = new.counts().triangles,
            Some(Fault::NoteOfChainEnd) => note.triangle = old.base_chain(t as usize).end() as u32,
            Some(Fault::NoteWithoutLocks) => note.slots.iter_mut().for_each(|nine| nine[8] = 0),
            Some(Fault::NoteLinksFirst) => note.slots.iter_mut().for_each(|nine| nine[1..7].rotate_left(3)),
            Some(Fault::NoteWithNewSlots) => {
                note.slots.extend((old.triangles.len()..new.triangles.len()).map(|slot| nine(new, slot)));
            }
            Some(Fault::NoteWithoutLast) if note.slots.len() > 1 => drop(note.slots.pop()),
            _ => {}
        }
        let mut entries = note.entries();
        if self.fault.has(Fault::NoteCountsEntries) {
            entries[3] = entries.len() as u32;
        }
        entries
    }

    /// Take back: 1, 7, 21. The slots of the note and the counts are restored.
    pub fn take_back(&self, tables: &mut Tables, counts: Counts, note: &[u32]) -> Result<Answer, u32> {
        let read = self.read_note(note);
        refuse_unless(read.is_some() || !self.fault.has(Fault::BackNoteBeforeTables), 21)?;
        refuse_unless(self.tables_agree(tables), 1)?;
        refuse_unless(read.is_some() || !self.fault.has(Fault::BackNoteBeforeSound), 21)?;
        let present = self.sound_mesh(tables, counts)?;
        refuse_unless(!(present.has_locked() && self.fault.has(Fault::BackGuarded)), 19)?;
        let note = read.ok_or(21u32)?;
        let Restored { tables: restored, mesh } = self.restored(tables, counts, &note)?;
        let work = self.leads_to(&mesh, &note, &present, tables.slots());
        if work.is_ok() || self.fault.has(Fault::RefusedBackWrites) {
            self.write_back(tables, &restored, &note, &present);
        }
        let Work { splits, flips } = self.fault.unless(Fault::BackReportsWork, Work::default(), work?);
        Ok(Answer { splits, flips, counts: self.counts_back(counts, &mesh), ..Answer::default() })
    }

    /// What a note says, with a fault read wrongly.
    fn read_note(&self, entries: &[u32]) -> Option<Note> {
        let mut entries = entries.to_vec();
        if self.fault.has(Fault::BackShortByOne) {
            entries.push(0);
        }
        if let Some(k) = entries.get_mut(3).filter(|_| self.fault.has(Fault::BackLengthWraps)) {
            let wanted = 4u32.wrapping_add(k.wrapping_mul(9));
            *k = wanted.saturating_sub(4) / 9;
        }
        let note = Note::read(&entries)?;
        let longer = entries.len() > 4 + 9 * note.slots.len();
        let (rise, are_old) = (self.slots_rise(&note), note.slots_are_old() || self.fault.has(Fault::BackSlotsAbove));
        (rise && are_old && !(longer && self.fault.has(Fault::BackLongerRefused))).then_some(note)
    }

    fn slots_rise(&self, note: &Note) -> bool {
        match self.fault.0 {
            Some(Fault::BackAnyOrder) => true,
            Some(Fault::BackSlotTwice) => note.slots.is_sorted_by_key(|nine| nine[0]),
            _ => note.slots_rise(),
        }
    }

    /// The tables with the slots of a note, and the mesh in them with its counts, or 21 where that is not sound.
    pub fn restored(&self, tables: &Tables, counts: Counts, note: &Note) -> Result<Restored, u32> {
        let mut restored = tables.clone();
        for nine in &note.slots {
            put_back(&mut restored, &self.as_put_back(nine)).ok_or(21u32)?;
        }
        let counts = Counts { vertices: note.vertices, triangles: note.triangles, ..counts };
        let tested = if self.fault.has(Fault::BackLinkPasses) { mended(&restored, note) } else { restored.clone() };
        let mesh = self.sound_mesh(&tested, counts);
        let refusal = self.fault.unless(Fault::BackUnsoundAnswered, 21u32, 7);
        Ok(Restored { tables: restored, mesh: mesh.map_err(|_| refusal)? })
    }

    /// The numbers of a slot as they are taken, with a fault others.
    fn as_put_back(&self, nine: &Nine) -> Nine {
        let mut nine = *nine;
        match self.fault.0 {
            Some(Fault::BackLowBytes) => nine[7..].iter_mut().for_each(|number| *number &= 255),
            Some(Fault::BackLocksAsBits) => nine[8] = u32::from(nine[8] != 0),
            _ => {}
        }
        nine
    }

    /// The work of refining the noted triangle in the restored mesh, or 21 where this is not carried out, or does not
    /// give the present mesh.
    fn leads_to(&self, old: &Mesh, note: &Note, present: &Mesh, slots: [usize; 2]) -> Result<Work, u32> {
        let stands =
            |slot: &Nine| present.triangles.len() > slot[0] as usize && nine(present, slot[0] as usize) == *slot;
        refuse_unless(!(self.fault.has(Fault::BackStandingRefused) && note.slots.iter().any(stands)), 21)?;
        if self.fault.has(Fault::BackTwice) && self.same_in_use(old, present) {
            return Ok(Work::default());
        }
        let mut refined = old.clone();
        let work = match (refined.refine_in(slots, note.triangle as usize), self.fault.0) {
            (Err(_), Some(Fault::BackUnrefined)) => Work::default(),
            (Err(refusal), Some(Fault::BackAnswersRefine)) => return Err(refusal),
            (worked, _) => worked.map_err(|_| 21u32)?,
        };
        refuse_unless(self.same_in_use(&refined, present), 21)?;
        Ok(work)
    }

    /// Whether two meshes have the same counts and the same in every entry in use.
    fn same_in_use(&self, one: &Mesh, other: &Mesh) -> bool {
        let of_each =
            |mesh: &Mesh, what: fn(&Triangle) -> Vec<u32>| mesh.triangles.iter().map(what).collect::<Vec<_>>();
        let corners = |triangle: &Triangle| triangle.corners.map(|corner| corner as u32).to_vec();
        let links = |triangle: &Triangle| triangle.links.map(Side::to_link).to_vec();
        let generations = |triangle: &Triangle| vec![u32::from(triangle.generation)];
        let passes = |fault: Fault| self.fault.has(fault) || self.fault.has(Fault::BackByCorners);
        one.counts() == other.counts()
            && (of_each(one, corners) == of_each(other, corners) || self.fault.has(Fault::BackCornersPass))
            && (of_each(one, links) == of_each(other, links) || passes(Fault::BackLinksPass))
            && (of_each(one, generations) == of_each(other, generations) || passes(Fault::BackGenerationsPass))
            && (one.locks == other.locks || passes(Fault::BackLocksPass))
            && (one.points == other.points || passes(Fault::BackPositionsPass))
    }

    /// Writes the slots of the note, and no others.
    fn write_back(&self, tables: &mut Tables, restored: &Tables, note: &Note, present: &Mesh) {
        let before = std::mem::replace(tables, restored.clone());
        let old = note.triangles as usize;
        match self.fault.0 {
            Some(Fault::BackClearsLocks) => note.slots.iter().for_each(|nine| tables.locks[nine[0] as usize] = 0),
            Some(Fault::BackKeepsLinksAlone) => {
                for slot in (0..old).filter(|slot| tables.corners[3 * slot..][..3] == before.corners[3 * slot..][..3]) {
                    tables.links[3 * slot..][..3].copy_from_slice(&before.links[3 * slot..][..3]);
                }
            }
            Some(Fault::BackKeepsGenerations) => tables.generations = before.generations,
            Some(Fault::BackClearsGivenUp) => tables.generations[old..present.triangles.len()].fill(0),
            Some(Fault::BackClearsVertices) => {
                tables.positions[3 * note.vertices as usize..3 * present.points.len()].fill(0);
            }
            _ => {}
        }
    }

    /// The counts that are answered: those of the note.
    fn counts_back(&self, counts: Counts, old: &Mesh) -> Counts {
        let restored = old.counts();
        match self.fault.0 {
            Some(Fault::BackKeepsCounts) => counts,
            Some(Fault::BackKeepsVertices) => Counts { vertices: counts.vertices, ..restored },
            Some(Fault::BackByRuleOne) => Counts { rule: HALF_UP, ..restored },
            _ => restored,
        }
    }
}

/// The tables with each link of the slots of a note put to the side that leads back to it.
fn mended(tables: &Tables, note: &Note) -> Tables {
    let mut mended = tables.clone();
    let sides = tables.links.len().min(3 * note.triangles as usize);
    for side in note.slots.iter().flat_map(|nine| 3 * nine[0]..3 * nine[0] + 3) {
        let back = tables.links[..sides].iter().position(|&link| link == side);
        mended.links[side as usize] = back.map_or(BOUNDARY, |back| back as u32);
    }
    mended
}
