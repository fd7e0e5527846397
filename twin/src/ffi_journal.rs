//! The library's calls that record and replay.

use crate::entry::Entry;
use crate::lent::{Lent, LentTables, SPARES, call};
use crate::rawplinth::*;
use crate::tables::{Answer, Bounds, Counts, Room};

/// A buffer for a record as it is lent.
fn lent_buffer(buffer: &[u8]) -> Lent<u8> {
    Lent::new("record buffer", buffer, 0x64)
}

/// The header of a journal, in a buffer.
pub fn record_header(counts: Counts, [vertices, triangles]: [u32; 2], buffer: &mut [u8]) -> Result<Answer, String> {
    let mut lent = lent_buffer(buffer);
    // SAFETY: the pointer is to as many bytes as the length beside it says.
    let written = unsafe { rawplinth_record_header(lent.pointer(), lent.length, vertices, triangles) };
    lent.give_back(buffer)?;
    Ok(Answer { written, counts, ..Answer::default() })
}

/// The record of a change, in a buffer.
pub fn record(counts: Counts, entry: &Entry, buffer: &mut [u8]) -> Result<Answer, String> {
    let mut lent = lent_buffer(buffer);
    let (to, length) = (lent.pointer(), lent.length);
    // SAFETY: every pointer is to as many entries as the length beside it says, and no two overlap.
    let written = unsafe {
        match entry {
            Entry::Load { rule, cage } => {
                let mut bytes = Lent::new("cage", cage, 0xA5);
                let written = rawplinth_record_load(to, length, *rule, bytes.pointer(), bytes.length);
                bytes.unwritten(cage)?;
                written
            }
            Entry::Refine { triangle } => rawplinth_record_refine(to, length, *triangle),
            Entry::WholeStep => rawplinth_record_whole_step(to, length),
            Entry::List { list } => {
                let mut entries = Lent::new("list", list, !0);
                let written = rawplinth_record_list(to, length, entries.pointer(), entries.length);
                entries.unwritten(list)?;
                written
            }
            Entry::Box { bounds: Bounds { low, high }, below } => {
                let [low, high] = [low, high].map(|&[x, y, z]| Point { x, y, z });
                rawplinth_record_box(to, length, low, high, *below)
            }
            Entry::SetLock { triangle, on: true } => rawplinth_record_lock(to, length, *triangle),
            Entry::SetLock { triangle, on: false } => rawplinth_record_unlock(to, length, *triangle),
            Entry::TakeBack { note } => {
                let mut entries = Lent::new("note", note, !0);
                let written = rawplinth_record_take_back(to, length, entries.pointer(), entries.length);
                entries.unwritten(note)?;
                written
            }
        }
    };
    lent.give_back(buffer)?;
    Ok(Answer { written, counts, ..Answer::default() })
}

/// A replay. The spare tables and the numbers are not given back, as nothing is told of what they hold then; but beside
/// them nothing may be written.
pub fn replay(lent: &mut LentTables, counts: Counts, room: &Room, journal: &[u8], at: usize) -> Result<Answer, String> {
    let (mut spares, mut numbers) =
        (LentTables::new(SPARES, &room.spares), Lent::new("table of numbers", &room.numbers, 0x6565_6565));
    let mut bytes = Lent::new("journal", journal, 0xA6);
    let Replayed { counts, stop, refusal, records, end } = call!(
        rawplinth_replay, lent, counts; spares;
        numbers.pointer(), numbers.length, bytes.pointer(), bytes.length, at
    );
    bytes.unwritten(journal)?;
    let Room { spares: mut left, numbers: mut numbers_left, .. } = room.clone();
    spares.give_back(&mut left)?;
    numbers.give_back(&mut numbers_left)?;
    Ok(Answer { counts, stop, refusal, records, end, ..Answer::default() })
}
