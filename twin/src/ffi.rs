//! The library under test, through its C interface.

use crate::ffi_journal::{record, record_header, replay};
use crate::lent::{Lent, LentTables, MESH, SPARES, call};
use crate::rawplinth::*;
use crate::tables::{Answer, Bounds, Call, Room, Service, Store};

impl From<Worked> for Answer {
    fn from(Worked { refusal, splits, flips, counts }: Worked) -> Answer {
        Answer { refusal, splits, flips, counts, ..Answer::default() }
    }
}

impl From<RingRead> for Answer {
    fn from(RingRead { refusal, length, counts }: RingRead) -> Answer {
        Answer { refusal, length, counts, ..Answer::default() }
    }
}

impl From<PositionRead> for Answer {
    fn from(PositionRead { refusal, x, y, z, counts }: PositionRead) -> Answer {
        Answer { refusal, point: [x, y, z], counts, ..Answer::default() }
    }
}

impl From<LimitRead> for Answer {
    fn from(LimitRead { refusal, counts }: LimitRead) -> Answer {
        Answer { refusal, counts, ..Answer::default() }
    }
}

impl From<RimRead> for Answer {
    fn from(RimRead { refusal, length, counts }: RimRead) -> Answer {
        Answer { refusal, length, counts, ..Answer::default() }
    }
}

/// Without the counts, which a point does not answer.
impl From<PointSeen> for Answer {
    fn from(PointSeen { refusal, x, y, z }: PointSeen) -> Answer {
        Answer { refusal, seen: [x, y, z].map(f32::to_bits), ..Answer::default() }
    }
}

impl From<Shown> for Answer {
    fn from(Shown { refusal, counts }: Shown) -> Answer {
        Answer { refusal, counts, ..Answer::default() }
    }
}

impl From<BatchWorked> for Answer {
    fn from(BatchWorked { refusal, splits, flips, counts, handled, spares }: BatchWorked) -> Answer {
        Answer { refusal, splits, flips, counts, handled, spares, ..Answer::default() }
    }
}

/// Without the counts, which a preview does not answer.
impl From<BatchForeseen> for Answer {
    fn from(foreseen: BatchForeseen) -> Answer {
        let BatchForeseen { refusal, splits, flips, foreseen_vertices, foreseen_triangles, handled, spares } = foreseen;
        let foreseen = [foreseen_vertices, foreseen_triangles];
        Answer { refusal, splits, flips, foreseen, handled, spares, ..Answer::default() }
    }
}

impl From<Reported> for Answer {
    fn from(Reported { worked, reported }: Reported) -> Answer {
        Answer { reported, ..worked.into() }
    }
}

impl From<BatchReported> for Answer {
    fn from(BatchReported { worked, reported }: BatchReported) -> Answer {
        Answer { reported, ..worked.into() }
    }
}

impl From<ForeseenReported> for Answer {
    fn from(ForeseenReported { foreseen, reported }: ForeseenReported) -> Answer {
        Answer { reported, ..foreseen.into() }
    }
}

/// The answer of a call with a report.
fn reported(lent: &mut LentTables, counts: Counts, plain: &Call, room: &mut Room) -> Result<Answer, String> {
    let mut report = Lent::new("report buffer", &room.report, 0x6262_6262);
    let (buffer, entries) = (report.pointer(), report.length);
    let mut spares = LentTables::new(SPARES, &room.spares);
    let answer = match plain {
        &Call::Refine { triangle } => call!(rawplinth_refine_reported, lent, counts, triangle, buffer, entries).into(),
        &Call::RefineNoted { triangle } => {
            let mut note = Lent::new("note", &room.note, 0x6060_6060);
            let (first, length) = (note.pointer(), note.length);
            let made = call!(rawplinth_refine_noted_reported, lent, counts, triangle, first, length, buffer, entries);
            note.give_back(&mut room.note)?;
            made.into()
        }
        Call::RefineList { list } => {
            let mut listed = Lent::new("list", list, !0);
            let (first, length) = (listed.pointer(), listed.length);
            let made = call!(rawplinth_refine_list_reported, lent, counts, first, length, buffer, entries; spares);
            listed.unwritten(list)?;
            made.into()
        }
        Call::Preview { list } => {
            let mut listed = Lent::new("list", list, !0);
            let (first, length) = (listed.pointer(), listed.length);
            let foreseen = call!(rawplinth_preview_reported, lent, counts, first, length, buffer, entries; spares);
            listed.unwritten(list)?;
            Answer { counts, ..foreseen.into() }
        }
        &Call::RefineBox { bounds: Bounds { low, high }, below } => {
            let [low, high] = [low, high].map(|[x, y, z]| Point { x, y, z });
            call!(rawplinth_refine_box_reported, lent, counts, low, high, below, buffer, entries; spares).into()
        }
        other => panic!("{other:?} has no report"),
    };
    spares.give_back(&mut room.spares)?;
    report.give_back(&mut room.report)?;
    Ok(answer)
}

/// The library under test. Its calls get copies of what is lent, with guard entries around them.
pub struct Library;

impl Service for Library {
    fn name(&self) -> String {
        "library".to_string()
    }

    fn answer(&self, store: &mut Store, call: &Call) -> Result<Answer, String> {
        let Store { tables, counts, room } = store;
        let mut lent = LentTables::new(MESH, tables);
        let answer: Answer = match call {
            Call::Load { rule, cage } => {
                let mut bytes = Lent::new("cage", cage, 0xA5);
                let worked = call!(rawplinth_load, lent, *counts, *rule, bytes.pointer(), bytes.length);
                bytes.unwritten(cage)?;
                worked.into()
            }
            Call::Refine { triangle } => call!(rawplinth_refine, lent, *counts, *triangle).into(),
            Call::RefineNoted { triangle } => {
                let mut note = Lent::new("note", &room.note, 0x6060_6060);
                let worked = call!(rawplinth_refine_noted, lent, *counts, *triangle, note.pointer(), note.length);
                note.give_back(&mut room.note)?;
                worked.into()
            }
            Call::TakeBack => {
                let mut note = Lent::new("note", &room.note, 0x6161_6161);
                let worked = call!(rawplinth_take_back, lent, *counts, note.pointer(), note.length);
                note.unwritten(&room.note)?;
                worked.into()
            }
            Call::WholeStep => call!(rawplinth_whole_step, lent, *counts).into(),
            Call::SetLock { triangle, on: true } => call!(rawplinth_lock, lent, *counts, *triangle).into(),
            Call::SetLock { triangle, on: false } => call!(rawplinth_unlock, lent, *counts, *triangle).into(),
            Call::Ring { vertex } => {
                let mut buffer = Lent::new("ring buffer", &room.ring, 0x5E5E_5E5E);
                let read = call!(rawplinth_ring, lent, *counts, *vertex, buffer.pointer(), buffer.length);
                buffer.give_back(&mut room.ring)?;
                read.into()
            }
            Call::Position { vertex } => call!(rawplinth_position, lent, *counts, *vertex).into(),
            Call::Limit => {
                let mut table = Lent::new("limit table", &room.table, 0x5F5F_5F5F);
                let read = call!(rawplinth_limit, lent, *counts, table.pointer(), table.length);
                table.give_back(&mut room.table)?;
                read.into()
            }
            Call::RimCurve { vertex } => {
                let mut table = Lent::new("curve table", &room.curve, 0x6363_6363);
                let read = call!(rawplinth_rim_curve, lent, *counts, *vertex, table.pointer(), table.length);
                table.give_back(&mut room.curve)?;
                read.into()
            }
            Call::ViewPoint { vertex } => {
                let seen = call!(rawplinth_view_point, lent, *counts, *vertex);
                Answer { counts: *counts, ..seen.into() }
            }
            Call::ViewTriangles => {
                // The guard is no number, with bits that a quiet one does not have.
                let mut table = Lent::new("view table", &room.view, 0x7FA5_A5A5);
                let numbers = table.pointer().cast::<f32>();
                let shown = call!(rawplinth_view_triangles, lent, *counts, numbers, table.length);
                table.give_back(&mut room.view)?;
                shown.into()
            }
            Call::RefineList { list } | Call::Preview { list } => {
                let (mut entries, mut spares) = (Lent::new("list", list, !0), LentTables::new(SPARES, &room.spares));
                let (pointer, length) = (entries.pointer(), entries.length);
                let answer = if matches!(call, Call::RefineList { .. }) {
                    call!(rawplinth_refine_list, lent, *counts, pointer, length; spares).into()
                } else {
                    let foreseen = call!(rawplinth_preview, lent, *counts, pointer, length; spares);
                    Answer { counts: *counts, ..foreseen.into() }
                };
                entries.unwritten(list)?;
                spares.give_back(&mut room.spares)?;
                answer
            }
            Call::RefineBox { bounds: Bounds { low, high }, below } => {
                let mut spares = LentTables::new(SPARES, &room.spares);
                let [low, high] = [low, high].map(|&[x, y, z]| Point { x, y, z });
                let worked = call!(rawplinth_refine_box, lent, *counts, low, high, *below; spares);
                spares.give_back(&mut room.spares)?;
                worked.into()
            }
            Call::Reported(plain) => reported(&mut lent, *counts, plain, room)?,
            Call::RecordHeader { slots } => record_header(*counts, *slots, &mut room.record)?,
            Call::Record(entry) => record(*counts, entry, &mut room.record)?,
            Call::Replay { journal, at } => replay(&mut lent, *counts, room, journal, *at)?,
        };
        lent.give_back(tables)?;
        *counts = answer.counts;
        Ok(answer)
    }
}
