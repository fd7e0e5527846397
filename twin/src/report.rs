//! Reports: the slots that splits and flips write, and the calls that are given a buffer for them.

use std::collections::HashSet;

use crate::conditions::Twin;
use crate::fault::Fault;
use crate::mesh::{Mesh, Operation};
use crate::tables::{Answer, Call, Counts, NOTE_ENTRIES, REPORT_ENTRIES, Store, Tables, refuse_unless};

/// What a call makes: its answer, and its report, which is empty but for calls that refine.
pub struct Made {
    pub answer: Answer,
    pub report: Vec<u32>,
}

impl From<Answer> for Made {
    fn from(answer: Answer) -> Made {
        Made { answer, report: Vec::new() }
    }
}

impl Mesh {
    /// The report of all that was made since it was read: the slots that splits and flips wrote, in the order of the
    /// work, repeats kept.
    pub fn report(&self) -> Vec<u32> {
        let slots = self.reported_operations().into_iter().flat_map(|operation| self.reported_slots(operation));
        let mut report: Vec<u32> = slots.map(|slot| slot as u32).collect();
        match self.fault.0 {
            Some(Fault::ReportOnce) => {
                let mut met = HashSet::new();
                report.retain(|slot| met.insert(*slot));
            }
            Some(Fault::ReportRising) => report.sort_unstable(),
            _ => {}
        }
        report
    }

    /// All splits and flips, with a fault not all, or in another order.
    fn reported_operations(&self) -> Vec<Operation> {
        let mut operations = self.operations.clone();
        let is_flip = |operation: &Operation| matches!(operation, Operation::Flip { .. });
        match self.fault.0 {
            Some(Fault::ReportWithoutFlips) => operations.retain(|operation| !is_flip(operation)),
            Some(Fault::ReportWithoutRim) => {
                operations.retain(|operation| !matches!(operation, Operation::RimSplit { .. }));
            }
            Some(Fault::ReportLastSplitAlone) => {
                let last = operations.iter().rposition(|operation| !is_flip(operation)).unwrap_or(0);
                operations.drain(..last);
            }
            Some(Fault::ReportLastSplitFirst) => operations.reverse(),
            Some(Fault::ReportFlipsLast) => operations.sort_by_key(is_flip),
            Some(Fault::ReportFlipsFirst) => {
                let each_with_flips = operations.chunk_by_mut(|_, next| is_flip(next));
                each_with_flips.for_each(|operations| operations.rotate_left(1));
            }
            _ => {}
        }
        operations
    }

    /// The slots that a split or a flip writes, with a fault not all, or in another order.
    fn reported_slots(&self, operation: Operation) -> Vec<usize> {
        let mut slots = operation.written();
        match (self.fault.0, operation) {
            (Some(Fault::ReportUFirst), Operation::Flip { .. }) => slots.reverse(),
            (Some(Fault::ReportWithoutS), Operation::Flip { .. }) => slots = slots.split_off(1),
            (Some(Fault::ReportWithoutU), Operation::Flip { .. }) => slots.truncate(1),
            (Some(Fault::ReportRimOwnLast), Operation::RimSplit { .. }) => slots.rotate_left(1),
            (_, Operation::Flip { .. }) => {}
            (Some(Fault::ReportNewFirst), _) => slots.rotate_left(1),
            (Some(Fault::ReportNewExchanged), _) => slots.swap(1, 2),
            (Some(Fault::ReportWithoutOwn), _) => slots = slots.split_off(1),
            (Some(Fault::ReportWithoutNew), _) => slots.truncate(1),
            _ => {}
        }
        slots
    }
}

impl Twin {
    /// A call with a report: what refuses it without one, then 23. The report is written to the first entries of the
    /// buffer if nothing does.
    pub fn reported(&self, store: &mut Store, call: &Call) -> Result<Answer, u32> {
        let mut after = store.clone();
        let made = self.make(&mut after, call);
        let refusal = made.as_ref().map_or_else(|refusal| *refusal, |made| made.answer.refusal);
        refuse_unless(!self.report_refused_early(store, call, refusal), 23)?;
        if refusal != 0 && self.fault.has(Fault::ReportOnRefusal) {
            for report in [&mut store.room.report, &mut after.room.report] {
                report.iter_mut().take(1).for_each(clear);
            }
        }
        let Made { answer, report } = made?;
        let report = self.changed_report(report, call, [store, &after]);
        let tested = refusal == 0 || self.fault.has(Fault::ReportBeforeFailure);
        if tested && !self.report_has_room(store.room.report.len(), &report, call) {
            return Ok(self.report_refused(store, after, call, answer, &report));
        }
        let before = std::mem::replace(store, after);
        match self.fault.0 {
            Some(Fault::ReportedLeavesMesh) => store.tables = before.tables,
            Some(Fault::ReportedWithoutNote) => store.room.note = before.room.note,
            Some(Fault::ReportedKeepsSpares) => store.room.spares = before.room.spares,
            _ => {}
        }
        if refusal != 0 && !self.fault.has(Fault::FailedListTold) {
            return Ok(answer);
        }
        let reported = self.write_report(&mut store.room.report, &report, call);
        Ok(Answer { reported, ..answer })
    }

    /// Whether a fault finds 23 before the number that a call is refused with: by what would be reported if that did
    /// not hold, or by a buffer of no entries, which is too short for every refine.
    fn report_refused_early(&self, store: &Store, call: &Call, refusal: u32) -> bool {
        if refusal == 0 {
            return false;
        }
        let entries = store.room.report.len();
        let mut easier = store.clone();
        match (self.fault.0, refusal) {
            (Some(Fault::ReportBeforeTables), 1)
            | (Some(Fault::ReportBeforeSound), 7)
            | (Some(Fault::ReportBeforeUse), 8)
            | (Some(Fault::ReportBeforeGeneration), 9)
            | (Some(Fault::ReportBeforeBox), 18) => return entries == 0,
            (Some(Fault::ReportBeforeNote), 22) => easier.room.note = vec![0; NOTE_ENTRIES],
            (Some(Fault::ReportBeforeLocks), 19) => easier.tables.locks.fill(0),
            (Some(Fault::ReportBeforeSpares), 17) => easier.room.spares = easier.tables.clone(),
            (Some(Fault::ReportBeforeRoom), 11) => {
                widen(&mut easier.tables);
                easier.room.spares = easier.tables.clone();
            }
            _ => return false,
        }
        let made = Twin::UNBROKEN.make(&mut easier, call);
        made.is_ok_and(|made| entries < made.report.len())
    }

    /// The report, with a fault another.
    fn changed_report(&self, mut report: Vec<u32>, call: &Call, [before, after]: [&Store; 2]) -> Vec<u32> {
        let preview = matches!(call, Call::Preview { .. });
        match self.fault.0 {
            Some(Fault::ReportWithLinksAlone) => {
                let links = |store: &Store, slot: usize| store.tables.links[3 * slot..][..3].to_vec();
                let moved = (0..before.triangles()).filter(|&slot| links(before, slot) != links(after, slot));
                let more: Vec<u32> = moved.map(|slot| slot as u32).filter(|slot| !report.contains(slot)).collect();
                report.extend(more);
            }
            Some(Fault::PreviewReportsNothing) if preview => report.clear(),
            Some(Fault::PreviewReportWithoutLast) if preview => drop(report.pop()),
            _ => {}
        }
        report
    }

    /// The opposite of condition 23.
    fn report_has_room(&self, entries: usize, report: &[u32], call: &Call) -> bool {
        let wanted = report.len();
        match self.fault.0 {
            Some(Fault::ReportShortByOne) => entries + 1 >= wanted,
            Some(Fault::ReportExactRefused) => entries > wanted,
            Some(Fault::ReportLongerRefused) => entries == wanted,
            Some(Fault::ReportForAllWanted) => entries >= REPORT_ENTRIES,
            Some(Fault::ReportRoomForEachOnce) => entries >= report.iter().collect::<HashSet<_>>().len(),
            Some(Fault::EmptyReportIsNone) => entries >= wanted || entries == 0,
            Some(Fault::EmptyReportRefused) => entries >= wanted && entries > 0,
            Some(Fault::ShortPreviewPasses) if matches!(call, Call::Preview { .. }) => true,
            _ => entries >= wanted,
        }
    }

    /// Refuses with 23: the mesh stands, and so do the note and the report. Spare tables are left as after success, and
    /// answered so.
    fn report_refused(&self, store: &mut Store, after: Store, call: &Call, done: Answer, report: &[u32]) -> Answer {
        let Counts { vertices, triangles, .. } = store.counts;
        let foreseen = if matches!(call, Call::Preview { .. }) { [vertices, triangles] } else { [0; 2] };
        let Answer { handled, spares, .. } = done;
        let answer = Answer { refusal: 23, counts: store.counts, handled, spares, foreseen, ..Answer::default() };
        let Store { tables, room, .. } = after;
        match self.fault.0 {
            Some(Fault::ShortReportRefines) => store.tables = tables,
            Some(Fault::ShortReportNoted) => store.room.note = room.note,
            Some(Fault::ShortReportFilled) => {
                store.room.report.iter_mut().zip(report).for_each(|(entry, &slot)| *entry = slot);
            }
            _ => {}
        }
        if !self.fault.has(Fault::ShortReportKeepsSpares) {
            store.room.spares = room.spares;
        }
        match self.fault.0 {
            Some(Fault::ShortReportTellsWork) => Answer { splits: done.splits, flips: done.flips, ..answer },
            Some(Fault::ShortReportTellsLength) => Answer { reported: report.len() as u32, ..answer },
            Some(Fault::ShortReportHandlesNone) => Answer { handled: 0, ..answer },
            Some(Fault::ShortReportCountsMesh) if handled > 0 => Answer { spares: store.counts, ..answer },
            Some(Fault::ShortPreviewForesees) => Answer { foreseen: done.foreseen, ..answer },
            _ => answer,
        }
    }

    /// Writes a report to the first entries of its buffer. Answers its length.
    fn write_report(&self, buffer: &mut [u32], report: &[u32], call: &Call) -> u32 {
        let (room, length) = (buffer.len() as u32, report.len() as u32);
        if !(self.fault.has(Fault::PreviewReportUnwritten) && matches!(call, Call::Preview { .. })) {
            buffer.iter_mut().zip(report).for_each(|(entry, &slot)| *entry = slot);
        }
        let rest = buffer.get_mut(report.len()..).unwrap_or_default();
        match self.fault.0 {
            Some(Fault::ReportPastLast) => rest.iter_mut().take(1).for_each(clear),
            Some(Fault::ReportClearsRest) => rest.fill(0),
            Some(Fault::ReportedOneOver) => return length + 1,
            Some(Fault::ReportedAsRoom) => return room,
            _ => {}
        }
        length
    }
}

fn clear(entry: &mut u32) {
    *entry = 0;
}

/// Gives tables slots for every refine.
fn widen(tables: &mut Tables) {
    let [vertex_slots, triangle_slots] = tables.slots().map(|slots| slots + 24);
    tables.positions.resize(3 * vertex_slots, 0);
    tables.corners.resize(3 * triangle_slots, 0);
    tables.links.resize(3 * triangle_slots, 0);
    tables.generations.resize(triangle_slots, 0);
    tables.locks.resize(triangle_slots, 0);
}
