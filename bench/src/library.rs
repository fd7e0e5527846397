//! The library's calls, through its C interface.

use crate::rawplinth::*;
use crate::tables::{Answer, Call, Lent, Panel, Refining};

/// A call of the function named, with the five tables as pointers and lengths, then the counts, then what follows, and
/// the spare tables after a semicolon, and what comes after these after another.
macro_rules! call {
    ($function:ident, $lent:ident $(, $argument:expr)* $(; $spares:expr $(; $($last:expr),*)?)?) => {{
        let (tables, counts) = (&mut $lent.tables, $lent.counts);
        // SAFETY: every pointer is to as many entries as the length beside it says, and no two overlap.
        unsafe {
            $function(
                tables.positions.as_mut_ptr(),
                tables.positions.len(),
                tables.corners.as_mut_ptr(),
                tables.corners.len(),
                tables.links.as_mut_ptr(),
                tables.links.len(),
                tables.generations.as_mut_ptr(),
                tables.generations.len(),
                tables.locks.as_mut_ptr(),
                tables.locks.len(),
                counts
                $(, $argument)*
                $(,
                    $spares.positions.as_mut_ptr(),
                    $spares.positions.len(),
                    $spares.corners.as_mut_ptr(),
                    $spares.corners.len(),
                    $spares.links.as_mut_ptr(),
                    $spares.links.len(),
                    $spares.generations.as_mut_ptr(),
                    $spares.generations.len(),
                    $spares.locks.as_mut_ptr(),
                    $spares.locks.len()
                    $($(, $last)*)?
                )?
            )
        }
    }};
}

pub fn answer(lent: &mut Lent, call: Call) -> Answer {
    match call {
        Call::Load(rule) => Answer::Worked(call!(rawplinth_load, lent, rule, lent.cage.as_ptr(), lent.cage.len())),
        Call::Refine(triangle) => Answer::Worked(call!(rawplinth_refine, lent, triangle)),
        Call::RefineNoted(triangle) => {
            Answer::Worked(call!(rawplinth_refine_noted, lent, triangle, lent.note.as_mut_ptr(), lent.note.len()))
        }
        Call::TakeBack => Answer::Worked(call!(rawplinth_take_back, lent, lent.note.as_ptr(), lent.note.len())),
        Call::WholeStep => Answer::Worked(call!(rawplinth_whole_step, lent)),
        Call::Lock(triangle) => Answer::Worked(call!(rawplinth_lock, lent, triangle)),
        Call::Unlock(triangle) => Answer::Worked(call!(rawplinth_unlock, lent, triangle)),
        Call::Ring(vertex) => {
            Answer::Ring(call!(rawplinth_ring, lent, vertex, lent.buffer.as_mut_ptr(), lent.buffer.len()))
        }
        Call::Position(vertex) => Answer::Position(call!(rawplinth_position, lent, vertex)),
        Call::Limit => Answer::Limit(call!(rawplinth_limit, lent, lent.table.as_mut_ptr(), lent.table.len())),
        Call::RimCurve(vertex) => {
            Answer::Rim(call!(rawplinth_rim_curve, lent, vertex, lent.table.as_mut_ptr(), lent.table.len()))
        }
        Call::ViewPoint(vertex) => Answer::Seen(call!(rawplinth_view_point, lent, vertex)),
        Call::ViewTriangles => {
            Answer::Shown(call!(rawplinth_view_triangles, lent, lent.view.as_mut_ptr(), lent.view.len()))
        }
        Call::RefineList => {
            Answer::List(call!(rawplinth_refine_list, lent, lent.list.as_ptr(), lent.list.len(); lent.spares))
        }
        Call::Preview => {
            Answer::Preview(call!(rawplinth_preview, lent, lent.list.as_ptr(), lent.list.len(); lent.spares))
        }
        Call::RefineBox(Panel { low, high, below }) => {
            Answer::List(call!(rawplinth_refine_box, lent, low, high, below; lent.spares))
        }
        Call::Reported(refining) => reported(lent, refining),
        Call::RefineEach => Answer::Worked(one_by_one(lent)),
        Call::RecordLoad(rule) => {
            let (buffer, length) = (lent.record.as_mut_ptr(), lent.record.len());
            // SAFETY: both pointers are to as many bytes as the lengths beside them say, and they do not overlap.
            Answer::Recorded(unsafe {
                rawplinth_record_load(buffer, length, rule, lent.cage.as_ptr(), lent.cage.len())
            })
        }
        Call::RecordRefine(triangle) => {
            let (buffer, length) = (lent.record.as_mut_ptr(), lent.record.len());
            // SAFETY: the pointer is to as many bytes as the length beside it says.
            Answer::Recorded(unsafe { rawplinth_record_refine(buffer, length, triangle) })
        }
        Call::Replay => Answer::Replayed(call!(
            rawplinth_replay, lent; lent.spares;
            lent.numbers.as_mut_ptr(), lent.numbers.len(), lent.journal.as_ptr(), lent.journal.len(), 0
        )),
    }
}

/// Refines the triangles of the list by a call each, and answers the sums; the counts that are lent stand.
fn one_by_one(lent: &mut Lent) -> Worked {
    let mut sums = Worked { counts: lent.counts, ..Worked::default() };
    let before = lent.counts;
    for i in 0..lent.list.len() {
        let worked = call!(rawplinth_refine, lent, lent.list[i]);
        lent.counts = worked.counts;
        sums = Worked { splits: sums.splits + worked.splits, flips: sums.flips + worked.flips, ..worked };
    }
    lent.counts = before;
    sums
}

/// The calls with a report.
fn reported(lent: &mut Lent, refining: Refining) -> Answer {
    let (list, list_length) = (lent.list.as_ptr(), lent.list.len());
    let (note, note_length) = (lent.note.as_mut_ptr(), lent.note.len());
    let (report, length) = (lent.report.as_mut_ptr(), lent.report.len());
    match refining {
        Refining::Triangle(t) => Answer::Reported(call!(rawplinth_refine_reported, lent, t, report, length)),
        Refining::Noted(t) => {
            Answer::Reported(call!(rawplinth_refine_noted_reported, lent, t, note, note_length, report, length))
        }
        Refining::List => Answer::ListReported(
            call!(rawplinth_refine_list_reported, lent, list, list_length, report, length; lent.spares),
        ),
        Refining::Preview => Answer::PreviewReported(
            call!(rawplinth_preview_reported, lent, list, list_length, report, length; lent.spares),
        ),
        Refining::Box(Panel { low, high, below }) => Answer::ListReported(
            call!(rawplinth_refine_box_reported, lent, low, high, below, report, length; lent.spares),
        ),
    }
}
