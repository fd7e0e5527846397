//! Calls that report the slots whose corners or generation they write.

use super::boxes::refine_inside;
use super::list::{make, refine_each, work_off};
use super::note::{changing, write};
use super::split::{Wrote, carry_out, planned};
use super::{starts, work_refusal};
use crate::tables::{
    Answer, BatchForeseen, BatchReported, BatchWorked, Counts, ForeseenReported, Lent, Panel, Refining, Reported,
    Tables, Worked,
};

pub fn answer(lent: &mut Lent, refining: Refining) -> Answer {
    let Lent { tables, counts, note, report, list, spares, .. } = lent;
    match refining {
        Refining::Triangle(t) => Answer::Reported(fast_refine_reported(tables, *counts, t, report)),
        Refining::Noted(t) => Answer::Reported(fast_refine_noted_reported(tables, *counts, t, note, report)),
        Refining::List => Answer::ListReported(fast_refine_list_reported(tables, *counts, list, report, spares)),
        Refining::Preview => Answer::PreviewReported(fast_preview_reported(tables, *counts, list, report, spares)),
        Refining::Box(panel) => Answer::ListReported(fast_refine_box_reported(tables, *counts, panel, report, spares)),
    }
}

#[unsafe(no_mangle)]
#[inline(never)]
fn fast_refine_reported(tables: &mut Tables, counts: Counts, triangle: u32, report: &mut [u32]) -> Reported {
    match starts(tables, counts).and_then(|_| refine(tables, counts, triangle, None, report)) {
        Ok(reported) => reported,
        Err(refusal) => Reported { worked: Worked { refusal, counts, ..Worked::default() }, reported: 0 },
    }
}

#[unsafe(no_mangle)]
#[inline(never)]
fn fast_refine_noted_reported(
    tables: &mut Tables,
    counts: Counts,
    triangle: u32,
    note: &mut [u32],
    report: &mut [u32],
) -> Reported {
    match starts(tables, counts).and_then(|_| refine(tables, counts, triangle, Some(note), report)) {
        Ok(reported) => reported,
        Err(refusal) => Reported { worked: Worked { refusal, counts, ..Worked::default() }, reported: 0 },
    }
}

#[unsafe(no_mangle)]
#[inline(never)]
fn fast_refine_list_reported(
    tables: &mut Tables,
    counts: Counts,
    list: &[u32],
    report: &mut [u32],
    spares: &mut Tables,
) -> BatchReported {
    if let Some(refusal) = work_refusal(tables, counts, spares, true) {
        return BatchReported { worked: BatchWorked { refusal, counts, ..BatchWorked::default() }, reported: 0 };
    }
    let mut told = Told::new(report);
    let worked = make(tables, counts, spares, |tables, spares, done| {
        let done = refine_each(tables, list, spares, done, &mut |wrote| told.tell(&wrote));
        told.write(done)
    });
    told.answer(worked)
}

#[unsafe(no_mangle)]
#[inline(never)]
fn fast_preview_reported(
    tables: &Tables,
    counts: Counts,
    list: &[u32],
    report: &mut [u32],
    spares: &mut Tables,
) -> ForeseenReported {
    if let Some(refusal) = work_refusal(tables, counts, spares, true) {
        return foreseen(BatchReported {
            worked: BatchWorked { refusal, counts, ..BatchWorked::default() },
            reported: 0,
        });
    }
    let mut told = Told::new(report);
    let worked = work_off(tables, counts, spares, |tables, spares, done| {
        let done = refine_each(tables, list, spares, done, &mut |wrote| told.tell(&wrote));
        told.write(done)
    });
    foreseen(told.answer(worked))
}

#[unsafe(no_mangle)]
#[inline(never)]
fn fast_refine_box_reported(
    tables: &mut Tables,
    counts: Counts,
    panel: Panel,
    report: &mut [u32],
    spares: &mut Tables,
) -> BatchReported {
    if let Some(refusal) = work_refusal(tables, counts, spares, panel.is_good()) {
        return BatchReported { worked: BatchWorked { refusal, counts, ..BatchWorked::default() }, reported: 0 };
    }
    let mut told = Told::new(report);
    let worked = make(tables, counts, spares, |_, spares, done| {
        let done = refine_inside(panel, spares, done, &mut |wrote| told.tell(wrote));
        told.write(done)
    });
    told.answer(worked)
}

impl Wrote {
    fn slots(&self) -> &[usize] {
        match self {
            Wrote::Split(slots) => slots,
            Wrote::Flip(pair) => pair,
        }
    }
}

/// Refines a triangle of sound tables with a report, and with a note if one is lent, or refuses with 8, 9, 19, 11, 22
/// or 23.
fn refine(
    tables: &mut Tables,
    counts: Counts,
    t: u32,
    note: Option<&mut [u32]>,
    report: &mut [u32],
) -> Result<Reported, u32> {
    let plan = planned(tables, counts, t)?;
    let noted = match note {
        Some(note) => {
            let slots = changing(tables, t as usize, &plan);
            Some((note.get_mut(..4 + 9 * slots.len()).ok_or(22u32)?, slots))
        }
        None => None,
    };
    let report = report.get_mut(..plan.report_length(tables)).ok_or(23u32)?;
    if let Some((note, slots)) = noted {
        write(tables, counts, t, &slots, note);
    }
    let reported = report.len() as u32;
    let mut entries = report.iter_mut();
    let mut tell = |wrote: Wrote| {
        for (&slot, entry) in wrote.slots().iter().zip(&mut entries) {
            *entry = slot as u32;
        }
    };
    Ok(Reported { worked: carry_out(tables, counts, t, &plan, &mut tell), reported })
}

/// The report of work in spare tables, collected until it is known to be carried out.
struct Told<'a> {
    slots: Vec<u32>,
    report: &'a mut [u32],
}

impl Told<'_> {
    fn new(report: &mut [u32]) -> Told<'_> {
        Told { slots: Vec::new(), report }
    }

    fn tell(&mut self, wrote: &Wrote) {
        self.slots.extend(wrote.slots().iter().map(|&slot| slot as u32));
    }

    /// Writes the report of work that did not fail, or refuses it with 23.
    fn write(&mut self, done: BatchWorked) -> BatchWorked {
        match self.report.get_mut(..self.slots.len()) {
            _ if done.refusal != 0 => done,
            None => BatchWorked { refusal: 23, ..done },
            Some(front) => {
                front.copy_from_slice(&self.slots);
                done
            }
        }
    }

    fn answer(self, worked: BatchWorked) -> BatchReported {
        let reported = if worked.refusal == 0 { self.slots.len() as u32 } else { 0 };
        BatchReported { worked, reported }
    }
}

/// What a preview answers where its list would be answered this.
fn foreseen(listed: BatchReported) -> ForeseenReported {
    let BatchWorked { refusal, splits, flips, counts, handled, spares } = listed.worked;
    let Counts { vertices: foreseen_vertices, triangles: foreseen_triangles, .. } = counts;
    let foreseen = BatchForeseen { refusal, splits, flips, foreseen_vertices, foreseen_triangles, handled, spares };
    ForeseenReported { foreseen, reported: listed.reported }
}
