//! Refine list, preview and refine box: the calls that work in spare tables.

use crate::conditions::Twin;
use crate::fault::{Fault, Seeded};
use crate::refine::{Handled, handle, refine_inside};
use crate::report::Made;
use crate::split::Work;
use crate::tables::{Answer, Bounds, Counts, FARTHEST, LAST_GENERATION, Tables, refuse_unless};

/// What is refined in spare tables: the triangles of a list, or those below a generation with a corner in a box.
pub enum Job<'a> {
    List(&'a [u32]),
    Box(&'a Bounds, u32),
}

impl Twin {
    /// Refine list and refine box: 1, 17, for a box 18, 7, then what the first entry or refine that fails fails with.
    /// The mesh is written if none does.
    pub fn refine_each(&self, tables: &mut Tables, counts: Counts, job: Job, spares: &mut Tables) -> Result<Made, u32> {
        let done = self.work_in_spares(tables, counts, job, spares)?;
        let failed = done.refusal != 0;
        if !failed || self.fault.has(Fault::FailedListWrites) {
            self.write(&done.mesh, tables, Fault::LocksNotCopiedBack, 0);
        }
        if !failed && self.fault.has(Fault::CopiedBackWhole) {
            tables.clone_from(spares);
        }
        let Work { splits, flips } =
            if failed && !self.fault.has(Fault::FailedListReports) { Work::default() } else { done.work };
        let handled = done.entries + usize::from(failed && self.fault.has(Fault::FailingEntryCounted));
        let counts = if failed { counts } else { done.mesh.counts() };
        let spares = self.fault.unless(Fault::SparesCountedAsMesh, done.mesh.counts(), counts);
        let answer = Answer { refusal: done.refusal, splits, flips, counts, handled, spares, ..Answer::default() };
        Ok(Made { answer, report: done.mesh.report() })
    }

    /// Preview: what refine list would answer, with its V and F as foreseen, and the spare tables as it would leave
    /// them. The mesh stands, and its counts.
    pub fn preview(&self, tables: &mut Tables, counts: Counts, list: &[u32], spares: &mut Tables) -> Made {
        let (mut meanwhile, lent) = (tables.clone(), spares.clone());
        let made = self.in_preview().refine_each(&mut meanwhile, counts, Job::List(list), spares);
        let worked = made.is_ok();
        let refused = |refusal| Made::from(Answer { refusal, counts, ..Answer::default() });
        let Made { answer: made, report } = made.unwrap_or_else(refused);
        if self.fault.has(Fault::PreviewWrites) {
            *tables = meanwhile;
        }
        if self.fault.has(Fault::PreviewFillsNewAlone) && worked {
            spares.take_over(&lent, counts);
        }
        let Counts { vertices, triangles, .. } = self.fault.unless(Fault::PreviewOfOldCounts, made.counts, counts);
        let counts = self.fault.unless(Fault::PreviewCountsTaken, counts, made.counts);
        Made { answer: Answer { foreseen: [vertices, triangles], counts, ..made }, report }
    }

    /// The twin that lists are previewed with: the same, but for faults of previews alone.
    fn in_preview(&self) -> Twin {
        let fault = match self.fault.0 {
            Some(Fault::PreviewOfLastEntry) => Some(Fault::LastEntryReported),
            Some(Fault::FailedPreviewKeepsSpares) => Some(Fault::FailedListKeepsSpares),
            fault => fault,
        };
        Twin { fault: Seeded(fault) }
    }

    /// The twin that boxes are refined with: the same, but for faults of boxes alone.
    pub fn in_box(&self) -> Twin {
        let fault = match self.fault.0 {
            Some(Fault::LastRefineReported) => Some(Fault::LastEntryReported),
            Some(Fault::FailedBoxWrites) => Some(Fault::FailedListWrites),
            Some(Fault::FailedBoxKeepsSpares) => Some(Fault::FailedListKeepsSpares),
            Some(Fault::FailedBoxReports) => Some(Fault::FailedListReports),
            Some(Fault::FailingRefineCounted) => Some(Fault::FailingEntryCounted),
            Some(Fault::EmptyBoxKeepsSpares) => Some(Fault::EmptyListKeepsSpares),
            Some(Fault::BoxReportsLastAlone) => Some(Fault::ListReportsLastAlone),
            fault => fault,
        };
        Twin { fault: Seeded(fault) }
    }

    /// Handles a list or a box, after 1, 17, 18 and 7. The slots in use of the spare tables then hold the mesh after
    /// the last entry or refine that succeeded, whether or not another failed, and their other slots keep their
    /// content.
    fn work_in_spares(&self, tables: &Tables, counts: Counts, job: Job, spares: &mut Tables) -> Result<Handled, u32> {
        let (sizes_fit, job_fits) = (self.sizes_fit(spares, tables), self.job_fits(&job));
        refuse_unless(sizes_fit || !self.fault.has(Fault::SparesBeforeTables), 17)?;
        refuse_unless(job_fits || !self.fault.has(Fault::BoxBeforeTables), 18)?;
        refuse_unless(self.tables_agree(tables), 1)?;
        refuse_unless(job_fits || !self.fault.has(Fault::BoxBeforeSpares), 18)?;
        refuse_unless(sizes_fit || self.fault.has(Fault::SoundBeforeSpares), 17)?;
        refuse_unless(job_fits || self.fault.has(Fault::SoundBeforeBox), 18)?;
        let start = self.sound_mesh(tables, counts)?;
        refuse_unless(sizes_fit, 17)?;
        refuse_unless(job_fits, 18)?;
        let as_whole = match job {
            Job::List(_) => Fault::LockedListRefused,
            Job::Box(..) => Fault::LockedBoxRefused,
        };
        refuse_unless(!(start.has_locked() && self.fault.has(as_whole)), 19)?;
        let done = match job {
            Job::List(list) => handle(&start, list, tables.slots()),
            Job::Box(bounds, below) => refine_inside(&start, bounds, below, tables.slots()),
        };
        let left_alone = done.refusal != 0 && self.fault.has(Fault::FailedListKeepsSpares)
            || done.refusal == 0 && done.entries == 0 && self.fault.has(Fault::EmptyListKeepsSpares);
        if self.fault.has(Fault::SparesFilledWhole) {
            spares.clone_from(tables);
        }
        if !left_alone {
            self.write(&done.mesh, spares, Fault::LocksNotCopied, 0);
        }
        Ok(done)
    }

    /// The opposite of condition 17: each spare table is as long as the mesh's.
    fn sizes_fit(&self, spares: &Tables, tables: &Tables) -> bool {
        let untested = match self.fault.0 {
            Some(Fault::SpareLinksUntested) => 2,
            Some(Fault::SpareLocksUntested) => 4,
            _ => 5,
        };
        let lengths = spares.lengths().into_iter().zip(tables.lengths()).enumerate();
        lengths.filter(|(table, _)| *table != untested).all(|(_, (spare, length))| spare == length)
    }

    /// The opposite of condition 18: the low corner of a box is nowhere above the high one, nor the generation above
    /// the last.
    fn job_fits(&self, job: &Job) -> bool {
        let &Job::Box(&Bounds { low, high }, below) = job else {
            return true;
        };
        let (axes, last) = (self.fault.unless(Fault::BoundsOfZUntested, 3, 2), u32::from(LAST_GENERATION));
        let refused_too = self.fault.has(Fault::PointRefused) && low == high
            || self.fault.has(Fault::FarBoxRefused) && low.iter().any(|&coordinate| coordinate > FARTHEST);
        (0..axes).all(|axis| low[axis] <= high[axis])
            && below <= self.fault.unless(Fault::GenerationAbovePassed, last, last + 1)
            && !refused_too
    }
}
