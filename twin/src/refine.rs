//! Refining with its conditions: one triangle, the triangles of a list, and those with a corner in a box.

use crate::fault::{Fault, Seeded};
use crate::mesh::{Mesh, Operation, Side, Triangle};
use crate::split::Work;
use crate::tables::{Bounds, Call, LAST_GENERATION, Store, refuse_unless};

/// A list of triangles or a box, as far as it was handled.
pub struct Handled {
    /// The mesh after the last entry or refine that succeeded.
    pub mesh: Mesh,
    /// All splits and flips on the way there.
    pub work: Work,
    /// The entries that succeeded, refined or passed over; of a box the refines.
    pub entries: usize,
    /// The triangles refined, in order.
    pub refined: Vec<usize>,
    /// What the next entry or refine fails with, 0 for nothing.
    pub refusal: u32,
}

impl Handled {
    fn begun(start: &Mesh) -> Handled {
        Handled { mesh: start.clone(), work: Work::default(), entries: 0, refined: Vec::new(), refusal: 0 }
    }

    /// One triangle more refined.
    fn add(&mut self, t: usize, work: Work) {
        let before = self.mesh.fault.unless(Fault::LastEntryReported, self.work, Work::default());
        self.work = before.and(work);
        self.refined.push(t);
    }

    /// The lowest triangle below a generation that has a corner in a box.
    fn next_inside(&self, start: &Mesh, bounds: &Bounds, below: u32, slots: [usize; 2]) -> Option<usize> {
        let (mesh, fault) = (&self.mesh, self.mesh.fault);
        let first = self.refined.last().filter(|_| fault.has(Fault::BoxNeverGoesBack)).copied().unwrap_or(0);
        let in_use = fault.unless(Fault::MadeInBoxLeft, mesh.triangles.len(), start.triangles.len());
        let mut wanted = (first..in_use).filter(|&t| mesh.is_inside(t, bounds, below));
        match fault.0 {
            Some(Fault::HighestInBoxFirst) => wanted.next_back(),
            Some(Fault::BoxStopsOneShort) => wanted.next().filter(|_| wanted.next().is_some()),
            Some(Fault::FailingInBoxSkipped) => wanted.find(|&t| mesh.clone().refine_in(slots, t).is_ok()),
            _ => wanted.next(),
        }
    }
}

/// Handles a list in its order, up to the first entry that fails, on a sound mesh in tables of these slots.
pub fn handle(start: &Mesh, list: &[u32], slots: [usize; 2]) -> Handled {
    let mut done = Handled::begun(start);
    for &t in list {
        match done.mesh.handle_entry(start, t as usize, slots) {
            Err(19) if start.fault.has(Fault::LockedEntryPassedOver) => {}
            Err(refusal) => return Handled { refusal, ..done },
            Ok(None) => {}
            Ok(Some(work)) => done.add(t as usize, work),
        }
        done.entries += 1;
    }
    done
}

/// While some triangle below a generation has a corner in a box, refines the lowest such slot, up to the first that
/// fails, on a sound mesh in tables of these slots.
pub fn refine_inside(start: &Mesh, bounds: &Bounds, below: u32, slots: [usize; 2]) -> Handled {
    let mut done = Handled::begun(start);
    while let Some(t) = done.next_inside(start, bounds, below, slots) {
        match done.mesh.refine_in(slots, t) {
            Err(refusal) => return Handled { refusal, ..done },
            Ok(work) => {
                done.entries += start.fault.unless(Fault::BoxCountsSplits, 1, work.splits as usize);
                done.add(t, work);
            }
        }
    }
    done
}

/// The splits and flips that a call makes on sound tables, up to where it fails; a refine of one triangle as if nothing
/// refused it.
pub fn operations(before: &Store, call: &Call) -> Vec<Operation> {
    let mut start = Mesh::read(&before.tables, before.counts, Seeded(None));
    let slots = before.tables.slots();
    match call {
        Call::Refine { triangle } | Call::RefineNoted { triangle } => {
            start.refine(*triangle as usize);
            start.operations
        }
        Call::RefineList { list } | Call::Preview { list } => handle(&start, list, slots).mesh.operations,
        Call::RefineBox { bounds, below } => refine_inside(&start, bounds, *below, slots).mesh.operations,
        _ => Vec::new(),
    }
}

impl Mesh {
    /// Whether a triangle is below a generation and has a corner in a box.
    fn is_inside(&self, t: usize, bounds: &Bounds, below: u32) -> bool {
        let Triangle { corners, generation, .. } = self.triangles[t];
        let is_below = u32::from(generation) < self.fault.unless(Fault::BelowIncluded, below, below + 1);
        let mut held = corners.iter().map(|&corner| self.is_held(self.points[corner], bounds));
        is_below
            && match self.fault.0 {
                Some(Fault::FirstCornerAlone) => held.next() == Some(true),
                Some(Fault::AllCornersWanted) => held.all(|held| held),
                _ => held.any(|held| held),
            }
    }

    /// Whether a box holds a point.
    fn is_held(&self, point: [i32; 3], &Bounds { low, high }: &Bounds) -> bool {
        let all = |inside: fn(i32, i32, i32) -> bool| (0..3).all(|axis| inside(low[axis], point[axis], high[axis]));
        match self.fault.0 {
            Some(Fault::LowFacesLeftOut) => all(|low, coordinate, high| low < coordinate && coordinate <= high),
            Some(Fault::HighFacesLeftOut) => all(|low, coordinate, high| low <= coordinate && coordinate < high),
            Some(Fault::BoxDifferencesWrap) => {
                all(|low, coordinate, high| coordinate.wrapping_sub(low) >= 0 && high.wrapping_sub(coordinate) >= 0)
            }
            Some(Fault::BoxTakesXForY) => Bounds { low, high }.holds([point[0], point[0], point[2]]),
            _ => Bounds { low, high }.holds(point),
        }
    }

    /// An entry of a list at its turn: one that was not in use at the call's start fails with 8, one whose generation
    /// is above what it was there is passed over, any other is refined.
    fn handle_entry(&mut self, start: &Mesh, t: usize, slots: [usize; 2]) -> Result<Option<Work>, u32> {
        let passed_if_made = self.fault.has(Fault::MadeByListPassedOver);
        let in_use = if passed_if_made || self.fault.has(Fault::MadeByListRefined) { &*self } else { start };
        refuse_unless(t < in_use.triangles.len(), 8)?;
        let generation = self.triangles[t].generation;
        let passed_over = match start.triangles.get(t) {
            None => passed_if_made,
            Some(before) if self.fault.has(Fault::RisenByTwoRefined) => generation == before.generation + 1,
            Some(before) => generation > before.generation && !self.fault.has(Fault::ListedTwiceRefined),
        };
        if passed_over { Ok(None) } else { self.refine_in(slots, t).map(Some) }
    }

    /// Refines a triangle in tables of these slots, or refuses with 8, 9, 19 or 11. Condition 10 is no more.
    pub fn refine_in(&mut self, slots: [usize; 2], t: usize) -> Result<Work, u32> {
        refuse_unless(t < self.triangles.len(), 8)?;
        let alters_locked = self.alters_locked(t);
        refuse_unless(!alters_locked || !self.fault.has(Fault::LocksBeforeGeneration), 19)?;
        let generation = self.triangles[t].generation;
        refuse_unless(generation != LAST_GENERATION, 9)?;
        let base_at_boundary = generation % 2 == 1 && self.across(Side::new(t, 0)).is_none();
        let too_old = generation == LAST_GENERATION - 1 && base_at_boundary;
        refuse_unless(!too_old || self.fault.has(Fault::NineteenAtBoundary), 9)?;
        refuse_unless(!alters_locked || self.fault.has(Fault::RoomBeforeLocks), 19)?;
        let chain = self.base_chain(t);
        let at_boundary = chain.even_end.is_none();
        let (vertices_needed, triangles_needed) = match chain.odd.len() {
            0 => (1, 2),
            odd if !at_boundary => (odd, 2 * odd),
            1 => (2, 2),
            odd => (odd, 2 * (odd - 1)),
        };
        let fewer = at_boundary && self.fault.has(Fault::RoomForOneVertex);
        let vertices_needed = if fewer { vertices_needed - 1 } else { vertices_needed };
        let triangles_needed = self.fault.unless(Fault::SlotsOffByOne, triangles_needed, triangles_needed + 1);
        refuse_unless(self.leaves_free(slots, vertices_needed, triangles_needed), 11)?;
        refuse_unless(!alters_locked, 19)?;
        if self.fault.has(Fault::ListReportsLastAlone) {
            self.operations.clear();
        }
        let mut work = self.refine(t);
        let flipped = generation % 2 == 1 && !self.triangles[t].is_odd();
        if self.fault.has(Fault::SplitWhenFlipped) && flipped && self.leaves_free(slots, 1, 2) {
            work = work.and(Work { splits: 1, flips: self.face_split(t) });
        }
        if self.fault.has(Fault::SplitsFromGeneration) && generation % 2 == 1 {
            work.splits = u32::from(generation).div_ceil(2);
        }
        if self.fault.has(Fault::SplitsAsOdd) && at_boundary {
            work.splits = chain.odd.len() as u32;
        }
        Ok(work)
    }
}
