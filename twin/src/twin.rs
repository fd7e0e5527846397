//! The twin: the calls, each with its conditions in the papers' order.

use crate::batch::Job;
pub use crate::conditions::Twin;
use crate::conditions::{is_closed_and_even, rings_have_weights};
use crate::fault::Fault;
use crate::load::mesh_of_cage;
use crate::mesh::Mesh;
use crate::report::Made;
use crate::smooth::{limit_points, whole_step};
use crate::sound::is_rule;
use crate::tables::{Answer, Call, Counts, HALF_UP, LAST_GENERATION, Service, Store, Tables, refuse_unless};

impl Service for Twin {
    fn name(&self) -> String {
        match self.fault.0 {
            None => "twin".to_string(),
            Some(fault) => format!("twin with {fault:?}"),
        }
    }

    /// A refusal: its number, zeros, and the counts as they were.
    fn answer(&self, store: &mut Store, call: &Call) -> Result<Answer, String> {
        let made = self.make(store, call);
        let rule = self.fault.unless(Fault::RefusedWithoutRule, store.counts.rule, 0);
        let kept = Counts { rule, ..store.counts };
        let refused = |refusal| Answer { refusal, counts: kept, ..Answer::default() };
        let answer = made.map_or_else(refused, |made| made.answer);
        store.counts = answer.counts;
        Ok(answer)
    }
}

impl Twin {
    /// Makes a call, but for the counts, which are in its answer, or refuses it by a number.
    pub fn make(&self, store: &mut Store, call: &Call) -> Result<Made, u32> {
        let Store { tables, counts, room } = store;
        let counts = *counts;
        let answered = match call {
            Call::Refine { triangle } => return self.refine(tables, counts, *triangle as usize),
            Call::RefineNoted { triangle } => return self.refine_noted(tables, counts, *triangle, &mut room.note),
            Call::RefineList { list } => return self.refine_each(tables, counts, Job::List(list), &mut room.spares),
            Call::Preview { list } => return Ok(self.preview(tables, counts, list, &mut room.spares)),
            Call::RefineBox { bounds, below } => {
                return self.in_box().refine_each(tables, counts, Job::Box(bounds, *below), &mut room.spares);
            }
            Call::Load { rule, cage } => self.load(tables, counts, *rule, cage),
            Call::TakeBack => self.take_back(tables, counts, &room.note),
            Call::WholeStep => self.whole_step(tables, counts),
            Call::SetLock { triangle, on } => self.set_lock(tables, counts, *triangle as usize, *on),
            Call::Ring { vertex } => self.ring(tables, counts, *vertex as usize, &mut room.ring),
            Call::Position { vertex } => self.position(tables, counts, *vertex as usize),
            Call::Limit => self.limit(tables, counts, &mut room.table),
            Call::RimCurve { vertex } => self.rim_curve(tables, counts, *vertex as usize, &mut room.curve),
            Call::ViewPoint { vertex } => self.view_point(tables, counts, *vertex as usize),
            Call::ViewTriangles => self.view_triangles(tables, counts, &mut room.view),
            Call::Reported(call) => self.reported(store, call),
            Call::RecordHeader { slots } => Ok(self.record(counts, &self.header(*slots), &mut room.record)),
            Call::Record(entry) => Ok(self.record(counts, &self.encode(entry), &mut room.record)),
            Call::Replay { journal, at } => Ok(self.replay(store, journal, *at)),
        };
        answered.map(Made::from)
    }

    /// Load: 1, 16, 2 to 6, whatever the tables held. The counts of before are what a refusal answers, and no more.
    fn load(&self, tables: &mut Tables, before: Counts, rule: u32, cage: &[u8]) -> Result<Answer, u32> {
        let good_rule = is_rule(rule) || self.fault.has(Fault::RuleZeroLoaded) && rule == 0;
        refuse_unless(good_rule || !self.fault.has(Fault::RuleBeforeTables), 16)?;
        refuse_unless(self.tables_agree(tables), 1)?;
        refuse_unless(good_rule || self.fault.has(Fault::SizesBeforeRule), 16)?;
        let mesh = mesh_of_cage(cage, rule, tables.slots(), self.fault);
        if self.fault.has(Fault::RefusedLoadWrites) && mesh == Err(6) {
            tables.positions[0] = 0;
        }
        if self.fault.has(Fault::RefusedLoadSetsRule) && mesh == Err(2) {
            return Ok(Answer { refusal: 2, counts: Counts { rule, ..before }, ..Answer::default() });
        }
        let mut mesh = mesh?;
        refuse_unless(good_rule, 16)?;
        mesh.rule = self.fault.unless(Fault::LoadByRuleOne, mesh.rule, HALF_UP);
        mesh.rule = self.fault.unless(Fault::OldRuleKept, mesh.rule, before.rule);
        self.write(&mesh, tables, Fault::LoadKeepsLocks, 0);
        let counts = mesh.counts();
        if self.fault.has(Fault::LoadClearsAllLocks) {
            tables.locks.fill(0);
        }
        if self.fault.has(Fault::PastCountsWritten) {
            tables.generations.iter_mut().skip(counts.triangles as usize).for_each(|generation| *generation = 0);
        }
        Ok(Answer { counts, ..Answer::default() })
    }

    /// Refine: 1, 7, 8, 9, 19, 11.
    fn refine(&self, tables: &mut Tables, counts: Counts, t: usize) -> Result<Made, u32> {
        refuse_unless(self.tables_agree(tables), 1)?;
        if self.fault.has(Fault::UseBeforeSound) {
            refuse_unless(t < counts.triangles as usize, 8)?;
        }
        let mut mesh = self.sound_mesh(tables, counts)?;
        let work = mesh.refine_in(tables.slots(), t)?;
        mesh.rule = self.fault.unless(Fault::RefinedByRuleOne, mesh.rule, HALF_UP);
        self.write(&mesh, tables, Fault::NewLocksKept, counts.triangles as usize);
        let answer = Answer { splits: work.splits, flips: work.flips, counts: mesh.counts(), ..Answer::default() };
        Ok(Made { answer, report: mesh.report() })
    }

    /// Whole step: 1, 7, 12, 9, 13, 19, 11.
    fn whole_step(&self, tables: &mut Tables, counts: Counts) -> Result<Answer, u32> {
        refuse_unless(self.tables_agree(tables), 1)?;
        let mut mesh = self.sound_mesh(tables, counts)?;
        refuse_unless(is_closed_and_even(&mesh), 12)?;
        if self.fault.has(Fault::RingLimitBeforeGeneration) {
            refuse_unless(rings_have_weights(&mesh), 13)?;
        }
        let unlocked = !self.step_is_locked(&mesh, tables);
        refuse_unless(unlocked || !self.fault.has(Fault::StepLocksBeforeGeneration), 19)?;
        refuse_unless(mesh.triangles[0].generation != LAST_GENERATION, 9)?;
        refuse_unless(unlocked || !self.fault.has(Fault::StepLocksBeforeRings), 19)?;
        refuse_unless(rings_have_weights(&mesh), 13)?;
        refuse_unless(unlocked || self.fault.has(Fault::StepRoomBeforeLocks), 19)?;
        let splits = mesh.triangles.len();
        refuse_unless(mesh.leaves_free(tables.slots(), splits, 2 * splits), 11)?;
        refuse_unless(unlocked, 19)?;
        let work = whole_step(&mut mesh);
        self.write(&mesh, tables, Fault::StepKeepsNewLocks, splits);
        Ok(Answer { splits: work.splits, flips: work.flips, counts: mesh.counts(), ..Answer::default() })
    }

    /// Condition 19 of the whole step: some triangle in use is locked.
    fn step_is_locked(&self, mesh: &Mesh, tables: &Tables) -> bool {
        match self.fault.0 {
            Some(Fault::StepUnguarded) => false,
            Some(Fault::StepFirstAloneGuarded) => mesh.is_locked(0),
            Some(Fault::StepGuardsPastCounts) => tables.locks.contains(&1),
            _ => mesh.has_locked(),
        }
    }

    /// Lock and unlock: 1, 7, 8.
    fn set_lock(&self, tables: &mut Tables, counts: Counts, t: usize, on: bool) -> Result<Answer, u32> {
        refuse_unless(self.tables_agree(tables), 1)?;
        let in_use = match self.fault.0 {
            Some(Fault::LockPastUse) => counts.triangles as usize + 1,
            Some(Fault::LockOfLastRefused) => (counts.triangles as usize).saturating_sub(1),
            _ => counts.triangles as usize,
        };
        refuse_unless(t < in_use || !self.fault.has(Fault::LockBeforeSound), 8)?;
        if !self.fault.has(Fault::LockUnsound) {
            self.sound_mesh(tables, counts)?;
        }
        refuse_unless(t < in_use, 8)?;
        let was_on = tables.locks.get(t) == Some(&1);
        refuse_unless(!(on && was_on && self.fault.has(Fault::LockedAgainRefused)), 19)?;
        if !on && self.fault.has(Fault::UnlockClearsAll) {
            tables.locks[..in_use].fill(0);
        }
        let value = match self.fault.0 {
            Some(Fault::LockTurned) if on && was_on => 0,
            Some(Fault::LockOfAllBits) if on => 255,
            Some(Fault::UnlockSets) => 1,
            _ => u8::from(on),
        };
        tables.locks.iter_mut().skip(t).take(1).for_each(|lock| *lock = value);
        Ok(Answer { counts, ..Answer::default() })
    }

    /// Ring: 1, 7, 8, 14. The buffer is written as far as the ring goes.
    fn ring(&self, tables: &Tables, counts: Counts, vertex: usize, buffer: &mut [u32]) -> Result<Answer, u32> {
        refuse_unless(self.tables_agree(tables), 1)?;
        let mesh = self.sound_mesh(tables, counts)?;
        refuse_unless(vertex < mesh.points.len(), 8)?;
        let ring = mesh.ring(&mesh.leaving_sides()[vertex]);
        let full = self.fault.has(Fault::FullBufferRefused) && buffer.len() == ring.len();
        refuse_unless(buffer.len() >= ring.len() && !full, 14)?;
        for (entry, &neighbour) in buffer.iter_mut().zip(&ring) {
            *entry = neighbour as u32;
        }
        Ok(Answer { length: ring.len() as u32, counts, ..Answer::default() })
    }

    /// Position: 1, 7, 8.
    fn position(&self, tables: &Tables, counts: Counts, vertex: usize) -> Result<Answer, u32> {
        refuse_unless(self.tables_agree(tables), 1)?;
        let mesh = self.sound_mesh(tables, counts)?;
        refuse_unless(vertex < mesh.points.len(), 8)?;
        Ok(Answer { point: mesh.points[vertex], counts, ..Answer::default() })
    }

    /// Limit: 1, 7, 12, 13, 15. The table has an entry for each coordinate of the vertices in use, and no more.
    fn limit(&self, tables: &Tables, counts: Counts, table: &mut [i32]) -> Result<Answer, u32> {
        refuse_unless(self.tables_agree(tables), 1)?;
        let mesh = self.sound_mesh(tables, counts)?;
        refuse_unless(is_closed_and_even(&mesh), 12)?;
        let last = mesh.triangles[0].generation == LAST_GENERATION;
        refuse_unless(!(last && self.fault.has(Fault::LimitOfLastRefused)), 9)?;
        refuse_unless(!(mesh.has_locked() && self.fault.has(Fault::LimitGuarded)), 19)?;
        let entries = 3 * mesh.points.len();
        let longer = self.fault.has(Fault::LongerTableAccepted) && table.len() > entries;
        let table_fits = table.len() == entries || longer;
        if self.fault.has(Fault::TableBeforeRings) {
            refuse_unless(table_fits, 15)?;
        }
        refuse_unless(rings_have_weights(&mesh), 13)?;
        refuse_unless(table_fits, 15)?;
        for (entry, coordinate) in table.iter_mut().zip(limit_points(&mesh).concat()) {
            *entry = coordinate;
        }
        Ok(Answer { counts, ..Answer::default() })
    }
}
