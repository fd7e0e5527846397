//! What a run has met of locks: what is locked where a refine is refused, what other condition holds beside, the links
//! that follow, and how locks are set and cleared.

use crate::fault::Seeded;
use crate::locked::locked_triangles;
use crate::mesh::{Mesh, Side};
use crate::tables::{Answer, Call, Store};

#[derive(Default)]
pub struct LockCoverage {
    /// Refines refused with 19, by what is locked, as `ALTERED` tells it apart.
    altered: [u64; 5],
    /// Calls for which 19 and another condition hold, as `BESIDE` lists them.
    beside: [u64; 5],
    /// Links of locked triangles that a refine carried out moves, as `FOLLOWING` tells the sides apart.
    following: [u64; 4],
    /// Locks set and cleared, as `SET` lists them.
    set: [u64; 4],
    /// Numbers that are no lock, as `NO_LOCKS` lists their places.
    no_locks: [u64; 2],
}

const ALTERED: [&str; 5] =
    ["the one given", "odd one of its chain", "even end", "end at the boundary", "flipped beside the end"];
const BESIDE: [&str; 5] = ["11 of a refine", "9 of a refine", "11 of a step", "13 of a step", "9 of a step"];
const FOLLOWING: [&str; 4] = ["even one's side 0", "even one's other side", "base", "odd one's other side"];
const SET: [&str; 4] = ["clear one cleared", "set one cleared", "clear one set", "set one set"];
const NO_LOCKS: [&str; 2] = ["in use, refused with 7", "past the counts, carried out"];

impl LockCoverage {
    /// Notes a call on the tables as they were before it, and its answer.
    pub fn note(&mut self, before: &Store, call: &Call, answer: &Answer) {
        let no_lock = |locks: &[u8]| locks.iter().any(|&lock| lock > 1);
        match answer.refusal {
            0 => self.no_locks[1] += u64::from(before.tables.locks.get(before.triangles()..).is_some_and(no_lock)),
            7 => self.no_locks[0] += u64::from(before.tables.locks.get(..before.triangles()).is_some_and(no_lock)),
            _ => {}
        }
        if let (Call::SetLock { triangle, on }, 0) = (call, answer.refusal) {
            self.set[2 * usize::from(*on) + usize::from(before.tables.locks[*triangle as usize])] += 1;
        }
        if locked_triangles(before).is_empty() {
            return;
        }
        let mesh = || Mesh::read(&before.tables, before.counts, Seeded(None));
        match (call, answer.refusal) {
            (Call::Refine { triangle } | Call::RefineNoted { triangle }, 0) => {
                self.note_following(&mesh(), *triangle as usize)
            }
            (Call::Refine { triangle }, 19) => self.note_refused(before, &mesh(), *triangle as usize),
            (Call::Refine { triangle }, 9) => self.beside[1] += u64::from(mesh().alters_locked(*triangle as usize)),
            (Call::WholeStep, 19) => {
                let splits = before.triangles();
                self.beside[2] += u64::from(!mesh().leaves_free(before.tables.slots(), splits, 2 * splits));
            }
            (Call::WholeStep, 13) => self.beside[3] += 1,
            (Call::WholeStep, 9) => self.beside[4] += 1,
            _ => {}
        }
    }

    fn note_refused(&mut self, before: &Store, mesh: &Mesh, t: usize) {
        let chain = mesh.base_chain(t);
        for slot in mesh.altered(t).into_iter().filter(|&slot| mesh.is_locked(slot)) {
            let place = match slot {
                slot if slot == t => 0,
                slot if slot == chain.end() => 2 + usize::from(chain.even_end.is_none()),
                slot if chain.odd.contains(&slot) => 1,
                _ => 4,
            };
            self.altered[place] += 1;
        }
        let mut unlocked = mesh.clone();
        unlocked.locks.fill(0);
        self.beside[0] += u64::from(unlocked.refine_in(before.tables.slots(), t) == Err(11));
    }

    fn note_following(&mut self, mesh: &Mesh, t: usize) {
        let mut refined = mesh.clone();
        refined.refine(t);
        for slot in (0..mesh.triangles.len()).filter(|&slot| mesh.is_locked(slot)) {
            for side in [0, 1, 2].map(|number| Side::new(slot, number)) {
                let place = 2 * usize::from(mesh.triangles[slot].is_odd()) + usize::from(side.number != 0);
                self.following[place] += u64::from(mesh.across(side) != refined.across(side));
            }
        }
    }

    /// The counts of what has names, with their titles.
    pub fn named(&self) -> [(&str, &[&str], &[u64]); 5] {
        [
            ("locked triangles of refines refused with 19", &ALTERED, &self.altered),
            ("conditions that hold with 19", &BESIDE, &self.beside),
            ("links of locked triangles that follow", &FOLLOWING, &self.following),
            ("locks", &SET, &self.set),
            ("numbers that are no lock", &NO_LOCKS, &self.no_locks),
        ]
    }
}
