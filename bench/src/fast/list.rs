//! Work in spare tables, and a list of triangles so worked off.

use super::split::{Wrote, refine};
use crate::tables::{BatchForeseen, BatchWorked, Counts, Tables, Worked};

/// Whether the spare tables are as long as the mesh's.
pub fn sizes_fit(tables: &Tables, spares: &Tables) -> bool {
    spares.positions.len() == tables.positions.len()
        && spares.corners.len() == tables.corners.len()
        && spares.links.len() == tables.links.len()
        && spares.generations.len() == tables.generations.len()
        && spares.locks.len() == tables.locks.len()
}

/// Refines the triangles of a list in order. What is done in the spare tables is copied back if no entry fails.
pub fn refine_list(tables: &mut Tables, counts: Counts, list: &[u32], spares: &mut Tables) -> BatchWorked {
    make(tables, counts, spares, |tables, spares, done| refine_each(tables, list, spares, done, &mut |_| ()))
}

/// What a list would be answered, with the mesh that it would make in the spare tables.
pub fn preview(tables: &Tables, counts: Counts, list: &[u32], spares: &mut Tables) -> BatchForeseen {
    let work = |tables: &Tables, spares: &mut Tables, done| refine_each(tables, list, spares, done, &mut |_| ());
    let worked = work_off(tables, counts, spares, work);
    let BatchWorked { refusal, splits, flips, counts, handled, spares } = worked;
    BatchForeseen { refusal, splits, flips, handled, spares, ..standing(counts) }
}

/// The vertices and triangles of these counts as foreseen, and zeros.
pub fn standing(counts: Counts) -> BatchForeseen {
    let Counts { vertices, triangles, .. } = counts;
    BatchForeseen { foreseen_vertices: vertices, foreseen_triangles: triangles, ..BatchForeseen::default() }
}

/// Copies the slots in use.
fn copy(from: &Tables, to: &mut Tables, counts: Counts) {
    let (vertices, triangles) = (counts.vertices as usize, counts.triangles as usize);
    to.positions[..3 * vertices].copy_from_slice(&from.positions[..3 * vertices]);
    to.corners[..3 * triangles].copy_from_slice(&from.corners[..3 * triangles]);
    to.links[..3 * triangles].copy_from_slice(&from.links[..3 * triangles]);
    to.generations[..triangles].copy_from_slice(&from.generations[..triangles]);
    to.locks[..triangles].copy_from_slice(&from.locks[..triangles]);
}

impl BatchWorked {
    /// One refine more in the spare tables.
    pub fn add(&mut self, worked: Worked) {
        self.spares = worked.counts;
        self.splits += worked.splits;
        self.flips += worked.flips;
    }
}

/// Works in the spare tables, and copies what is done there back if nothing fails.
pub fn make(
    tables: &mut Tables,
    start: Counts,
    spares: &mut Tables,
    work: impl FnOnce(&Tables, &mut Tables, BatchWorked) -> BatchWorked,
) -> BatchWorked {
    let worked = work_off(tables, start, spares, work);
    if worked.refusal == 0 {
        copy(spares, tables, worked.counts);
    }
    worked
}

/// Works in the spare tables, all that is in use being copied there first, and answers for it.
pub fn work_off(
    tables: &Tables,
    start: Counts,
    spares: &mut Tables,
    work: impl FnOnce(&Tables, &mut Tables, BatchWorked) -> BatchWorked,
) -> BatchWorked {
    copy(tables, spares, start);
    let worked = work(tables, spares, BatchWorked { counts: start, spares: start, ..BatchWorked::default() });
    match worked.refusal {
        0 => BatchWorked { counts: worked.spares, ..worked },
        _ => BatchWorked { splits: 0, flips: 0, ..worked },
    }
}

/// Refines up to the first entry that fails. An entry that has risen since the start is passed over.
pub fn refine_each(
    tables: &Tables,
    list: &[u32],
    spares: &mut Tables,
    mut done: BatchWorked,
    tell: &mut impl FnMut(Wrote),
) -> BatchWorked {
    for &t in list {
        if done.counts.triangles <= t {
            return BatchWorked { refusal: 8, ..done };
        }
        if spares.generations[t as usize] == tables.generations[t as usize] {
            match refine(spares, done.spares, t, tell) {
                Ok(worked) => done.add(worked),
                Err(refusal) => return BatchWorked { refusal, ..done },
            }
        }
        done.handled += 1;
    }
    done
}
