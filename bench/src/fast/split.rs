//! Refine: the base chain, the face split, the rim split and the flip, in place.

use super::{LAST_GENERATION, triple};
use crate::tables::{BOUNDARY, Counts, Tables, Worked};

/// What a refine will do: the triangle that is split first, whether that is a rim split, and the splits.
pub struct Plan {
    pub end: usize,
    rim_splits: usize,
    splits: usize,
}

impl Plan {
    /// The length of the report: three slots for each split and two for each flip. The first split flips with each base
    /// that meets its triangle, and every other one once.
    pub fn report_length(&self, tables: &Tables) -> usize {
        let first = triple(&tables.links, self.end).into_iter().filter(|&side| with_base(tables, side).is_some());
        3 * self.splits + 2 * (first.count() + self.splits - 1)
    }
}

/// The slots that a split or a flip has written: its own and the new ones; s and u.
pub enum Wrote {
    Split([usize; 3]),
    Flip([usize; 2]),
}

/// Refines a triangle of sound tables, or refuses with 8, 9, 19 or 11. Each split and each flip tells what it wrote.
pub fn refine(tables: &mut Tables, counts: Counts, t: u32, tell: &mut impl FnMut(Wrote)) -> Result<Worked, u32> {
    let plan = planned(tables, counts, t)?;
    Ok(carry_out(tables, counts, t, &plan, tell))
}

/// The plan of a refine, or its refusal.
pub fn planned(tables: &Tables, counts: Counts, t: u32) -> Result<Plan, u32> {
    if counts.triangles <= t {
        return Err(8);
    }
    let (generation, base) = (tables.generations[t as usize], tables.links[3 * t as usize]);
    if generation == LAST_GENERATION || (generation == LAST_GENERATION - 1 && base == BOUNDARY) {
        return Err(9);
    }
    let (odd, end) = base_chain(tables, t as usize);
    if chain_is_locked(tables, t as usize, end) {
        return Err(19);
    }
    let rim_splits = usize::from(tables.generations[end] % 2);
    let splits = odd.saturating_sub(rim_splits).max(1);
    let room = (tables.positions.len() / 3, tables.generations.len());
    if room.0 < counts.vertices as usize + splits + rim_splits || room.1 < counts.triangles as usize + 2 * splits {
        return Err(11);
    }
    Ok(Plan { end, rim_splits, splits })
}

/// Carries a refine out as it is planned.
pub fn carry_out(
    tables: &mut Tables,
    counts: Counts,
    t: u32,
    &Plan { end, rim_splits, splits }: &Plan,
    tell: &mut impl FnMut(Wrote),
) -> Worked {
    let mut worked = Worked { counts, ..Worked::default() };
    if rim_splits == 0 {
        face_split(tables, &mut worked, end, tell);
    } else {
        rim_split(tables, &mut worked, end, tell);
    }
    for _ in 1..splits {
        let (_, end) = base_chain(tables, t as usize);
        face_split(tables, &mut worked, end, tell);
    }
    worked
}

/// The odd triangle that has this side as its base.
pub fn with_base(tables: &Tables, side: u32) -> Option<usize> {
    let side = side as usize;
    let slot = side / 3;
    (side.is_multiple_of(3) && tables.generations.get(slot).is_some_and(|g| g % 2 == 1)).then_some(slot)
}

/// The odd triangles of the base chain, and its last triangle, which is odd where the chain ends at the boundary.
fn base_chain(tables: &Tables, t: usize) -> (usize, usize) {
    let (mut odd, mut end) = (0, t);
    while tables.generations[end] % 2 == 1 {
        odd += 1;
        match tables.links[3 * end] {
            BOUNDARY => break,
            across => end = across as usize / 3,
        }
    }
    (odd, end)
}

/// Whether a triangle that refining t would alter is locked: one of its base chain, or an odd one whose base meets the
/// last of it, which is split first.
fn chain_is_locked(tables: &Tables, t: usize, end: usize) -> bool {
    let mut locked = tables.locks[end];
    let mut at = t;
    while at != end {
        locked |= tables.locks[at];
        at = tables.links[3 * at] as usize / 3;
    }
    for across in triple(&tables.links, end) {
        if let Some(slot) = with_base(tables, across) {
            locked |= tables.locks[slot];
        }
    }
    locked == 1
}

/// The nearest third of a sum of three coordinates.
pub fn third(sum: i32) -> i32 {
    (sum + 1).div_euclid(3)
}

/// The face split of t, with its flips.
fn face_split(tables: &mut Tables, worked: &mut Worked, t: usize, tell: &mut impl FnMut(Wrote)) {
    let (p, f) = (worked.counts.vertices, worked.counts.triangles as usize);
    let (corners, links) = (triple(&tables.corners, t), triple(&tables.links, t));
    let [x, y, z] = corners.map(|corner| triple(&tables.positions, corner as usize));
    place(tables, p, [x, y, z]);
    let slots = [t, f, f + 1];
    let generation = tables.generations[t] + 1;
    for i in 0..3 {
        let (slot, after, before) = (slots[i], slots[(i + 1) % 3], slots[(i + 2) % 3]);
        tables.corners[3 * slot..3 * slot + 3].copy_from_slice(&[corners[i], corners[(i + 1) % 3], p]);
        let across = [links[i], 3 * after as u32 + 2, 3 * before as u32 + 1];
        tables.links[3 * slot..3 * slot + 3].copy_from_slice(&across);
        relink(tables, links[i], 3 * slot);
        tables.generations[slot] = generation;
    }
    tables.locks[f..f + 2].fill(0);
    worked.counts = Counts { vertices: p + 1, triangles: f as u32 + 2, ..worked.counts };
    worked.splits += 1;
    tell(Wrote::Split(slots));
    settle(tables, worked, &slots, tell);
}

/// The rim split of t = (A,B,P) with its flips: A' is vertex v, B' is v + 1.
fn rim_split(tables: &mut Tables, worked: &mut Worked, t: usize, tell: &mut impl FnMut(Wrote)) {
    let (v, f) = (worked.counts.vertices, worked.counts.triangles as usize);
    let e = f + 1;
    let ([a, b, p], [_, bp, pa]) = (triple(&tables.corners, t), triple(&tables.links, t));
    let [x, y] = [a, b].map(|corner| triple(&tables.positions, corner as usize));
    place(tables, v, [x, x, y]);
    place(tables, v + 1, [x, y, y]);
    let side = |slot: usize, number: u32| 3 * slot as u32 + number;
    let generation = tables.generations[t] + 2;
    for (slot, corners, links, generation) in [
        (t, [p, a, v], [pa, BOUNDARY, side(f, 2)], generation),
        (f, [v, v + 1, p], [BOUNDARY, side(e, 1), side(t, 2)], generation + 1),
        (e, [b, p, v + 1], [bp, side(f, 1), BOUNDARY], generation),
    ] {
        tables.corners[3 * slot..3 * slot + 3].copy_from_slice(&corners);
        tables.links[3 * slot..3 * slot + 3].copy_from_slice(&links);
        tables.generations[slot] = generation;
    }
    tables.locks[f..f + 2].fill(0);
    relink(tables, pa, 3 * t);
    relink(tables, bp, 3 * e);
    worked.counts = Counts { vertices: v + 2, triangles: f as u32 + 2, ..worked.counts };
    worked.splits += 1;
    tell(Wrote::Split([t, f, e]));
    settle(tables, worked, &[t, e], tell);
}

/// Places a vertex at the nearest third of three points.
fn place(tables: &mut Tables, vertex: u32, [x, y, z]: [[i32; 3]; 3]) {
    let point = [0, 1, 2].map(|axis| third(x[axis] + y[axis] + z[axis]));
    tables.positions[3 * vertex as usize..3 * vertex as usize + 3].copy_from_slice(&point);
}

/// Flips each of these triangles whose base meets a base.
fn settle(tables: &mut Tables, worked: &mut Worked, slots: &[usize], tell: &mut impl FnMut(Wrote)) {
    for &s in slots {
        if let Some(u) = with_base(tables, tables.links[3 * s]) {
            flip(tables, s, u);
            tell(Wrote::Flip([s, u]));
            worked.flips += 1;
        }
    }
}

/// The flip of (A,B,P) in s and (B,A,Q) in u to (A,Q,P) and (B,P,Q).
fn flip(tables: &mut Tables, s: usize, u: usize) {
    let ([a, b, p], q) = (triple(&tables.corners, s), tables.corners[3 * u + 2]);
    let (across_s, across_u) = (tables.links[3 * s + 1], tables.links[3 * u + 1]);
    tables.corners[3 * s..3 * s + 3].copy_from_slice(&[a, q, p]);
    tables.corners[3 * u..3 * u + 3].copy_from_slice(&[b, p, q]);
    tables.links[3 * s] = across_u;
    tables.links[3 * u] = across_s;
    relink(tables, across_u, 3 * s);
    relink(tables, across_s, 3 * u);
    tables.links[3 * s + 1] = 3 * u as u32 + 1;
    tables.links[3 * u + 1] = 3 * s as u32 + 1;
    tables.generations[s] += 1;
    tables.generations[u] += 1;
}

/// Tells the side across, if there is one, where its partner is.
fn relink(tables: &mut Tables, across: u32, side: usize) {
    if let Some(link) = tables.links.get_mut(across as usize) {
        *link = side as u32;
    }
}
