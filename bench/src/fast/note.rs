//! A refine with a note, and a refine taken back.

use super::split::{Plan, carry_out, planned, refine, with_base};
use super::{starts, triple};
use crate::tables::{BOUNDARY, Counts, Tables, Worked};

/// Refines a triangle of sound tables and notes what was in the slots that change, or refuses with 8, 9, 19, 11 or 22.
pub fn refine_noted(tables: &mut Tables, counts: Counts, t: u32, note: &mut [u32]) -> Result<Worked, u32> {
    let plan = planned(tables, counts, t)?;
    let slots = changing(tables, t as usize, &plan);
    let note = note.get_mut(..4 + 9 * slots.len()).ok_or(22u32)?;
    write(tables, counts, t, &slots, note);
    Ok(carry_out(tables, counts, t, &plan, &mut |_| ()))
}

/// Writes the note of these slots.
pub fn write(tables: &Tables, counts: Counts, t: u32, slots: &[usize], note: &mut [u32]) {
    note[..4].copy_from_slice(&[t, counts.vertices, counts.triangles, slots.len() as u32]);
    for (nine, &slot) in note[4..].chunks_exact_mut(9).zip(slots) {
        nine[0] = slot as u32;
        nine[1..4].copy_from_slice(&triple(&tables.corners, slot));
        nine[4..7].copy_from_slice(&triple(&tables.links, slot));
        nine[7] = u32::from(tables.generations[slot]);
        nine[8] = u32::from(tables.locks[slot]);
    }
}

/// The slots that a refine changes, in rising order: those that are split or flipped, and those across the sides that
/// move, which are side 1 of each of them, and side 2 of the one that is split first.
pub fn changing(tables: &Tables, t: usize, plan: &Plan) -> Vec<usize> {
    let mut slots = vec![plan.end];
    let mut at = t;
    while at != plan.end {
        slots.push(at);
        at = tables.links[3 * at] as usize / 3;
    }
    slots.extend(triple(&tables.links, plan.end).into_iter().filter_map(|side| with_base(tables, side)));
    for side in (0..slots.len()).map(|i| 3 * slots[i] + 1).chain([3 * plan.end + 2]).collect::<Vec<_>>() {
        if tables.links[side] != BOUNDARY {
            slots.push(tables.links[side] as usize / 3);
        }
    }
    slots.sort_unstable();
    slots.dedup();
    slots
}

/// Takes a refine of sound tables back if the note is accepted, and answers the counts.
pub fn take_back(tables: &mut Tables, counts: Counts, note: &[u32]) -> Option<Counts> {
    let &[t, vertices, triangles, k, ref rest @ ..] = note else {
        return None;
    };
    let (nines, _) = rest.as_chunks::<9>();
    let nines = nines.get(..k as usize)?;
    let old = Counts { vertices, triangles, ..counts };
    let below = triangles.min(tables.generations.len() as u32);
    if !nines.is_sorted_by(|one, next| one[0] < next[0]) || nines.last().is_some_and(|last| last[0] >= below) {
        return None;
    }
    let mut trial = tables.clone();
    for nine in nines {
        put_back(&mut trial, nine)?;
    }
    starts(&trial, old).ok()?;
    let worked = refine(&mut trial, old, t, &mut |_| ()).ok()?;
    if worked.counts != counts || !same_in_use(&trial, tables, counts) {
        return None;
    }
    nines.iter().try_for_each(|nine| put_back(tables, nine))?;
    Some(old)
}

/// Puts what was in a slot back, unless a number is too large for its table.
fn put_back(tables: &mut Tables, nine: &[u32; 9]) -> Option<()> {
    let slot = nine[0] as usize;
    tables.corners[3 * slot..3 * slot + 3].copy_from_slice(&nine[1..4]);
    tables.links[3 * slot..3 * slot + 3].copy_from_slice(&nine[4..7]);
    tables.generations[slot] = nine[7].try_into().ok()?;
    tables.locks[slot] = nine[8].try_into().ok()?;
    Some(())
}

fn same_in_use(one: &Tables, other: &Tables, counts: Counts) -> bool {
    let (vertices, triangles) = (counts.vertices as usize, counts.triangles as usize);
    one.positions[..3 * vertices] == other.positions[..3 * vertices]
        && one.corners[..3 * triangles] == other.corners[..3 * triangles]
        && one.links[..3 * triangles] == other.links[..3 * triangles]
        && one.generations[..triangles] == other.generations[..triangles]
        && one.locks[..triangles] == other.locks[..triangles]
}
