//! What stays of a locked triangle: its corners with their positions, its generation, its lock, and the sides that its
//! links name, each in the place that splits and flips have moved it to.

use crate::mesh::Operation;
use crate::refine::operations;
use crate::tables::{Answer, BOUNDARY, Call, Store, Tables};

/// What a call has changed of locked triangles, or of locks, that it must not: in the mesh, and in spare tables that it
/// has worked in.
pub fn violated_by_lock(before: &Store, call: &Call, answer: &Answer, after: &Store) -> Option<String> {
    let carried_out = answer.refusal == 0;
    if let (Call::TakeBack, true) = (call, carried_out) {
        // What is taken back is a refine from the mesh after it to that before it.
        let refine = Call::Refine { triangle: before.room.note[0] };
        return violated_by_lock(after, &refine, answer, before);
    }
    let in_spares = matches!(call, Call::RefineList { .. } | Call::Preview { .. } | Call::RefineBox { .. })
        && matches!(answer.refusal, 0 | 8 | 9 | 11 | 19 | 23);
    if !carried_out && !in_spares {
        return (before.tables != after.tables).then(|| "a refused call changed a table".to_string());
    }
    let mut due = before.tables.locks.clone();
    due.truncate(before.triangles());
    match call {
        Call::Load { .. } => return wrong_lock(&[], after.triangles(), &after.tables),
        Call::SetLock { triangle, on } => due[*triangle as usize] = u8::from(*on),
        _ => {}
    }
    let all = if locked_triangles(before).is_empty() { Vec::new() } else { operations(before, call) };
    let none = Vec::new();
    let made = if carried_out && !matches!(call, Call::Preview { .. }) { &all } else { &none };
    let in_mesh = altered(before, &after.tables, made);
    let wrong = in_mesh.or_else(|| wrong_lock(&due, after.triangles(), &after.tables));
    if !in_spares {
        return wrong;
    }
    let (spares, triangles) = (&after.room.spares, answer.spares.triangles as usize);
    wrong.or_else(|| altered(before, spares, &all)).or_else(|| wrong_lock(&due, triangles, spares))
}

/// The triangles in use that are locked.
pub fn locked_triangles(store: &Store) -> Vec<usize> {
    let locks = store.tables.locks.iter().take(store.triangles()).enumerate();
    locks.filter(|(_, lock)| **lock == 1).map(|(slot, _)| slot).collect()
}

/// A lock other than it ought to be: those given, and 0 in all slots that come into use.
fn wrong_lock(due: &[u8], triangles: usize, tables: &Tables) -> Option<String> {
    let lock_of = |slot: usize| due.get(slot).copied().unwrap_or(0);
    let wrong = (0..triangles).find(|&slot| tables.locks[slot] != lock_of(slot))?;
    Some(format!("the lock of triangle {wrong} is {}, not {}", tables.locks[wrong], lock_of(wrong)))
}

/// What these splits and flips have changed of a locked triangle.
fn altered(before: &Store, after: &Tables, operations: &[Operation]) -> Option<String> {
    let tables = &before.tables;
    let link = |link: u32| if link == BOUNDARY { link } else { side_after(link as usize, operations) as u32 };
    locked_triangles(before).into_iter().find_map(|slot| {
        let three = |table: &[u32]| [0, 1, 2].map(|i| table[3 * slot + i]);
        let corners = three(&tables.corners);
        let points =
            |tables: &Tables| corners.map(|corner| [0, 1, 2].map(|i| tables.positions[3 * corner as usize + i]));
        let what = if three(&after.corners) != corners {
            "corners"
        } else if after.generations[slot] != tables.generations[slot] {
            "generation"
        } else if points(after) != points(tables) {
            "positions"
        } else if three(&after.links) != three(&tables.links).map(link) {
            "links"
        } else {
            return None;
        };
        Some(format!("triangle {slot} is locked, but its {what} changed"))
    })
}

/// The place of a side after splits and flips.
fn side_after(side: usize, operations: &[Operation]) -> usize {
    operations.iter().fold(side, |side, &operation| moved(side, operation))
}

/// Where a split or a flip moves a side, both places as 3×triangle + side.
fn moved(side: usize, operation: Operation) -> usize {
    match operation {
        Operation::FaceSplit { t, f } if side == 3 * t + 1 => 3 * f,
        Operation::FaceSplit { t, f } if side == 3 * t + 2 => 3 * (f + 1),
        Operation::RimSplit { t, f } if side == 3 * t + 1 => 3 * (f + 1),
        Operation::RimSplit { t, .. } if side == 3 * t + 2 => 3 * t,
        Operation::Flip { s, u } if side == 3 * s + 1 => 3 * u,
        Operation::Flip { s, u } if side == 3 * u + 1 => 3 * s,
        _ => side,
    }
}
