//! What is claimed of curves, read from the tables themselves: the rim closes and has each vertex once, each coordinate
//! is the nearest to its 27ths and within its three sources, and nothing else is written.

use crate::tables::{Answer, BOUNDARY, Call, Store};

/// The parts out of 27 that the vertex before, the vertex and the vertex after have in point 0, 1 and 2, side by side.
const PARTS: [i64; 9] = [10, 16, 1, 4, 19, 4, 1, 16, 10];

/// The next side of the same triangle.
fn next(side: usize) -> usize {
    side - side % 3 + (side + 1) % 3
}

/// The sides on the boundary in sound tables.
fn boundary_sides(store: &Store) -> impl Iterator<Item = usize> {
    (0..3 * store.triangles()).filter(|&side| store.tables.links[side] == BOUNDARY)
}

/// The sides of a rim in sound tables, from one on: from the end of each it turns about that vertex, from triangle to
/// triangle, to the side out of it on the boundary.
fn sides_from(store: &Store, first: usize) -> Vec<usize> {
    let links = &store.tables.links;
    let mut sides = vec![first];
    loop {
        let mut side = next(sides[sides.len() - 1]);
        while links[side] != BOUNDARY {
            side = next(links[side] as usize);
        }
        if side == first {
            return sides;
        }
        sides.push(side);
    }
}

/// The sides of the rim of a vertex, from that out of it on, or none where it is not on the boundary.
pub fn rim_sides(store: &Store, vertex: u32) -> Option<Vec<usize>> {
    let first = boundary_sides(store).find(|&side| store.tables.corners[side] == vertex)?;
    Some(sides_from(store, first))
}

/// The vertices of the rim of a vertex, likewise.
pub fn rim_vertices(store: &Store, vertex: u32) -> Option<Vec<u32>> {
    Some(rim_sides(store, vertex)?.into_iter().map(|side| store.tables.corners[side]).collect())
}

/// The sides of every rim.
pub fn all_rims(store: &Store) -> Vec<Vec<usize>> {
    let mut met = vec![false; 3 * store.triangles()];
    let mut rims = Vec::new();
    for first in boundary_sides(store) {
        if !met[first] {
            let sides = sides_from(store, first);
            sides.iter().for_each(|&side| met[side] = true);
            rims.push(sides);
        }
    }
    rims
}

/// What one entry of a curve is made of: the coordinates before, at and after, and 27 times what they give.
pub fn sources(store: &Store, rim: &[u32], entry: usize) -> ([i64; 3], i64) {
    let (place, point, axis) = (entry / 9, entry / 3 % 3, entry % 3);
    let beside = [place + rim.len() - 1, place, place + 1].map(|place| rim[place % rim.len()] as usize);
    let three = beside.map(|vertex| i64::from(store.point(vertex)[axis]));
    (three, (0..3).map(|i| PARTS[3 * point + i] * three[i]).sum())
}

/// What a call has written of a curve that it must not.
pub fn violated_by_curve(before: &Store, call: &Call, answer: &Answer, after: &Store) -> Option<String> {
    let carried_out = matches!(call, Call::RimCurve { .. }) && answer.refusal == 0;
    let entries = if carried_out { 9 * answer.length as usize } else { 0 };
    let (lent, written) = (&before.room.curve, &after.room.curve);
    if lent.len() < entries || lent[entries..] != written[entries..] {
        return Some("the table of a curve was written where there is none of it".to_string());
    }
    let Call::RimCurve { vertex } = call else {
        return None;
    };
    if (&before.tables, before.counts) != (&after.tables, after.counts) {
        return Some("a curve wrote the mesh".to_string());
    }
    if !carried_out {
        return (answer.length != 0).then(|| format!("{} vertices answered on a refusal", answer.length));
    }
    let Some(rim) = rim_vertices(before, *vertex) else {
        return Some(format!("a curve of vertex {vertex}, which is not on a rim"));
    };
    let mut once = rim.clone();
    once.sort_unstable();
    once.dedup();
    if rim.len() != answer.length as usize || once.len() != rim.len() || rim.len() < 2 {
        return Some(format!("{} vertices answered for the rim {rim:?}", answer.length));
    }
    wrong_entry(before, &rim, &written[..entries])
}

/// An entry that is half or more from its 27ths, or beyond its sources.
fn wrong_entry(store: &Store, rim: &[u32], curve: &[i32]) -> Option<String> {
    let is_wrong = |(entry, coordinate): (usize, &i32)| {
        let (three, sum) = sources(store, rim, entry);
        let found = i64::from(*coordinate);
        let is_near = (54 * found - 2 * sum).abs() < 27;
        !(is_near && three.iter().min() <= Some(&found) && Some(&found) <= three.iter().max())
    };
    let wrong = curve.iter().enumerate().position(is_wrong)?;
    let (three, sum) = sources(store, rim, wrong);
    Some(format!("entry {wrong} of a curve is {} for {sum} over 27, of {three:?}", curve[wrong]))
}
