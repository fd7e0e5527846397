//! The rim as a curve. The side where the ring of a vertex on the boundary starts is the rim's: no fan is walked.

use super::{next, triple};
use crate::tables::{BOUNDARY, Tables};

/// The rim of a vertex in sound tables, from it on, or the refusal 8 or 24.
pub fn vertices(tables: &Tables, starts: &[u32], vertex: u32) -> Result<Vec<u32>, u32> {
    let start = *starts.get(vertex as usize).ok_or(8u32)?;
    if tables.links[start as usize] != BOUNDARY {
        return Err(24);
    }
    let mut rim = vec![vertex];
    loop {
        let at = rim[rim.len() - 1] as usize;
        let after = tables.corners[next(starts[at] as usize)];
        if after == vertex {
            return Ok(rim);
        }
        rim.push(after);
    }
}

/// Writes the curve of a vertex's rim in sound tables and answers its vertices, or the refusal 8, 24 or 25.
pub fn curve(tables: &Tables, starts: &[u32], vertex: u32, table: &mut [i32]) -> Result<u32, u32> {
    let rim = vertices(tables, starts, vertex)?;
    let (nines, _) = table.get_mut(..9 * rim.len()).ok_or(25u32)?.as_chunks_mut::<9>();
    let point = |vertex: u32| triple(&tables.positions, vertex as usize);
    let (mut before, mut at) = (point(rim[rim.len() - 1]), point(vertex));
    for (place, nine) in nines.iter_mut().enumerate() {
        let after = point(*rim.get(place + 1).unwrap_or(&vertex));
        for axis in 0..3 {
            let [a, b, c] = [before[axis], at[axis], after[axis]];
            nine[axis] = nearest(10 * a + 16 * b + c);
            nine[3 + axis] = nearest(4 * a + 19 * b + 4 * c);
            nine[6 + axis] = nearest(a + 16 * b + 10 * c);
        }
        (before, at) = (at, after);
    }
    Ok(rim.len() as u32)
}

/// A sum of 27ths, of three coordinates, to the nearest. None is half-way.
fn nearest(sum: i32) -> i32 {
    (sum + 13).div_euclid(27)
}
