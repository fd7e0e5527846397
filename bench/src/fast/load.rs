//! Load: the sides out of each vertex are threaded; vertex by vertex, opposite sides are linked and the fan is
//! walked.

use super::sound::FARTHEST;
use super::{next, previous};
use crate::tables::{BOUNDARY, Counts, Tables};

/// The end of a thread.
const NONE: u32 = u32::MAX;

/// Loads the cage by a rule, or refuses it with 2 to 6.
pub fn load(tables: &mut Tables, rule: u32, cage: &[u8]) -> Result<Counts, u32> {
    let (words, rest) = cage.as_chunks::<4>();
    let &[vertices, triangles, ..] = words else {
        return Err(2);
    };
    let (vertices, triangles) = (u32::from_le_bytes(vertices) as usize, u32::from_le_bytes(triangles) as usize);
    let fits =
        (1..=tables.positions.len() / 3).contains(&vertices) && (1..=tables.generations.len()).contains(&triangles);
    if !fits || words.len() != 2 + 3 * (vertices + triangles) || !rest.is_empty() {
        return Err(2);
    }
    let (coordinates, corners) = words[2..].split_at(3 * vertices);
    let corners: Vec<u32> = corners.iter().map(|&word| u32::from_le_bytes(word)).collect();
    let threads = Threads::of(&corners, vertices).ok_or(3u32)?;
    let far = |word: &[u8; 4]| !(-FARTHEST..=FARTHEST).contains(&i32::from_le_bytes(*word));
    if coordinates.iter().fold(false, |found, word| found | far(word)) {
        return Err(4);
    }
    let links = threads.links(&corners)?;
    tables.corners[..3 * triangles].copy_from_slice(&corners);
    tables.links[..3 * triangles].copy_from_slice(&links);
    tables.generations[..triangles].fill(0);
    tables.locks[..triangles].fill(0);
    for (place, &word) in tables.positions.iter_mut().zip(coordinates) {
        *place = i32::from_le_bytes(word);
    }
    Ok(Counts { vertices: vertices as u32, triangles: triangles as u32, rule })
}

/// The sides out of each vertex, as a thread through all of them.
struct Threads {
    heads: Vec<u32>,
    nexts: Vec<u32>,
}

impl Threads {
    /// None if a corner is not below the vertices, or repeated in its triangle.
    fn of(corners: &[u32], vertices: usize) -> Option<Threads> {
        let mut heads = vec![NONE; vertices];
        let mut nexts = Vec::with_capacity(corners.len());
        for &[a, b, c] in corners.as_chunks::<3>().0 {
            if a == b || b == c || c == a {
                return None;
            }
            for v in [a, b, c] {
                let side = nexts.len() as u32;
                nexts.push(std::mem::replace(heads.get_mut(v as usize)?, side));
            }
        }
        Some(Threads { heads, nexts })
    }

    fn sides_out_of(&self, v: usize) -> impl Iterator<Item = usize> {
        let mut side = self.heads[v];
        std::iter::from_fn(move || {
            let found = side as usize;
            side = *self.nexts.get(found)?;
            Some(found)
        })
    }

    /// The side opposite to each, or the refusal 5 or 6.
    fn links(&self, corners: &[u32]) -> Result<Vec<u32>, u32> {
        let mut links = vec![BOUNDARY; corners.len()];
        // For each target the side last seen to lead there, after one more than its origin.
        let mut seen = vec![(0, 0); self.heads.len()];
        let mut fans_fit = true;
        for v in 0..self.heads.len() {
            let stamp = v as u32 + 1;
            let mut degree = 0;
            for side in self.sides_out_of(v) {
                let place = &mut seen[corners[next(side)] as usize];
                if place.0 == stamp {
                    return Err(5);
                }
                *place = (stamp, side as u32);
                degree += 1;
            }
            // The sides out of v, less those across from sides into v: the start of a fan on the boundary remains.
            let (mut start, mut ends) = (0u32, 0);
            for side in self.sides_out_of(v) {
                let into = previous(side);
                let (origin, across) = seen[corners[into] as usize];
                start = start.wrapping_add(side as u32);
                if origin == stamp {
                    links[into] = across;
                    start = start.wrapping_sub(across);
                } else {
                    ends += 1;
                }
            }
            let start = if ends == 0 { self.heads[v] } else { start };
            // A closed fan of two triangles is turned away.
            let foil = degree == 2 && ends == 0;
            fans_fit &= degree > 0 && ends < 2 && !foil && walk_length(&links, start) == degree;
        }
        if fans_fit { Ok(links) } else { Err(6) }
    }
}

/// How many sides the walk round a vertex meets.
fn walk_length(links: &[u32], start: u32) -> u32 {
    let mut length = 0;
    let mut side = start;
    loop {
        length += 1;
        side = links[previous(side as usize)];
        if side == start || side == BOUNDARY {
            return length;
        }
    }
}
