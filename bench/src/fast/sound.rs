//! Soundness in one pass over the triangles and one walk round each vertex.

use super::{LAST_GENERATION, next, previous};
use crate::tables::{BOUNDARY, Counts, Tables};

/// The greatest coordinate, and the opposite of the least.
pub const FARTHEST: i32 = 16_777_216;

/// No start seen yet.
const NONE: u32 = u32::MAX;

/// The side where the ring of each vertex starts, if the tables are sound; the rule has been tested. It is not inlined,
/// as its loops are slower where a caller's values take their registers.
#[inline(never)]
pub fn starts_if_sound(tables: &Tables, counts: Counts) -> Option<Vec<u32>> {
    let (vertices, triangles) = (counts.vertices as usize, counts.triangles as usize);
    if vertices == 0 || triangles == 0 {
        return None;
    }
    let positions = tables.positions.get(..3 * vertices)?;
    let generations = tables.generations.get(..triangles)?;
    let corners = &tables.corners[..3 * triangles];
    let links = &tables.links[..3 * triangles];
    let lock_bits = tables.locks[..triangles].iter().fold(0, |bits, &lock| bits | lock);
    let far = positions.iter().fold(false, |far, &x| far | !(-FARTHEST..=FARTHEST).contains(&x));
    let starts = starts_if_linked(corners, links, generations, vertices)?;
    (!far && lock_bits <= 1 && has_one_fan_each(links, &starts)).then_some(starts)
}

/// The lowest side out of each vertex, or the boundary one, if all generations, corners and links are sound.
fn starts_if_linked(corners: &[u32], links: &[u32], generations: &[u8], vertices: usize) -> Option<Vec<u32>> {
    let mut starts = vec![NONE; vertices];
    let (triples, _) = corners.as_chunks::<3>();
    let (link_triples, _) = links.as_chunks::<3>();
    for (t, ((&[a, b, c], across), &generation)) in triples.iter().zip(link_triples).zip(generations).enumerate() {
        if generation > LAST_GENERATION || a == b || b == c || c == a {
            return None;
        }
        for (i, (from, to)) in [(a, b), (b, c), (c, a)].into_iter().enumerate() {
            let h = 3 * t + i;
            let k = across[i] as usize;
            let start = starts.get_mut(from as usize)?;
            if across[i] == BOUNDARY {
                *start = h as u32;
                continue;
            }
            if *start == NONE {
                *start = h as u32;
            }
            // The lower side of a pair tests what both have in common; one linked to itself does not run the other way.
            if *links.get(k)? as usize != h {
                return None;
            }
            if h <= k {
                let other = generations[k / 3];
                let even = generation == other && generation % 2 == 0;
                if corners[k] != to || corners[next(k)] != from || !(even || are_a_pair(generation, i, other, k % 3)) {
                    return None;
                }
            }
        }
    }
    Some(starts)
}

/// The five kinds: side 0 of an odd triangle is of the level below that of its other sides, those of an even one are
/// of one level. Two sides may be linked if they are of one level and not both bases.
fn are_a_pair(g: u8, i: usize, h: u8, j: usize) -> bool {
    let level = |generation: u8, side: usize| (generation + u8::from(side != 0)) / 2;
    let both_bases = i == 0 && j == 0 && g & h & 1 == 1;
    level(g, i) == level(h, j) && !both_bases
}

/// Whether each vertex has a start, and the walks from the starts meet every side. Mutual links lead each walk back
/// to its start or to the boundary.
fn has_one_fan_each(links: &[u32], starts: &[u32]) -> bool {
    let mut met = 0;
    for &start in starts {
        if start == NONE {
            return false;
        }
        let mut side = start;
        loop {
            met += 1;
            side = links[previous(side as usize)];
            if side == start || side == BOUNDARY {
                break;
            }
        }
    }
    met == links.len()
}
