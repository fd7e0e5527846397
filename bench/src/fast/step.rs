//! The whole step in closed form, and the limit positions. On a closed mesh of one even generation every edge is
//! flipped, so that each old side x gives one new triangle, in a slot that x alone decides: (origin of x, centre across
//! x, centre of x's own triangle).

use super::LAST_GENERATION;
use super::split::third;
use crate::tables::{BOUNDARY, Counts, HALF_AWAY, Tables, Worked};

/// The weights for rings of 0 to 12 entries, out of 65536.
const WEIGHTS: [i64; 13] = [0, 0, 43691, 36409, 29127, 24627, 21845, 20047, 18829, 17971, 17345, 16875, 16515];

/// The whole step on sound tables, or the refusal 12, 9, 13, 19 or 11.
pub fn whole_step(tables: &mut Tables, counts: Counts) -> Result<Worked, u32> {
    let (vertices, triangles) = (counts.vertices as usize, counts.triangles as usize);
    let generation = even_generation(tables, triangles).ok_or(12u32)?;
    if generation == LAST_GENERATION {
        return Err(9);
    }
    let moved = if counts.rule == HALF_AWAY { moved_vertices::<true> } else { moved_vertices::<false> };
    let moved = moved(tables, vertices, triangles).ok_or(13u32)?;
    if tables.locks[..triangles].iter().fold(0, |bits, &lock| bits | lock) != 0 {
        return Err(19);
    }
    if tables.positions.len() / 3 < vertices + triangles || tables.generations.len() < 3 * triangles {
        return Err(11);
    }
    let (points, _) = tables.positions.as_chunks_mut::<3>();
    let (old, new) = points.split_at_mut(vertices);
    for (corners, new) in tables.corners.as_chunks::<3>().0.iter().zip(&mut new[..triangles]) {
        let [a, b, c] = corners.map(|corner| old[corner as usize]);
        *new = [0, 1, 2].map(|axis| third(a[axis] + b[axis] + c[axis]));
    }
    old.copy_from_slice(&moved);
    split_all(tables, vertices, triangles);
    tables.generations[..3 * triangles].fill(generation + 2);
    tables.locks[triangles..3 * triangles].fill(0);
    let (splits, flips) = (counts.triangles, counts.triangles / 2 * 3);
    let counts = Counts { vertices: counts.vertices + splits, triangles: 3 * splits, ..counts };
    Ok(Worked { refusal: 0, splits, flips, counts })
}

/// The limit positions of sound tables, or the refusal 12, 13 or 15.
pub fn limit(tables: &Tables, counts: Counts, table: &mut [i32]) -> Result<(), u32> {
    let (vertices, triangles) = (counts.vertices as usize, counts.triangles as usize);
    even_generation(tables, triangles).ok_or(12u32)?;
    let rings = ring_sums(tables, vertices, triangles);
    if rings.iter().fold(0, |longest, &[.., entries]| longest.max(entries)) >= WEIGHTS.len() as i32 {
        return Err(13);
    }
    if table.len() != 3 * vertices {
        return Err(15);
    }
    let write = if counts.rule == HALF_AWAY { write_limits::<true> } else { write_limits::<false> };
    write(tables, &rings, table);
    Ok(())
}

fn write_limits<const AWAY: bool>(tables: &Tables, rings: &[[i32; 4]], table: &mut [i32]) {
    let (points, _) = tables.positions.as_chunks::<3>();
    let (limits, _) = table.as_chunks_mut::<3>();
    for ((limit, point), &[x, y, z, entries]) in limits.iter_mut().zip(points).zip(rings) {
        let (n, w) = (i64::from(entries), WEIGHTS[entries as usize]);
        let denominator = n * (65536 + 3 * w);
        let nearest = |p: i32, sum: i32| {
            let numerator = 65536 * n * i64::from(p) + 3 * w * i64::from(sum);
            (2 * numerator + denominator + half_down::<AWAY>(numerator)).div_euclid(2 * denominator) as i32
        };
        *limit = [nearest(point[0], x), nearest(point[1], y), nearest(point[2], z)];
    }
}

/// The generation of all triangles, if it is one even one and no side is on the boundary.
fn even_generation(tables: &Tables, triangles: usize) -> Option<u8> {
    let generation = tables.generations[0];
    let open = tables.links[..3 * triangles].iter().fold(false, |open, &link| open | (link == BOUNDARY));
    let mixed = tables.generations[..triangles].iter().fold(false, |mixed, &other| mixed | (other != generation));
    (!open && !mixed && generation.is_multiple_of(2)).then_some(generation)
}

/// The sum of each vertex's ring, and how many entries it has. On a closed mesh the ring of a vertex has the targets
/// of the sides out of it.
fn ring_sums(tables: &Tables, vertices: usize, triangles: usize) -> Vec<[i32; 4]> {
    let (points, _) = tables.positions[..3 * vertices].as_chunks::<3>();
    let mut rings = vec![[0i32; 4]; vertices];
    for &[a, b, c] in tables.corners[..3 * triangles].as_chunks::<3>().0 {
        for (from, to) in [(a, b), (b, c), (c, a)] {
            let ([x, y, z], ring) = (points[to as usize], &mut rings[from as usize]);
            // The sum of twelve coordinates fits; of a longer ring only the length matters.
            *ring = [ring[0].wrapping_add(x), ring[1].wrapping_add(y), ring[2].wrapping_add(z), ring[3] + 1];
        }
    }
    rings
}

/// −1 below zero if halves go away from it, and 0 elsewhere. Added before a division, it changes the floor where there
/// is a half, and nowhere else.
fn half_down<const AWAY: bool>(numerator: i64) -> i64 {
    if AWAY { numerator >> 63 } else { 0 }
}

/// Where the vertices move, if no ring has more than 12 entries.
fn moved_vertices<const AWAY: bool>(tables: &Tables, vertices: usize, triangles: usize) -> Option<Vec<[i32; 3]>> {
    let (points, _) = tables.positions[..3 * vertices].as_chunks::<3>();
    let rings = ring_sums(tables, vertices, triangles);
    let moved = |(&point, &[x, y, z, entries]): (&[i32; 3], &[i32; 4])| {
        let w = *WEIGHTS.get(entries as usize)?;
        let n = i64::from(entries);
        let nearest = |p: i32, sum: i32| {
            let numerator = n * (65536 - w) * i64::from(p) + w * i64::from(sum);
            // The two divisions, both down, are as good as one by 65536 × n.
            (((numerator + 32768 * n + half_down::<AWAY>(numerator)) >> 16) as i32).div_euclid(entries)
        };
        Some([nearest(point[0], x), nearest(point[1], y), nearest(point[2], z)])
    };
    points.iter().zip(&rings).map(moved).collect()
}

/// The new triangles with their links. The sides from a centre to an old vertex are linked from there, so that each
/// triangle writes what its own sides and those across from them become.
fn split_all(tables: &mut Tables, vertices: usize, triangles: usize) {
    let old_links = tables.links[..3 * triangles].to_vec();
    let (corners, _) = tables.corners[..9 * triangles].as_chunks_mut::<3>();
    let (links, _) = tables.links[..9 * triangles].as_chunks_mut::<3>();
    let (v, f) = (vertices as u32, triangles as u32);
    let slot = |t: u32, i: u32| if i == 0 { t } else { f + 2 * t + i - 1 };
    for (t, across) in (0..f).zip(old_links.as_chunks::<3>().0) {
        let old_corners = corners[t as usize];
        let slots_across = across.map(|side| slot(side / 3, side % 3));
        for i in 0..3 {
            let (own, before) = (slot(t, i as u32), slots_across[(i + 2) % 3]);
            corners[own as usize] = [old_corners[i], v + across[i] / 3, v + t];
            links[own as usize][1] = 3 * slots_across[i] + 1;
            links[own as usize][2] = 3 * before;
            links[before as usize][0] = 3 * own + 2;
        }
    }
}
