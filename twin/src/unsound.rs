//! Tables that break one sentence of Sound and no other, and all pairs of generations across all pairs of sides.

use crate::bench::{Bench, Outcome, difference};
use crate::calls;
use crate::rng::Rng;
use crate::tables::{BOUNDARY, Call, Counts, FARTHEST, HALF_UP, NO_RULES, Store};

/// A triangle as it stands in the tables: corners, links and generation.
type Row = ([u32; 3], [u32; 3], u8);

/// A side at the boundary.
const B: u32 = BOUNDARY;

/// Tables with these triangles and so many vertices, all slots past the counts in range, too.
fn tables(vertices: u32, rows: &[Row]) -> Store {
    let mut store = Store::fresh(vertices as usize + 3, rows.len() + 6);
    store.counts = Counts { vertices, triangles: rows.len() as u32, rule: HALF_UP };
    for (slot, (corners, links, generation)) in rows.iter().enumerate() {
        store.tables.corners[3 * slot..][..3].copy_from_slice(corners);
        store.tables.links[3 * slot..][..3].copy_from_slice(links);
        store.tables.generations[slot] = *generation;
    }
    store
}

fn foil() -> Store {
    tables(3, &[([0, 1, 2], [5, 4, 3], 0), ([0, 2, 1], [2, 1, 0], 0)])
}

/// Two triangles apart from each other.
fn two_apart(generations: [u8; 2]) -> Store {
    tables(6, &[([0, 1, 2], [B; 3], generations[0]), ([3, 4, 5], [B; 3], generations[1])])
}

fn with_counts(mut store: Store, vertices: u32, triangles: u32) -> Store {
    store.counts = Counts { vertices, triangles, ..store.counts };
    store
}

fn with_rule(mut store: Store, rule: u32) -> Store {
    store.counts.rule = rule;
    store
}

fn with_lock(mut store: Store, slot: usize, lock: u8) -> Store {
    store.tables.locks[slot] = lock;
    store
}

fn with_coordinate(mut store: Store, place: usize, coordinate: i32) -> Store {
    store.tables.positions[place] = coordinate;
    store
}

/// Each with the sentence that it breaks.
pub fn one_way_each() -> Vec<(&'static str, Store)> {
    let single = tables(3, &[([0, 1, 2], [B; 3], 0)]);
    let same_way = tables(4, &[([0, 1, 2], [3, B, B], 0), ([0, 1, 3], [0, B, B], 0)]);
    let beside_a_pair = [([0, 1, 2], [3, B, B], 0), ([1, 0, 3], [0, B, B], 0), ([1, 0, 4], [0, B, B], 0)];
    // A tetrahedron in which one side of a linked pair is called boundary.
    let upper = [([0, 1, 2], [5, 8, 11], 0), ([0, 3, 1], [10, 6, B], 0)];
    let lower = [([1, 3, 2], [4, 9, 1], 0), ([2, 3, 0], [7, 3, 2], 0)];
    let two_fans = [([0, 1, 2], [B; 3], 0), ([0, 3, 4], [B; 3], 0)];
    let broken = vec![
        ("1 <= F", with_counts(foil(), 3, 0)),
        ("1 <= V", with_counts(foil(), 0, 2)),
        ("V within the slots", with_counts(foil(), 7, 2)),
        ("F within the slots", with_counts(foil(), 3, 9)),
        ("corners below V", with_counts(single.clone(), 2, 1)),
        ("three distinct in each triangle", tables(2, &[([0, 1, 0], [1, 0, B], 0)])),
        ("names a side in use", with_counts(foil(), 3, 1)),
        ("runs the other way", same_way),
        ("runs the other way: one side linked to itself", tables(3, &[([0, 1, 2], [0, B, B], 0)])),
        ("runs the other way: all three sides linked to themselves", tables(3, &[([0, 1, 2], [0, 1, 2], 0)])),
        ("links back", tables(5, &beside_a_pair)),
        ("links back", tables(4, &[upper, lower].concat())),
        ("at least one triangle", with_counts(single.clone(), 4, 1)),
        ("one fan", tables(5, &two_fans)),
        ("one fan, and another vertex with none", tables(6, &two_fans)),
        ("coordinates in range", with_coordinate(single.clone(), 8, FARTHEST + 1)),
        ("coordinates in range", with_coordinate(single, 0, -FARTHEST - 1)),
        ("generations 0 to 20", two_apart([21, 0])),
        ("generations 0 to 20", two_apart([20, 22])),
        ("generations 0 to 20", two_apart([0, 255])),
        ("locks 0 or 1", with_lock(foil(), 0, 2)),
        ("locks 0 or 1", with_lock(foil(), 1, 2)),
        ("locks 0 or 1", with_lock(two_apart([0, 7]), 1, 255)),
        ("locks 0 or 1", with_lock(two_apart([20, 20]), 0, 128)),
    ];
    broken.into_iter().chain(NO_RULES.map(|rule| ("rule 1 or 2", with_rule(foil(), rule)))).collect()
}

/// All of them on both services, each call but load.
pub fn run(bench: &mut Bench, rng: &mut Rng) -> Outcome {
    for (broken, mut store) in one_way_each() {
        for call in calls::one_of_each(&mut store, rng) {
            if bench.compare_only(&store, &call)?.refusal != 7 {
                return Err(difference(format!("not refused with 7: {broken}"), store, &call));
            }
        }
    }
    Ok(())
}

/// Two triangles that share one side: all generations up to a few too many, and all side numbers.
pub fn all_pairs(bench: &mut Bench, rng: &mut Rng) -> Outcome {
    let generations = || (0..=23).chain([254, 255]);
    for (g, h) in generations().flat_map(|g| generations().map(move |h| (g, h))) {
        for (i, j) in (0..9).map(|code| (code / 3, code % 3)) {
            let mut store = pair((g, i), (h, j));
            bench.compare_only(&store, &Call::Refine { triangle: 0 })?;
            bench.compare_only(&store, &Call::Refine { triangle: 1 })?;
            let call = calls::random_call(&mut store, rng);
            bench.compare_only(&store, &call)?;
        }
    }
    Ok(())
}

/// Triangles of two generations, a side of the one linked to a side of the other.
fn pair(one: (u8, usize), other: (u8, usize)) -> Store {
    let row = |(generation, side): (u8, usize), mut corners: [u32; 3], link: usize| {
        let mut links = [link as u32, B, B];
        corners.rotate_right(side);
        links.rotate_right(side);
        (corners, links, generation)
    };
    tables(4, &[row(one, [0, 1, 2], 3 + other.1), row(other, [1, 0, 3], one.1)])
}
