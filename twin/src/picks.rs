//! Triangles, numbers and rules, chosen at random or where they matter.

use crate::claims::read_chain;
use crate::rng::Rng;
use crate::tables::{BOUNDARY, HALF_AWAY, HALF_UP, LAST_GENERATION, NO_RULES, Store};

/// Three times this number is 2 in 32 bits.
pub const WRAPPING: u32 = 0x5555_5556;

/// Rule 1 or 2.
pub fn either_rule(rng: &mut Rng) -> u32 {
    rng.pick(&[HALF_UP, HALF_AWAY])
}

/// Mostly rule 1 or 2, else a number that is no rule.
pub fn some_rule(rng: &mut Rng) -> u32 {
    if rng.percent(85) { either_rule(rng) } else { rng.pick(&NO_RULES) }
}

/// A number mostly below the count, else at it, past it or far off.
pub fn some_number(count: u32, rng: &mut Rng) -> u32 {
    match rng.below(24) {
        0 => count,
        1 => count.wrapping_add(rng.below(4) as u32),
        2 => rng.pick(&[u32::MAX, u32::MAX - 1, 1 << 31, 1 << 30, 1 << 16, WRAPPING]),
        3 => rng.word(),
        _ => rng.below(count.max(1) as usize) as u32,
    }
}

/// Every number below a count, those just past it, and some far off.
pub fn all_numbers(count: u32, slots: usize) -> impl Iterator<Item = u32> {
    (0..count + 3).chain([slots as u32, 1 << 16, 1 << 31, WRAPPING, u32::MAX])
}

/// A triangle: anywhere, or the deepest that a few tries find.
pub fn some_triangle(store: &Store, rng: &mut Rng) -> u32 {
    let in_use = store.triangles();
    if in_use == 0 || rng.percent(50) {
        return some_number(store.counts.triangles, rng);
    }
    let tries = (0..8).map(|_| rng.below(in_use));
    let generation = |slot: &usize| store.tables.generations[*slot];
    tries.max_by_key(generation).expect("there are tries") as u32
}

/// A triangle, or one a few sides away from it, mostly across bases: what refining the one may alter.
pub fn near_work(store: &Store, rng: &mut Rng) -> u32 {
    let mut at = some_triangle(store, rng);
    for _ in 0..rng.below(4) {
        let side = 3 * at as usize + rng.pick(&[0, 0, 1, 2]);
        let across = store.tables.links.get(side).map_or(at, |link| link / 3);
        at = if across < store.counts.triangles { across } else { at };
    }
    at
}

/// The triangle of highest generation that can still be refined, the last of several.
pub fn deepest_triangle(store: &Store) -> u32 {
    let generation = |slot: &usize| store.tables.generations[*slot];
    let below_last = (0..store.triangles()).filter(|slot| generation(slot) < LAST_GENERATION);
    below_last.max_by_key(generation).map_or(0, |slot| slot as u32)
}

/// The triangle with the longest base chain in sound tables, the last of several.
pub fn longest_chain_triangle(store: &Store) -> u32 {
    let length = |slot: &usize| read_chain(&store.tables, *slot).odd;
    (0..store.triangles()).max_by_key(length).map_or(0, |slot| slot as u32)
}

/// A triangle with a side on the boundary, or 0 where there is none.
pub fn boundary_triangle(store: &Store, rng: &mut Rng) -> u32 {
    let at_boundary = |slot: &usize| store.tables.links[3 * slot..][..3].contains(&BOUNDARY);
    let all: Vec<usize> = (0..store.triangles()).filter(at_boundary).collect();
    if all.is_empty() { 0 } else { rng.pick(&all) as u32 }
}
