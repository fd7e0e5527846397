//! Damage that leaves most of a table in order, such as links crossed in pairs or vertices merged.

use crate::bench::{Bench, Outcome};
use crate::cages;
use crate::calls;
use crate::damage::refined;
use crate::handmade;
use crate::rng::Rng;
use crate::tables::{BOUNDARY, LAST_GENERATION, Store};

/// Sound tables, damaged once or twice; some are still sound.
pub fn damaged_store(rng: &mut Rng) -> Store {
    let mut store = sound_store(rng);
    for _ in 0..1 + rng.below(2) {
        damage_once(&mut store, rng);
    }
    store
}

fn sound_store(rng: &mut Rng) -> Store {
    if rng.percent(40) {
        return handmade::random(rng);
    }
    let cage =
        rng.pick(&[cages::tetrahedron, cages::foil, || cages::strip(3), || cages::disc(4), || cages::torus(3, 3)]);
    let most = rng.pick(&[9, 9, 60]);
    let requests: Vec<u32> = (0..rng.below(most)).map(|i| rng.below(20 + i) as u32).collect();
    refined(&cage(), &requests, 1, rng)
}

fn damage_once(store: &mut Store, rng: &mut Rng) {
    let sides = 3 * store.triangles();
    let (one, other) = (rng.below(sides), rng.below(sides));
    let tables = &mut store.tables;
    match rng.below(13) {
        0 => cut(&mut tables.links, one),
        1 => sew(store),
        2 => cross(&mut tables.links, one, other),
        3 => merge_vertices(store, rng),
        4 => add_vertex(store),
        5 => tables.generations[one / 3] ^= rng.pick(&[1, 2, 3]),
        6 => tables.links[one] = tables.links[other],
        7 => tables.corners.swap(one, other),
        8 => turn(store, one / 3),
        9 => link_to_itself(&mut tables.links[..sides], one),
        10 => tables.locks[one / 3] ^= 1,
        11 => tables.locks[one / 3] = rng.pick(&[2, 3, 129, 255]),
        _ => ripen(&mut tables.generations[..sides / 3], rng),
    }
}

/// Makes a linked pair two boundary sides; a vertex at the boundary gets two fans by it.
fn cut(links: &mut [u32], side: usize) {
    let partner = links[side] as usize;
    links[side] = BOUNDARY;
    if let Some(link) = links.get_mut(partner) {
        *link = BOUNDARY;
    }
}

/// Links a side to itself, and so its partner, so that all links stay mutual.
fn link_to_itself(links: &mut [u32], side: usize) {
    let partner = links[side] as usize;
    links[side] = side as u32;
    if let Some(link) = links.get_mut(partner) {
        *link = partner as u32;
    }
}

/// Links two boundary sides that run between the same vertices the other way, if there are such.
fn sew(store: &mut Store) {
    let sides = 3 * store.triangles();
    let tables = &mut store.tables;
    let ends = |side: usize| [tables.corners[side], tables.corners[side - side % 3 + (side + 1) % 3]];
    let open: Vec<usize> = (0..sides).filter(|&side| tables.links[side] == BOUNDARY).collect();
    let pairs = open.iter().flat_map(|&one| open.iter().map(move |&other| (one, other)));
    let mut fitting = pairs.filter(|&(one, other)| ends(one)[0] == ends(other)[1] && ends(one)[1] == ends(other)[0]);
    if let Some((one, other)) = fitting.next() {
        tables.links[one] = other as u32;
        tables.links[other] = one as u32;
    }
}

/// Links two sides with each other and their old partners with each other, so that all links stay mutual.
fn cross(links: &mut [u32], one: usize, other: usize) {
    let (partner, other_partner) = (links[one] as usize, links[other] as usize);
    if one == other || partner == other || partner >= links.len() || other_partner >= links.len() {
        return;
    }
    for (from, to) in [(one, other), (other, one), (partner, other_partner), (other_partner, partner)] {
        links[from] = to as u32;
    }
}

/// Puts one vertex in another's place everywhere: two fans there, and none at the first, or one vertex less.
fn merge_vertices(store: &mut Store, rng: &mut Rng) {
    let last = store.counts.vertices - 1;
    let into = rng.below(store.counts.vertices as usize) as u32;
    let sides = 3 * store.triangles();
    for corner in store.tables.corners[..sides].iter_mut().filter(|corner| **corner == last) {
        *corner = into;
    }
    if rng.percent(50) {
        store.counts.vertices = last.max(1);
    }
}

/// Takes one more vertex slot into use, in range and without triangles.
fn add_vertex(store: &mut Store) {
    let place = 3 * store.counts.vertices as usize;
    store.counts.vertices += 1;
    if let Some(point) = store.tables.positions.get_mut(place..place + 3) {
        point.fill(0);
    }
}

/// Raises all generations by the same even amount, so that the highest go just past 20 and all pairs stay of their
/// kinds.
fn ripen(generations: &mut [u8], rng: &mut Rng) {
    let highest = generations.iter().copied().max().unwrap_or(0).min(LAST_GENERATION);
    let lift = (LAST_GENERATION + 2 - highest) / 2 * 2 + 2 * rng.below(2) as u8;
    generations.iter_mut().for_each(|generation| *generation = generation.saturating_add(lift));
}

/// Turns a triangle by one corner and keeps all links mutual; on an odd triangle another side becomes the base.
fn turn(store: &mut Store, slot: usize) {
    let sides = 3 * store.triangles();
    let tables = &mut store.tables;
    tables.corners[3 * slot..][..3].rotate_left(1);
    tables.links[3 * slot..][..3].rotate_left(1);
    for side in 3 * slot..3 * slot + 3 {
        let partner = tables.links[side] as usize;
        if partner < sides {
            tables.links[partner] = side as u32;
        }
    }
}

/// Random damage to random tables that leaves most of them in order, one or two at a time.
pub fn random_damage(bench: &mut Bench, rounds: usize, rng: &mut Rng) -> Outcome {
    for _ in 0..rounds {
        let mut store = damaged_store(rng);
        for call in calls::one_of_each(&mut store, rng) {
            bench.compare_only(&store, &call)?;
        }
    }
    Ok(())
}
