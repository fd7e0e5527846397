//! Random cages: closed and open triangulations, shapes and soups, in one or several components.

use crate::cages::{Cage, band, disc, double_pyramid, foil, open_fan, sheet, strip, tetrahedron, torus};
use crate::rng::Rng;

/// A random cage, shuffled and scattered; most are accepted by a load.
pub fn random_cage(rng: &mut Rng) -> Cage {
    let mut cage = component(rng);
    while rng.percent(20) {
        cage = cage.with(&component(rng));
    }
    cage.shuffled(rng).scattered(rng)
}

fn component(rng: &mut Rng) -> Cage {
    let size = 3 + rng.below(5) as u32;
    match rng.below(12) {
        0 => tetrahedron(),
        1 => foil(),
        2 => double_pyramid(size + rng.below(8) as u32),
        3 => torus(3, size),
        4 => disc(size),
        5 => strip(size - 2),
        6 => open_fan(size - 2),
        7 => band(size),
        8 => sheet(1 + size % 3, 1 + size / 3),
        9 => random_open(rng),
        10 => soup(rng),
        _ => random_closed(rng),
    }
}

/// A closed triangulation: a simple one, with vertices put into triangles and edges flipped at random.
fn random_closed(rng: &mut Rng) -> Cage {
    let mut cage = match rng.below(4) {
        0 => torus(3, 3),
        1 => double_pyramid(3 + rng.below(4) as u32),
        2 => foil(),
        _ => tetrahedron(),
    };
    for _ in 0..rng.below(14) {
        let slot = rng.below(cage.triangles.len());
        if rng.percent(40) {
            put_vertex_into(&mut cage, slot);
        } else {
            flip_edge(&mut cage, slot, rng.below(3));
        }
    }
    cage
}

fn put_vertex_into(cage: &mut Cage, slot: usize) {
    let [a, b, c] = cage.triangles[slot];
    let centre = cage.points.len() as u32;
    cage.points.push([0; 3]);
    cage.triangles[slot] = [a, b, centre];
    cage.triangles.extend([[b, c, centre], [c, a, centre]]);
}

/// Flips the edge under a side, unless its new ends are joined already.
fn flip_edge(cage: &mut Cage, slot: usize, side: usize) {
    let rotated = |corners: [u32; 3], by: usize| [0, 1, 2].map(|i| corners[(i + by) % 3]);
    let [a, b, p] = rotated(cage.triangles[slot], side);
    let place = |from: u32, to: u32| {
        let sides = cage.triangles.iter().enumerate().flat_map(|(slot, _)| [0, 1, 2].map(|side| (slot, side)));
        let mut found = sides.filter(|&(slot, side)| rotated(cage.triangles[slot], side)[..2] == [from, to]);
        found.next()
    };
    let Some((other, other_side)) = place(b, a) else {
        return;
    };
    let [_, _, q] = rotated(cage.triangles[other], other_side);
    if p != q && place(p, q).is_none() && place(q, p).is_none() {
        cage.triangles[slot] = [a, q, p];
        cage.triangles[other] = [b, p, q];
    }
}

/// A closed or open triangulation with triangles taken out; a vertex may be left with several fans.
fn random_open(rng: &mut Rng) -> Cage {
    let mut cage = if rng.percent(50) { random_closed(rng) } else { sheet(3, 3) };
    for _ in 0..1 + rng.below(4) {
        if cage.triangles.len() > 1 {
            cage.triangles.remove(rng.below(cage.triangles.len()));
        }
    }
    cage.trimmed()
}

/// A few triangles on a few vertices; a load refuses most, with 5 or 6.
fn soup(rng: &mut Rng) -> Cage {
    let vertices = 3 + rng.below(4);
    let triangle = |rng: &mut Rng| {
        let mut corners: Vec<u32> = (0..vertices as u32).collect();
        rng.shuffle(&mut corners);
        [corners[0], corners[1], corners[2]]
    };
    let triangles = 1 + rng.below(5);
    Cage::of((0..triangles).map(|_| triangle(rng)).collect()).trimmed()
}
