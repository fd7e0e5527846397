//! Hand-made sound tables: triangles of chosen generations glued side to side, as no load and no history need give
//! them.
//!
//! Two triangles may share several sides, chains may be long and the boundary may lie anywhere. Vertices are what
//! the gluing makes of the corners, so that each has one fan.

use crate::bench::{Bench, Outcome};
use crate::calls;
use crate::fault::Seeded;
use crate::load::linked_mesh;
use crate::picks;
use crate::rng::Rng;
use crate::sound::{has_one_fan_each, kind};
use crate::tables::{BOUNDARY, Call, Counts, FARTHEST, LAST_GENERATION, Store};

pub struct Gluing {
    generations: Vec<u8>,
    /// The side across each side, both as 3×triangle + side.
    partners: Vec<Option<usize>>,
}

/// The corner at which a side starts, and the one at which it ends.
fn ends(side: usize) -> [usize; 2] {
    [side, side - side % 3 + (side + 1) % 3]
}

impl Gluing {
    pub fn new(generations: Vec<u8>) -> Gluing {
        let partners = vec![None; 3 * generations.len()];
        Gluing { generations, partners }
    }

    /// Glues two free sides if they make one of the five kinds and no triangle gets a vertex twice.
    pub fn glue(&mut self, one: usize, other: usize) -> bool {
        let end = |side: usize| (self.generations[side / 3], side % 3);
        let free = self.partners[one].is_none() && self.partners[other].is_none() && one != other;
        if !free || kind(end(one), end(other)).is_none() {
            return false;
        }
        self.partners[one] = Some(other);
        self.partners[other] = Some(one);
        let distinct = self.vertices().chunks(3).all(|v| v[0] != v[1] && v[1] != v[2] && v[2] != v[0]);
        if !distinct {
            self.partners[one] = None;
            self.partners[other] = None;
        }
        distinct
    }

    /// Tries to glue random pairs of sides.
    pub fn glue_at_random(&mut self, tries: usize, rng: &mut Rng) {
        for _ in 0..tries {
            let free: Vec<usize> = (0..self.partners.len()).filter(|&side| self.partners[side].is_none()).collect();
            if free.is_empty() {
                return;
            }
            let (one, other) = (rng.pick(&free), rng.pick(&free));
            self.glue(one, other);
        }
    }

    /// The vertex of each corner: corners that a glued side brings together are one vertex.
    fn vertices(&self) -> Vec<usize> {
        let mut class: Vec<usize> = (0..self.partners.len()).collect();
        fn root(class: &[usize], mut corner: usize) -> usize {
            while class[corner] != corner {
                corner = class[corner];
            }
            corner
        }
        for (side, partner) in self.partners.iter().enumerate() {
            if let Some(partner) = partner {
                // Glued sides run opposite ways.
                let (start, end) = (root(&class, ends(side)[0]), root(&class, ends(*partner)[1]));
                class[start.max(end)] = start.min(end);
            }
        }
        let roots: Vec<usize> = (0..class.len()).map(|corner| root(&class, corner)).collect();
        let mut named: Vec<usize> = roots.clone();
        named.sort_unstable();
        named.dedup();
        roots.iter().map(|root| named.binary_search(root).expect("every root is named")).collect()
    }

    /// The tables of this gluing, vertices numbered at random and placed anywhere, with spare slots that hold
    /// anything.
    pub fn store(&self, spare_vertices: usize, spare_triangles: usize, rng: &mut Rng) -> Store {
        let vertices = self.vertices();
        let count = vertices.iter().max().map_or(0, |&last| last + 1);
        let mut number: Vec<u32> = (0..count as u32).collect();
        rng.shuffle(&mut number);
        let mut store = Store::junk(count + spare_vertices, self.generations.len() + spare_triangles, rng);
        let triangles = self.generations.len() as u32;
        store.counts = Counts { vertices: count as u32, triangles, rule: picks::either_rule(rng) };
        let reach = rng.pick(&[3, 1000, FARTHEST]);
        store.tables.positions[..3 * count].fill_with(|| rng.between(-reach, reach));
        store.tables.generations[..self.generations.len()].copy_from_slice(&self.generations);
        store.tables.locks[..self.generations.len()].fill(0);
        for (side, partner) in self.partners.iter().enumerate() {
            store.tables.corners[side] = number[vertices[side]];
            store.tables.links[side] = partner.map_or(BOUNDARY, |partner| partner as u32);
        }
        store
    }
}

/// A base chain of so many odd triangles over an even one of generation `lowest`, or over the boundary. Its first
/// triangle is the last slot of the chain.
pub fn chain(odd: usize, even_end: bool, lowest: u8, more: &[u8], rng: &mut Rng) -> Gluing {
    let odds = (0..odd).map(|i| lowest + 1 + 2 * i as u8);
    let mut generations: Vec<u8> =
        if even_end { std::iter::once(lowest).chain(odds).collect() } else { odds.collect() };
    let members = generations.len();
    generations.extend(more);
    let mut gluing = Gluing::new(generations);
    for slot in 1..members {
        let across = if even_end && slot == 1 { rng.below(3) } else { 1 + rng.below(2) };
        assert!(gluing.glue(3 * slot, 3 * (slot - 1) + across), "a strip can always be glued");
    }
    gluing
}

/// A base chain of so many odd triangles over an even one, with an odd triangle at each other side of that, and with so
/// many even ones at the sides 1 of all these odd ones: slots that a refine of the chain's first triangle changes by a
/// link alone.
pub fn crowded(odd: usize, beside: usize) -> Gluing {
    let odds = (1..=odd).map(|i| 2 * i as u8 - 1).chain([1, 1]);
    let mut generations: Vec<u8> = std::iter::once(0).chain(odds).collect();
    generations.extend_from_within(1..=beside);
    generations[odd + 3..].iter_mut().for_each(|generation| *generation += 1);
    let mut gluing = Gluing::new(generations);
    let along = (2..=odd).map(|slot| (3 * slot, 3 * (slot - 1) + 2));
    let at_even = [(3, 0), (3 * (odd + 1), 1), (3 * (odd + 2), 2)];
    let beside = (1..=beside).map(|slot| (3 * (odd + 2 + slot), 3 * slot + 1));
    for (one, other) in at_even.into_iter().chain(along).chain(beside) {
        assert!(gluing.glue(one, other), "a tree can always be glued");
    }
    gluing
}

/// An even triangle with odd ones at its sides, and another even one at the sides 1 of these, on three vertices.
pub fn wrapped() -> Gluing {
    let mut gluing = Gluing::new(vec![0, 1, 1, 1, 2]);
    for i in 0..3 {
        assert!(gluing.glue(i, 3 + 3 * i) && gluing.glue(12 + i, 4 + 3 * i), "all kinds fit");
    }
    gluing
}

/// Two triangles back to back, both of this generation.
pub fn foil(generation: u8) -> Gluing {
    let mut gluing = Gluing::new(vec![generation; 2]);
    for side in 0..3 {
        assert!(gluing.glue(side, 5 - side), "even triangles can be glued");
    }
    gluing
}

/// Two triangles of this generation that share two sides: a pocket, whose rim has two vertices.
pub fn pocket(generation: u8) -> Gluing {
    let mut gluing = Gluing::new(vec![generation; 2]);
    assert!(gluing.glue(1, 5) && gluing.glue(2, 4), "other sides than bases can be glued");
    gluing
}

/// Puts a cage into the tables by hand, with one fan at each vertex and be it a foil, which load turns away. Answers
/// whether it has such fans.
pub fn store_cage(store: &mut Store, rule: u32, cage: &[u8]) -> bool {
    match linked_mesh(cage, rule, store.tables.slots(), Seeded(None)) {
        Ok(mesh) if has_one_fan_each(&mesh) => {
            mesh.write(&mut store.tables);
            store.counts = mesh.counts();
            true
        }
        _ => false,
    }
}

/// Tables of any of these forms: a chain with more glued to it, a mixture of near generations, or one even
/// generation. In some of them triangles are locked.
pub fn random(rng: &mut Rng) -> Store {
    let mut gluing = match rng.below(3) {
        0 => {
            let odd = 1 + rng.below(10);
            let lowest = 2 * rng.below((20 - 2 * odd) / 2 + 1) as u8;
            let more: Vec<u8> = (0..rng.below(16)).map(|_| lowest + rng.below(2 * odd + 1) as u8).collect();
            chain(odd, rng.percent(70), lowest, &more, rng)
        }
        1 => {
            let lowest = rng.below(20);
            let span = (1 + rng.below(6)).min(21 - lowest);
            Gluing::new((0..1 + rng.below(24)).map(|_| (lowest + rng.below(span)) as u8).collect())
        }
        _ => Gluing::new(vec![2 * rng.below(11) as u8; 2 + 2 * rng.below(5)]),
    };
    gluing.glue_at_random(rng.pick(&[20, 200, 600]), rng);
    let (vertices, triangles) = rng.pick(&[(0, 0), (1, 2), (3, 5), (12, 24), (60, 120)]);
    let mut store = gluing.store(vertices, triangles, rng);
    for _ in 0..rng.pick(&[0, 0, 0, 0, 1, 2, 5]) {
        let slot = rng.below(store.triangles());
        store = store.locked(slot);
    }
    store
}

/// The same tables with all generations raised by an even amount, as far as they go.
pub fn raised(store: &Store, rng: &mut Rng) -> Store {
    let mut raised = store.clone();
    let in_use = &mut raised.tables.generations[..store.counts.triangles as usize];
    let highest = in_use.iter().copied().max().unwrap_or(0).min(LAST_GENERATION);
    let most = (LAST_GENERATION - highest) / 2;
    let lift = if rng.percent(50) { most } else { rng.below(usize::from(most) + 1) as u8 };
    in_use.iter_mut().for_each(|generation| *generation += 2 * lift);
    raised
}

/// The vertices and triangles that refining the first triangle of such a chain adds.
pub fn added(odd: usize, even_end: bool) -> (usize, usize) {
    match (odd, even_end) {
        (_, true) => (odd, 2 * odd),
        (1, false) => (2, 2),
        (_, false) => (odd, 2 * (odd - 1)),
    }
}

/// Every chain length over an even triangle and over the boundary, entered by either side, with room, just room and
/// too little.
pub fn chains(bench: &mut Bench, rng: &mut Rng) -> Outcome {
    for round in 0..12 {
        for odd in 1..=10 {
            for even_end in [true, false] {
                let lowest = 2 * rng.below((20 - 2 * odd) / 2 + 1) as u8;
                let more = vec![lowest; round / 4];
                let mut gluing = chain(odd, even_end, lowest, &more, rng);
                gluing.glue_at_random(40 * (round % 4), rng);
                let first = (odd - usize::from(!even_end)) as u32;
                let (v, f) = added(odd, even_end);
                for (vertices, triangles) in [(v, f), (v - 1, f), (v, f - 1), (30, 60)] {
                    let mut store = gluing.store(vertices, triangles, rng);
                    store.room.spares = calls::fitting_spares(&store, rng);
                    // All triangles, of which those of the chain rise with its first.
                    bench.compare_only(&store, &Call::RefineList { list: (0..=first).rev().collect() })?;
                    bench.compare(&mut store, &Call::Refine { triangle: first })?;
                    bench.compare(&mut store, &Call::Refine { triangle: first })?;
                    calls::compare_some(bench, &mut store, 4, rng)?;
                }
            }
        }
    }
    Ok(())
}

/// Random hand-made tables with short histories on them.
pub fn histories(bench: &mut Bench, rounds: usize, rng: &mut Rng) -> Outcome {
    for _ in 0..rounds {
        let mut store = random(rng);
        if rng.percent(30) {
            store = raised(&store, rng);
        }
        bench.compare_only(&store, &Call::WholeStep)?;
        calls::compare_limits(bench, &mut store, rng)?;
        let length = 4 + rng.below(16);
        calls::compare_some(bench, &mut store, length, rng)?;
    }
    Ok(())
}
