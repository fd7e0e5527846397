//! Cages with faults and loads by no rule, several at once, so that the order of the refusals shows.

use crate::bench::{Bench, Outcome};
use crate::cages::{self, Cage};
use crate::picks::{either_rule, some_rule};
use crate::random_cages::random_cage;
use crate::rng::Rng;
use crate::tables::{Call, FARTHEST, NO_RULES, Store};

/// The numbers of a cage, which need not fit together, and what is done to its bytes at the end.
pub struct RawCage {
    sizes: [u32; 2],
    coordinates: Vec<i32>,
    corners: Vec<u32>,
    cut: usize,
    extra: usize,
}

impl RawCage {
    pub fn new(cage: &Cage) -> RawCage {
        RawCage {
            sizes: [cage.points.len() as u32, cage.triangles.len() as u32],
            coordinates: cage.points.iter().flatten().copied().collect(),
            corners: cage.triangles.iter().flatten().copied().collect(),
            cut: 0,
            extra: 0,
        }
    }

    pub fn bytes(&self) -> Vec<u8> {
        let coordinates = self.coordinates.iter().map(|&coordinate| coordinate as u32);
        let words = self.sizes.into_iter().chain(coordinates).chain(self.corners.iter().copied());
        let mut bytes: Vec<u8> = words.flat_map(u32::to_le_bytes).collect();
        bytes.truncate(bytes.len().saturating_sub(self.cut));
        bytes.extend(vec![7; self.extra]);
        bytes
    }

    /// Puts in a fault that gives this refusal, 2 to 6, if no earlier one holds.
    pub fn spoil(&mut self, refusal: u32, rng: &mut Rng) {
        match refusal {
            2 => self.spoil_sizes(rng),
            3 => self.spoil_corner(rng),
            4 => self.spoil_coordinate(rng),
            5 => self.repeat_side(rng),
            _ => self.spoil_fans(rng),
        }
    }

    fn spoil_sizes(&mut self, rng: &mut Rng) {
        let which = rng.below(2);
        match rng.below(8) {
            0 => self.sizes[which] = 0,
            1 => self.sizes[which] = self.sizes[which].wrapping_add(1),
            2 => self.sizes[which] = self.sizes[which].wrapping_sub(1),
            // 12 times 2^30 is 0 in 32 bits, and so is 2^31 + 2^31: the length would fit if it were reckoned there.
            3 => self.sizes[which] ^= rng.pick(&[1 << 30, 1 << 31, 3 << 30]),
            4 => self.sizes = self.sizes.map(|size| size ^ (1 << 31)),
            5 => self.sizes[which] = rng.pick(&[u32::MAX, 32_769, 65_537, 65_536]),
            6 => self.cut = 1 + rng.below(24),
            _ => self.extra = 1 + rng.below(24),
        }
    }

    fn spoil_corner(&mut self, rng: &mut Rng) {
        let place = rng.below(self.corners.len());
        self.corners[place] = match rng.below(3) {
            0 => self.corners[place - place % 3 + (place + 1) % 3],
            1 => self.coordinates.len() as u32 / 3 + rng.pick(&[0, 0, 1, 100]),
            _ => rng.pick(&[u32::MAX, 1 << 31, 1 << 16]),
        };
    }

    fn spoil_coordinate(&mut self, rng: &mut Rng) {
        let place = rng.below(self.coordinates.len());
        self.coordinates[place] = rng.pick(&[FARTHEST + 1, -FARTHEST - 1, i32::MAX, i32::MIN]);
    }

    /// Adds a triangle with a side that occurs already.
    fn repeat_side(&mut self, rng: &mut Rng) {
        let slot = rng.below(self.corners.len() / 3);
        let mut corners = [0, 1, 2].map(|i| self.corners[3 * slot + i]);
        corners.rotate_left(rng.below(3));
        if rng.percent(50) {
            corners[2] = self.add_vertex(rng);
        }
        self.add_triangle(corners, rng);
    }

    /// Adds a vertex without triangles, or a triangle that touches the rest in one vertex only.
    fn spoil_fans(&mut self, rng: &mut Rng) {
        let added = self.add_vertex(rng);
        if rng.percent(50) {
            let touched = rng.below(added as usize) as u32;
            let other = self.add_vertex(rng);
            self.add_triangle([touched, added, other], rng);
        }
    }

    fn add_vertex(&mut self, rng: &mut Rng) -> u32 {
        let vertex = self.coordinates.len() as u32 / 3;
        self.coordinates.extend([0; 3].map(|_: i32| rng.between(-99, 99)));
        self.sizes[0] = self.sizes[0].wrapping_add(1);
        vertex
    }

    /// Adds a triangle anywhere among the others.
    fn add_triangle(&mut self, corners: [u32; 3], rng: &mut Rng) {
        let place = 3 * rng.below(self.corners.len() / 3 + 1);
        self.corners.splice(place..place, corners);
        self.sizes[1] = self.sizes[1].wrapping_add(1);
    }
}

/// Every set of the refusals 2 to 6 at once, on several cages, by a rule and by none, in tables that agree and in
/// tables that do not.
pub fn sets_of_faults(bench: &mut Bench, rng: &mut Rng) -> Outcome {
    for cage in cages::shapes() {
        for set in 0..128_u32 {
            let mut raw = RawCage::new(&cage);
            // Faults that add triangles come first, so that the others may hit what they add.
            for refusal in (2..=6).rev().filter(|refusal| set & (1 << (refusal - 2)) != 0) {
                raw.spoil(refusal, rng);
            }
            let mut store = Store::junk(cage.points.len() + 4, cage.triangles.len() + 3, rng);
            if set & 32 != 0 {
                store.tables.links.pop();
            }
            let rule = if set & 64 != 0 { rng.pick(&NO_RULES) } else { either_rule(rng) };
            bench.compare(&mut store, &Call::Load { rule, cage: raw.bytes() })?;
        }
    }
    Ok(())
}

/// Every length from nothing to some bytes too many, and stores with slots to spare, with just enough and with one
/// too few.
pub fn lengths_and_slots(bench: &mut Bench, rng: &mut Rng) -> Outcome {
    for cage in [cages::strip(1), cages::foil(), cages::tetrahedron(), cages::disc(3)] {
        let bytes = cage.clone().scattered(rng).bytes();
        for length in 0..bytes.len() + 14 {
            let mut changed = bytes.clone();
            changed.resize(length, 0);
            let mut store = Store::junk(cage.points.len() + 1, cage.triangles.len() + 1, rng);
            bench.compare(&mut store, &Call::Load { rule: either_rule(rng), cage: changed })?;
        }
        for vertex_slots in cage.points.len() - 1..cage.points.len() + 2 {
            for triangle_slots in cage.triangles.len() - 1..cage.triangles.len() + 2 {
                let mut store = Store::junk(vertex_slots, triangle_slots, rng);
                bench.compare(&mut store, &Call::Load { rule: either_rule(rng), cage: bytes.clone() })?;
                bench.compare(&mut store, &Call::WholeStep)?;
            }
        }
    }
    Ok(())
}

/// All small sizes, zero included, each with a cage of the length that fits, in stores of all small sizes.
pub fn fitting_lengths(bench: &mut Bench, rng: &mut Rng) -> Outcome {
    for (vertices, triangles) in (0..20).map(|code| (code / 4, code % 4)) {
        for (vertex_slots, triangle_slots) in (0..20).map(|code| (code / 4, code % 4)) {
            let mut raw =
                RawCage { sizes: [vertices, triangles], coordinates: vec![], corners: vec![], cut: 0, extra: 0 };
            raw.coordinates.resize_with(3 * vertices as usize, || rng.between(-3, 3));
            let corners = [[0, 1, 2], [0, 2, 1], [1, 2, 3]].concat();
            raw.corners.extend_from_slice(&corners[..3 * triangles as usize]);
            let mut store = Store::junk(vertex_slots, triangle_slots, rng);
            bench.compare(&mut store, &Call::Load { rule: either_rule(rng), cage: raw.bytes() })?;
        }
    }
    Ok(())
}

/// A random cage with up to four faults, or with some of its bytes changed.
pub fn random(rng: &mut Rng) -> Vec<u8> {
    let mut raw = RawCage::new(&random_cage(rng));
    if rng.percent(20) {
        let mut bytes = raw.bytes();
        for _ in 0..1 + rng.below(3) {
            let place = rng.below(bytes.len());
            bytes[place] ^= 1 << rng.below(8);
        }
        return bytes;
    }
    for _ in 0..1 + rng.below(4) {
        raw.spoil(2 + rng.below(5) as u32, rng);
    }
    raw.bytes()
}

/// Random cages with faults, in stores that hold anything.
pub fn random_loads(bench: &mut Bench, rounds: usize, rng: &mut Rng) -> Outcome {
    for _ in 0..rounds {
        let mut store = Store::junk(rng.below(40), rng.below(60), rng);
        bench.compare(&mut store, &Call::Load { rule: some_rule(rng), cage: random(rng) })?;
        bench.compare(&mut store, &Call::Load { rule: some_rule(rng), cage: random_cage(rng).bytes() })?;
    }
    Ok(())
}
