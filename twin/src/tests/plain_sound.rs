//! Sound once more, read sentence by sentence from the tables, without the twin's mesh.

use std::ops::Range;

use crate::tables::{BOUNDARY, FARTHEST, Store};

/// Tables whose counts lie within the slots.
struct Plain<'a> {
    store: &'a Store,
}

pub fn sound(store: &Store) -> bool {
    let (v, f) = (store.counts.vertices as usize, store.counts.triangles as usize);
    let within_slots = v >= 1 && f >= 1 && v <= store.vertex_slots() && f <= store.triangle_slots();
    let plain = Plain { store };
    within_slots
        && [1, 2].contains(&store.counts.rule)
        && plain.sides().all(|side| plain.corner_fits(side) && plain.link_fits(side))
        && store.tables.positions[..3 * v].iter().all(|coordinate| coordinate.unsigned_abs() <= FARTHEST as u32)
        && store.tables.generations[..f].iter().all(|&generation| generation <= 20)
        && store.tables.locks[..f].iter().all(|lock| [0, 1].contains(lock))
        && plain.sides().all(|side| plain.pair_is_listed(side))
        && (0..store.counts.vertices).all(|vertex| plain.has_one_fan(vertex))
}

/// The next side of the same triangle.
fn next(side: usize) -> usize {
    side - side % 3 + (side + 1) % 3
}

impl Plain<'_> {
    fn sides(&self) -> Range<usize> {
        0..3 * self.store.counts.triangles as usize
    }

    fn corner(&self, side: usize) -> u32 {
        self.store.tables.corners[side]
    }

    fn link(&self, side: usize) -> Option<usize> {
        let link = self.store.tables.links[side];
        (link != BOUNDARY).then_some(link as usize)
    }

    fn corner_fits(&self, side: usize) -> bool {
        self.corner(side) < self.store.counts.vertices && self.corner(side) != self.corner(next(side))
    }

    fn link_fits(&self, side: usize) -> bool {
        self.link(side).is_none_or(|other| {
            self.sides().contains(&other)
                && self.corner(other) == self.corner(next(side))
                && self.corner(next(other)) == self.corner(side)
                && self.link(other) == Some(side)
        })
    }

    fn pair_is_listed(&self, side: usize) -> bool {
        let Some(other) = self.link(side) else {
            return true;
        };
        let generation = |side: usize| i32::from(self.store.tables.generations[side / 3]);
        let even = |side: usize| generation(side) % 2 == 0;
        let base = |side: usize| !even(side) && side.is_multiple_of(3);
        let other_side = |side: usize| !even(side) && !side.is_multiple_of(3);
        let listed = |one: usize, two: usize| {
            let rise = generation(two) - generation(one);
            (even(one) && even(two) && rise == 0)
                || (even(one) && base(two) && rise == 1)
                || (even(one) && other_side(two) && rise == -1)
                || (other_side(one) && other_side(two) && rise == 0)
                || (base(one) && other_side(two) && rise == -2)
        };
        listed(side, other) || listed(other, side)
    }

    /// Grows a fan from one triangle across the sides at the vertex until nothing is added.
    fn has_one_fan(&self, vertex: u32) -> bool {
        let around = self.sides().filter(|&side| self.corner(side) == vertex);
        let mut grown: Vec<usize> = around.clone().take(1).map(|side| side / 3).collect();
        let mut done = 0;
        while done < grown.len() {
            let sides = 3 * grown[done]..3 * grown[done] + 3;
            for side in sides.filter(|&side| self.corner(side) == vertex || self.corner(next(side)) == vertex) {
                let beside = self.link(side).map(|other| other / 3);
                grown.extend(beside.filter(|beside| !grown.contains(beside)));
            }
            done += 1;
        }
        done > 0 && done == around.count()
    }
}
