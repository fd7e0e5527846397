//! The mesh of document 01 as points and triangles, with its fans and rings.
//!
//! A call reads the slots in use into this form, works on it, and writes it back if it is carried out; so a refusal
//! changes nothing.

use crate::fault::{Fault, Seeded};
use crate::tables::{BOUNDARY, Counts, Tables};

/// A side (half-edge) of a triangle: side i runs from corner i to the next.
#[derive(Clone, Copy, Debug, PartialEq, Eq)]
pub struct Side {
    pub triangle: usize,
    pub number: usize,
}

impl Side {
    pub fn new(triangle: usize, number: usize) -> Side {
        Side { triangle, number }
    }

    /// What a link leads to. The side need not be in use.
    fn from_link(link: u32) -> Option<Side> {
        (link != BOUNDARY).then(|| Side::new(link as usize / 3, link as usize % 3))
    }

    pub fn to_link(side: Option<Side>) -> u32 {
        side.map_or(BOUNDARY, |side| (3 * side.triangle + side.number) as u32)
    }
}

#[derive(Clone, Copy, Debug, PartialEq, Eq)]
pub struct Triangle {
    pub corners: [usize; 3],
    pub links: [Option<Side>; 3],
    pub generation: u8,
}

impl Triangle {
    pub fn is_odd(&self) -> bool {
        self.generation % 2 == 1
    }
}

/// A split or a flip that was made. A split has the first of its two new slots beside its own.
#[derive(Clone, Copy, Debug, PartialEq, Eq)]
pub enum Operation {
    FaceSplit { t: usize, f: usize },
    RimSplit { t: usize, f: usize },
    Flip { s: usize, u: usize },
}

impl Operation {
    /// The slots that it splits or flips.
    pub fn altered(self) -> Vec<usize> {
        match self {
            Operation::FaceSplit { t, .. } | Operation::RimSplit { t, .. } => vec![t],
            Operation::Flip { s, u } => vec![s, u],
        }
    }

    /// The slots whose corners or generation it writes: a split its own and then the new ones, a flip s and then u.
    pub fn written(self) -> Vec<usize> {
        match self {
            Operation::FaceSplit { t, f } | Operation::RimSplit { t, f } => vec![t, f, f + 1],
            Operation::Flip { s, u } => vec![s, u],
        }
    }
}

#[derive(Clone, Debug, PartialEq, Eq)]
pub struct Mesh {
    pub points: Vec<[i32; 3]>,
    pub triangles: Vec<Triangle>,
    /// Of each triangle, 1 if it is locked and 0 if not.
    pub locks: Vec<u8>,
    /// How halves are rounded: 1 up, 2 away from zero.
    pub rule: u32,
    /// The splits and flips made since it was read, in their order.
    pub operations: Vec<Operation>,
    pub fault: Seeded,
}

fn triple<T: Copy>(table: &[T], slot: usize) -> [T; 3] {
    [table[3 * slot], table[3 * slot + 1], table[3 * slot + 2]]
}

impl Mesh {
    /// Reads the slots in use; the counts lie within the slots.
    pub fn read(tables: &Tables, counts: Counts, fault: Seeded) -> Mesh {
        let points = (0..counts.vertices as usize).map(|slot| triple(&tables.positions, slot)).collect();
        let triangle = |slot| Triangle {
            corners: triple(&tables.corners, slot).map(|corner| corner as usize),
            links: triple(&tables.links, slot).map(Side::from_link),
            generation: tables.generations[slot],
        };
        let triangles = (0..counts.triangles as usize).map(triangle).collect();
        let locks = tables.locks[..counts.triangles as usize].to_vec();
        Mesh { points, triangles, locks, rule: counts.rule, operations: Vec::new(), fault }
    }

    /// Writes the slots in use and no others.
    pub fn write(&self, tables: &mut Tables) {
        for (slot, point) in tables.positions.chunks_exact_mut(3).zip(&self.points) {
            slot.copy_from_slice(point);
        }
        for (slot, triangle) in self.triangles.iter().enumerate() {
            tables.corners[3 * slot..][..3].copy_from_slice(&triangle.corners.map(|corner| corner as u32));
            tables.links[3 * slot..][..3].copy_from_slice(&triangle.links.map(Side::to_link));
            tables.generations[slot] = triangle.generation;
        }
        tables.locks[..self.locks.len()].copy_from_slice(&self.locks);
    }

    pub fn counts(&self) -> Counts {
        Counts { vertices: self.points.len() as u32, triangles: self.triangles.len() as u32, rule: self.rule }
    }

    /// The opposite of condition 11: of these slots, so many vertices and triangles are free.
    pub fn leaves_free(&self, [vertex_slots, triangle_slots]: [usize; 2], vertices: usize, triangles: usize) -> bool {
        self.points.len() + vertices <= vertex_slots && self.triangles.len() + triangles <= triangle_slots
    }

    /// The side across, or none at the boundary.
    pub fn across(&self, side: Side) -> Option<Side> {
        self.triangles[side.triangle].links[side.number]
    }

    /// The vertices that a side runs from and to.
    pub fn ends(&self, side: Side) -> [usize; 2] {
        let corners = self.triangles[side.triangle].corners;
        [corners[side.number], corners[(side.number + 1) % 3]]
    }

    pub fn set_link(&mut self, side: Side, link: Option<Side>) {
        self.triangles[side.triangle].links[side.number] = link;
    }

    /// For each vertex the sides that leave it, in slot order.
    pub fn leaving_sides(&self) -> Vec<Vec<Side>> {
        let mut leaving = vec![Vec::new(); self.points.len()];
        for (slot, triangle) in self.triangles.iter().enumerate() {
            for (number, &corner) in triangle.corners.iter().enumerate() {
                leaving[corner].push(Side::new(slot, number));
            }
        }
        leaving
    }

    /// The fan round a vertex, as the sides out of it: from the boundary if it is there, else from the lowest slot;
    /// across the side into the vertex each time; until the first triangle or the boundary.
    pub fn fan(&self, leaving: &[Side]) -> Vec<Side> {
        let at_boundary = leaving.iter().find(|&&side| self.across(side).is_none());
        let lowest = self.fault.unless(Fault::RingFromHighestSlot, leaving.first(), leaving.last());
        let Some(&first) = at_boundary.or(lowest) else {
            return Vec::new();
        };
        let mut fan = vec![first];
        let mut at = first;
        // The partner of b→v runs v→b, so it is the next triangle's leaving side.
        while let Some(next) = self.across(Side::new(at.triangle, (at.number + 2) % 3)) {
            // No walk over mutual links is longer than the vertex has triangles.
            if next.triangle == first.triangle || fan.len() == leaving.len() {
                return fan;
            }
            fan.push(next);
            at = next;
        }
        fan
    }

    /// The ring: the targets of the fan, and at the boundary the last triangle's other neighbour.
    pub fn ring(&self, leaving: &[Side]) -> Vec<usize> {
        let fan = self.fan(leaving);
        let mut ring: Vec<usize> = fan.iter().map(|&side| self.ends(side)[1]).collect();
        if let Some(last) = fan.last() {
            let entering = Side::new(last.triangle, (last.number + 2) % 3);
            if self.across(entering).is_none() && !self.fault.has(Fault::RingWithoutLast) {
                ring.push(self.ends(entering)[0]);
            }
        }
        ring
    }
}
