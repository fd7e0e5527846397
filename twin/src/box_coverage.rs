//! What a run has met of boxes: what they hold and touch, in which order they refine, how they end, and why they are
//! refused with 18.

use crate::fault::Seeded;
use crate::mesh::Mesh;
use crate::refine::refine_inside;
use crate::tables::{Answer, BOUNDARY, Bounds, LAST_GENERATION, Store};

#[derive(Default)]
pub struct BoxCoverage {
    /// Boxes by what they hold, as `HELD` tells it apart, and those that hold a vertex on a face of theirs.
    held: [u64; 4],
    faces: [u64; 6],
    /// Refines of boxes, by the slot after the one before, as `SLOTS` tells it apart.
    slots: [u64; 4],
    /// Boxes by their end, as `ENDS` lists them.
    ends: [u64; 9],
    /// Boxes refused with 18, by what holds.
    refused: [u64; 4],
    /// Boxes carried out, by the generation that they are given; but for 0, with refines.
    pub generations: [u64; LAST_GENERATION as usize + 1],
}

const HELD: [&str; 4] = ["no vertex", "one", "some", "all"];
const FACES: [&str; 6] = ["low x", "low y", "low z", "high x", "high y", "high z"];
const SLOTS: [&str; 4] = ["same", "lower", "higher", "made by the box"];
const ENDS: [&str; 9] = [
    "no refine",
    "refines, closed",
    "refines, open",
    "9 at once",
    "9 after refines",
    "11 at once",
    "11 after refines",
    "19 at once",
    "19 after refines",
];
const REFUSED: [&str; 4] = ["low x above high", "low y above high", "low z above high", "generation above 20"];

impl BoxCoverage {
    /// Notes a box refused with 18.
    pub fn note_refused(&mut self, &Bounds { low, high }: &Bounds, below: u32) {
        for axis in 0..3 {
            self.refused[axis] += u64::from(low[axis] > high[axis]);
        }
        self.refused[3] += u64::from(below > u32::from(LAST_GENERATION));
    }

    /// Notes a box that is carried out, or fails with 9, 11 or 19.
    pub fn note(&mut self, before: &Store, bounds: &Bounds, below: u32, answer: &Answer) {
        self.note_held(before, bounds);
        let refined = answer.handled > 0;
        let open = before.tables.links[..3 * before.triangles()].contains(&BOUNDARY);
        let end = match answer.refusal {
            0 => usize::from(refined) * (1 + usize::from(open)),
            9 => 3 + usize::from(refined),
            11 => 5 + usize::from(refined),
            _ => 7 + usize::from(refined),
        };
        self.ends[end] += 1;
        if answer.refusal == 0 && (refined || below == 0) {
            self.generations[below as usize] += 1;
        }
        let start = Mesh::read(&before.tables, before.counts, Seeded(None));
        let slots = refine_inside(&start, bounds, below, before.tables.slots()).refined;
        for pair in slots.windows(2) {
            let way = match pair[1] {
                slot if slot >= start.triangles.len() => 3,
                slot if slot > pair[0] => 2,
                slot => usize::from(slot < pair[0]),
            };
            self.slots[way] += 1;
        }
    }

    fn note_held(&mut self, before: &Store, bounds: &Bounds) {
        let inside = || (0..before.vertices()).map(|vertex| before.point(vertex)).filter(|&point| bounds.holds(point));
        let held = match inside().count() {
            all if all == before.vertices() => 3,
            some => some.min(2),
        };
        self.held[held] += 1;
        let faces = bounds.low.into_iter().chain(bounds.high);
        for (face, bound) in faces.enumerate() {
            self.faces[face] += u64::from(inside().any(|point| point[face % 3] == bound));
        }
    }

    /// The counts of what has names, with their titles.
    pub fn named(&self) -> [(&str, &[&str], &[u64]); 5] {
        [
            ("vertices in boxes", &HELD, &self.held),
            ("vertices on faces of boxes", &FACES, &self.faces),
            ("slots of boxes after the one before", &SLOTS, &self.slots),
            ("ends of boxes", &ENDS, &self.ends),
            ("boxes refused with 18", &REFUSED, &self.refused),
        ]
    }
}
