//! What a run has met of curves: the rims and what lies on them, the 27ths over in their coordinates, the lengths of
//! tables, and what other condition holds beside a refusal.

use crate::curved::{all_rims, rim_sides, sources};
use crate::locked::locked_triangles;
use crate::tables::{Answer, BOUNDARY, Call, FARTHEST, HALF_UP, Store};

#[derive(Default)]
pub struct CurveCoverage {
    /// Curves of short rims, by their vertices, and what the coordinates leave over, by 27ths.
    pub vertices: [u64; 13],
    pub rests: [u64; 27],
    /// Curves carried out, as `RIMS` lists what their rims have.
    rims: [u64; 18],
    /// Coordinates of curves, as `COORDINATES` tells them apart.
    coordinates: [u64; 8],
    /// Tables for curves of vertices on a rim, as `LENGTHS` lists them.
    lengths: [u64; 9],
    /// Curves for which two conditions hold, or which are refused with 24, as `BESIDE` lists them.
    beside: [u64; 9],
}

const RIMS: [&str; 18] = [
    "more than 12 vertices",
    "the only one of the mesh",
    "one of two",
    "one of three or more",
    "from its lowest vertex",
    "from another",
    "from a vertex of one triangle",
    "a later vertex of one triangle",
    "a vertex of two",
    "a vertex of more",
    "a side of generation 0",
    "a side of an even generation above",
    "the base of an odd triangle",
    "another side of an odd triangle",
    "two vertices joined by another edge, too",
    "some triangle locked",
    "rule 1",
    "rule 2",
];
const COORDINATES: [&str; 8] = [
    "13 of 27 parts over, below zero",
    "13 of 27 parts over, above",
    "14 of 27 parts over, below zero",
    "14 of 27 parts over, above",
    "least",
    "greatest",
    "three equal sources",
    "between a least and a greatest source",
];
const LENGTHS: [&str; 9] = [
    "none",
    "short",
    "one point short",
    "two short",
    "one short",
    "just enough",
    "one over",
    "longer",
    "enough, but not for all vertices",
];
const BESIDE: [&str; 9] = [
    "1 and no entries",
    "1 and no such vertex",
    "7 and no entries",
    "7 and no such vertex",
    "7 and no side on the boundary",
    "8 and no entries",
    "24 and no entries",
    "24 in a closed mesh",
    "24 in a mesh with a rim",
];

/// Adds to the counts whose conditions hold.
fn add(counts: &mut [u64], met: &[bool]) {
    counts.iter_mut().zip(met).for_each(|(count, met)| *count += u64::from(*met));
}

impl CurveCoverage {
    /// Notes a call on the tables as they were before it, and its answer.
    pub fn note(&mut self, before: &Store, call: &Call, answer: &Answer) {
        let &Call::RimCurve { vertex } = call else {
            return;
        };
        let (short, unused) = (before.room.curve.is_empty(), vertex >= before.counts.vertices);
        match answer.refusal {
            0 | 25 => self.note_rim(before, vertex, answer.refusal == 0),
            1 => add(&mut self.beside[..2], &[short, unused]),
            7 => {
                let mut sides = before.tables.corners.iter().zip(&before.tables.links).take(3 * before.triangles());
                let off_rim = sides.all(|(&corner, &link)| corner != vertex || link != BOUNDARY);
                add(&mut self.beside[2..5], &[short, unused, !unused && off_rim]);
            }
            8 => add(&mut self.beside[5..6], &[short]),
            _ => {
                let closed = all_rims(before).is_empty();
                add(&mut self.beside[6..], &[short, closed, !closed]);
            }
        }
    }

    fn note_rim(&mut self, before: &Store, vertex: u32, carried_out: bool) {
        let sides = rim_sides(before, vertex).expect("the vertex is on a rim");
        let rim: Vec<u32> = sides.iter().map(|&side| before.tables.corners[side]).collect();
        self.note_length(before.room.curve.len(), 9 * rim.len(), 9 * before.vertices());
        if carried_out {
            if let Some(count) = self.vertices.get_mut(rim.len()) {
                *count += 1;
            }
            self.note_kinds(before, &sides, &rim);
            (0..9 * rim.len()).for_each(|entry| self.note_entry(before, &rim, entry));
        }
    }

    fn note_kinds(&mut self, before: &Store, sides: &[usize], rim: &[u32]) {
        let mut triangles = vec![0; before.vertices()];
        let corners = &before.tables.corners[..3 * before.triangles()];
        corners.iter().for_each(|&corner| triangles[corner as usize] += 1);
        let triangles: Vec<usize> = rim.iter().map(|&vertex| triangles[vertex as usize]).collect();
        let generation = |side: usize| before.tables.generations[side / 3];
        let some = |wanted: &dyn Fn(usize) -> bool| sides.iter().any(|&side| wanted(side));
        let odd = |side: usize| generation(side) % 2 == 1;
        let rims = all_rims(before).len();
        let by_up = before.counts.rule == HALF_UP;
        let met = [
            rim.len() > 12,
            rims == 1,
            rims == 2,
            rims > 2,
            rim.iter().min() == rim.first(),
            rim.iter().min() != rim.first(),
            triangles[0] == 1,
            triangles[1..].contains(&1),
            triangles.contains(&2),
            triangles.iter().any(|&triangles| triangles > 2),
            some(&|side| generation(side) == 0),
            some(&|side| !odd(side) && generation(side) > 0),
            some(&|side| odd(side) && side.is_multiple_of(3)),
            some(&|side| odd(side) && !side.is_multiple_of(3)),
            has_chord(before, sides, rim),
            !locked_triangles(before).is_empty(),
            by_up,
            !by_up,
        ];
        add(&mut self.rims, &met);
    }

    fn note_entry(&mut self, before: &Store, rim: &[u32], entry: usize) {
        let (three, sum) = sources(before, rim, entry);
        let rest = sum.rem_euclid(27);
        self.rests[rest as usize] += 1;
        let farthest = i64::from(FARTHEST);
        let met = [
            rest == 13 && sum < 0,
            rest == 13 && sum > 0,
            rest == 14 && sum < 0,
            rest == 14 && sum > 0,
            sum == -27 * farthest,
            sum == 27 * farthest,
            three[0] == three[1] && three[1] == three[2],
            three.contains(&farthest) && three.contains(&-farthest),
        ];
        add(&mut self.coordinates, &met);
    }

    fn note_length(&mut self, length: usize, wanted: usize, for_all: usize) {
        let place = match (length, wanted.saturating_sub(length)) {
            (0, _) => 0,
            (_, 3) => 2,
            (_, 2) => 3,
            (_, 1) => 4,
            (_, 0) => 5 + (length - wanted).min(2),
            _ => 1,
        };
        self.lengths[place] += 1;
        self.lengths[8] += u64::from(wanted <= length && length < for_all);
    }

    /// The counts of what has names, with their titles.
    pub fn named(&self) -> [(&str, &[&str], &[u64]); 4] {
        [
            ("rims read as curves", &RIMS, &self.rims),
            ("coordinates in curves", &COORDINATES, &self.coordinates),
            ("tables for curves", &LENGTHS, &self.lengths),
            ("refusals of curves", &BESIDE, &self.beside),
        ]
    }
}

/// Whether a side that is not the rim's joins two vertices of it.
fn has_chord(store: &Store, sides: &[usize], rim: &[u32]) -> bool {
    let mut on_rim = vec![false; store.vertices()];
    rim.iter().for_each(|&vertex| on_rim[vertex as usize] = true);
    let corner = |side: usize| on_rim[store.tables.corners[side] as usize];
    let all = (0..3 * store.triangles()).filter(|&side| corner(side) && corner(side - side % 3 + (side + 1) % 3));
    all.count() > sides.len()
}
