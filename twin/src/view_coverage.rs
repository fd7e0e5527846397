//! What a run has met of views: the coordinates seen, the lengths of tables and what stands in their later entries, and
//! what other condition holds beside a refusal.

use crate::tables::{Answer, Call, FARTHEST, Store};
use crate::viewed::coordinates_shown;

#[derive(Default)]
pub struct ViewCoverage {
    /// Coordinates of views carried out, of a vertex and of all triangles, as `COORDINATES` tells them apart.
    of_vertices: [u64; 8],
    of_triangles: [u64; 8],
    /// Tables for all triangles of sound meshes, as `LENGTHS` lists them.
    lengths: [u64; 8],
    /// Entries after the last triangle, as `LATER` tells them apart.
    later: [u64; 6],
    /// Views for which two conditions hold, as `BESIDE` lists them.
    beside: [u64; 4],
}

const COORDINATES: [&str; 8] = [
    "least",
    "odd of 24 bits below zero",
    "zero",
    "whole millimetres",
    "below a millimetre",
    "others",
    "odd of 24 bits above zero",
    "greatest",
];
const LENGTHS: [&str; 8] =
    ["none", "short", "two short", "one short", "just enough", "one over", "longer", "enough, but not for all slots"];
const LATER: [&str; 6] =
    ["no number, quiet", "no number, signalling", "infinite", "minus zero", "below all normal numbers", "others"];
const BESIDE: [&str; 4] = ["1 and 20", "7 and 20", "1 and 8", "7 and 8"];

/// The place of a coordinate in the list.
fn kind_of(x: i32) -> usize {
    let odd_of_24_bits = x % 2 != 0 && x.unsigned_abs() > 1 << 23;
    match x {
        x if x == -FARTHEST => 0,
        x if x == FARTHEST => 7,
        0 => 2,
        x if odd_of_24_bits => {
            if x < 0 {
                1
            } else {
                6
            }
        }
        x if x % 1024 == 0 => 3,
        -1023..=1023 => 4,
        _ => 5,
    }
}

/// The place of an entry in the list.
fn later_kind(bits: u32) -> usize {
    let number = f32::from_bits(bits);
    match bits {
        _ if number.is_nan() => usize::from(bits & 1 << 22 == 0),
        _ if number.is_infinite() => 2,
        0x8000_0000 => 3,
        _ if number.is_subnormal() => 4,
        _ => 5,
    }
}

impl ViewCoverage {
    /// Notes a call on the tables as they were before it, and its answer.
    pub fn note(&mut self, before: &Store, call: &Call, answer: &Answer) {
        let beside = match answer.refusal {
            1 => 0,
            7 => 1,
            _ => 4,
        };
        match (call, answer.refusal) {
            (Call::ViewPoint { vertex }, 0) => {
                before.point(*vertex as usize).into_iter().for_each(|x| self.of_vertices[kind_of(x)] += 1);
            }
            (Call::ViewPoint { vertex }, 1 | 7) => {
                self.beside[2 + beside] += u64::from(*vertex >= before.counts.vertices);
            }
            (Call::ViewTriangles, 1 | 7) => {
                self.beside[beside] += u64::from(before.room.view.len() < 9 * before.counts.triangles as usize);
            }
            (Call::ViewTriangles, refusal) => {
                self.note_length(before);
                if refusal == 0 {
                    coordinates_shown(before).for_each(|x| self.of_triangles[kind_of(x)] += 1);
                    let later = before.room.view.iter().skip(9 * before.triangles());
                    later.for_each(|&bits| self.later[later_kind(bits)] += 1);
                }
            }
            _ => {}
        }
    }

    fn note_length(&mut self, before: &Store) {
        let (length, wanted) = (before.room.view.len(), 9 * before.triangles());
        let place = match length {
            0 => 0,
            length if length + 2 < wanted => 1,
            length if length <= wanted + 1 => length + 4 - wanted,
            _ => 6,
        };
        self.lengths[place] += 1;
        self.lengths[7] += u64::from(wanted <= length && length < 9 * before.triangle_slots());
    }

    /// The counts of what has names, with their titles.
    pub fn named(&self) -> [(&str, &[&str], &[u64]); 5] {
        [
            ("coordinates in views of a vertex", &COORDINATES, &self.of_vertices),
            ("coordinates in views of all triangles", &COORDINATES, &self.of_triangles),
            ("tables for all triangles", &LENGTHS, &self.lengths),
            ("entries after the last triangle", &LATER, &self.later),
            ("conditions of views that hold at once", &BESIDE, &self.beside),
        ]
    }
}
