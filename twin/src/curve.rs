//! The rim as a curve: the closed rim of a vertex, and three smoothed points for each vertex of it.

use std::collections::HashSet;

use crate::conditions::Twin;
use crate::fault::{Fault, Seeded};
use crate::mesh::{Mesh, Side};
use crate::tables::{Answer, BOUNDARY, Counts, Tables, refuse_unless};

/// How much of 27 parts the vertex before, the vertex and the vertex after have in each of the three points.
const MASKS: [[i64; 3]; 3] = [[10, 16, 1], [4, 19, 4], [1, 16, 10]];

impl Twin {
    /// Rim curve: 1, 7, 8, 24, 25. The table has nine entries for each vertex of the rim and may have more, which stay.
    pub fn rim_curve(
        &self,
        tables: &mut Tables,
        counts: Counts,
        vertex: usize,
        table: &mut [i32],
    ) -> Result<Answer, u32> {
        let some_room = !table.is_empty();
        refuse_unless(some_room || !self.fault.has(Fault::CurveRoomBeforeTables), 25)?;
        refuse_unless(self.tables_agree(tables), 1)?;
        let mesh = self.mesh_with(tables, counts, vertex, some_room)?;
        refuse_unless(some_room || !self.fault.has(Fault::CurveRoomBeforeRim), 25)?;
        let rim = match (self.rim(&mesh, vertex), self.fault.0) {
            (Some(rim), _) => rim,
            (None, Some(Fault::CurveOffRimAnswered)) => return Ok(Answer { counts, ..Answer::default() }),
            (None, Some(Fault::CurveRefusalWithoutCounts)) => return Ok(Answer { refusal: 24, ..Answer::default() }),
            (None, _) => return Err(24),
        };
        let curve = self.curve(&mesh, &rim);
        let has_room = self.holds_curve(&mesh, rim.len(), table.len());
        if has_room || self.fault.has(Fault::CurveShortFilled) {
            table.iter_mut().zip(&curve).for_each(|(entry, coordinate)| *entry = *coordinate);
        }
        if !has_room && self.fault.has(Fault::CurveRefusalTellsLength) {
            return Ok(Answer { refusal: 25, length: rim.len() as u32, counts, ..Answer::default() });
        }
        refuse_unless(has_room, 25)?;
        self.spoil(tables, &rim, &curve, table);
        Ok(Answer { length: self.length(rim.len()), counts, ..Answer::default() })
    }

    /// The mesh, in which the vertex is in use, or 7 or 8.
    fn mesh_with(&self, tables: &Tables, counts: Counts, vertex: usize, some_room: bool) -> Result<Mesh, u32> {
        let in_use = match self.fault.0 {
            Some(Fault::CurveVertexPastUse) => counts.vertices as usize + 1,
            Some(Fault::CurveLastVertexRefused) => (counts.vertices as usize).saturating_sub(1),
            _ => counts.vertices as usize,
        };
        let on_rim = has_boundary_side(tables, counts, vertex);
        refuse_unless(on_rim || !self.fault.has(Fault::CurveRimBeforeSound), 24)?;
        refuse_unless(vertex < in_use || !self.fault.has(Fault::CurveUseBeforeSound), 8)?;
        refuse_unless(some_room || !self.fault.has(Fault::CurveRoomBeforeSound), 25)?;
        let [vertex_slots, triangle_slots] = tables.slots();
        let within_slots = counts.vertices as usize <= vertex_slots && counts.triangles as usize <= triangle_slots;
        let mesh = match self.sound_mesh(tables, counts) {
            Err(7) if within_slots && self.fault.has(Fault::CurveUnsound) => Mesh::read(tables, counts, self.fault),
            mesh => mesh?,
        };
        refuse_unless(on_rim || !self.fault.has(Fault::CurveRimBeforeUse), 24)?;
        refuse_unless(some_room || !self.fault.has(Fault::CurveRoomBeforeUse), 25)?;
        refuse_unless(vertex < in_use, 8)?;
        refuse_unless(!(mesh.has_locked() && self.fault.has(Fault::CurveGuarded)), 19)?;
        let finished = mesh.triangles.iter().all(|triangle| !triangle.is_odd());
        refuse_unless(finished || !self.fault.has(Fault::CurveOfOddRefused), 12)?;
        Ok(mesh)
    }

    /// The closed rim of a vertex, from it on along the sides on the boundary, or none where it is not on one.
    fn rim(&self, mesh: &Mesh, vertex: usize) -> Option<Vec<usize>> {
        let after = match self.fault.0 {
            Some(Fault::CurveByCorners) => after_by_corners(mesh),
            _ => after_on_boundary(mesh),
        };
        let from = match self.fault.0 {
            Some(Fault::CurveOfLowestRim) if after.get(vertex)?.is_some() => after.iter().position(Option::is_some)?,
            _ => vertex,
        };
        let mut rim = round(&after, from)?;
        let triangles = |vertex: usize| mesh.triangles.iter().filter(|t| t.corners.contains(&vertex)).count();
        match self.fault.0 {
            Some(Fault::CurveAgainstSides) => rim[1..].reverse(),
            Some(Fault::CurveFromNext) => rim.rotate_left(1),
            Some(Fault::CurveFromLowest) => {
                let lowest = (0..rim.len()).min_by_key(|&place| rim[place]);
                rim.rotate_left(lowest.expect("a rim has vertices"));
            }
            Some(Fault::CurveLastLeftOut) => drop(rim.pop()),
            Some(Fault::CurveOneTriangleLeftOut) => rim.retain(|&at| at == from || triangles(at) > 1),
            Some(Fault::CurveAlongChords) => rim = along_chords(mesh, &after, from),
            Some(Fault::CurveOfAllRims) => {
                while let Some(other) = (0..after.len()).find(|at| after[*at].is_some() && !rim.contains(at)) {
                    rim.extend(round(&after, other)?);
                }
            }
            _ => {}
        }
        let narrow = self.fault.has(Fault::CurveOfTwoRefused) && rim.len() == 2;
        (!narrow).then_some(rim)
    }

    /// The opposite of condition 25.
    fn holds_curve(&self, mesh: &Mesh, vertices: usize, length: usize) -> bool {
        let wanted = 9 * vertices;
        match self.fault.0 {
            Some(Fault::CurveShortByOne) => length + 1 >= wanted,
            Some(Fault::CurveShortByPoint) => length + 3 >= wanted,
            Some(Fault::CurveExactRefused) => length > wanted,
            Some(Fault::CurveLongerRefused) => length == wanted,
            Some(Fault::CurveRoomForAll) => length >= 9 * mesh.points.len(),
            Some(Fault::CurveRoomForRims) => length >= 9 * after_on_boundary(mesh).iter().flatten().count(),
            Some(Fault::CurveMiddleAlone) => length >= 3 * vertices,
            _ => length >= wanted,
        }
    }

    /// What a rim of so many vertices is answered with.
    fn length(&self, vertices: usize) -> u32 {
        let length = match self.fault.0 {
            Some(Fault::CurveTellsPoints) => 3 * vertices,
            Some(Fault::CurveTellsEntries) => 9 * vertices,
            Some(Fault::CurveTellsOneLess) => vertices - 1,
            _ => vertices,
        };
        length as u32
    }

    /// The coordinates of all points, three for each vertex of the rim.
    fn curve(&self, mesh: &Mesh, rim: &[usize]) -> Vec<i32> {
        let point = |vertex: usize| mesh.points.get(vertex).copied().unwrap_or_default();
        let mut points: Vec<[i32; 3]> = rim.iter().map(|&vertex| point(vertex)).collect();
        let mut curve = Vec::new();
        for place in 0..rim.len() {
            let (before, after) = self.beside(rim.len(), place);
            let three = self.three_points([points[before], points[place], points[after]]);
            let axis_by_axis = self.fault.has(Fault::CurveAxisByAxis);
            curve.extend((0..9).map(|i| if axis_by_axis { three[i % 3][i / 3] } else { three[i / 3][i % 3] }));
            if self.fault.has(Fault::CurveOneByOne) {
                points[place] = three[1];
            }
        }
        match self.fault.0 {
            Some(Fault::CurveFromMiddle) => curve.rotate_left(3),
            Some(Fault::CurveMiddleAlone) => curve = curve.chunks(9).flat_map(|nine| &nine[3..6]).copied().collect(),
            _ => {}
        }
        curve
    }

    /// The places before and after one of so many, going round.
    fn beside(&self, vertices: usize, place: usize) -> (usize, usize) {
        let (before, after) = ((place + vertices - 1) % vertices, (place + 1) % vertices);
        let last = place + 1 == vertices;
        match self.fault.0 {
            Some(Fault::CurveBesideExchanged) => (after, before),
            Some(Fault::CurveLastAfterItself) if last => (before, place),
            Some(Fault::CurveLastTurnsBack) if last => (before, before),
            Some(Fault::CurveFirstBeforeItself) if place == 0 => (place, after),
            _ => (before, after),
        }
    }

    /// The three points of a vertex, given where the vertex before, the vertex and the vertex after are.
    fn three_points(&self, sources: [[i32; 3]; 3]) -> [[i32; 3]; 3] {
        let masks = match self.fault.0 {
            Some(Fault::CurveFirstMaskOff) => [[10, 17, 0], MASKS[1], MASKS[2]],
            Some(Fault::CurveMiddleMaskOff) => [MASKS[0], [5, 17, 5], MASKS[2]],
            Some(Fault::CurveLastMaskOff) => [MASKS[0], MASKS[1], [1, 17, 9]],
            Some(Fault::CurveMiddleFirst) => [MASKS[1], MASKS[0], MASKS[2]],
            Some(Fault::CurveMiddleKept) => [MASKS[0], [0, 27, 0], MASKS[2]],
            Some(Fault::CurveUnsmoothed) => [[9, 18, 0], [0, 27, 0], [0, 18, 9]],
            _ => MASKS,
        };
        masks.map(|mask| {
            [0, 1, 2].map(|axis| {
                let axis = if axis == 2 && self.fault.has(Fault::CurveTakesYForZ) { 1 } else { axis };
                let weighted = mask.iter().zip(sources).map(|(share, source)| share * i64::from(source[axis]));
                nearest_of_27(weighted.sum(), self.fault)
            })
        })
    }

    /// The mesh and the entries after the curve are left, but for faults.
    fn spoil(&self, tables: &mut Tables, rim: &[usize], curve: &[i32], table: &mut [i32]) {
        let rest = table.iter_mut().skip(9 * rim.len());
        match self.fault.0 {
            Some(Fault::CurvePastLast) => rest.take(1).for_each(|entry| *entry = 0),
            Some(Fault::CurveClearsRest) => rest.for_each(|entry| *entry = 0),
            Some(Fault::CurveWritesMesh) => {
                for (&vertex, nine) in rim.iter().zip(curve.chunks(9)) {
                    tables.positions[3 * vertex..][..3].copy_from_slice(&nine[3..6]);
                }
            }
            _ => {}
        }
    }
}

/// A sum of 27ths to the nearest whole number. There is none half-way, as 27 is odd.
fn nearest_of_27(sum: i64, fault: Seeded) -> i32 {
    let (below, rest) = (sum.div_euclid(27), sum.rem_euclid(27));
    let up = match fault.0 {
        Some(Fault::CurveRoundedDown) => false,
        Some(Fault::CurveRoundedUp) => rest > 0,
        Some(Fault::CurveCutTowardsZero) => rest > 0 && sum < 0,
        Some(Fault::CurveThirteenUp) => rest > 12,
        Some(Fault::CurveFourteenDown) => rest > 14,
        Some(Fault::CurveFourteenDownBelowZero) => rest > if sum < 0 { 14 } else { 13 },
        _ => rest > 13,
    };
    let of_24_bits = fault.has(Fault::CurveSumCut) && sum.abs() > 27 << 23;
    if of_24_bits { (sum.signum() * (1 << 23)) as i32 } else { (below + i64::from(up)) as i32 }
}

/// Where the side on the boundary out of each vertex leads. With one fan at each vertex there is one at most.
fn after_on_boundary(mesh: &Mesh) -> Vec<Option<usize>> {
    after_by(mesh, |side| mesh.across(side).is_none())
}

/// The same by the corners of triangles: a side is taken for one on the boundary where none runs the other way.
fn after_by_corners(mesh: &Mesh) -> Vec<Option<usize>> {
    let sides = (0..mesh.triangles.len()).flat_map(|t| [0, 1, 2].map(|number| mesh.ends(Side::new(t, number))));
    let directed: HashSet<[usize; 2]> = sides.collect();
    after_by(mesh, |side| {
        let [from, to] = mesh.ends(side);
        !directed.contains(&[to, from])
    })
}

fn after_by(mesh: &Mesh, on_rim: impl Fn(Side) -> bool) -> Vec<Option<usize>> {
    let mut after = vec![None; mesh.points.len()];
    for side in (0..mesh.triangles.len()).flat_map(|t| [0, 1, 2].map(|number| Side::new(t, number))) {
        let [from, to] = mesh.ends(side);
        if on_rim(side) && from < after.len() {
            after[from] = Some(to);
        }
    }
    after
}

/// From a vertex on to what comes after, until it comes again; or none where nothing comes after it.
fn round(after: &[Option<usize>], from: usize) -> Option<Vec<usize>> {
    let mut rim = vec![from];
    let mut at = (*after.get(from)?)?;
    // Tables that are not sound may lead elsewhere.
    while at != from && rim.len() < after.len() {
        rim.push(at);
        at = after.get(at).copied().flatten().unwrap_or(from);
    }
    Some(rim)
}

/// From a vertex of the boundary on along the first side in slot order that leads to another of them, boundary or not.
fn along_chords(mesh: &Mesh, after: &[Option<usize>], from: usize) -> Vec<usize> {
    let leaving = mesh.leaving_sides();
    let mut rim = vec![from];
    let mut at = from;
    while let Some(next) = leaving[at].iter().map(|&side| mesh.ends(side)[1]).find(|to| is_next(after, &rim, *to)) {
        rim.push(next);
        at = next;
    }
    rim
}

/// Whether a vertex is on the boundary and new to a rim.
fn is_next(after: &[Option<usize>], rim: &[usize], to: usize) -> bool {
    after[to].is_some() && !rim.contains(&to)
}

/// Whether a side on the boundary leaves a vertex, be the tables sound or not.
fn has_boundary_side(tables: &Tables, counts: Counts, vertex: usize) -> bool {
    let sides = tables.corners.iter().zip(&tables.links).take(3 * counts.triangles as usize);
    sides.into_iter().any(|(&corner, &link)| corner as usize == vertex && link == BOUNDARY)
}
