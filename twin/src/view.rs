//! Views: coordinates in millimetres, as f32, of one vertex or of all triangles.

use crate::conditions::Twin;
use crate::fault::Fault;
use crate::mesh::Mesh;
use crate::tables::{Answer, Counts, FARTHEST, Tables, refuse_unless};

impl Twin {
    /// View point: 1, 7, 8.
    pub fn view_point(&self, tables: &Tables, counts: Counts, vertex: usize) -> Result<Answer, u32> {
        let slot = tables.positions.get(3 * vertex..3 * vertex + 3);
        let point = slot.map_or([0; 3], |slot| [slot[0], slot[1], slot[2]]);
        let answer = Answer { seen: self.seen(point), counts, ..Answer::default() };
        match (self.point_refused(tables, counts, vertex), self.fault.0) {
            (Err(refusal @ 7), Some(Fault::ViewUnsoundAnswered)) => Ok(Answer { refusal, ..answer }),
            (Err(refusal @ 8), Some(Fault::ViewUnusedAnswered)) => Ok(Answer { refusal, ..answer }),
            (refused, _) => refused.map(|()| answer),
        }
    }

    fn point_refused(&self, tables: &Tables, counts: Counts, vertex: usize) -> Result<(), u32> {
        refuse_unless(self.tables_agree(tables), 1)?;
        let in_use = match self.fault.0 {
            Some(Fault::ViewVertexPastUse) => counts.vertices as usize + 1,
            Some(Fault::ViewLastVertexRefused) => (counts.vertices as usize).saturating_sub(1),
            _ => counts.vertices as usize,
        };
        refuse_unless(vertex < in_use || !self.fault.has(Fault::ViewVertexBeforeSound), 8)?;
        self.sound_mesh(tables, counts)?;
        refuse_unless(vertex < in_use, 8)
    }

    /// View triangles: 1, 7, 20. The table has nine numbers for each triangle in use and may have more, which stay.
    pub fn view_triangles(&self, tables: &mut Tables, counts: Counts, table: &mut [u32]) -> Result<Answer, u32> {
        let has_room = self.has_room(tables, counts, table.len());
        refuse_unless(has_room || !self.fault.has(Fault::ViewRoomBeforeTables), 20)?;
        refuse_unless(self.tables_agree(tables), 1)?;
        refuse_unless(has_room || !self.fault.has(Fault::ViewRoomBeforeSound), 20)?;
        let mesh = self.mesh_to_show(tables, counts)?;
        if has_room || self.fault.has(Fault::ViewShortFilled) {
            let numbers = self.shown(&mesh);
            table.iter_mut().zip(numbers).for_each(|(entry, number)| *entry = number);
        }
        if !has_room && self.fault.has(Fault::ViewRefusalWithoutCounts) {
            return Ok(Answer { refusal: 20, ..Answer::default() });
        }
        refuse_unless(has_room, 20)?;
        let (_, rest) = table.split_at_mut(table.len().min(9 * counts.triangles as usize));
        self.spoil_rest(rest);
        if self.fault.has(Fault::ViewWritesMesh) {
            tables.positions[0] &= !1023;
        }
        Ok(Answer { counts, ..Answer::default() })
    }

    /// The opposite of condition 20.
    fn has_room(&self, tables: &Tables, counts: Counts, length: usize) -> bool {
        let wanted = 9 * counts.triangles as usize;
        match self.fault.0 {
            Some(Fault::ViewShortByOne) => length + 1 >= wanted,
            Some(Fault::ViewRoomForAllSlots) => length >= 9 * tables.slots()[1].max(counts.triangles as usize),
            Some(Fault::ViewLongerRefused) => length == wanted,
            Some(Fault::ViewEndsWithTriangle) => length >= wanted && length.is_multiple_of(9),
            _ => length >= wanted,
        }
    }

    /// The mesh, or 7.
    fn mesh_to_show(&self, tables: &Tables, counts: Counts) -> Result<Mesh, u32> {
        let [vertex_slots, triangle_slots] = tables.slots();
        let within_slots = counts.vertices as usize <= vertex_slots && counts.triangles as usize <= triangle_slots;
        let mesh = self.sound_mesh(tables, counts);
        match self.fault.0 {
            Some(Fault::ViewUnsound) if within_slots => Ok(Mesh::read(tables, counts, self.fault)),
            Some(Fault::ViewAllSlots) => {
                mesh.map(|_| Mesh::read(tables, Counts { triangles: triangle_slots as u32, ..counts }, self.fault))
            }
            _ => mesh,
        }
    }

    /// The numbers of all triangles in the order of their slots.
    fn shown(&self, mesh: &Mesh) -> Vec<u32> {
        let mut triangles: Vec<[usize; 3]> = mesh.triangles.iter().map(|triangle| triangle.corners).collect();
        match self.fault.0 {
            Some(Fault::ViewHighestFirst) => triangles.reverse(),
            Some(Fault::ViewLastLeftOut) => drop(triangles.pop()),
            Some(Fault::ViewLockedLeftOut) => {
                let mut slots = 0..;
                triangles.retain(|_| !mesh.is_locked(slots.next().expect("endless")));
            }
            Some(Fault::ViewFromCornerOne) => triangles.iter_mut().for_each(|corners| corners.rotate_left(1)),
            Some(Fault::ViewTurnsTriangles) => triangles.iter_mut().for_each(|corners| corners.swap(1, 2)),
            Some(Fault::ViewOfVertices) => {
                triangles = (0..triangles.len()).map(|t| [3 * t, 3 * t + 1, 3 * t + 2]).collect();
            }
            _ => {}
        }
        let point = |corner: usize| mesh.points.get(corner).copied().unwrap_or_default();
        triangles.iter().flat_map(|corners| self.triangle_seen(corners.map(point))).collect()
    }

    /// The nine numbers of a triangle, corner by corner.
    fn triangle_seen(&self, points: [[i32; 3]; 3]) -> [u32; 9] {
        let seen = points.map(|point| self.seen(point));
        let axis_by_axis = self.fault.has(Fault::ViewAxisByAxis);
        std::array::from_fn(|i| if axis_by_axis { seen[i % 3][i / 3] } else { seen[i / 3][i % 3] })
    }

    fn seen(&self, [x, y, z]: [i32; 3]) -> [u32; 3] {
        let z = self.fault.unless(Fault::ViewTakesYForZ, z, y);
        [x, y, z].map(|coordinate| self.millimetres(coordinate).to_bits())
    }

    /// A coordinate in millimetres: as f32, divided by 1024.
    fn millimetres(&self, x: i32) -> f32 {
        let odd_of_24_bits = x % 2 != 0 && x.unsigned_abs() > 1 << 23;
        match self.fault.0 {
            Some(Fault::ViewByThousand) => x as f32 / 1000.0,
            Some(Fault::ViewCutToMillimetres) => (x >> 10) as f32,
            Some(Fault::ViewRestAdded) => (x / 1024) as f32 + x.rem_euclid(1024) as f32 / 1024.0,
            Some(Fault::ViewWithoutSign) => x.unsigned_abs() as f32 / 1024.0,
            Some(Fault::ViewMinusZero) if x == 0 => -0.0,
            Some(Fault::ViewLastBitLost) if odd_of_24_bits => (x & !1) as f32 / 1024.0,
            Some(Fault::ViewFarthestTurned) if x == FARTHEST => -x as f32 / 1024.0,
            _ => x as f32 / 1024.0,
        }
    }

    /// Entries after the last triangle are left, but for faults.
    fn spoil_rest(&self, rest: &mut [u32]) {
        match self.fault.0 {
            Some(Fault::ViewPastLast) => rest.iter_mut().take(1).for_each(|entry| *entry = 0),
            Some(Fault::ViewClearsRest) => rest.fill(0),
            Some(Fault::ViewQuietsRest) => {
                let no_number = |bits: &&mut u32| f32::from_bits(**bits).is_nan();
                rest.iter_mut().filter(no_number).for_each(|bits| *bits |= 1 << 22);
            }
            _ => {}
        }
    }
}
