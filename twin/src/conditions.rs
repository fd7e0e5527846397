//! The twin itself, and the conditions that several calls have.

use crate::fault::{Fault, Seeded};
use crate::mesh::Mesh;
use crate::smooth::LONGEST_RING;
use crate::sound::is_sound;
use crate::tables::{Counts, MOST_TRIANGLE_SLOTS, MOST_VERTEX_SLOTS, Tables, refuse_unless};

/// The rules of documents 01 and 02, with one seeded fault or none.
pub struct Twin {
    pub fault: Seeded,
}

impl Twin {
    pub const UNBROKEN: Twin = Twin { fault: Seeded(None) };

    /// Condition 1.
    pub fn tables_agree(&self, tables: &Tables) -> bool {
        let most_vertex_slots = self.fault.unless(Fault::MaximumExceeded, MOST_VERTEX_SLOTS, MOST_VERTEX_SLOTS + 1);
        let triangle_slots = tables.generations.len();
        tables.positions.len().is_multiple_of(3)
            && tables.positions.len() / 3 <= most_vertex_slots
            && triangle_slots <= MOST_TRIANGLE_SLOTS
            && tables.corners.len() == 3 * triangle_slots
            && tables.links.len() == 3 * triangle_slots
            && (tables.locks.len() == triangle_slots
                || self.fault.has(Fault::LongerLocksAccepted) && tables.locks.len() > triangle_slots)
    }

    /// The mesh in use, or 7 where the tables are not sound. Counts above the slots are not sound.
    pub fn sound_mesh(&self, tables: &Tables, counts: Counts) -> Result<Mesh, u32> {
        let within_slots = counts.vertices as usize <= tables.positions.len() / 3
            && counts.triangles as usize <= tables.generations.len();
        refuse_unless(within_slots, self.fault.unless(Fault::CountsOverSlotsUntested, 7, 1))?;
        let mesh = Mesh::read(tables, counts, self.fault);
        let past_too = self.fault.has(Fault::LocksPastCountsJudged) && tables.locks.iter().any(|&lock| lock > 1);
        refuse_unless(is_sound(&mesh) && !past_too, 7)?;
        Ok(mesh)
    }

    /// Writes a mesh. With the fault the locks from a slot on are left.
    pub fn write(&self, mesh: &Mesh, tables: &mut Tables, locks_left: Fault, from: usize) {
        let locks = tables.locks.clone();
        mesh.write(tables);
        if self.fault.has(locks_left) {
            tables.locks[from..].copy_from_slice(&locks[from..]);
        }
    }
}

/// The opposite of condition 12: no boundary, and one even generation.
pub fn is_closed_and_even(mesh: &Mesh) -> bool {
    let generation = mesh.triangles[0].generation;
    let closed = mesh.triangles.iter().all(|triangle| triangle.links.iter().all(Option::is_some));
    let uniform = mesh.triangles.iter().all(|triangle| triangle.generation == generation);
    closed && uniform && generation.is_multiple_of(2)
}

/// The opposite of condition 13.
pub fn rings_have_weights(mesh: &Mesh) -> bool {
    mesh.leaving_sides().iter().all(|leaving| mesh.ring(leaving).len() <= LONGEST_RING)
}
