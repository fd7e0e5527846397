//! The cage (control mesh) as bytes, and its refusals 2 to 6.

use std::collections::HashMap;

use crate::fault::{Fault, Seeded};
use crate::mesh::{Mesh, Side, Triangle};
use crate::sound::{coordinates_are_in_range, corners_fit, has_foil, has_one_fan_each};
use crate::tables::refuse_unless;

/// The mesh of a cage, with the rule it is loaded by: generation 0 everywhere, opposite sides linked, nothing locked.
/// Each condition is tested over the whole cage before the next.
pub fn mesh_of_cage(cage: &[u8], rule: u32, slots: [usize; 2], fault: Seeded) -> Result<Mesh, u32> {
    let mesh = linked_mesh(cage, rule, slots, fault)?;
    let all_used = mesh.leaving_sides().iter().all(|leaving| !leaving.is_empty());
    if all_used || !fault.has(Fault::UnusedVertexLoaded) {
        refuse_unless(has_one_fan_each(&mesh), 6)?;
    }
    let let_pass = fault.has(Fault::FoilLoaded) || fault.has(Fault::FoilBesideLoaded) && mesh.triangles.len() > 2;
    refuse_unless(!has_foil(&mesh) || let_pass, 6)?;
    Ok(mesh)
}

/// The same by the conditions 2 to 5 alone.
pub fn linked_mesh(cage: &[u8], rule: u32, slots: [usize; 2], fault: Seeded) -> Result<Mesh, u32> {
    let (vertices, triangles) = sizes(cage, slots, fault)?;
    let mut mesh = unlinked_mesh(cage, rule, vertices, triangles, fault);
    if fault.has(Fault::CoordinatesBeforeCorners) {
        refuse_unless(coordinates_are_in_range(&mesh), 4)?;
    }
    refuse_unless(corners_fit(&mesh), 3)?;
    refuse_unless(coordinates_are_in_range(&mesh), 4)?;
    link_opposite_sides(&mut mesh)?;
    Ok(mesh)
}

/// Condition 2.
fn sizes(cage: &[u8], [vertex_slots, triangle_slots]: [usize; 2], fault: Seeded) -> Result<(usize, usize), u32> {
    refuse_unless(cage.len() >= 8, 2)?;
    let (vertices, triangles) = (word(cage, 0) as usize, word(cage, 1) as usize);
    refuse_unless((1..=vertex_slots).contains(&vertices), 2)?;
    refuse_unless((1..=triangle_slots).contains(&triangles), 2)?;
    let length = 8 + 12 * (vertices + triangles);
    let longer = fault.has(Fault::LongerCageAccepted) && cage.len() > length;
    refuse_unless(cage.len() == length || longer, 2)?;
    Ok((vertices, triangles))
}

/// The number at a place, counted in numbers of four bytes, low byte first.
fn word(cage: &[u8], place: usize) -> u32 {
    let bytes = &cage[4 * place..4 * place + 4];
    u32::from_le_bytes([bytes[0], bytes[1], bytes[2], bytes[3]])
}

/// The sizes, the coordinates and the corners, as they follow each other.
fn unlinked_mesh(cage: &[u8], rule: u32, vertices: usize, triangles: usize, fault: Seeded) -> Mesh {
    let triple = |place: usize| [0, 1, 2].map(|i| word(cage, place + i));
    Mesh {
        points: (0..vertices).map(|v| triple(2 + 3 * v).map(|coordinate| coordinate as i32)).collect(),
        triangles: (0..triangles)
            .map(|t| Triangle {
                corners: triple(2 + 3 * vertices + 3 * t).map(|corner| corner as usize),
                links: [None; 3],
                generation: 0,
            })
            .collect(),
        locks: vec![0; triangles],
        rule,
        operations: Vec::new(),
        fault,
    }
}

/// Links each side with the one that runs the other way, or refuses with 5.
fn link_opposite_sides(mesh: &mut Mesh) -> Result<(), u32> {
    let mut place = HashMap::new();
    for slot in 0..mesh.triangles.len() {
        for side in [0, 1, 2].map(|number| Side::new(slot, number)) {
            refuse_unless(place.insert(mesh.ends(side), side).is_none(), 5)?;
        }
    }
    for (&[from, to], side) in &place {
        mesh.triangles[side.triangle].links[side.number] = place.get(&[to, from]).copied();
    }
    Ok(())
}
