//! Sound, as document 01 says it, and what load asks of fans beyond it.

use crate::fault::Fault;
use crate::mesh::{Mesh, Side};
use crate::tables::{FARTHEST, HALF_AWAY, HALF_UP, LAST_GENERATION};

/// What a side is to its triangle: a side of an even triangle, the base of an odd one, or one of its two other
/// sides.
#[derive(Clone, Copy, PartialEq, Eq)]
enum Role {
    Even,
    Base,
    NonBase,
}

fn role(generation: u8, number: usize) -> Role {
    match (generation % 2, number) {
        (0, _) => Role::Even,
        (_, 0) => Role::Base,
        _ => Role::NonBase,
    }
}

/// Which of the five kinds a linked pair of sides is, as the list counts them; each side is a generation and a side
/// number.
pub fn kind(one: (u8, usize), other: (u8, usize)) -> Option<usize> {
    let (g, h) = (i32::from(one.0), i32::from(other.0));
    match (role(one.0, one.1), role(other.0, other.1)) {
        // Two even ones.
        (Role::Even, Role::Even) => (g == h).then_some(1),
        // An even one and a base.
        (Role::Even, Role::Base) => (h == g + 1).then_some(2),
        // An even one and another side of an odd one.
        (Role::Even, Role::NonBase) => (h == g - 1).then_some(3),
        // Two other sides of odd ones.
        (Role::NonBase, Role::NonBase) => (g == h).then_some(4),
        // A base and another side of an odd one.
        (Role::Base, Role::NonBase) => (h == g - 2).then_some(5),
        // Two bases.
        (Role::Base, Role::Base) => None,
        (Role::Base, Role::Even) | (Role::NonBase, Role::Even | Role::Base) => kind(other, one),
    }
}

/// Whether a number is a rule.
pub fn is_rule(number: u32) -> bool {
    number == HALF_UP || number == HALF_AWAY
}

/// Whether the mesh read from tables is sound; that its counts lie within the slots is known.
pub fn is_sound(mesh: &Mesh) -> bool {
    !mesh.points.is_empty()
        && !mesh.triangles.is_empty()
        && (is_rule(mesh.rule) || mesh.fault.has(Fault::RuleThreeStored) && mesh.rule == 3)
        && corners_fit(mesh)
        && sides(mesh).all(|side| link_is_sound(mesh, side))
        && has_one_fan_each(mesh)
        && !(mesh.fault.has(Fault::FoilUnsound) && has_foil(mesh))
        && coordinates_are_in_range(mesh)
        && mesh.triangles.iter().all(|triangle| triangle.generation <= LAST_GENERATION)
        && mesh.locks.iter().all(|&lock| lock <= mesh.fault.unless(Fault::LockTwoSound, 1, 2))
        && sides(mesh).all(|side| pair_is_sound(mesh, side))
}

/// All sides in use.
fn sides(mesh: &Mesh) -> impl Iterator<Item = Side> {
    (0..mesh.triangles.len()).flat_map(|slot| [0, 1, 2].map(|number| Side::new(slot, number)))
}

/// Corners are in use and differ within a triangle.
pub fn corners_fit(mesh: &Mesh) -> bool {
    mesh.triangles.iter().all(|triangle| {
        let [a, b, c] = triangle.corners;
        triangle.corners.iter().all(|&corner| corner < mesh.points.len()) && a != b && b != c && c != a
    })
}

/// Links lead to the boundary, or to a side in use that runs back and links back.
fn link_is_sound(mesh: &Mesh, side: Side) -> bool {
    let Some(partner) = mesh.across(side) else {
        return true;
    };
    if partner == side && mesh.fault.has(Fault::LinkToItselfAccepted) {
        return true;
    }
    let [from, to] = mesh.ends(side);
    partner.triangle < mesh.triangles.len()
        && mesh.ends(partner) == [to, from]
        && (mesh.across(partner) == Some(side) || mesh.fault.has(Fault::BackLinkUntested))
}

/// Each vertex has one fan: one walk round it meets all of its triangles, of which there is one at least.
pub fn has_one_fan_each(mesh: &Mesh) -> bool {
    mesh.leaving_sides().iter().all(|leaving| {
        !leaving.is_empty() && (mesh.fan(leaving).len() == leaving.len() || mesh.fault.has(Fault::FanTestSkipped))
    })
}

/// Whether some vertex off the boundary has exactly two triangles: neither a side out of it nor one into it is at the
/// boundary.
pub fn has_foil(mesh: &Mesh) -> bool {
    let inside = |side: &Side| {
        let entering = Side::new(side.triangle, (side.number + 2) % 3);
        mesh.across(*side).is_some() && mesh.across(entering).is_some()
    };
    let anywhere = mesh.fault.has(Fault::BoundaryOfTwoRefused);
    mesh.leaving_sides().iter().any(|leaving| leaving.len() == 2 && (anywhere || leaving.iter().all(inside)))
}

/// Coordinates of vertices in use are allowed ones.
pub fn coordinates_are_in_range(mesh: &Mesh) -> bool {
    let in_range = |coordinate: &i32| (-FARTHEST..=FARTHEST).contains(coordinate);
    mesh.fault.has(Fault::RangeUntested) || mesh.points.iter().flatten().all(in_range)
}

/// Linked sides are of fitting kinds.
fn pair_is_sound(mesh: &Mesh, side: Side) -> bool {
    let end = |side: Side| (mesh.triangles[side.triangle].generation, side.number);
    match mesh.across(side) {
        None => true,
        Some(partner) => match kind(end(side), end(partner)) {
            Some(5) => !mesh.fault.has(Fault::KindFiveMissing),
            found => found.is_some(),
        },
    }
}
