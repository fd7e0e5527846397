//! What is done to a mesh before a case is measured.

use crate::fast;
use crate::tables::{Answer, BOUNDARY, Call, Lent};

/// The vertex that the middle one of all sides on the boundary leaves.
pub fn on_boundary(lent: &Lent) -> u32 {
    let sides = lent.tables.corners.iter().zip(&lent.tables.links).take(3 * lent.counts.triangles as usize);
    let vertices: Vec<u32> = sides.filter(|(_, link)| **link == BOUNDARY).map(|(&corner, _)| corner).collect();
    vertices[vertices.len() / 2]
}

/// Lays bases on so many sides of an even triangle: those of children of the triangles across.
pub fn lay_bases(lent: &mut Lent, triangle: u32, sides: usize) {
    for side in 0..sides {
        let across = lent.tables.links[3 * triangle as usize + side] / 3;
        set_up(lent, Call::Refine(across));
    }
}

/// A triangle of generation 1 whose base is on the boundary: a child of the first triangle there.
pub fn odd_at_boundary(lent: &mut Lent) -> u32 {
    let side = lent.tables.links.iter().position(|&link| link == BOUNDARY).expect("the cage has a boundary");
    set_up(lent, Call::Refine(side as u32 / 3));
    let odd =
        |slot: &u32| lent.tables.generations[*slot as usize] == 1 && lent.tables.links[3 * *slot as usize] == BOUNDARY;
    (0..lent.counts.triangles).find(odd).expect("a child has its base there")
}

/// From an odd triangle of generation 1, one of generation 19 whose base chain has ten odd triangles, the most there
/// can be. The sibling across a side is refined, which makes it even, and refined again, which lays a base on that
/// side: the child with this base has a chain that goes on with the triangle's own. Sides 1 and 2 in turn keep that
/// chain as it is, and so does side 2 alone about a vertex of many triangles.
pub fn end_of_long_chain(lent: &mut Lent, mut triangle: u32, sides: &[usize]) -> u32 {
    for &side in sides.iter().cycle().take(9) {
        let across = |lent: &Lent| lent.tables.links[3 * triangle as usize + side] / 3;
        for _ in 0..2 {
            let sibling = across(lent);
            set_up(lent, Call::Refine(sibling));
        }
        triangle = across(lent);
    }
    triangle
}

/// Lays bases on the other two sides of the even triangle that the base of this odd one meets, too.
pub fn lay_bases_beside(lent: &mut Lent, odd: u32) {
    let end = lent.tables.links[3 * odd as usize] / 3;
    for side in 0..3 {
        let across = lent.tables.links[3 * end as usize + side] / 3;
        if across != odd {
            set_up(lent, Call::Refine(across));
        }
    }
}

/// Locks all triangles that refining this one does not alter: those whose generation it leaves.
pub fn lock_unaltered(lent: &mut Lent, triangle: u32) {
    let mut refined = lent.clone();
    set_up(&mut refined, Call::Refine(triangle));
    for slot in 0..lent.counts.triangles as usize {
        lent.tables.locks[slot] = u8::from(refined.tables.generations[slot] == lent.tables.generations[slot]);
    }
}

/// A call before the measured one.
pub fn set_up(lent: &mut Lent, call: Call) {
    match fast::answer(lent, call) {
        Answer::Worked(worked) if worked.refusal == 0 => lent.counts = worked.counts,
        other => panic!("set-up by {call:?} was refused: {other:?}"),
    }
}
