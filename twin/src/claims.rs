//! The four claims of demand 3, read from the tables themselves.

use crate::tables::{Answer, BOUNDARY, Bounds, Counts, Store, Tables};

/// What the tables say of a triangle's base chain.
pub struct ChainReading {
    /// The number of odd triangles in it.
    pub odd: usize,
    /// The sides by which it enters its second and later odd triangles.
    pub entered_by: Vec<usize>,
    pub ends_at_boundary: bool,
}

/// The most odd triangles that a base chain in sound tables can have: generations 19, 17 and so on to 1.
const LONGEST_CHAIN: usize = 10;

/// Reads the base chain of a triangle in sound tables; a longer walk than the longest chain is broken off.
pub fn read_chain(tables: &Tables, triangle: usize) -> ChainReading {
    let mut chain = ChainReading { odd: 0, entered_by: Vec::new(), ends_at_boundary: false };
    let mut at = triangle;
    while tables.generations[at] % 2 == 1 && chain.odd <= LONGEST_CHAIN {
        chain.odd += 1;
        let base = tables.links[3 * at];
        if base == BOUNDARY {
            chain.ends_at_boundary = true;
            break;
        }
        at = base as usize / 3;
        if tables.generations[at] % 2 == 1 {
            chain.entered_by.push(base as usize % 3);
        }
    }
    chain
}

/// Edges: a linked pair counts once, at its lower side, and a boundary side once.
fn edges(store: &Store) -> i64 {
    let sides = 3 * store.counts.triangles as usize;
    let links = store.tables.links[..sides].iter().enumerate();
    links.filter(|&(side, &link)| link == BOUNDARY || side < link as usize).count() as i64
}

/// The odd triangles in use.
fn odds(store: &Store) -> i64 {
    let in_use = &store.tables.generations[..store.counts.triangles as usize];
    in_use.iter().filter(|&&generation| generation % 2 == 1).count() as i64
}

/// What is wrong with the first three claims: mutual links, V − E + F, and the generations of neighbours.
pub fn violated(store: &Store, euler_number: i64) -> Option<String> {
    let tables = &store.tables;
    let sides = 3 * store.counts.triangles as usize;
    if sides > tables.links.len() || store.counts.vertices as usize > store.vertex_slots() {
        return Some("the counts lie above the slots".to_string());
    }
    for side in (0..sides).filter(|&side| tables.links[side] != BOUNDARY) {
        let partner = tables.links[side] as usize;
        if partner >= sides || tables.links[partner] as usize != side {
            return Some(format!("the link of side {side} is not mutual"));
        }
        let (g, h) = (tables.generations[side / 3], tables.generations[partner / 3]);
        let most = if g % 2 == 0 || h % 2 == 0 { 1 } else { 2 };
        if g.abs_diff(h) > most {
            return Some(format!("the generations across side {side} are {g} and {h}"));
        }
    }
    let found = i64::from(store.counts.vertices) - edges(store) + i64::from(store.counts.triangles);
    (found != euler_number).then(|| format!("V - E + F is {found}, for the cage it is {euler_number}"))
}

/// A boundary side that no history from a load on gives. There it is a side of a generation that is a multiple of 4,
/// the base of one more or a non-base side of three more; so no base of generation 19 is at the boundary.
pub fn unreached_boundary(store: &Store) -> Option<String> {
    let sides = 0..3 * store.counts.triangles as usize;
    let mut at_boundary = sides.filter(|&side| store.tables.links[side] == BOUNDARY);
    let unreached = at_boundary.find(|&side| {
        let rest = store.tables.generations[side / 3] % 4;
        !(rest == 0 || rest == 1 && side.is_multiple_of(3) || rest == 3 && !side.is_multiple_of(3))
    })?;
    Some(format!("side {unreached} is at the boundary, of generation {}", store.tables.generations[unreached / 3]))
}

/// What is wrong with the fourth claim, about the splits of a refine that was carried out, and with what they add.
pub fn violated_by_refine(before: &Store, triangle: usize, answer: &Answer, after: &Store) -> Option<String> {
    let generation = before.tables.generations[triangle];
    let chain = read_chain(&before.tables, triangle);
    let claimed = match chain.odd {
        0 => 1,
        odd if chain.ends_at_boundary => (odd - 1).max(1),
        odd => odd,
    };
    let splits = i64::from(answer.splits);
    if splits != claimed as i64 {
        return Some(format!("{splits} splits reported, the chain gives {claimed}"));
    }
    if generation % 2 == 1 && claimed > usize::from(generation).div_ceil(2) {
        return Some(format!("{claimed} splits at generation {generation}"));
    }
    wrongly_added(before, answer, after, i64::from(chain.ends_at_boundary))
}

/// What is wrong with what the splits of a list or a box that was carried out add. Of rim splits there are as many as
/// vertices beyond one for each split.
pub fn violated_by_list(before: &Store, answer: &Answer, after: &Store) -> Option<String> {
    let vertices = i64::from(after.counts.vertices) - i64::from(before.counts.vertices);
    wrongly_added(before, answer, after, vertices - i64::from(answer.splits))
}

/// A triangle that a box which was carried out has left: below the generation, with a corner in the box.
pub fn violated_by_box(bounds: &Bounds, below: u32, after: &Store) -> Option<String> {
    let corners =
        |slot: usize| after.tables.corners[3 * slot..][..3].iter().map(|&corner| after.point(corner as usize));
    let below = |slot: &usize| u32::from(after.tables.generations[*slot]) < below;
    let left = (0..after.triangles()).filter(below).find(|&slot| corners(slot).any(|point| bounds.holds(point)))?;
    Some(format!("triangle {left} is left in the box"))
}

/// What is wrong with a preview beside the list carried out from the same: the list is answered what was foreseen, and
/// leaves what the preview did in the spare tables, and where it is not refused in the mesh.
pub fn violated_by_preview(previewed: (&Answer, &Store), made: (&Answer, &Store)) -> Option<String> {
    let ((foreseen, before), (answer, after)) = (previewed, made);
    let Counts { vertices, triangles, .. } = answer.counts;
    if *foreseen != (Answer { counts: before.counts, foreseen: [vertices, triangles], ..*answer }) {
        return Some(format!("previewed as {foreseen:?}, made as {answer:?}"));
    }
    let mut expected = before.clone();
    if answer.refusal == 0 {
        expected.tables.take_over(&before.room.spares, answer.counts);
        expected.counts = answer.counts;
    }
    (*after != expected).then(|| "a preview and its list leave different meshes".to_string())
}

/// With s splits, q of them rim splits: V + s + q, F + 2s and E + 3s + q, and flips by the odd triangles, of which a
/// face split makes three, a rim split one and a flip takes two away.
fn wrongly_added(before: &Store, answer: &Answer, after: &Store, rim_splits: i64) -> Option<String> {
    let splits = i64::from(answer.splits);
    let grown = |count: fn(&Store) -> i64| count(after) - count(before);
    let added = [
        ("V", grown(|store| i64::from(store.counts.vertices)), splits + rim_splits),
        ("F", grown(|store| i64::from(store.counts.triangles)), 2 * splits),
        ("E", grown(edges), 3 * splits + rim_splits),
        ("the odd triangles", grown(odds), 3 * splits - 2 * rim_splits - 2 * i64::from(answer.flips)),
    ];
    let wrong = added.iter().find(|(_, grown, due)| grown != due)?;
    Some(format!("{splits} splits reported, {} grew by {} for {}", wrong.0, wrong.1, wrong.2))
}
