//! The examples of the papers and of the readings: each a store, a call, and the refusal that the papers give for
//! it.

use crate::bench::{Bench, Outcome, difference};
use crate::cages::{self, Cage};
use crate::calls::fitting_spares;
use crate::damage::{at_generation, refined};
use crate::handmade::{Gluing, chain, foil};
use crate::rng::Rng;
use crate::tables::{Bounds, Call, FARTHEST, HALF_AWAY, HALF_UP, LAST_GENERATION, Store};

pub struct Example {
    pub refusal: u32,
    pub store: Store,
    pub call: Call,
}

pub fn example(refusal: u32, store: Store, call: Call) -> Example {
    Example { refusal, store, call }
}

pub fn load(cage: &Cage) -> Call {
    load_by(HALF_UP, cage.bytes())
}

fn load_by(rule: u32, cage: Vec<u8>) -> Call {
    Call::Load { rule, cage }
}

pub fn refine(triangle: u32) -> Call {
    Call::Refine { triangle }
}

/// A ring query with a buffer of so many entries.
fn ring(refusal: u32, mut store: Store, vertex: u32, entries: u32) -> Example {
    store.room.ring = (1000..1000 + entries).collect();
    example(refusal, store, Call::Ring { vertex })
}

/// A limit query with a table of so many entries.
pub fn limit(refusal: u32, mut store: Store, entries: usize) -> Example {
    store.room.table = vec![-7; entries];
    example(refusal, store, Call::Limit)
}

/// A list, with spare tables of the mesh's sizes.
pub fn list(refusal: u32, mut store: Store, entries: &[u32], rng: &mut Rng) -> Example {
    store.room.spares = fitting_spares(&store, rng);
    example(refusal, store, Call::RefineList { list: entries.to_vec() })
}

/// A box from one corner to the other, with spare tables of the mesh's sizes.
pub fn boxed(refusal: u32, mut store: Store, [low, high]: [[i32; 3]; 2], below: u32, rng: &mut Rng) -> Example {
    store.room.spares = fitting_spares(&store, rng);
    example(refusal, store, Call::RefineBox { bounds: Bounds { low, high }, below })
}

/// The same store with another rule in its counts.
fn ruled(mut store: Store, rule: u32) -> Store {
    store.counts.rule = rule;
    store
}

/// The example column of the table of refused inputs, in its order, and one for each number that a request adds. Of 10,
/// which occurs no more, there is none.
pub fn refusals(rng: &mut Rng) -> Vec<Example> {
    let tetrahedron = cages::tetrahedron();
    let roomy = Store::junk(20, 40, rng);
    let mut unequal = Store::fresh(9, 9);
    unequal.tables.generations.pop();
    let mut far = tetrahedron.clone();
    far.points[2][1] = FARTHEST + 1;
    let mut lonely = Cage::of(vec![[0, 1, 2]]);
    lonely.points.push([0; 3]);
    let mut narrow = refined(&tetrahedron, &[], 1, rng);
    narrow.tables.cut_to([5, 5]);
    vec![
        example(1, unequal, load(&tetrahedron)),
        example(2, roomy.clone(), load_by(HALF_UP, vec![0; 7])),
        example(3, roomy.clone(), load(&Cage::of(vec![[0, 0, 1]]))),
        example(4, roomy.clone(), load(&far)),
        example(5, roomy.clone(), load(&Cage::of(vec![[0, 1, 2], [0, 1, 3]]))),
        example(6, roomy.clone(), load(&lonely)),
        example(7, Store::fresh(20, 40), Call::Position { vertex: 0 }),
        example(8, refined(&tetrahedron, &[], 5, rng), refine(4)),
        example(9, at_generation(&tetrahedron, LAST_GENERATION, 5, rng), refine(0)),
        example(11, narrow, refine(0)),
        example(12, refined(&tetrahedron, &[0], 50, rng), Call::WholeStep),
        example(13, refined(&cages::double_pyramid(13), &[], 50, rng), Call::WholeStep),
        ring(14, refined(&tetrahedron, &[], 0, rng), 0, 2),
        limit(15, refined(&tetrahedron, &[], 0, rng), 11),
        example(16, roomy, load_by(3, tetrahedron.bytes())),
        // No spare tables at all.
        example(17, refined(&tetrahedron, &[], 0, rng), Call::RefineList { list: vec![] }),
        boxed(18, refined(&tetrahedron, &[], 0, rng), [[0; 3], [9, -1, 9]], 1, rng),
        example(19, refined(&tetrahedron, &[], 5, rng).locked(0), refine(0)),
        // No table at all.
        example(20, refined(&tetrahedron, &[], 0, rng), Call::ViewTriangles),
    ]
}

/// Boxes on the tetrahedron, whose vertices are 0 and at 9 on each axis, and on hand-made tables.
pub fn boxes(rng: &mut Rng) -> Vec<Example> {
    let tetrahedron = cages::tetrahedron();
    let some = |spare: usize, rng: &mut Rng| refined(&tetrahedron, &[], spare, rng);
    let grown = refined(&tetrahedron, &[0, 0, 0], 9, rng);
    let far = [[FARTHEST + 1; 3], [i32::MAX; 3]];
    let all = [[i32::MIN; 3], [i32::MAX; 3]];
    let just_all = [[0; 3], [9; 3]];
    let apex = [[0, 0, 9]; 2];
    let ripe = |generations: &[u8], rng: &mut Rng| Gluing::new(generations.to_vec()).store(4, 8, rng);
    vec![
        // Nothing in it, between the vertices, and the generation that all have.
        boxed(0, some(0, rng), far, 20, rng),
        boxed(0, some(0, rng), [[1; 3], [8; 3]], 20, rng),
        boxed(0, some(0, rng), all, 0, rng),
        // One vertex on all six faces: its three triangles, and without room for the last of them.
        boxed(0, some(9, rng), apex, 1, rng),
        boxed(0, some(3, rng), apex, 1, rng),
        boxed(11, some(2, rng), apex, 1, rng),
        boxed(0, some(9, rng), [[-5, -5, 9], [5, 5, 10]], 2, rng),
        boxed(0, some(9, rng), [[-5, -5, 8], [5, 5, 9]], 2, rng),
        boxed(0, some(9, rng), [[0, 0, 10], [5, 5, 11]], 2, rng),
        boxed(0, some(9, rng), [[9, -1, -1], [9, 1, 1]], 2, rng),
        boxed(0, some(40, rng), just_all, 3, rng),
        boxed(0, some(40, rng), all, 4, rng),
        boxed(11, some(40, rng), all, 20, rng),
        boxed(11, some(0, rng), just_all, 1, rng),
        // Slot 2 gets a corner in the box by a flip, when a higher slot is refined.
        boxed(0, some(20, rng), [[0; 3], [3, 0, 3]], 3, rng),
        // Of triangles of several generations those below, some of them in chains.
        boxed(0, grown.clone(), all, 1, rng),
        boxed(0, grown.clone(), all, 2, rng),
        boxed(0, refined(&tetrahedron, &[0, 3, 7], 9, rng), [[0; 3], [0, 9, 0]], 4, rng),
        boxed(0, refined(&cages::strip(1), &[0], 20, rng), all, 5, rng),
        // A base of generation 19 on the boundary: left by a box to 19, failing at once, after another, by a refine.
        boxed(0, ripe(&[19, 18], rng), all, 19, rng),
        boxed(9, ripe(&[19, 18], rng), all, 20, rng),
        boxed(9, ripe(&[20, 17, 19], rng), all, 20, rng),
        boxed(9, ripe(&[20, 18], rng), all, 20, rng),
        boxed(0, ripe(&[20, 20], rng), all, 20, rng),
        // No boxes, by a coordinate or the generation.
        boxed(18, some(9, rng), [[10, 0, 0], [9; 3]], 1, rng),
        boxed(18, some(9, rng), [[0, 0, 10], [9; 3]], 1, rng),
        boxed(18, some(9, rng), [all[1], all[0]], 1, rng),
        boxed(18, grown.clone(), all, 21, rng),
        boxed(18, grown, far, u32::MAX, rng),
    ]
}

/// Lists that are carried out, and such as fail: with 8, 9 or 11, the spare tables written.
pub fn lists(rng: &mut Rng) -> Vec<Example> {
    let tetrahedron = cages::tetrahedron();
    let mut ripe = refined(&tetrahedron.clone().with(&cages::strip(1)), &[], 3, rng);
    ripe.tables.generations[4] = LAST_GENERATION;
    vec![
        list(0, refined(&tetrahedron, &[], 0, rng), &[], rng),
        // Without spare slots nothing can be refined, but a list is handled up to there.
        list(11, refined(&tetrahedron, &[], 0, rng), &[0], rng),
        list(8, refined(&tetrahedron, &[], 0, rng), &[4, 0], rng),
        list(11, refined(&tetrahedron, &[], 3, rng), &[0, 1, 2, 0, 3], rng),
        list(0, refined(&tetrahedron, &[], 3, rng), &[0, 1, 2, 0, 1, 2], rng),
        // Triangle 4 is in use by its turn, but was not at the start.
        list(8, refined(&tetrahedron, &[], 3, rng), &[0, 4, 1], rng),
        list(8, refined(&tetrahedron, &[], 3, rng), &[0, 1, u32::MAX], rng),
        list(9, ripe, &[0, 4, 99], rng),
        // Refining the first of a chain raises the others, which are then passed over.
        list(0, chain(10, true, 0, &[], rng).store(10, 20, rng), &[10, 9, 8, 7, 6, 5, 4, 3, 2, 1], rng),
        list(0, chain(10, false, 0, &[], rng).store(10, 18, rng), &[9, 8, 7, 6, 5, 4, 3, 2, 1], rng),
        list(9, chain(1, false, 18, &[], rng).store(2, 2, rng), &[0], rng),
    ]
}

/// Inputs for which several conditions hold, or for which one just does not.
pub fn orders(rng: &mut Rng) -> Vec<Example> {
    let tetrahedron = cages::tetrahedron();
    let pyramid = cages::double_pyramid(13);
    let mut last_corner_first_coordinate = tetrahedron.clone();
    last_corner_first_coordinate.points[0][0] = FARTHEST + 1;
    last_corner_first_coordinate.triangles[3] = [2, 3, 4];
    let mut unequal = Store::junk(9, 9, rng);
    unequal.tables.generations.pop();
    let (unequal_tables, unequal_again) = (unequal.clone(), unequal.clone());
    let no_box = Call::RefineBox { bounds: Bounds::EVERYWHERE, below: 21 };
    let mut counts_above_slots = refined(&tetrahedron, &[], 0, rng);
    counts_above_slots.counts.triangles = 5;
    let mut exact = refined(&tetrahedron, &[], 1, rng);
    let mut no_vertex_slot = exact.clone();
    no_vertex_slot.tables.positions.truncate(12);
    exact.tables.positions.truncate(15);
    vec![
        example(3, Store::junk(20, 40, rng), load(&last_corner_first_coordinate)),
        example(6, Store::junk(20, 40, rng), load(&cages::bow_tie())),
        // A vertex off the boundary with two triangles, alone, after and before others, and where 5 comes first.
        example(6, Store::junk(20, 40, rng), load(&cages::foil())),
        example(6, Store::junk(20, 40, rng), load(&cages::tetrahedron().with(&cages::foil()))),
        example(6, Store::junk(20, 40, rng), load(&cages::foil().with(&cages::strip(1)))),
        example(5, Store::junk(20, 40, rng), load(&Cage::of(vec![[0, 1, 2], [0, 2, 1], [0, 1, 3]]))),
        // On the boundary two triangles are allowed, and one alone is.
        example(0, Store::junk(20, 40, rng), load(&cages::strip(2))),
        example(0, Store::junk(20, 40, rng), load(&cages::strip(1))),
        // Stored tables with such a vertex are sound.
        example(0, refined(&cages::foil(), &[], 2, rng), refine(0)),
        example(0, refined(&cages::foil(), &[], 2, rng), Call::WholeStep),
        limit(0, refined(&cages::foil(), &[], 2, rng), 9),
        example(7, Store::fresh(20, 40), refine(u32::MAX)),
        example(7, counts_above_slots, refine(0)),
        ring(8, refined(&tetrahedron, &[], 0, rng), 4, 0),
        // What was refused with 10 is refined. A rim split takes two vertices and two triangles.
        example(0, refined(&cages::strip(1), &[0], 5, rng), refine(0)),
        example(11, refined(&cages::strip(1), &[0], 0, rng), refine(0)),
        example(0, chain(1, false, 16, &[], rng).store(2, 2, rng), refine(0)),
        example(11, chain(1, false, 16, &[], rng).store(1, 2, rng), refine(0)),
        example(11, chain(1, false, 16, &[], rng).store(2, 1, rng), refine(0)),
        // Ten odd triangles that end at the boundary: nine splits.
        example(0, chain(10, false, 0, &[], rng).store(10, 18, rng), refine(9)),
        example(11, chain(10, false, 0, &[], rng).store(9, 18, rng), refine(9)),
        example(11, chain(10, false, 0, &[], rng).store(10, 17, rng), refine(9)),
        // A base of generation 19 on the boundary is too old by itself, before slots are asked for; across another
        // base it is not.
        example(9, chain(1, false, 18, &[], rng).store(2, 2, rng), refine(0)),
        example(9, chain(1, false, 18, &[], rng).store(0, 0, rng), refine(0)),
        example(0, chain(2, false, 16, &[], rng).store(2, 2, rng), refine(1)),
        example(0, exact, refine(0)),
        example(11, no_vertex_slot, refine(0)),
        example(12, at_generation(&cages::disc(14), LAST_GENERATION, 0, rng), Call::WholeStep),
        example(9, at_generation(&pyramid, LAST_GENERATION, 0, rng), Call::WholeStep),
        example(13, at_generation(&pyramid, 18, 0, rng), Call::WholeStep),
        example(11, at_generation(&tetrahedron, 18, 3, rng), Call::WholeStep),
        example(0, at_generation(&tetrahedron, 18, 4, rng), Call::WholeStep),
        ring(0, refined(&tetrahedron, &[], 0, rng), 0, 3),
        ring(0, refined(&cages::strip(1), &[], 0, rng), 0, 3),
        // Generation 19 may become 20.
        example(0, chain(1, true, 18, &[], rng).store(1, 2, rng), refine(1)),
        // A limit query takes a table of exactly three entries a vertex, and the last generation.
        limit(15, refined(&tetrahedron, &[], 3, rng), 13),
        limit(15, refined(&tetrahedron, &[], 3, rng), 21),
        limit(13, refined(&pyramid, &[], 0, rng), 0),
        limit(12, refined(&cages::disc(14), &[], 0, rng), 0),
        limit(7, Store::fresh(20, 40), 0),
        limit(0, at_generation(&tetrahedron, LAST_GENERATION, 0, rng), 12),
        limit(0, foil(LAST_GENERATION).store(0, 0, rng), 9),
        // A load by no rule is refused after 1 and before all that the cage is refused for.
        example(1, unequal, load_by(3, tetrahedron.bytes())),
        example(16, Store::junk(20, 40, rng), load_by(0, vec![0; 7])),
        example(16, Store::junk(20, 40, rng), load_by(u32::MAX, cages::bow_tie().bytes())),
        // The old rule is nothing to a load, and is kept by a refused one.
        example(0, ruled(Store::junk(20, 40, rng), 3), load_by(HALF_AWAY, tetrahedron.bytes())),
        example(2, ruled(Store::junk(20, 40, rng), HALF_UP), load_by(HALF_AWAY, vec![0; 7])),
        example(2, ruled(Store::junk(20, 40, rng), 3), load_by(HALF_AWAY, vec![0; 7])),
        // Counts by no rule are not sound; by rule 2 they are.
        example(7, ruled(refined(&tetrahedron, &[], 4, rng), 0), refine(u32::MAX)),
        example(7, ruled(refined(&tetrahedron, &[], 4, rng), 3), Call::WholeStep),
        example(7, ruled(refined(&tetrahedron, &[], 4, rng), u32::MAX), Call::Position { vertex: 0 }),
        example(0, ruled(refined(&tetrahedron, &[], 4, rng), HALF_AWAY), refine(0)),
        // Spare tables of other sizes are refused after 1 and before 7, and a mesh that is not sound before any entry.
        list(1, unequal_tables.clone(), &[0], rng),
        example(1, unequal_tables, Call::RefineList { list: vec![0] }),
        example(17, Store::fresh(20, 40), Call::RefineList { list: vec![0] }),
        list(7, Store::fresh(20, 40), &[99], rng),
        // What is no box is refused after these two, and before 7.
        boxed(1, unequal_again, [[1; 3], [0; 3]], 21, rng),
        example(17, Store::fresh(20, 40), no_box.clone()),
        example(17, refined(&tetrahedron, &[], 0, rng), no_box),
        boxed(18, Store::fresh(20, 40), [[1; 3], [0; 3]], 1, rng),
        boxed(18, Store::fresh(20, 40), [[0; 3], [0; 3]], 21, rng),
        boxed(7, Store::fresh(20, 40), [[0; 3], [0; 3]], 0, rng),
    ]
}

/// The lists of requests in the papers, each with its cage.
pub fn request_lists() -> Vec<(Cage, Vec<u32>)> {
    vec![
        (cages::tetrahedron(), vec![0, 0, 0, 0, 99]),
        (cages::tetrahedron(), vec![0, 3, 7, 9]),
        (cages::double_pyramid(4), vec![0, 4]),
        (cages::foil(), vec![0, 1]),
        (cages::strip(1), vec![0, 0, 1, 2]),
    ]
}

/// Examples on both services; the numbers that the papers give are tested here as well.
pub fn compare_all(bench: &mut Bench, examples: Vec<Example>) -> Outcome {
    for Example { refusal, mut store, call } in examples {
        let before = store.clone();
        let answer = bench.compare(&mut store, &call)?;
        if answer.refusal != refusal {
            let what = format!("refusal {}, the papers give {refusal}", answer.refusal);
            return Err(difference(what, before, &call));
        }
    }
    Ok(())
}

/// All of them, and the lists of requests.
pub fn run(bench: &mut Bench, rng: &mut Rng) -> Outcome {
    for examples in [refusals(rng), orders(rng), lists(rng), boxes(rng)] {
        compare_all(bench, examples)?;
    }
    for (cage, requests) in request_lists() {
        let mut store = Store::junk(40, 60, rng);
        bench.compare(&mut store, &load(&cage))?;
        for &triangle in &requests {
            bench.compare(&mut store, &refine(triangle))?;
        }
    }
    Ok(())
}
