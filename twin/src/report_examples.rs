//! Hand-made examples of reports: those of the refines that the papers name, of lists and boxes, and buffers that are
//! too short, alone and beside other refusals.

use crate::bench::{Bench, Outcome, difference};
use crate::cages;
use crate::calls::{self, some_entries};
use crate::damage::{at_generation, refined};
use crate::examples::{self, Example, refine};
use crate::handmade;
use crate::notes;
use crate::rng::Rng;
use crate::tables::{Bounds, Call, LAST_GENERATION, NOTE_ENTRIES, REPORT_ENTRIES, Store};

/// An example with what it reports, nothing where it is refused.
pub struct Told {
    pub example: Example,
    pub report: Vec<u32>,
}

/// A call in a buffer of so many entries, with spare tables of the mesh's sizes.
fn example(refusal: u32, mut store: Store, call: Call, entries: usize, rng: &mut Rng) -> Example {
    store.room.spares = calls::fitting_spares(&store, rng);
    store.room.report = some_entries(entries, rng);
    examples::example(refusal, store, call.reported())
}

/// A call that is carried out with a buffer of just the entries of its report.
fn told(store: &Store, call: Call, report: &[u32], rng: &mut Rng) -> Told {
    Told { example: example(0, store.clone(), call, report.len(), rng), report: report.to_vec() }
}

fn noted(triangle: u32) -> Call {
    Call::RefineNoted { triangle }
}

fn list(entries: &[u32]) -> Call {
    Call::RefineList { list: entries.to_vec() }
}

fn preview(entries: &[u32]) -> Call {
    Call::Preview { list: entries.to_vec() }
}

/// Vertex 3 of the tetrahedron, which triangles 1, 2 and 3 have.
fn at_apex(below: u32) -> Call {
    Call::RefineBox { bounds: Bounds::about([0, 0, 9], [0, 0, 9]), below }
}

/// The tetrahedron run: the second refine flips the triangle given, and the fourth has a chain of two, whose even end
/// flips another beside it. Then the octahedron, where the split's own slot is flipped, and a lone triangle, whose
/// three children are split at the boundary one after the other.
fn refines(rng: &mut Rng) -> Vec<Told> {
    let tetrahedron = |requests: &[u32], rng: &mut Rng| refined(&cages::tetrahedron(), requests, 9, rng);
    let octahedron = refined(&cages::double_pyramid(4), &[0], 9, rng);
    let lone = |requests: &[u32], rng: &mut Rng| refined(&cages::strip(1), requests, 9, rng);
    vec![
        told(&tetrahedron(&[], rng), refine(0), &[0, 4, 5], rng),
        told(&tetrahedron(&[0], rng), refine(0), &[1, 6, 7, 7, 0], rng),
        told(&tetrahedron(&[0], rng), noted(0), &[1, 6, 7, 7, 0], rng),
        told(&tetrahedron(&[0, 0], rng), refine(0), &[0, 8, 9], rng),
        told(&tetrahedron(&[0, 0, 0], rng), refine(0), &[3, 10, 11, 10, 1, 11, 5, 1, 12, 13, 13, 0], rng),
        told(&tetrahedron(&[0, 0, 0], rng), noted(0), &[3, 10, 11, 10, 1, 11, 5, 1, 12, 13, 13, 0], rng),
        told(&octahedron, refine(1), &[1, 10, 11, 1, 0], rng),
        told(&lone(&[], rng), refine(0), &[0, 1, 2], rng),
        told(&lone(&[0], rng), refine(0), &[0, 3, 4], rng),
        told(&lone(&[0, 0], rng), refine(1), &[1, 5, 6, 1, 4], rng),
        told(&lone(&[0, 0, 1], rng), refine(2), &[2, 7, 8, 2, 6, 8, 0], rng),
        told(&lone(&[0, 0, 1], rng), noted(2), &[2, 7, 8, 2, 6, 8, 0], rng),
    ]
}

/// Lists, previews and boxes on the tetrahedron: their refines one after the other. Of what is passed over there is
/// nothing, and where nothing is to be done no entries are enough.
fn joined(rng: &mut Rng) -> Vec<Told> {
    let loaded = refined(&cages::tetrahedron(), &[], 9, rng);
    let (of_two, of_three) = ([0, 4, 5, 1, 6, 7, 7, 0], [1, 4, 5, 2, 6, 7, 2, 4, 3, 8, 9, 3, 6, 8, 1]);
    vec![
        told(&loaded, list(&[]), &[], rng),
        told(&loaded, preview(&[]), &[], rng),
        told(&loaded, at_apex(0), &[], rng),
        told(&loaded, list(&[0, 0]), &[0, 4, 5], rng),
        told(&loaded, list(&[0, 1]), &of_two, rng),
        told(&loaded, list(&[0, 0, 1, 0, 1]), &of_two, rng),
        told(&loaded, preview(&[0, 0, 1, 0, 1]), &of_two, rng),
        told(&loaded, list(&[1, 2, 3]), &of_three, rng),
        told(&loaded, preview(&[1, 2, 3]), &of_three, rng),
        told(&loaded, at_apex(1), &of_three, rng),
    ]
}

/// Buffers of other lengths than the report. That of triangle 0 takes three entries, that of a refine at most 54.
fn lengths(rng: &mut Rng) -> Vec<Example> {
    let loaded = refined(&cages::tetrahedron(), &[], 9, rng);
    let longest = handmade::crowded(10, 12).store(10, 20, rng);
    let mut all = Vec::new();
    for (refusal, entries) in [(23, 0), (23, 1), (23, 2), (0, 3), (0, 4), (0, 99)] {
        for call in [refine(0), noted(0), list(&[0]), list(&[0, 0]), preview(&[0])] {
            all.push(example(refusal, loaded.clone(), call, entries, rng));
        }
    }
    for (refusal, entries) in [(23, 0), (23, 14), (0, 15), (0, 16), (0, 54)] {
        for call in [list(&[1, 2, 3]), preview(&[1, 2, 3]), at_apex(1)] {
            all.push(example(refusal, loaded.clone(), call, entries, rng));
        }
    }
    for (refusal, entries) in [(23, REPORT_ENTRIES - 1), (0, REPORT_ENTRIES), (0, REPORT_ENTRIES + 1)] {
        all.push(example(refusal, longest.clone(), refine(10), entries, rng));
    }
    all
}

/// Buffers of no entries where another refusal comes first, and where nothing is to be reported.
fn orders(rng: &mut Rng) -> Vec<Example> {
    let loaded = |room: usize, rng: &mut Rng| refined(&cages::tetrahedron(), &[], room, rng);
    let with_note = |entries: usize, rng: &mut Rng| notes::with_note(loaded(4, rng), some_entries(entries, rng));
    let no_box = Call::RefineBox { bounds: Bounds::EVERYWHERE, below: u32::from(LAST_GENERATION) + 1 };
    let ripe = at_generation(&cages::tetrahedron(), LAST_GENERATION, 4, rng);
    let mut unequal = loaded(4, rng);
    unequal.tables.links.pop();
    let mut cases: Vec<(u32, Store, Call)> = Vec::new();
    for call in [refine(0), noted(0), list(&[0]), preview(&[0]), at_apex(1)] {
        cases.push((1, unequal.clone(), call.clone()));
        cases.push((7, Store::fresh(9, 9), call));
    }
    for call in [refine, noted, |triangle| list(&[triangle]), |triangle| preview(&[triangle])] {
        cases.push((8, loaded(4, rng), call(4)));
        cases.push((9, ripe.clone(), call(0)));
        cases.push((11, loaded(0, rng), call(0)));
        cases.push((19, loaded(0, rng).locked(0), call(0)));
    }
    cases.extend([
        // A note that is too short comes first, and one that is not stands.
        (22, with_note(0, rng), noted(0)),
        (22, with_note(30, rng), noted(0)),
        (23, with_note(31, rng), noted(0)),
        (23, with_note(NOTE_ENTRIES, rng), noted(0)),
        // What a list or a box has made before it fails needs no entries.
        (8, loaded(9, rng), list(&[0, 1, 4])),
        (11, loaded(2, rng), list(&[0, 1, 2])),
        (19, loaded(9, rng).locked(2), preview(&[0, 1, 2])),
        (11, loaded(2, rng), at_apex(1)),
        (19, loaded(9, rng).locked(3), at_apex(1)),
        (18, loaded(9, rng), no_box),
        (0, loaded(0, rng), list(&[])),
        (0, loaded(0, rng), preview(&[])),
        (0, loaded(0, rng), at_apex(0)),
    ]);
    let mut all: Vec<Example> =
        cases.into_iter().map(|(refusal, store, call)| example(refusal, store, call, 0, rng)).collect();
    for call in [list(&[0]), preview(&[0]), at_apex(1)] {
        let mut misfit = example(17, loaded(4, rng), call, 0, rng);
        misfit.store.room.spares.links.pop();
        all.push(misfit);
    }
    all
}

/// All that end with a report that is known.
pub fn written(rng: &mut Rng) -> Vec<Told> {
    [refines(rng), joined(rng)].into_iter().flatten().collect()
}

/// All that are told by their refusals alone.
pub fn others(rng: &mut Rng) -> Vec<Example> {
    [lengths(rng), orders(rng)].into_iter().flatten().collect()
}

/// All of these on both services; the reports that are known are tested here as well.
pub fn as_told(bench: &mut Bench, rng: &mut Rng) -> Outcome {
    for Told { example: Example { mut store, call, .. }, report } in written(rng) {
        let before = store.clone();
        let answer = bench.compare(&mut store, &call)?;
        if answer.refusal != 0 || store.room.report != report {
            let what = format!("reported {:?}, the papers give {report:?}", store.room.report);
            return Err(difference(what, before, &call));
        }
    }
    examples::compare_all(bench, others(rng))
}
