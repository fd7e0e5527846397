//! Runs of splits beside refines: every run of up to three, none of which raises a triangle with fewer splits than its
//! refine makes.

use crate::cages::{self, Cage};
use crate::fault::{Fault, Seeded};
use crate::handmade;
use crate::histories::chain_lengthener;
use crate::mesh::{Mesh, Operation};
use crate::picks::near_work;
use crate::random_cages::random_cage;
use crate::rng::Rng;
use crate::tables::{HALF_UP, Store};
use crate::tests::refined;

/// The most splits of a run that is tried.
const LONGEST_RUN: usize = 3;
/// The most triangles of a mesh that all runs are tried in.
const SMALL: usize = 16;
/// More slots than any mesh here takes.
const ROOM: [usize; 2] = [100; 2];
/// How often each cage is refined.
const ROUNDS: usize = 500;

/// What was met.
#[derive(Debug, Default)]
struct Met {
    meshes: usize,
    triangles: usize,
    runs: usize,
    /// Triangles by the odd ones in their base chain, over an even triangle and over the boundary.
    chains: [usize; 11],
    boundary_chains: [usize; 11],
    /// Triangles that 9 refuses.
    refused: usize,
    /// How often a run of 1, 2 and 3 splits raised a triangle whose refine makes as many.
    least: [usize; LONGEST_RUN + 1],
}

impl Met {
    fn add_chain(&mut self, mesh: &Mesh, t: usize) {
        let chain = mesh.base_chain(t);
        let met = if chain.even_end.is_some() { &mut self.chains } else { &mut self.boundary_chains };
        met[chain.odd.len()] += 1;
        self.triangles += 1;
    }
}

/// Whether a run may split a triangle next: an even one below 20, or an odd one below 19 with its base on the boundary,
/// where slots for two triangles are free, and for one vertex or two. Locks do not matter.
fn may_split(mesh: &Mesh, t: usize, slots: [usize; 2]) -> bool {
    let triangle = mesh.triangles[t];
    if triangle.is_odd() {
        triangle.links[0].is_none() && triangle.generation < 19 && mesh.leaves_free(slots, 2, 2)
    } else {
        triangle.generation < 20 && mesh.leaves_free(slots, 1, 2)
    }
}

/// The mesh after the split of a triangle, with its flips.
fn after_split(mesh: &Mesh, t: usize) -> Mesh {
    let mut after = mesh.clone();
    if mesh.triangles[t].is_odd() {
        after.rim_split(t);
    } else {
        after.face_split(t);
    }
    after
}

fn is_raised(before: &Mesh, t: usize, after: &Mesh) -> bool {
    after.triangles[t].generation > before.triangles[t].generation
}

/// The splits that refining a triangle makes, or none where 9 refuses it; the error says how they are not a run, in
/// tables with just the slots that they take, which has as many splits as are answered, ends with the same mesh and
/// raises the triangle.
fn splits_of_refine(before: &Mesh, t: usize) -> Result<Option<usize>, String> {
    let mut refined = before.clone();
    let splits = match refined.refine_in(ROOM, t) {
        Ok(work) => work.splits as usize,
        Err(9) => return Ok(None),
        Err(refusal) => return Err(format!("refining {t} is refused with {refusal}")),
    };
    let slots = [refined.points.len(), refined.triangles.len()];
    let split = |operation: &Operation| match *operation {
        Operation::FaceSplit { t, .. } | Operation::RimSplit { t, .. } => Some(t),
        Operation::Flip { .. } => None,
    };
    let run: Vec<usize> = refined.operations.iter().filter_map(split).collect();
    let mut after = before.clone();
    for &slot in &run {
        if !may_split(&after, slot, slots) {
            return Err(format!("refining {t} splits {slot} of {run:?}, which no run may"));
        }
        after = after_split(&after, slot);
    }
    if after != refined {
        return Err(format!("refining {t} leaves another mesh than the run {run:?}"));
    }
    if !is_raised(before, t, &refined) {
        return Err(format!("refining {t} does not raise it"));
    }
    if run.len() != splits {
        return Err(format!("refining {t} answers {splits} splits and makes {}", run.len()));
    }
    Ok(Some(splits))
}

/// All runs in a mesh.
struct Runs<'a> {
    start: &'a Mesh,
    /// Of each triangle, the splits that its refine makes.
    refines: Vec<Option<usize>>,
    met: &'a mut Met,
}

impl Runs<'_> {
    /// Tries every way to go on from a run that led to this mesh. The error names a run that raises a triangle with
    /// fewer splits than its refine, or at all where 9 refuses this.
    fn go_on(&mut self, run: &mut Vec<usize>, mesh: &Mesh) -> Result<(), String> {
        for (t, &splits) in self.refines.iter().enumerate().filter(|&(t, _)| is_raised(self.start, t, mesh)) {
            match splits {
                None => return Err(format!("the run {run:?} raises {t}, which 9 refuses")),
                Some(splits) if splits > run.len() => {
                    return Err(format!("the run {run:?} raises {t}, refining it makes {splits} splits"));
                }
                Some(splits) => self.met.least[splits] += usize::from(splits == run.len()),
            }
        }
        if run.len() == LONGEST_RUN {
            return Ok(());
        }
        for t in (0..mesh.triangles.len()).filter(|&t| may_split(mesh, t, ROOM)) {
            self.met.runs += 1;
            run.push(t);
            self.go_on(run, &after_split(mesh, t))?;
            run.pop();
        }
        Ok(())
    }
}

/// Tries the refine of every triangle and all runs, by rules with a fault or none, in each of the meshes up to the
/// first where something is wrong.
fn try_all(meshes: &[Mesh], fault: Seeded) -> Result<Met, String> {
    let mut met = Met::default();
    for mesh in meshes {
        let start = &Mesh { fault, ..mesh.clone() };
        let of_refine = |t| splits_of_refine(start, t);
        let refines = (0..start.triangles.len()).map(of_refine).collect::<Result<Vec<_>, _>>()?;
        met.meshes += 1;
        met.refused += refines.iter().filter(|splits| splits.is_none()).count();
        (0..refines.len()).for_each(|t| met.add_chain(start, t));
        Runs { start, refines, met: &mut met }.go_on(&mut Vec::new(), start)?;
    }
    Ok(met)
}

/// A cage after a few refines, as long as it stays small; or none where it is not, or has not one fan at each vertex.
fn refined_at_random(cage: &Cage, rng: &mut Rng) -> Option<Store> {
    let mut store = Store::fresh(ROOM[0], ROOM[1]);
    if cage.triangles.len() > SMALL || !handmade::store_cage(&mut store, HALF_UP, &cage.bytes()) {
        return None;
    }
    for _ in 0..rng.below(10) {
        let triangle = if rng.percent(60) { chain_lengthener(&store, rng) } else { near_work(&store, rng) };
        let after = refined(store.clone(), &[triangle]);
        if after.triangles() > SMALL {
            break;
        }
        store = after;
    }
    Some(store)
}

/// Small meshes: cages of a few triangles, closed and open, after refines, and hand-made ones up to the last
/// generation.
fn small_meshes() -> Vec<Mesh> {
    let rng = &mut Rng::new(51);
    let hinge = Cage::of(vec![[0, 1, 2], [1, 0, 3]]);
    let named = [cages::tetrahedron(), cages::strip(1), cages::strip(2), hinge, cages::double_pyramid(4)];
    let mut stores = Vec::new();
    for _ in 0..ROUNDS {
        let cages = named.iter().cloned().chain([random_cage(rng)]);
        stores.extend(cages.filter_map(|cage| refined_at_random(&cage, rng)));
        let handmade = handmade::random(rng);
        stores.push(if rng.percent(50) { handmade::raised(&handmade, rng) } else { handmade });
    }
    stores.retain(|store| store.triangles() <= SMALL);
    let unlocked = |mesh: Mesh| Mesh { locks: vec![0; mesh.locks.len()], ..mesh };
    stores.iter().map(|store| unlocked(Mesh::read(&store.tables, store.counts, Seeded(None)))).collect()
}

#[test]
fn no_run_raises_a_triangle_with_fewer_splits_than_its_refine() {
    let met = try_all(&small_meshes(), Seeded(None)).expect("refines are least");
    assert!(met.chains[..=4].iter().chain(&met.boundary_chains[1..=4]).all(|&chains| chains > 100), "{met:?}");
    assert!(met.least[1..].iter().all(|&runs| runs > 100) && met.refused > 100, "{met:?}");
}

#[test]
fn rules_by_which_a_refine_is_not_least_are_found() {
    let meshes = small_meshes();
    let found = [
        (Fault::SplitWhenFlipped, "refining it makes"),
        (Fault::FlipAcrossNoBase, "refining it makes"),
        (Fault::SplitsFromGeneration, "answers"),
        (Fault::SplitsAsOdd, "answers"),
        (Fault::ChainSlotsRemembered, "does not raise"),
        (Fault::OuterNotFlipped, "does not raise"),
        (Fault::ChainNotFollowed, "no run may"),
        (Fault::NineteenAtBoundary, "no run may"),
    ];
    for (fault, words) in found {
        let what = try_all(&meshes, Seeded(Some(fault))).expect_err("a fault is found");
        assert!(what.contains(words), "{fault:?}: {what}");
    }
}
