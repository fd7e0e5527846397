//! Limit positions: closed meshes of every even generation.

use crate::bench::{Bench, Outcome};
use crate::cages;
use crate::calls;
use crate::damage::at_generation;
use crate::handmade;
use crate::rng::Rng;
use crate::tables::LAST_GENERATION;

/// All of them, with tables of all lengths that are tried.
pub fn run(bench: &mut Bench, rng: &mut Rng) -> Outcome {
    for generation in (0..=LAST_GENERATION).step_by(2) {
        let pyramids = (3..=13).map(cages::double_pyramid);
        for cage in [cages::tetrahedron(), cages::foil(), cages::torus(3, 4)].into_iter().chain(pyramids) {
            let spare = rng.below(3);
            let mut store = at_generation(&cage.shuffled(rng).scattered(rng), generation, spare, rng);
            calls::compare_limits(bench, &mut store, rng)?;
        }
        let mut stored = handmade::foil(generation).store(1, 1, rng);
        calls::compare_limits(bench, &mut stored, rng)?;
    }
    Ok(())
}
