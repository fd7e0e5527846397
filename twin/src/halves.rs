//! Halves: places at which a coordinate comes to lie half-way between two whole numbers, where the rules differ. Random
//! coordinates hardly ever do.

use crate::bench::{Bench, Outcome, difference};
use crate::cages::{self, Cage};
use crate::damage::at_generation;
use crate::rng::Rng;
use crate::tables::{Call, HALF_AWAY, HALF_UP, LAST_GENERATION, Store};

/// A vertex in the origin with a ring of so many entries, all there but one, which is at (x, −x, 0): the vertex comes
/// to lie half-way above `below`, at the opposite of this, and at 0.
pub struct Halfway {
    pub entries: u32,
    pub x: i32,
    pub below: i32,
}

const fn halfway(entries: u32, x: i32, below: i32) -> Halfway {
    Halfway { entries, x, below }
}

/// In a whole step: x is an odd multiple of 32768 × n / gcd(w, n).
pub const IN_STEP: [Halfway; 11] = [
    halfway(2, 65_536, 21_845),
    halfway(3, 98_304, 18_204),
    halfway(4, 131_072, 14_563),
    halfway(5, 163_840, 12_313),
    halfway(6, 196_608, 10_922),
    halfway(7, 229_376, 10_023),
    halfway(8, 262_144, 9_414),
    halfway(9, 294_912, 8_985),
    halfway(10, 65_536, 1_734),
    halfway(11, 360_448, 8_437),
    halfway(12, 131_072, 2_752),
];

/// In limit positions: x is a multiple of 65536 + 3w, and rings of an odd length have no halves.
pub const IN_LIMIT: [Halfway; 6] = [
    halfway(2, 196_609, 65_536),
    halfway(4, 305_834, 43_690),
    halfway(6, 131_071, 10_922),
    halfway(8, 488_092, 28_243),
    halfway(10, 117_571, 5_203),
    halfway(12, 230_162, 8_257),
];

impl Halfway {
    /// A cage with such a ring: two triangles back to back, or a double pyramid.
    pub fn cage(&self) -> Cage {
        let mut cage = if self.entries == 2 { cages::foil() } else { cages::double_pyramid(self.entries) };
        cage.points[2] = [self.x, -self.x, 0];
        cage
    }

    /// The vertex in question.
    pub fn vertex(&self) -> usize {
        if self.entries == 2 { 1 } else { self.entries as usize }
    }

    /// Where it comes to lie: a half goes up by rule 1, and away from zero by rule 2.
    pub fn expected(&self, rule: u32) -> [i32; 3] {
        [self.below + 1, if rule == HALF_UP { -self.below } else { -self.below - 1 }, 0]
    }
}

/// All of them under both rules, in every generation; the numbers are tested here as well.
pub fn run(bench: &mut Bench, rng: &mut Rng) -> Outcome {
    for generation in (0..=LAST_GENERATION).step_by(2) {
        for rule in [HALF_UP, HALF_AWAY] {
            for halfway in &IN_STEP {
                // A whole step of the last generation is refused.
                let store = store(halfway, rule, generation, rng);
                let after = |after: &Store| after.tables.positions.clone();
                expect(bench, store, &Call::WholeStep, halfway, after)?;
            }
            for halfway in &IN_LIMIT {
                let mut store = store(halfway, rule, generation, rng);
                store.room.table = vec![7; 3 * store.vertices()];
                expect(bench, store, &Call::Limit, halfway, |after| after.room.table.clone())?;
            }
        }
    }
    Ok(())
}

fn store(halfway: &Halfway, rule: u32, generation: u8, rng: &mut Rng) -> Store {
    let cage = halfway.cage();
    let mut store = at_generation(&cage, generation, cage.triangles.len(), rng);
    store.counts.rule = rule;
    store
}

/// Compares a call, and what it leaves of the vertex, if it is carried out, with what is expected.
fn expect(
    bench: &mut Bench,
    mut store: Store,
    call: &Call,
    halfway: &Halfway,
    written: impl Fn(&Store) -> Vec<i32>,
) -> Outcome {
    let before = store.clone();
    let answer = bench.compare(&mut store, call)?;
    let expected = halfway.expected(before.counts.rule);
    let found = &written(&store)[3 * halfway.vertex()..][..3];
    if answer.refusal == 0 && found != expected {
        return Err(difference(format!("halves are at {found:?}, not {expected:?}"), before, call));
    }
    Ok(())
}
