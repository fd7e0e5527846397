//! A box, worked off in spare tables: a bit for each triangle that is to be refined, and levels of bits to find the
//! lowest.

use super::list::make;
use super::split::{Wrote, refine};
use super::{LAST_GENERATION, triple};
use crate::tables::{BatchWorked, Counts, MOST_TRIANGLE_SLOTS, Panel, Tables};

impl Panel {
    /// The opposite of condition 18.
    pub fn is_good(&self) -> bool {
        let Panel { low, high, below } = self;
        low.x <= high.x && low.y <= high.y && low.z <= high.z && *below <= u32::from(LAST_GENERATION)
    }

    fn holds(&self, [x, y, z]: [i32; 3]) -> bool {
        let Panel { low, high, .. } = self;
        low.x <= x && x <= high.x && low.y <= y && y <= high.y && low.z <= z && z <= high.z
    }
}

/// A set of triangles: a bit for each, above them a bit for each word of these that has any, and so on.
struct Levels([Vec<u64>; 3]);

impl Levels {
    fn new() -> Levels {
        Levels([MOST_TRIANGLE_SLOTS / 64, MOST_TRIANGLE_SLOTS / 64 / 64, 1].map(|words| vec![0; words]))
    }

    fn set(&mut self, mut place: usize, member: bool) {
        for level in &mut self.0 {
            let (word, bit) = (&mut level[place / 64], 1 << (place % 64));
            *word = if member { *word | bit } else { *word & !bit };
            if !member && *word != 0 {
                return;
            }
            place /= 64;
        }
    }

    fn lowest(&self) -> Option<usize> {
        let [_, _, top] = &self.0;
        let first = |place: usize, level: &Vec<u64>| 64 * place + level[place].trailing_zeros() as usize;
        (top[0] != 0).then(|| self.0.iter().rev().fold(0, first))
    }
}

/// Refines inside a box. What is done in the spare tables is copied back if no refine fails.
pub fn refine_box(tables: &mut Tables, counts: Counts, panel: Panel, spares: &mut Tables) -> BatchWorked {
    make(tables, counts, spares, |_, spares, done| refine_inside(panel, spares, done, &mut |_| ()))
}

/// Refines up to the first refine that fails.
pub fn refine_inside(
    panel: Panel,
    spares: &mut Tables,
    mut done: BatchWorked,
    tell: &mut impl FnMut(&Wrote),
) -> BatchWorked {
    let mut inside = Vec::with_capacity(spares.positions.len() / 3);
    let mut wanted = Levels::new();
    let mut touched: Vec<usize> = (0..done.spares.triangles as usize).collect();
    loop {
        let made = inside.len()..done.spares.vertices as usize;
        inside.extend(made.map(|vertex| panel.holds(triple(&spares.positions, vertex))));
        for slot in touched.drain(..) {
            let is_below = u32::from(spares.generations[slot]) < panel.below;
            let has_inside = || triple(&spares.corners, slot).iter().any(|&corner| inside[corner as usize]);
            wanted.set(slot, is_below && has_inside());
        }
        let Some(t) = wanted.lowest() else {
            return done;
        };
        let mut touch = |wrote: Wrote| {
            tell(&wrote);
            match wrote {
                Wrote::Split(slots) => touched.extend(slots),
                // The split has told of the other.
                Wrote::Flip([_, u]) => touched.push(u),
            }
        };
        match refine(spares, done.spares, t as u32, &mut touch) {
            Ok(worked) => done.add(worked),
            Err(refusal) => return BatchWorked { refusal, ..done },
        }
        done.handled += 1;
    }
}
