//! The whole step: every triangle refined, every old vertex moved; and where ever more of them lead.

use crate::fault::{Fault, Seeded};
use crate::mesh::Mesh;
use crate::split::Work;
use crate::tables::HALF_UP;

/// The weights for rings of 2 to 12 entries, out of 65536.
const WEIGHTS: [i64; 11] = [43691, 36409, 29127, 24627, 21845, 20047, 18829, 17971, 17345, 16875, 16515];

/// The longest ring that has a weight.
pub const LONGEST_RING: usize = 12;

/// A coordinate that is not yet rounded. The denominator is above zero.
#[derive(Clone, Copy)]
pub struct Fraction {
    numerator: i64,
    denominator: i64,
}

impl Fraction {
    pub fn is_half(self) -> bool {
        2 * self.numerator.rem_euclid(self.denominator) == self.denominator
    }

    pub fn is_negative(self) -> bool {
        self.numerator < 0
    }

    /// The nearest whole number: a half goes up by rule 1 and away from zero by rule 2; with the fault, down.
    fn rounded(self, rule: u32, fault: Seeded, halves_down: Fault) -> i32 {
        let half_goes_up = rule == HALF_UP || !self.is_negative() || fault.has(Fault::HalfUpByRuleTwo);
        let below = self.numerator.div_euclid(self.denominator);
        let above_half = 2 * self.numerator.rem_euclid(self.denominator) > self.denominator;
        let up = above_half || (self.is_half() && half_goes_up && !fault.has(halves_down));
        (below + i64::from(up)) as i32
    }
}

/// A vertex and its ring in one coordinate: the vertex at p, the n entries of the ring with their sum s, and the weight
/// w of such a ring.
struct Around {
    n: i64,
    p: i64,
    s: i64,
    w: i64,
}

impl Around {
    /// In all three coordinates, the ring read from other points.
    fn each(point: [i32; 3], ring: &[usize], points: &[[i32; 3]]) -> [Around; 3] {
        [0, 1, 2].map(|axis| Around {
            n: ring.len() as i64,
            p: i64::from(point[axis]),
            s: ring.iter().map(|&neighbour| i64::from(points[neighbour][axis])).sum(),
            w: WEIGHTS[ring.len() - 2],
        })
    }

    /// Where a whole step takes the vertex.
    fn moved(&self) -> Fraction {
        let &Around { n, p, s, w } = self;
        Fraction { numerator: n * (65536 - w) * p + w * s, denominator: 65536 * n }
    }

    /// Its limit position, with the weight 3w for the ring.
    fn limit(&self, fault: Seeded) -> Fraction {
        let &Around { n, p, s, w } = self;
        let share = fault.unless(Fault::LimitWeightOnce, 3 * w, w);
        Fraction { numerator: 65536 * n * p + share * s, denominator: n * (65536 + share) }
    }
}

/// The whole step: every slot refined in order, with centres from the old positions. The rings, too, are
/// those of the old mesh, so the old vertices are moved last.
pub fn whole_step(mesh: &mut Mesh) -> Work {
    let moved = moved_points(mesh);
    let mut work = Work::default();
    for slot in 0..mesh.triangles.len() {
        let refined = mesh.refine(slot);
        work.splits += refined.splits;
        work.flips += refined.flips;
    }
    mesh.points[..moved.len()].copy_from_slice(&moved);
    work
}

/// The new places of the old vertices.
fn moved_points(mesh: &Mesh) -> Vec<[i32; 3]> {
    let rule = mesh.fault.unless(Fault::StepByRuleOne, mesh.rule, HALF_UP);
    let mut points = mesh.points.clone();
    for (vertex, ring) in rings(mesh).iter().enumerate() {
        let seen = mesh.fault.unless(Fault::MovedOneByOne, &mesh.points, &points);
        let around = Around::each(mesh.points[vertex], ring, seen);
        points[vertex] = around.map(|around| around.moved().rounded(rule, mesh.fault, Fault::HalvesDown));
    }
    points
}

/// The limit positions of all vertices.
pub fn limit_points(mesh: &Mesh) -> Vec<[i32; 3]> {
    let rule = mesh.fault.unless(Fault::LimitByRuleOne, mesh.rule, HALF_UP);
    let moved = mesh.fault.has(Fault::LimitOfMoved).then(|| moved_points(mesh));
    let from = moved.as_ref().unwrap_or(&mesh.points);
    let limit = |around: Around| around.limit(mesh.fault).rounded(rule, mesh.fault, Fault::LimitHalvesDown);
    let rings = rings(mesh);
    from.iter().zip(&rings).map(|(&point, ring)| Around::each(point, ring, &mesh.points).map(limit)).collect()
}

/// All coordinates that a whole step and that a limit query round.
pub fn fractions(mesh: &Mesh) -> Vec<[Fraction; 2]> {
    let rings = rings(mesh);
    let all = mesh.points.iter().zip(&rings).flat_map(|(&point, ring)| Around::each(point, ring, &mesh.points));
    all.map(|around| [around.moved(), around.limit(mesh.fault)]).collect()
}

fn rings(mesh: &Mesh) -> Vec<Vec<usize>> {
    mesh.leaving_sides().iter().map(|leaving| mesh.ring(leaving)).collect()
}
