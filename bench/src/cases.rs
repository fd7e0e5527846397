//! What is measured: each call on each cage.

use crate::cages::{self, Cage, RADIUS};
use crate::fast;
use crate::setups::{
    end_of_long_chain, lay_bases, lay_bases_beside, lock_unaltered, odd_at_boundary, on_boundary, set_up,
};
use crate::slots;
use crate::tables::{Answer, Call, HALF_AWAY, HALF_UP, Lent, NOTE_ENTRIES, Panel, Point, REPORT_ENTRIES, Tables};

/// The refine that makes the most splits.
pub const LONGEST: &str = "refine, chain of 10";
/// A rim split, and the longest chain that ends with one, on a cage with a boundary.
pub const AT_BOUNDARY: &str = "refine at the boundary";
pub const LONGEST_AT_BOUNDARY: &str = "refine at the boundary, chain of 10";
/// Splits of an even triangle that flip at one, two and three of its sides.
pub const FLIPPING: [&str; 3] = ["refine even, one flip", "refine even, two flips", "refine even, three flips"];
/// The calls that round halves, by either rule.
pub const STEPS: [&str; 2] = ["whole step", "whole step, rule 2"];
pub const LIMITS: [&str; 2] = ["limit", "limit, rule 2"];
/// The longest chain where every triangle is locked that the refine does not alter, and a whole step where the last
/// triangle is.
pub const LONGEST_BESIDE_LOCKS: &str = "refine, chain of 10, beside locks";
pub const LOCKED_STEP: &str = "whole step, locked";
/// Refines with a note, of an even triangle, of an odd one, of the longest chain and of the longest chain that changes
/// the most slots, in the order that takes the most instructions; and two of them taken back. The first is taken back
/// too where it has brought the mesh above the triangles that a size of the library's local arrays has room for, so that
/// those of the next are cleared.
pub const NOTED: [&str; 4] =
    ["refine noted, even", "refine noted, odd", "refine noted, chain of 10", "refine noted, dearest order"];
pub const BACKS: [&str; 3] = ["take back, even", "take back, chain of 10", "take back, just above a room"];
/// The curve of a rim: of a sphere with its cap cut away, of an open cylinder, where all vertices are on one of two
/// rims, in three triangles each, of a disc, where all but one are on the rim, in two each, and of a collar, where three
/// are on the rim, each in nearly a sixth of the triangles.
pub const CURVES: [&str; 4] =
    ["rim curve, cap cut away", "rim curve, cylinder", "rim curve, disc", "rim curve, collar"];
/// All triangles for the viewer.
pub const VIEW: &str = "view triangles";
/// Lists: of triangles in a row, each refined by one split, and of one triangle again and again, which is passed over
/// but for its first time.
pub const LISTS: [&str; 4] = ["list of 1", "list of 100", "list of 10,000", "list of 10,000 times one"];
/// The same lists previewed.
pub const PREVIEWS: [&str; 4] = ["preview of 1", "preview of 100", "preview of 10,000", "preview of 10,000 times one"];
/// Boxes to generation 4: one that holds no vertex, one with about a twentieth of the triangles, and one that holds
/// all, which is refused with 11 when no slots are left.
pub const BOXES: [&str; 3] = ["box of nothing", "box of a twentieth", "box of all, refused"];

/// Replays of refines in a row, each of one split, and as many refines as the first has by a call each.
pub const REPLAYS: [&str; 2] = ["replay of 100 refines", "replay of 10,000 refines"];
pub const ONE_BY_ONE: &str = "100 refines one by one";
/// Records: of a load, which is its cage's bytes and their checksum, and of a refine.
pub const RECORDS: [&str; 2] = ["record load", "record refine"];

/// What the name of a case ends in that has a report and else is the one without.
const REPORTED: &str = ", reported";
/// Such refines, and pairs of lists, previews and boxes, of few splits and of many.
pub const REFINES_REPORTED: [&str; 8] = [
    "refine even, reported",
    "refine even, one flip, reported",
    "refine even, two flips, reported",
    "refine even, three flips, reported",
    "refine, chain of 10, reported",
    "refine at the boundary, reported",
    "refine at the boundary, chain of 10, reported",
    "refine noted, chain of 10, reported",
];
pub const BATCHES_REPORTED: [[&str; 2]; 3] = [
    ["list of 1, reported", "list of 10,000, reported"],
    ["preview of 1, reported", "preview of 10,000, reported"],
    ["box of nothing, reported", "box of a twentieth, reported"],
];

const NAMES: [&str; 63] = [
    "load",
    "soundness",
    "refine even",
    REFINES_REPORTED[0],
    FLIPPING[0],
    REFINES_REPORTED[1],
    FLIPPING[1],
    REFINES_REPORTED[2],
    FLIPPING[2],
    REFINES_REPORTED[3],
    "refine odd",
    LONGEST,
    REFINES_REPORTED[4],
    AT_BOUNDARY,
    REFINES_REPORTED[5],
    LONGEST_AT_BOUNDARY,
    REFINES_REPORTED[6],
    LONGEST_BESIDE_LOCKS,
    NOTED[0],
    NOTED[1],
    NOTED[2],
    NOTED[3],
    REFINES_REPORTED[7],
    BACKS[0],
    BACKS[1],
    BACKS[2],
    STEPS[0],
    STEPS[1],
    LOCKED_STEP,
    "lock",
    "unlock",
    "ring",
    "position",
    LIMITS[0],
    LIMITS[1],
    CURVES[0],
    CURVES[1],
    CURVES[2],
    CURVES[3],
    "view point",
    VIEW,
    LISTS[0],
    BATCHES_REPORTED[0][0],
    LISTS[1],
    LISTS[2],
    BATCHES_REPORTED[0][1],
    LISTS[3],
    PREVIEWS[0],
    BATCHES_REPORTED[1][0],
    PREVIEWS[1],
    PREVIEWS[2],
    BATCHES_REPORTED[1][1],
    PREVIEWS[3],
    BOXES[0],
    BATCHES_REPORTED[2][0],
    BOXES[1],
    BATCHES_REPORTED[2][1],
    BOXES[2],
    RECORDS[0],
    RECORDS[1],
    ONE_BY_ONE,
    REPLAYS[0],
    REPLAYS[1],
];

pub struct Case {
    pub name: &'static str,
    /// The name of the case without a report; the same where it has none.
    pub plain: &'static str,
    pub triangles: usize,
    pub shuffled: bool,
    pub lent: Lent,
    pub call: Call,
}

impl Case {
    /// The splits of a list: one for each triangle in it, all of them being even.
    pub fn listed_once(&self) -> usize {
        let mut list = self.lent.list.clone();
        list.dedup();
        list.len()
    }

    /// The splits that a box, a replay, or a call with a report, makes, be they undone: each takes two triangles.
    pub fn splits_made(&self) -> usize {
        let after = match fast::answer(&mut self.lent.clone(), self.call) {
            Answer::List(worked) => worked.spares,
            Answer::Reported(told) => told.worked.counts,
            Answer::ListReported(told) => told.worked.spares,
            Answer::PreviewReported(told) => told.foreseen.spares,
            Answer::Replayed(replayed) => replayed.counts,
            _ => self.lent.counts,
        };
        (after.triangles - self.lent.counts.triangles) as usize / 2
    }

    /// The vertices of the rim that a curve is of, and the triangles about them, one by one for each vertex.
    pub fn rim(&self) -> [usize; 2] {
        let Call::RimCurve(vertex) = self.call else {
            return [0; 2];
        };
        let rim = fast::rim(&self.lent, vertex);
        let mut triangles = vec![0; self.lent.counts.vertices as usize];
        let corners = &self.lent.tables.corners[..3 * self.lent.counts.triangles as usize];
        corners.iter().for_each(|&corner| triangles[corner as usize] += 1);
        [rim.len(), rim.iter().map(|&vertex| triangles[vertex as usize]).sum()]
    }

    /// The case by this name: itself, or with a report and entries enough for it.
    fn named(mut self, name: &'static str) -> Case {
        if name != self.plain {
            let (slots, in_use) = (self.lent.tables.generations.len(), self.lent.counts.triangles as usize);
            let entries = if REFINES_REPORTED.contains(&name) { REPORT_ENTRIES } else { 3 * slots - 2 * in_use };
            self.lent.report = vec![u32::MAX; entries];
            self.call = self.call.reported();
        }
        Case { name, ..self }
    }

    /// A refine of a triangle not in use, which is refused once the tables are found sound.
    pub fn soundness(&self) -> Call {
        Call::Refine(self.lent.counts.triangles)
    }
}

/// All cases. The whole step needs three slots for each triangle, so it has a smaller cage than the other calls, and
/// the longest lists need two for each entry.
pub fn all() -> Vec<Case> {
    let small = [cages::tetrahedron(), cages::sphere(10)];
    let [list_sphere, step_sphere, sphere] = [32, 33, 57].map(cages::sphere);
    let rooms = [(2, 160), (4, 400), (7, 1_200), (12, 3_000), (20, 8_000), (33, 22_000)];
    let rooms = rooms.map(|(parts, triangles)| cages::sphere(parts).filled(triangles));
    let capped =
        [(1, 0), (10, 8 * RADIUS / 10), (57, 8 * RADIUS / 10)].map(|(parts, z)| cages::sphere(parts).capped(z));
    let bipyramids = [24, 1_000, 32_490].map(cages::bipyramid);
    let cylinders = [3, 1_000, 16_384].map(cages::cylinder);
    let discs = [3, 2_000, 32_767].map(cages::disc);
    let collars = [1, 333, 10_000].map(cages::collar);
    let mut list = Vec::new();
    for name in NAMES {
        let plain = name.strip_suffix(REPORTED).unwrap_or(name);
        let (small, large) = match plain {
            plain if plain == NOTED[3] => (&bipyramids[..2], &bipyramids[2]),
            plain if plain == BACKS[2] => (&rooms[..5], &rooms[5]),
            plain if plain == CURVES[0] => (&capped[..2], &capped[2]),
            plain if plain == CURVES[1] => (&cylinders[..2], &cylinders[2]),
            plain if plain == CURVES[2] => (&discs[..2], &discs[2]),
            plain if plain == CURVES[3] => (&collars[..2], &collars[2]),
            name if is_listed(name) || BOXES.contains(&name) || refines_row(name) => (&[] as &[Cage], &list_sphere),
            name if name == RECORDS[1] => (&[] as &[Cage], &small[0]),
            name if STEPS.contains(&name) || name == LOCKED_STEP => (&small[..], &step_sphere),
            _ => (&small[..], &sphere),
        };
        for cage in small.iter().chain([large]) {
            let open = plain == AT_BOUNDARY || plain == LONGEST_AT_BOUNDARY;
            let cage = if open { &cage.clone().opened() } else { cage };
            list.push(case(plain, cage, false).named(name));
            list.push(case(plain, &cage.clone().shuffled(), true).named(name));
        }
    }
    list
}

/// A case without a report. The middle triangle or vertex is taken, so that neither end of the tables is favoured.
fn case(name: &'static str, cage: &Cage, shuffled: bool) -> Case {
    let mut lent = cage.lent();
    let rule = if name == STEPS[1] || name == LIMITS[1] { HALF_AWAY } else { HALF_UP };
    set_up(&mut lent, Call::Load(rule));
    if LIMITS.contains(&name) {
        lent.table = vec![0; 3 * lent.counts.vertices as usize];
    }
    if CURVES.contains(&name) {
        lent.table = vec![-1; 9 * lent.counts.vertices as usize];
    }
    if name == VIEW {
        lent.view = vec![-1.0; 9 * lent.counts.triangles as usize];
    }
    if name == "load" {
        // A load has to write these anew, while the counts tell the scan what is read.
        lent.tables.positions.fill(-1);
        lent.tables.corners.fill(1);
        lent.tables.links.fill(1);
        lent.tables.generations.fill(1);
        lent.tables.locks.fill(1);
    }
    let mut triangle = lent.counts.triangles / 2;
    let vertex = lent.counts.vertices / 2;
    let longest = [LONGEST, LONGEST_BESIDE_LOCKS, NOTED[2], BACKS[1]].contains(&name);
    if name == "refine odd" || name == NOTED[1] || name == NOTED[3] || longest {
        set_up(&mut lent, Call::Refine(triangle));
    }
    lay_bases(&mut lent, triangle, flips(name));
    if name == AT_BOUNDARY || name == LONGEST_AT_BOUNDARY {
        triangle = odd_at_boundary(&mut lent);
    }
    if longest || name == LONGEST_AT_BOUNDARY {
        triangle = end_of_long_chain(&mut lent, triangle, &[1, 2]);
    }
    if name == NOTED[3] {
        lay_bases_beside(&mut lent, triangle);
        triangle = end_of_long_chain(&mut lent, triangle, &[2]);
        triangle = slots::in_dearest_order(&mut lent, triangle);
    }
    if name == LONGEST_BESIDE_LOCKS {
        lock_unaltered(&mut lent, triangle);
    }
    if NOTED.contains(&name) || BACKS.contains(&name) {
        lent.note = vec![u32::MAX; NOTE_ENTRIES];
    }
    if BACKS.contains(&name) {
        set_up(&mut lent, Call::RefineNoted(triangle));
    }
    if name == "unlock" {
        set_up(&mut lent, Call::Lock(triangle));
    }
    if name == LOCKED_STEP {
        lent.tables.locks[lent.counts.triangles as usize - 1] = 1;
    }
    if is_listed(name) {
        lent.list = listed(name, lent.counts.triangles);
    }
    if is_listed(name) || BOXES.contains(&name) {
        lent.spares = Tables::with_slots(lent.tables.positions.len() / 3, lent.tables.generations.len());
    }
    if refines_row(name) {
        lent.list = row(if name == REPLAYS[1] { 10_000 } else { 100 }, lent.counts.triangles);
    }
    if REPLAYS.contains(&name) {
        lent.journal = fast::journal_of_list(&lent);
    }
    if RECORDS.contains(&name) {
        lent.record = vec![u8::MAX; 20 + if name == RECORDS[0] { lent.cage.len() } else { 0 }];
    }
    let call = match name {
        "load" => Call::Load(rule),
        ONE_BY_ONE => Call::RefineEach,
        name if name == RECORDS[0] => Call::RecordLoad(rule),
        name if name == RECORDS[1] => Call::RecordRefine(triangle),
        name if REPLAYS.contains(&name) => Call::Replay,
        "soundness" => Call::Refine(lent.counts.triangles),
        "ring" => Call::Ring(vertex),
        "position" => Call::Position(vertex),
        "view point" => Call::ViewPoint(vertex),
        VIEW => Call::ViewTriangles,
        "lock" => Call::Lock(triangle),
        "unlock" => Call::Unlock(triangle),
        name if STEPS.contains(&name) || name == LOCKED_STEP => Call::WholeStep,
        name if NOTED.contains(&name) => Call::RefineNoted(triangle),
        name if BACKS.contains(&name) => Call::TakeBack,
        name if LIMITS.contains(&name) => Call::Limit,
        name if CURVES.contains(&name) => Call::RimCurve(on_boundary(&lent)),
        name if LISTS.contains(&name) => Call::RefineList,
        name if PREVIEWS.contains(&name) => Call::Preview,
        name if BOXES.contains(&name) => boxed(name),
        _ => Call::Refine(triangle),
    };
    Case { name, plain: name, triangles: cage.triangles(), shuffled, lent, call }
}

/// Whether a case has a list, made or previewed.
pub fn is_listed(name: &str) -> bool {
    LISTS.contains(&name) || PREVIEWS.contains(&name)
}

/// How many flips a split of an even triangle is set up for.
pub fn flips(name: &str) -> usize {
    FLIPPING.iter().position(|of| *of == name).map_or(0, |place| place + 1)
}

/// Whether a case refines triangles in a row, one after the other.
fn refines_row(name: &str) -> bool {
    REPLAYS.contains(&name) || name == ONE_BY_ONE
}

/// So many triangles in a row, about the middle of all.
fn row(entries: u32, triangles: u32) -> Vec<u32> {
    let first = (triangles - entries) / 2;
    (first..first + entries).collect()
}

/// The entries of a list, about the middle of so many triangles.
fn listed(name: &str, triangles: u32) -> Vec<u32> {
    let kind = LISTS.iter().zip(PREVIEWS).position(|(list, preview)| name == *list || name == preview);
    let entries = match kind {
        Some(0) => 1,
        Some(1) => 100,
        _ => 10_000,
    };
    if kind == Some(3) { vec![triangles / 2; entries as usize] } else { row(entries, triangles) }
}

/// A box from a height on, to generation 4. A sphere has as much of its surface above a height as of its diameter.
fn boxed(name: &str) -> Call {
    let from = match BOXES.iter().position(|of| *of == name) {
        Some(0) => 2 * RADIUS,
        Some(1) => 9 * RADIUS / 10,
        _ => -RADIUS,
    };
    let [low, high] = [(-RADIUS, from), (RADIUS, 2 * RADIUS)].map(|(side, z)| Point { x: side, y: side, z });
    Call::RefineBox(Panel { low, high, below: 4 })
}
