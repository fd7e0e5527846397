//! What a call is lent and what it answers.

pub use crate::rawplinth::{BatchForeseen, BatchReported, BatchWorked, Counts, ForeseenReported, LimitRead};
pub use crate::rawplinth::{Point, PointSeen, PositionRead, Replayed, Reported, RimRead, RingRead, Shown, Worked};
pub use crate::rawplinth::{RAWPLINTH_HALF_AWAY as HALF_AWAY, RAWPLINTH_HALF_UP as HALF_UP};
pub use crate::rawplinth::{RAWPLINTH_NOTE_ENTRIES as NOTE_ENTRIES, RAWPLINTH_REPORT_ENTRIES as REPORT_ENTRIES};

/// The link of a boundary side.
pub const BOUNDARY: u32 = u32::MAX;
/// The most slots of vertices and of triangles.
pub const MOST_VERTEX_SLOTS: usize = 32_768;
pub const MOST_TRIANGLE_SLOTS: usize = 65_536;

/// The lent tables: three positions to a vertex slot; three corners, three links, a generation and a lock to a triangle
/// slot.
#[derive(Clone, Debug, PartialEq)]
pub struct Tables {
    pub positions: Vec<i32>,
    pub corners: Vec<u32>,
    pub links: Vec<u32>,
    pub generations: Vec<u8>,
    pub locks: Vec<u8>,
}

/// All that a call may be lent.
#[derive(Clone, Debug, PartialEq)]
pub struct Lent {
    pub tables: Tables,
    pub counts: Counts,
    pub cage: Vec<u8>,
    /// The buffer of a ring query.
    pub buffer: Vec<u32>,
    /// The table of a limit query, or of a curve.
    pub table: Vec<i32>,
    /// The table that all triangles are shown in.
    pub view: Vec<f32>,
    /// The note that a refine writes, and that it is taken back by.
    pub note: Vec<u32>,
    /// The buffer for the slots that a call reports.
    pub report: Vec<u32>,
    /// A list of triangles, and the tables that it or a box is worked off in.
    pub list: Vec<u32>,
    pub spares: Tables,
    /// A journal to replay, the table that its numbers are read into, and the buffer that a record is written to.
    pub journal: Vec<u8>,
    pub numbers: Vec<u32>,
    pub record: Vec<u8>,
}

/// A call with the numbers it is given, which for a load is the rule.
#[derive(Clone, Copy, Debug)]
pub enum Call {
    Load(u32),
    Refine(u32),
    RefineNoted(u32),
    TakeBack,
    WholeStep,
    Lock(u32),
    Unlock(u32),
    Ring(u32),
    Position(u32),
    Limit,
    RimCurve(u32),
    ViewPoint(u32),
    ViewTriangles,
    RefineList,
    Preview,
    RefineBox(Panel),
    Reported(Refining),
    /// The triangles of a list refined one by one, by a call each.
    RefineEach,
    RecordLoad(u32),
    RecordRefine(u32),
    Replay,
}

/// A call that has a report.
#[derive(Clone, Copy, Debug)]
pub enum Refining {
    Triangle(u32),
    Noted(u32),
    List,
    Preview,
    Box(Panel),
}

/// A box by its low and its high corner, and the generation to which it is refined.
#[derive(Clone, Copy, Debug)]
pub struct Panel {
    pub low: Point,
    pub high: Point,
    pub below: u32,
}

/// The answer of a list is that of a box, too.
#[derive(Clone, Copy, Debug, PartialEq)]
pub enum Answer {
    Worked(Worked),
    Ring(RingRead),
    Position(PositionRead),
    Limit(LimitRead),
    Rim(RimRead),
    Seen(PointSeen),
    Shown(Shown),
    List(BatchWorked),
    Preview(BatchForeseen),
    Reported(Reported),
    ListReported(BatchReported),
    PreviewReported(ForeseenReported),
    Recorded(usize),
    Replayed(Replayed),
}

impl Call {
    /// The same call with a report.
    pub fn reported(self) -> Call {
        Call::Reported(match self {
            Call::Refine(triangle) => Refining::Triangle(triangle),
            Call::RefineNoted(triangle) => Refining::Noted(triangle),
            Call::RefineList => Refining::List,
            Call::Preview => Refining::Preview,
            Call::RefineBox(panel) => Refining::Box(panel),
            other => panic!("{other:?} has no report"),
        })
    }
}

impl Tables {
    /// Tables with these numbers of slots.
    pub fn with_slots(vertex_slots: usize, triangle_slots: usize) -> Tables {
        Tables {
            positions: vec![0; 3 * vertex_slots],
            corners: vec![0; 3 * triangle_slots],
            links: vec![0; 3 * triangle_slots],
            generations: vec![0; triangle_slots],
            locks: vec![0; triangle_slots],
        }
    }
}

impl Lent {
    /// A fresh store with slots for this many vertices and triangles, as far as the maxima go, and a cage to load.
    pub fn fresh(vertex_slots: usize, triangle_slots: usize, cage: Vec<u8>) -> Lent {
        let tables = Tables::with_slots(vertex_slots.min(MOST_VERTEX_SLOTS), triangle_slots.min(MOST_TRIANGLE_SLOTS));
        Lent {
            tables,
            counts: Counts::default(),
            cage,
            buffer: vec![0; 16],
            table: Vec::new(),
            view: Vec::new(),
            note: Vec::new(),
            report: Vec::new(),
            list: Vec::new(),
            spares: Tables::with_slots(0, 0),
            journal: Vec::new(),
            numbers: Vec::new(),
            record: Vec::new(),
        }
    }
}

/// The floor: reads every entry in use once and does nothing else with it.
#[unsafe(no_mangle)]
#[inline(never)]
pub extern "C" fn scan_tables(lent: &Lent) -> u32 {
    let (vertices, triangles) = (lent.counts.vertices as usize, lent.counts.triangles as usize);
    let Tables { positions, corners, links, generations, locks } = &lent.tables;
    let positions = positions[..3 * vertices].iter().fold(0u32, |sum, &entry| sum.wrapping_add(entry as u32));
    let topology = corners[..3 * triangles].iter().chain(&links[..3 * triangles]);
    let topology = topology.fold(positions, |sum, &entry| sum.wrapping_add(entry));
    let bytes = generations[..triangles].iter().chain(&locks[..triangles]);
    bytes.fold(topology, |sum, &entry| sum.wrapping_add(u32::from(entry)))
}
