//! What a call is lent, the calls and their answers.

pub use crate::bounds::Bounds;
use crate::entry::Entry;
pub use crate::rawplinth::{Counts, RAWPLINTH_HALF_AWAY as HALF_AWAY, RAWPLINTH_HALF_UP as HALF_UP};
pub use crate::rawplinth::{RAWPLINTH_NOTE_ENTRIES as NOTE_ENTRIES, RAWPLINTH_REPORT_ENTRIES as REPORT_ENTRIES};
use crate::rng::Rng;

/// The link of a boundary side; the paper's rim.
pub const BOUNDARY: u32 = u32::MAX;
/// The most slots of vertices and of triangles.
pub const MOST_VERTEX_SLOTS: usize = 32_768;
pub const MOST_TRIANGLE_SLOTS: usize = 65_536;
/// The greatest coordinate, and the opposite of the least.
pub const FARTHEST: i32 = 16_777_216;
/// The greatest generation.
pub const LAST_GENERATION: u8 = 20;
/// Numbers that are no rule: beside 1 and 2, far off, and 1 and 2 in their low bits.
pub const NO_RULES: [u32; 8] = [0, 3, 4, 257, 65_538, 1 << 31, 1 << 31 | 1, u32::MAX];

/// The lent tables: three positions to a vertex slot; three corners, three links, a generation and a lock to a triangle
/// slot.
#[derive(Clone, Debug, Default, PartialEq, Eq)]
pub struct Tables {
    pub positions: Vec<i32>,
    pub corners: Vec<u32>,
    pub links: Vec<u32>,
    pub generations: Vec<u8>,
    pub locks: Vec<u8>,
}

impl Tables {
    /// Tables with so many entries each, which hold anything.
    pub fn junk([positions, corners, links, generations, locks]: [usize; 5], rng: &mut Rng) -> Tables {
        Tables {
            positions: (0..positions).map(|_| rng.word() as i32).collect(),
            corners: (0..corners).map(|_| rng.word() >> rng.below(32)).collect(),
            links: (0..links).map(|_| rng.word() >> rng.below(32)).collect(),
            generations: (0..generations).map(|_| rng.word() as u8).collect(),
            locks: (0..locks).map(|_| junk_lock(rng)).collect(),
        }
    }

    /// How many entries each table has.
    pub fn lengths(&self) -> [usize; 5] {
        [self.positions.len(), self.corners.len(), self.links.len(), self.generations.len(), self.locks.len()]
    }

    /// Takes over what other tables have in the slots that are in use by these counts.
    pub fn take_over(&mut self, others: &Tables, counts: Counts) {
        let (vertices, triangles) = (counts.vertices as usize, counts.triangles as usize);
        self.positions[..3 * vertices].copy_from_slice(&others.positions[..3 * vertices]);
        self.corners[..3 * triangles].copy_from_slice(&others.corners[..3 * triangles]);
        self.links[..3 * triangles].copy_from_slice(&others.links[..3 * triangles]);
        self.generations[..triangles].copy_from_slice(&others.generations[..triangles]);
        self.locks[..triangles].copy_from_slice(&others.locks[..triangles]);
    }

    /// The slots of vertices and of triangles.
    pub fn slots(&self) -> [usize; 2] {
        [self.positions.len() / 3, self.generations.len()]
    }

    /// Takes the slots past so many away.
    pub fn cut_to(&mut self, [vertex_slots, triangle_slots]: [usize; 2]) {
        self.positions.truncate(3 * vertex_slots);
        self.corners.truncate(3 * triangle_slots);
        self.links.truncate(3 * triangle_slots);
        self.generations.truncate(triangle_slots);
        self.locks.truncate(triangle_slots);
    }
}

/// A lock, or a number that is none.
fn junk_lock(rng: &mut Rng) -> u8 {
    let any = rng.word() as u8;
    rng.pick(&[0, 1, 2, 255, any])
}

/// What calls are lent beside the mesh. A call takes what it needs of it and leaves the rest.
#[derive(Clone, Debug, Default, PartialEq, Eq)]
pub struct Room {
    /// The buffer of a ring query.
    pub ring: Vec<u32>,
    /// The table of a limit query.
    pub table: Vec<i32>,
    /// The table that the curve of a rim is written to.
    pub curve: Vec<i32>,
    /// The table that all triangles are shown in, each f32 by its bits: so numbers that are equal, or none, differ.
    pub view: Vec<u32>,
    /// The note that a refine writes, and that it is taken back by.
    pub note: Vec<u32>,
    /// The buffer of a report.
    pub report: Vec<u32>,
    /// The tables that a list or a box is worked off in.
    pub spares: Tables,
    /// The buffer that a record is written to.
    pub record: Vec<u8>,
    /// The table that a replay reads lists and notes into. Of this, and of the spare tables after a replay, nothing is
    /// told: a service leaves both as they were.
    pub numbers: Vec<u32>,
}

/// All that a caller lends: the mesh, which is tables and the counts that travel with them, and room beside it.
#[derive(Clone, Debug, Default, PartialEq, Eq)]
pub struct Store {
    pub tables: Tables,
    pub counts: Counts,
    pub room: Room,
}

impl Store {
    /// A fresh store: nothing in use. Its rule does not matter.
    pub fn fresh(vertex_slots: usize, triangle_slots: usize) -> Store {
        Store {
            tables: Tables {
                positions: vec![0; 3 * vertex_slots],
                corners: vec![0; 3 * triangle_slots],
                links: vec![0; 3 * triangle_slots],
                generations: vec![0; triangle_slots],
                locks: vec![0; triangle_slots],
            },
            ..Store::default()
        }
    }

    /// A store whose slots hold anything, so that a write past the counts shows, with any rule.
    pub fn junk(vertex_slots: usize, triangle_slots: usize, rng: &mut Rng) -> Store {
        let lengths = [3 * vertex_slots, 3 * triangle_slots, 3 * triangle_slots, triangle_slots, triangle_slots];
        let tables = Tables::junk(lengths, rng);
        let no_rule = rng.pick(&NO_RULES);
        let rule = rng.pick(&[HALF_UP, HALF_AWAY, no_rule]);
        Store { tables, counts: Counts { rule, ..Counts::default() }, ..Store::default() }
    }

    pub fn vertex_slots(&self) -> usize {
        self.tables.slots()[0]
    }

    pub fn triangle_slots(&self) -> usize {
        self.tables.slots()[1]
    }

    /// The vertices in use, or all slots where the count lies beyond them.
    pub fn vertices(&self) -> usize {
        (self.counts.vertices as usize).min(self.vertex_slots())
    }

    /// The triangles in use, or all slots where the count lies beyond them.
    pub fn triangles(&self) -> usize {
        (self.counts.triangles as usize).min(self.triangle_slots())
    }

    /// The same with a triangle locked.
    pub fn locked(mut self, slot: usize) -> Store {
        self.tables.locks[slot] = 1;
        self
    }

    /// The position in a vertex slot.
    pub fn point(&self, vertex: usize) -> [i32; 3] {
        std::array::from_fn(|axis| self.tables.positions[3 * vertex + axis])
    }
}

/// One call with its arguments, apart from what it is lent.
#[derive(Clone, Debug, PartialEq, Eq)]
pub enum Call {
    Load {
        rule: u32,
        cage: Vec<u8>,
    },
    Refine {
        triangle: u32,
    },
    /// A refine with a note.
    RefineNoted {
        triangle: u32,
    },
    /// The refine of the note taken back.
    TakeBack,
    WholeStep,
    /// Sets or clears the lock of a triangle.
    SetLock {
        triangle: u32,
        on: bool,
    },
    Ring {
        vertex: u32,
    },
    Position {
        vertex: u32,
    },
    Limit,
    /// The rim of a vertex as a curve.
    RimCurve {
        vertex: u32,
    },
    /// A vertex in millimetres.
    ViewPoint {
        vertex: u32,
    },
    /// All triangles in millimetres.
    ViewTriangles,
    RefineList {
        list: Vec<u32>,
    },
    Preview {
        list: Vec<u32>,
    },
    RefineBox {
        bounds: Bounds,
        below: u32,
    },
    /// One that refines, given a buffer for its report.
    Reported(Box<Call>),
    /// The header of a journal for tables with these slots, written to a buffer.
    RecordHeader {
        slots: [u32; 2],
    },
    /// The record of a change, written to a buffer.
    Record(Entry),
    /// The changes of a journal made again, from a place on.
    Replay {
        journal: Vec<u8>,
        at: usize,
    },
}

impl Call {
    /// Whether it refines, and so may be given a buffer for its report.
    pub fn refines(&self) -> bool {
        matches!(
            self,
            Call::Refine { .. }
                | Call::RefineNoted { .. }
                | Call::RefineList { .. }
                | Call::Preview { .. }
                | Call::RefineBox { .. }
        )
    }

    /// The same with a report.
    pub fn reported(self) -> Call {
        assert!(self.refines(), "{self:?} has no report");
        Call::Reported(Box::new(self))
    }

    /// Whether it records or replays.
    pub fn is_of_journal(&self) -> bool {
        matches!(self, Call::RecordHeader { .. } | Call::Record(_) | Call::Replay { .. })
    }

    /// The same without a report.
    pub fn plain(&self) -> &Call {
        match self {
            Call::Reported(call) => call,
            call => call,
        }
    }
}

/// What a call answers, with zeros for what it does not speak of.
#[derive(Clone, Copy, Debug, Default, PartialEq, Eq)]
pub struct Answer {
    /// The refusal number, 0 for none.
    pub refusal: u32,
    pub splits: u32,
    pub flips: u32,
    /// The entries written to the ring buffer, or the vertices of the rim that a curve was written of.
    pub length: u32,
    pub point: [i32; 3],
    /// A point in millimetres, each f32 by its bits.
    pub seen: [u32; 3],
    pub counts: Counts,
    /// The entries of a list that were handled or the refines of a box, and the counts of the mesh that is in the spare
    /// tables by it.
    pub handled: usize,
    pub spares: Counts,
    /// The vertices and triangles that a preview foresees, while the counts stand.
    pub foreseen: [u32; 2],
    /// The entries written to the buffer of a report.
    pub reported: u32,
    /// The bytes written of a record or a header, 0 where they do not fit.
    pub written: usize,
    /// Why a replay stopped, by its number, the records that it replayed, and where the next one starts. The refusal is
    /// that of the next one's call.
    pub stop: u32,
    pub records: usize,
    pub end: usize,
}

/// Refuses with a number where its condition holds.
pub fn refuse_unless(good: bool, number: u32) -> Result<(), u32> {
    if good { Ok(()) } else { Err(number) }
}

/// A service that answers the calls: the twin, a broken twin, or the library under test.
pub trait Service {
    fn name(&self) -> String;

    /// Answers one call and leaves the store as the call does, with the counts of the answer. The error says which
    /// memory outside of what was lent was written.
    fn answer(&self, store: &mut Store, call: &Call) -> Result<Answer, String>;
}
