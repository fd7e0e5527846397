//! The calls for Rust, as `rawplinth.h` declares and describes them for C. A program takes this file in by
//! `#[path = ".."] mod rawplinth;`.

/// Raised with that of the header. A program may go without it.
#[allow(dead_code)]
pub const RAWPLINTH_VERSION: u32 = 14;

/// The rules by which a mesh rounds halves: up, or away from zero.
pub const RAWPLINTH_HALF_UP: u32 = 1;
pub const RAWPLINTH_HALF_AWAY: u32 = 2;

/// Entries that do for the note of every refine.
pub const RAWPLINTH_NOTE_ENTRIES: usize = 229;

/// Entries that do for the report of every refine. For every call 3T − 2F do, with T triangle slots and F triangles in
/// use before.
pub const RAWPLINTH_REPORT_ENTRIES: usize = 54;

/// The vertices and triangles in use, and the mesh's rule. A mesh saved before version 4 goes on with rule 1.
#[repr(C)]
#[derive(Clone, Copy, Debug, Default, PartialEq, Eq)]
pub struct Counts {
    pub vertices: u32,
    pub triangles: u32,
    pub rule: u32,
}

/// A point, in units of 1/1024 mm.
#[repr(C)]
#[derive(Clone, Copy, Debug, Default, PartialEq, Eq)]
pub struct Point {
    pub x: i32,
    pub y: i32,
    pub z: i32,
}

/// The answer of load, refine, with a note or without, take back (undo), whole step, lock and unlock. Splits and flips
/// are 0 but for a refine or a whole step. Refine splits at the boundary, too, and no call returns 10.
#[repr(C)]
#[derive(Clone, Copy, Debug, Default, PartialEq, Eq)]
pub struct Worked {
    pub refusal: u32,
    pub splits: u32,
    pub flips: u32,
    pub counts: Counts,
}

/// The answer of a ring query, without the buffer.
#[repr(C)]
#[derive(Clone, Copy, Debug, Default, PartialEq, Eq)]
pub struct RingRead {
    pub refusal: u32,
    pub length: u32,
    pub counts: Counts,
}

/// The answer of a position query.
#[repr(C)]
#[derive(Clone, Copy, Debug, Default, PartialEq, Eq)]
pub struct PositionRead {
    pub refusal: u32,
    pub x: i32,
    pub y: i32,
    pub z: i32,
    pub counts: Counts,
}

/// The answer of a limit query, without the table.
#[repr(C)]
#[derive(Clone, Copy, Debug, Default, PartialEq, Eq)]
pub struct LimitRead {
    pub refusal: u32,
    pub counts: Counts,
}

/// The answer of a rim read as a curve, without the table: how many vertices the rim has, each with three points in the
/// table, so 9 entries for each of them; 0 on a refusal. 9V entries do for every rim.
#[repr(C)]
#[derive(Clone, Copy, Debug, Default, PartialEq, Eq)]
pub struct RimRead {
    pub refusal: u32,
    pub length: u32,
    pub counts: Counts,
}

/// What is seen of a vertex, in millimetres. The mesh's counts stand and are not in it.
#[repr(C)]
#[derive(Clone, Copy, Debug, Default, PartialEq)]
pub struct PointSeen {
    pub refusal: u32,
    pub x: f32,
    pub y: f32,
    pub z: f32,
}

/// The answer for all triangles, without the table.
#[repr(C)]
#[derive(Clone, Copy, Debug, Default, PartialEq, Eq)]
pub struct Shown {
    pub refusal: u32,
    pub counts: Counts,
}

/// The answer of a list or a box: also the entries handled, or the refines made, all of them where none failed, and the
/// counts of the mesh in the spare tables, zeros where 1, 17, 18 or 7 refuses. Where one fails, the mesh stands, and
/// the spare tables are written.
#[repr(C)]
#[derive(Clone, Copy, Debug, Default, PartialEq, Eq)]
pub struct BatchWorked {
    pub refusal: u32,
    pub splits: u32,
    pub flips: u32,
    pub counts: Counts,
    pub handled: usize,
    pub spares: Counts,
}

/// The answer of a preview: what the list would be answered. The mesh's counts stand and are not in it: the vertices
/// and triangles foreseen would be in use after the list; where it would be refused, they are the mesh's.
#[repr(C)]
#[derive(Clone, Copy, Debug, Default, PartialEq, Eq)]
pub struct BatchForeseen {
    pub refusal: u32,
    pub splits: u32,
    pub flips: u32,
    pub foreseen_vertices: u32,
    pub foreseen_triangles: u32,
    pub handled: usize,
    pub spares: Counts,
}

/// The answer of a refine with a report, and with a note or without: also the length of the report, 3 slots for each
/// split and 2 for each flip, 0 on a refusal.
#[repr(C)]
#[derive(Clone, Copy, Debug, Default, PartialEq, Eq)]
pub struct Reported {
    pub worked: Worked,
    pub reported: u32,
}

/// The answer of a list or a box with a report. Where 23 refuses, the mesh stands, and the spare tables hold the mesh
/// that the call would make.
#[repr(C)]
#[derive(Clone, Copy, Debug, Default, PartialEq, Eq)]
pub struct BatchReported {
    pub worked: BatchWorked,
    pub reported: u32,
}

/// The answer of a preview with a report: what the list with one would be answered, and no counts of the mesh.
#[repr(C)]
#[derive(Clone, Copy, Debug, Default, PartialEq, Eq)]
pub struct ForeseenReported {
    pub foreseen: BatchForeseen,
    pub reported: u32,
}

/// The answer of replay: the counts; why it stopped: 1 the end, 2 torn, 3 a checksum, 4 no such kind, 5 refused, 6 other
/// slots, 7 too few entries for numbers; what the next record's call is refused with; the records replayed; and where
/// the next one starts.
#[repr(C)]
#[derive(Clone, Copy, Debug, Default, PartialEq, Eq)]
pub struct Replayed {
    pub counts: Counts,
    pub stop: u32,
    pub refusal: u32,
    pub records: usize,
    pub end: usize,
}

unsafe extern "C" {
    pub fn rawplinth_load(
        positions: *mut i32,
        positions_length: usize,
        corners: *mut u32,
        corners_length: usize,
        links: *mut u32,
        links_length: usize,
        generations: *mut u8,
        generations_length: usize,
        locks: *mut u8,
        locks_length: usize,
        counts: Counts,
        rule: u32,
        cage: *const u8,
        cage_length: usize,
    ) -> Worked;

    pub fn rawplinth_refine(
        positions: *mut i32,
        positions_length: usize,
        corners: *mut u32,
        corners_length: usize,
        links: *mut u32,
        links_length: usize,
        generations: *mut u8,
        generations_length: usize,
        locks: *mut u8,
        locks_length: usize,
        counts: Counts,
        triangle: u32,
    ) -> Worked;

    pub fn rawplinth_refine_noted(
        positions: *mut i32,
        positions_length: usize,
        corners: *mut u32,
        corners_length: usize,
        links: *mut u32,
        links_length: usize,
        generations: *mut u8,
        generations_length: usize,
        locks: *mut u8,
        locks_length: usize,
        counts: Counts,
        triangle: u32,
        note: *mut u32,
        note_length: usize,
    ) -> Worked;

    pub fn rawplinth_take_back(
        positions: *const i32,
        positions_length: usize,
        corners: *mut u32,
        corners_length: usize,
        links: *mut u32,
        links_length: usize,
        generations: *mut u8,
        generations_length: usize,
        locks: *mut u8,
        locks_length: usize,
        counts: Counts,
        note: *const u32,
        note_length: usize,
    ) -> Worked;

    pub fn rawplinth_whole_step(
        positions: *mut i32,
        positions_length: usize,
        corners: *mut u32,
        corners_length: usize,
        links: *mut u32,
        links_length: usize,
        generations: *mut u8,
        generations_length: usize,
        locks: *mut u8,
        locks_length: usize,
        counts: Counts,
    ) -> Worked;

    pub fn rawplinth_lock(
        positions: *const i32,
        positions_length: usize,
        corners: *const u32,
        corners_length: usize,
        links: *const u32,
        links_length: usize,
        generations: *const u8,
        generations_length: usize,
        locks: *mut u8,
        locks_length: usize,
        counts: Counts,
        triangle: u32,
    ) -> Worked;

    pub fn rawplinth_unlock(
        positions: *const i32,
        positions_length: usize,
        corners: *const u32,
        corners_length: usize,
        links: *const u32,
        links_length: usize,
        generations: *const u8,
        generations_length: usize,
        locks: *mut u8,
        locks_length: usize,
        counts: Counts,
        triangle: u32,
    ) -> Worked;

    pub fn rawplinth_ring(
        positions: *const i32,
        positions_length: usize,
        corners: *const u32,
        corners_length: usize,
        links: *const u32,
        links_length: usize,
        generations: *const u8,
        generations_length: usize,
        locks: *const u8,
        locks_length: usize,
        counts: Counts,
        vertex: u32,
        buffer: *mut u32,
        buffer_length: usize,
    ) -> RingRead;

    pub fn rawplinth_position(
        positions: *const i32,
        positions_length: usize,
        corners: *const u32,
        corners_length: usize,
        links: *const u32,
        links_length: usize,
        generations: *const u8,
        generations_length: usize,
        locks: *const u8,
        locks_length: usize,
        counts: Counts,
        vertex: u32,
    ) -> PositionRead;

    pub fn rawplinth_limit(
        positions: *const i32,
        positions_length: usize,
        corners: *const u32,
        corners_length: usize,
        links: *const u32,
        links_length: usize,
        generations: *const u8,
        generations_length: usize,
        locks: *const u8,
        locks_length: usize,
        counts: Counts,
        table: *mut i32,
        table_length: usize,
    ) -> LimitRead;

    pub fn rawplinth_rim_curve(
        positions: *const i32,
        positions_length: usize,
        corners: *const u32,
        corners_length: usize,
        links: *const u32,
        links_length: usize,
        generations: *const u8,
        generations_length: usize,
        locks: *const u8,
        locks_length: usize,
        counts: Counts,
        vertex: u32,
        table: *mut i32,
        table_length: usize,
    ) -> RimRead;

    pub fn rawplinth_view_point(
        positions: *const i32,
        positions_length: usize,
        corners: *const u32,
        corners_length: usize,
        links: *const u32,
        links_length: usize,
        generations: *const u8,
        generations_length: usize,
        locks: *const u8,
        locks_length: usize,
        counts: Counts,
        vertex: u32,
    ) -> PointSeen;

    pub fn rawplinth_view_triangles(
        positions: *const i32,
        positions_length: usize,
        corners: *const u32,
        corners_length: usize,
        links: *const u32,
        links_length: usize,
        generations: *const u8,
        generations_length: usize,
        locks: *const u8,
        locks_length: usize,
        counts: Counts,
        table: *mut f32,
        table_length: usize,
    ) -> Shown;

    pub fn rawplinth_refine_list(
        positions: *mut i32,
        positions_length: usize,
        corners: *mut u32,
        corners_length: usize,
        links: *mut u32,
        links_length: usize,
        generations: *mut u8,
        generations_length: usize,
        locks: *mut u8,
        locks_length: usize,
        counts: Counts,
        list: *const u32,
        list_length: usize,
        spare_positions: *mut i32,
        spare_positions_length: usize,
        spare_corners: *mut u32,
        spare_corners_length: usize,
        spare_links: *mut u32,
        spare_links_length: usize,
        spare_generations: *mut u8,
        spare_generations_length: usize,
        spare_locks: *mut u8,
        spare_locks_length: usize,
    ) -> BatchWorked;

    pub fn rawplinth_preview(
        positions: *const i32,
        positions_length: usize,
        corners: *const u32,
        corners_length: usize,
        links: *const u32,
        links_length: usize,
        generations: *const u8,
        generations_length: usize,
        locks: *const u8,
        locks_length: usize,
        counts: Counts,
        list: *const u32,
        list_length: usize,
        spare_positions: *mut i32,
        spare_positions_length: usize,
        spare_corners: *mut u32,
        spare_corners_length: usize,
        spare_links: *mut u32,
        spare_links_length: usize,
        spare_generations: *mut u8,
        spare_generations_length: usize,
        spare_locks: *mut u8,
        spare_locks_length: usize,
    ) -> BatchForeseen;

    pub fn rawplinth_refine_box(
        positions: *mut i32,
        positions_length: usize,
        corners: *mut u32,
        corners_length: usize,
        links: *mut u32,
        links_length: usize,
        generations: *mut u8,
        generations_length: usize,
        locks: *mut u8,
        locks_length: usize,
        counts: Counts,
        low: Point,
        high: Point,
        below: u32,
        spare_positions: *mut i32,
        spare_positions_length: usize,
        spare_corners: *mut u32,
        spare_corners_length: usize,
        spare_links: *mut u32,
        spare_links_length: usize,
        spare_generations: *mut u8,
        spare_generations_length: usize,
        spare_locks: *mut u8,
        spare_locks_length: usize,
    ) -> BatchWorked;

    pub fn rawplinth_refine_reported(
        positions: *mut i32,
        positions_length: usize,
        corners: *mut u32,
        corners_length: usize,
        links: *mut u32,
        links_length: usize,
        generations: *mut u8,
        generations_length: usize,
        locks: *mut u8,
        locks_length: usize,
        counts: Counts,
        triangle: u32,
        report: *mut u32,
        report_length: usize,
    ) -> Reported;

    pub fn rawplinth_refine_noted_reported(
        positions: *mut i32,
        positions_length: usize,
        corners: *mut u32,
        corners_length: usize,
        links: *mut u32,
        links_length: usize,
        generations: *mut u8,
        generations_length: usize,
        locks: *mut u8,
        locks_length: usize,
        counts: Counts,
        triangle: u32,
        note: *mut u32,
        note_length: usize,
        report: *mut u32,
        report_length: usize,
    ) -> Reported;

    pub fn rawplinth_refine_list_reported(
        positions: *mut i32,
        positions_length: usize,
        corners: *mut u32,
        corners_length: usize,
        links: *mut u32,
        links_length: usize,
        generations: *mut u8,
        generations_length: usize,
        locks: *mut u8,
        locks_length: usize,
        counts: Counts,
        list: *const u32,
        list_length: usize,
        report: *mut u32,
        report_length: usize,
        spare_positions: *mut i32,
        spare_positions_length: usize,
        spare_corners: *mut u32,
        spare_corners_length: usize,
        spare_links: *mut u32,
        spare_links_length: usize,
        spare_generations: *mut u8,
        spare_generations_length: usize,
        spare_locks: *mut u8,
        spare_locks_length: usize,
    ) -> BatchReported;

    pub fn rawplinth_preview_reported(
        positions: *const i32,
        positions_length: usize,
        corners: *const u32,
        corners_length: usize,
        links: *const u32,
        links_length: usize,
        generations: *const u8,
        generations_length: usize,
        locks: *const u8,
        locks_length: usize,
        counts: Counts,
        list: *const u32,
        list_length: usize,
        report: *mut u32,
        report_length: usize,
        spare_positions: *mut i32,
        spare_positions_length: usize,
        spare_corners: *mut u32,
        spare_corners_length: usize,
        spare_links: *mut u32,
        spare_links_length: usize,
        spare_generations: *mut u8,
        spare_generations_length: usize,
        spare_locks: *mut u8,
        spare_locks_length: usize,
    ) -> ForeseenReported;

    pub fn rawplinth_refine_box_reported(
        positions: *mut i32,
        positions_length: usize,
        corners: *mut u32,
        corners_length: usize,
        links: *mut u32,
        links_length: usize,
        generations: *mut u8,
        generations_length: usize,
        locks: *mut u8,
        locks_length: usize,
        counts: Counts,
        low: Point,
        high: Point,
        below: u32,
        report: *mut u32,
        report_length: usize,
        spare_positions: *mut i32,
        spare_positions_length: usize,
        spare_corners: *mut u32,
        spare_corners_length: usize,
        spare_links: *mut u32,
        spare_links_length: usize,
        spare_generations: *mut u8,
        spare_generations_length: usize,
        spare_locks: *mut u8,
        spare_locks_length: usize,
    ) -> BatchReported;

    pub fn rawplinth_record_header(
        buffer: *mut u8,
        buffer_length: usize,
        vertex_slots: u32,
        triangle_slots: u32,
    ) -> usize;

    pub fn rawplinth_record_load(
        buffer: *mut u8,
        buffer_length: usize,
        rule: u32,
        cage: *const u8,
        cage_length: usize,
    ) -> usize;

    pub fn rawplinth_record_refine(buffer: *mut u8, buffer_length: usize, triangle: u32) -> usize;

    pub fn rawplinth_record_whole_step(buffer: *mut u8, buffer_length: usize) -> usize;

    pub fn rawplinth_record_list(buffer: *mut u8, buffer_length: usize, list: *const u32, list_length: usize) -> usize;

    pub fn rawplinth_record_box(buffer: *mut u8, buffer_length: usize, low: Point, high: Point, below: u32) -> usize;

    pub fn rawplinth_record_lock(buffer: *mut u8, buffer_length: usize, triangle: u32) -> usize;

    pub fn rawplinth_record_unlock(buffer: *mut u8, buffer_length: usize, triangle: u32) -> usize;

    pub fn rawplinth_record_take_back(
        buffer: *mut u8,
        buffer_length: usize,
        note: *const u32,
        note_length: usize,
    ) -> usize;

    pub fn rawplinth_replay(
        positions: *mut i32,
        positions_length: usize,
        corners: *mut u32,
        corners_length: usize,
        links: *mut u32,
        links_length: usize,
        generations: *mut u8,
        generations_length: usize,
        locks: *mut u8,
        locks_length: usize,
        counts: Counts,
        spare_positions: *mut i32,
        spare_positions_length: usize,
        spare_corners: *mut u32,
        spare_corners_length: usize,
        spare_links: *mut u32,
        spare_links_length: usize,
        spare_generations: *mut u8,
        spare_generations_length: usize,
        spare_locks: *mut u8,
        spare_locks_length: usize,
        numbers: *mut u32,
        numbers_length: usize,
        journal: *const u8,
        journal_length: usize,
        at: usize,
    ) -> Replayed;
}
