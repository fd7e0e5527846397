//! The calls written for speed, without proofs: what the library is measured beside. The calls themselves have C
//! names, so that callgrind can be told to count them alone.

mod boxes;
mod journal;
mod list;
mod load;
mod note;
mod report;
mod rim;
mod sound;
mod split;
mod step;

use crate::tables::{
    Answer, BOUNDARY, BatchForeseen, BatchWorked, Call, Counts, HALF_AWAY, HALF_UP, Lent, LimitRead,
    MOST_TRIANGLE_SLOTS, MOST_VERTEX_SLOTS, Panel, PointSeen, PositionRead, Replayed, RimRead, RingRead, Shown, Tables,
    Worked,
};
use journal::Replay;

const LAST_GENERATION: u8 = 20;

pub fn answer(lent: &mut Lent, call: Call) -> Answer {
    let Lent { tables, counts, cage, buffer, table, view, note, list, spares, journal, numbers, record, .. } = lent;
    match call {
        Call::Load(rule) => Answer::Worked(fast_load(tables, *counts, rule, cage)),
        Call::Refine(triangle) => Answer::Worked(fast_refine(tables, *counts, triangle)),
        Call::RefineNoted(triangle) => Answer::Worked(fast_refine_noted(tables, *counts, triangle, note)),
        Call::TakeBack => Answer::Worked(fast_take_back(tables, *counts, note)),
        Call::WholeStep => Answer::Worked(fast_whole_step(tables, *counts)),
        Call::Lock(triangle) => Answer::Worked(fast_set_lock(tables, *counts, triangle, 1)),
        Call::Unlock(triangle) => Answer::Worked(fast_set_lock(tables, *counts, triangle, 0)),
        Call::Ring(vertex) => Answer::Ring(fast_ring(tables, *counts, vertex, buffer)),
        Call::Position(vertex) => Answer::Position(fast_position(tables, *counts, vertex)),
        Call::Limit => Answer::Limit(fast_limit(tables, *counts, table)),
        Call::RimCurve(vertex) => Answer::Rim(fast_rim_curve(tables, *counts, vertex, table)),
        Call::ViewPoint(vertex) => Answer::Seen(fast_view_point(tables, *counts, vertex)),
        Call::ViewTriangles => Answer::Shown(fast_view_triangles(tables, *counts, view)),
        Call::RefineList => Answer::List(fast_refine_list(tables, *counts, list, spares)),
        Call::Preview => Answer::Preview(fast_preview(tables, *counts, list, spares)),
        Call::RefineBox(panel) => Answer::List(fast_refine_box(tables, *counts, panel, spares)),
        Call::Reported(refining) => report::answer(lent, refining),
        Call::RefineEach => Answer::Worked(one_by_one(tables, *counts, list)),
        Call::RecordLoad(rule) => Answer::Recorded(fast_record_load(record, rule, cage)),
        Call::RecordRefine(triangle) => Answer::Recorded(fast_record_refine(record, triangle)),
        Call::Replay => Answer::Replayed(fast_replay(Replay { tables, counts: *counts, spares, numbers }, journal)),
    }
}

/// The journal of the list's refines.
pub fn journal_of_list(lent: &Lent) -> Vec<u8> {
    journal::of_refines(&lent.tables, &lent.list)
}

/// Refines triangles by a call each, and answers the sums.
fn one_by_one(tables: &mut Tables, counts: Counts, list: &[u32]) -> Worked {
    list.iter().fold(Worked { counts, ..Worked::default() }, |sums, &triangle| {
        let worked = fast_refine(tables, sums.counts, triangle);
        Worked { splits: sums.splits + worked.splits, flips: sums.flips + worked.flips, ..worked }
    })
}

#[unsafe(no_mangle)]
#[inline(never)]
fn fast_record_load(buffer: &mut [u8], rule: u32, cage: &[u8]) -> usize {
    journal::record_load(buffer, rule, cage)
}

#[unsafe(no_mangle)]
#[inline(never)]
fn fast_record_refine(buffer: &mut [u8], triangle: u32) -> usize {
    journal::record_refine(buffer, triangle)
}

#[unsafe(no_mangle)]
#[inline(never)]
fn fast_replay(replay: Replay, journal: &[u8]) -> Replayed {
    replay.run(journal, 0)
}

#[unsafe(no_mangle)]
#[inline(never)]
fn fast_load(tables: &mut Tables, counts: Counts, rule: u32, cage: &[u8]) -> Worked {
    let loaded = match (tables_agree(tables), is_rule(rule)) {
        (false, _) => Err(1),
        (_, false) => Err(16),
        _ => load::load(tables, rule, cage),
    };
    match loaded {
        Ok(counts) => Worked { counts, ..Worked::default() },
        Err(refusal) => Worked { refusal, counts, ..Worked::default() },
    }
}

#[unsafe(no_mangle)]
#[inline(never)]
fn fast_refine(tables: &mut Tables, counts: Counts, triangle: u32) -> Worked {
    match starts(tables, counts).and_then(|_| split::refine(tables, counts, triangle, &mut |_| ())) {
        Ok(worked) => worked,
        Err(refusal) => Worked { refusal, counts, ..Worked::default() },
    }
}

#[unsafe(no_mangle)]
#[inline(never)]
fn fast_refine_noted(tables: &mut Tables, counts: Counts, triangle: u32, note: &mut [u32]) -> Worked {
    match starts(tables, counts).and_then(|_| note::refine_noted(tables, counts, triangle, note)) {
        Ok(worked) => worked,
        Err(refusal) => Worked { refusal, counts, ..Worked::default() },
    }
}

#[unsafe(no_mangle)]
#[inline(never)]
fn fast_take_back(tables: &mut Tables, counts: Counts, note: &[u32]) -> Worked {
    match starts(tables, counts).and_then(|_| note::take_back(tables, counts, note).ok_or(21)) {
        Ok(counts) => Worked { counts, ..Worked::default() },
        Err(refusal) => Worked { refusal, counts, ..Worked::default() },
    }
}

#[unsafe(no_mangle)]
#[inline(never)]
fn fast_whole_step(tables: &mut Tables, counts: Counts) -> Worked {
    match starts(tables, counts).and_then(|_| step::whole_step(tables, counts)) {
        Ok(worked) => worked,
        Err(refusal) => Worked { refusal, counts, ..Worked::default() },
    }
}

#[unsafe(no_mangle)]
#[inline(never)]
fn fast_set_lock(tables: &mut Tables, counts: Counts, triangle: u32, lock: u8) -> Worked {
    let refusal = match starts(tables, counts) {
        Ok(_) if triangle < counts.triangles => {
            tables.locks[triangle as usize] = lock;
            0
        }
        refused => refused.err().unwrap_or(8),
    };
    Worked { refusal, counts, ..Worked::default() }
}

#[unsafe(no_mangle)]
#[inline(never)]
fn fast_ring(tables: &Tables, counts: Counts, vertex: u32, buffer: &mut [u32]) -> RingRead {
    match starts(tables, counts).and_then(|starts| ring(tables, &starts, vertex, buffer)) {
        Ok(length) => RingRead { refusal: 0, length, counts },
        Err(refusal) => RingRead { refusal, length: 0, counts },
    }
}

#[unsafe(no_mangle)]
#[inline(never)]
fn fast_position(tables: &Tables, counts: Counts, vertex: u32) -> PositionRead {
    match starts(tables, counts) {
        Ok(_) if vertex < counts.vertices => {
            let [x, y, z] = triple(&tables.positions, vertex as usize);
            PositionRead { refusal: 0, x, y, z, counts }
        }
        refused => PositionRead { refusal: refused.err().unwrap_or(8), counts, ..PositionRead::default() },
    }
}

#[unsafe(no_mangle)]
#[inline(never)]
fn fast_limit(tables: &Tables, counts: Counts, table: &mut [i32]) -> LimitRead {
    let refused = starts(tables, counts).and_then(|_| step::limit(tables, counts, table)).err();
    LimitRead { refusal: refused.unwrap_or(0), counts }
}

#[unsafe(no_mangle)]
#[inline(never)]
fn fast_rim_curve(tables: &Tables, counts: Counts, vertex: u32, table: &mut [i32]) -> RimRead {
    match starts(tables, counts).and_then(|starts| rim::curve(tables, &starts, vertex, table)) {
        Ok(length) => RimRead { refusal: 0, length, counts },
        Err(refusal) => RimRead { refusal, length: 0, counts },
    }
}

#[unsafe(no_mangle)]
#[inline(never)]
fn fast_view_point(tables: &Tables, counts: Counts, vertex: u32) -> PointSeen {
    match starts(tables, counts) {
        Ok(_) if vertex < counts.vertices => {
            let [x, y, z] = triple(&tables.positions, vertex as usize).map(millimetres);
            PointSeen { refusal: 0, x, y, z }
        }
        refused => PointSeen { refusal: refused.err().unwrap_or(8), ..PointSeen::default() },
    }
}

#[unsafe(no_mangle)]
#[inline(never)]
fn fast_view_triangles(tables: &Tables, counts: Counts, view: &mut [f32]) -> Shown {
    let refused = starts(tables, counts).and_then(|_| show(tables, counts, view)).err();
    Shown { refusal: refused.unwrap_or(0), counts }
}

#[unsafe(no_mangle)]
#[inline(never)]
fn fast_refine_list(tables: &mut Tables, counts: Counts, list: &[u32], spares: &mut Tables) -> BatchWorked {
    match work_refusal(tables, counts, spares, true) {
        None => list::refine_list(tables, counts, list, spares),
        Some(refusal) => BatchWorked { refusal, counts, ..BatchWorked::default() },
    }
}

#[unsafe(no_mangle)]
#[inline(never)]
fn fast_preview(tables: &Tables, counts: Counts, list: &[u32], spares: &mut Tables) -> BatchForeseen {
    match work_refusal(tables, counts, spares, true) {
        None => list::preview(tables, counts, list, spares),
        Some(refusal) => BatchForeseen { refusal, ..list::standing(counts) },
    }
}

#[unsafe(no_mangle)]
#[inline(never)]
fn fast_refine_box(tables: &mut Tables, counts: Counts, panel: Panel, spares: &mut Tables) -> BatchWorked {
    match work_refusal(tables, counts, spares, panel.is_good()) {
        None => boxes::refine_box(tables, counts, panel, spares),
        Some(refusal) => BatchWorked { refusal, counts, ..BatchWorked::default() },
    }
}

/// The rim of a vertex on the boundary of a sound mesh.
pub fn rim(lent: &Lent, vertex: u32) -> Vec<u32> {
    let rim = starts(&lent.tables, lent.counts).and_then(|starts| rim::vertices(&lent.tables, &starts, vertex));
    rim.expect("the mesh is sound, and the vertex on its boundary")
}

/// What refuses work in spare tables before it begins: 1, 17, for a box that is none 18, or 7.
fn work_refusal(tables: &Tables, counts: Counts, spares: &Tables, is_good: bool) -> Option<u32> {
    match (tables_agree(tables), list::sizes_fit(tables, spares)) {
        (true, false) => Some(17),
        (true, true) if !is_good => Some(18),
        _ => starts(tables, counts).err(),
    }
}

fn is_rule(number: u32) -> bool {
    number == HALF_UP || number == HALF_AWAY
}

/// Condition 1.
fn tables_agree(tables: &Tables) -> bool {
    let (vertex_slots, triangle_slots) = (tables.positions.len() / 3, tables.generations.len());
    vertex_slots <= MOST_VERTEX_SLOTS
        && triangle_slots <= MOST_TRIANGLE_SLOTS
        && tables.positions.len() == 3 * vertex_slots
        && tables.corners.len() == 3 * triangle_slots
        && tables.links.len() == 3 * triangle_slots
        && tables.locks.len() == triangle_slots
}

/// The side where the ring of each vertex starts, or the refusal 1 or 7.
fn starts(tables: &Tables, counts: Counts) -> Result<Vec<u32>, u32> {
    if !tables_agree(tables) {
        return Err(1);
    }
    if !is_rule(counts.rule) {
        return Err(7);
    }
    sound::starts_if_sound(tables, counts).ok_or(7)
}

/// Writes the ring of a vertex, after a walk that finds its length.
fn ring(tables: &Tables, starts: &[u32], vertex: u32, buffer: &mut [u32]) -> Result<u32, u32> {
    let start = *starts.get(vertex as usize).ok_or(8u32)?;
    let sides = || {
        std::iter::successors(Some(start), |&side| Some(tables.links[previous(side as usize)]))
            .enumerate()
            .take_while(|&(n, side)| side != BOUNDARY && (n == 0 || side != start))
            .map(|(_, side)| side as usize)
    };
    let last = previous(sides().last().expect("a ring has a side"));
    let open = tables.links[last] == BOUNDARY;
    let length = sides().count() + usize::from(open);
    let buffer = buffer.get_mut(..length).ok_or(14u32)?;
    for (entry, side) in buffer.iter_mut().zip(sides()) {
        *entry = tables.corners[next(side)];
    }
    if open {
        buffer[length - 1] = tables.corners[last];
    }
    Ok(length as u32)
}

/// Writes all triangles of sound tables, corner by corner, or refuses with 20.
fn show(tables: &Tables, counts: Counts, view: &mut [f32]) -> Result<(), u32> {
    let corners = &tables.corners[..3 * counts.triangles as usize];
    let (view, _) = view.get_mut(..3 * corners.len()).ok_or(20u32)?.as_chunks_mut::<3>();
    for (entries, &corner) in view.iter_mut().zip(corners) {
        *entries = triple(&tables.positions, corner as usize).map(millimetres);
    }
    Ok(())
}

fn millimetres(coordinate: i32) -> f32 {
    coordinate as f32 / 1024.0
}

fn next(side: usize) -> usize {
    if side % 3 == 2 { side - 2 } else { side + 1 }
}

fn previous(side: usize) -> usize {
    if side.is_multiple_of(3) { side + 2 } else { side - 1 }
}

fn triple<T: Copy>(table: &[T], slot: usize) -> [T; 3] {
    [table[3 * slot], table[3 * slot + 1], table[3 * slot + 2]]
}
