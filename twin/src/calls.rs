//! Random calls on a store, with arguments in use, just past use and far off.

use crate::bench::{Bench, Outcome};
use crate::coverage::LONGEST_LIST;
use crate::locked::locked_triangles;
use crate::picks::{near_work, some_number, some_triangle};
use crate::rng::Rng;
use crate::tables::{BOUNDARY, Bounds, Call, Counts, FARTHEST, LAST_GENERATION, NOTE_ENTRIES, Service, Store, Tables};
use crate::twin::Twin;

/// One call of any kind but load, for which the store gets room.
pub fn random_call(store: &mut Store, rng: &mut Rng) -> Call {
    let call = without_report(store, rng);
    if call.refines() && rng.percent(25) { with_report(store, call, rng) } else { call }
}

fn without_report(store: &mut Store, rng: &mut Rng) -> Call {
    match rng.below(100) {
        0..30 => Call::Refine { triangle: some_triangle(store, rng) },
        30..36 => noted(store, rng),
        36..41 => take_back(store, rng),
        41..48 => {
            store.room.spares = some_spares(store, rng);
            let list = some_list(store, rng);
            if rng.percent(80) { Call::RefineList { list } } else { Call::Preview { list } }
        }
        48..53 => {
            store.room.spares = some_spares(store, rng);
            some_box(store, rng)
        }
        53..60 => Call::WholeStep,
        60..65 => limit(store, rng),
        65..73 => ring(store, rng),
        73..79 => Call::Position { vertex: some_number(store.counts.vertices, rng) },
        79..84 => Call::ViewPoint { vertex: some_number(store.counts.vertices, rng) },
        84..88 => view(store, rng),
        88..92 => rim_curve(store, rng),
        _ => set_lock(store, rng),
    }
}

/// One call of each kind but load, for which the store gets room, its spare tables of fitting sizes. It keeps its note,
/// if it has one. A refine, a list, a preview or a box is there a second time, with a report.
pub fn one_of_each(store: &mut Store, rng: &mut Rng) -> Vec<Call> {
    store.room.spares = fitting_spares(store, rng);
    if store.room.note.is_empty() {
        store.room.note = some_note(store, rng);
    }
    let mut calls = vec![
        Call::Refine { triangle: some_triangle(store, rng) },
        Call::WholeStep,
        limit(store, rng),
        ring(store, rng),
        Call::Position { vertex: some_number(store.counts.vertices, rng) },
        Call::SetLock { triangle: some_triangle(store, rng), on: rng.percent(50) },
        Call::ViewPoint { vertex: some_number(store.counts.vertices, rng) },
        view(store, rng),
        rim_curve(store, rng),
        Call::RefineNoted { triangle: some_triangle(store, rng) },
        Call::TakeBack,
        Call::RefineList { list: some_list(store, rng) },
        Call::RefineBox { bounds: some_bounds(store, rng), below: some_generation(store, rng) },
    ];
    let preview = Call::Preview { list: some_list(store, rng) };
    let refining: Vec<&Call> = calls.iter().filter(|call| call.refines()).chain([&preview]).collect();
    let one = rng.pick(&refining).clone();
    calls.push(with_report(store, one, rng));
    calls
}

/// Runs a list of random calls, each on the tables as the one before left them.
pub fn compare_some(bench: &mut Bench, store: &mut Store, length: usize, rng: &mut Rng) -> Outcome {
    for _ in 0..length {
        let call = random_call(store, rng);
        bench.compare(store, &call)?;
    }
    Ok(())
}

/// A ring query with a buffer of any length and content; short ones are refused with 14 more often than not.
fn ring(store: &mut Store, rng: &mut Rng) -> Call {
    let length = rng.pick(&[0, 1, 2, 3, 4, 5, 6, 7, 8, 12, 20, 60]);
    store.room.ring = (0..length).map(|_| rng.word()).collect();
    Call::Ring { vertex: some_number(store.counts.vertices, rng) }
}

/// The lengths of a limit query's table that are tried: none, one short, the length wanted, one over and a vertex
/// over.
fn table_lengths(store: &Store) -> [usize; 5] {
    let wanted = 3 * store.vertices();
    [0, wanted.saturating_sub(1), wanted, wanted + 1, wanted + 3]
}

/// A limit query with a table of any content, half of the time of the length wanted.
fn limit(store: &mut Store, rng: &mut Rng) -> Call {
    let lengths = table_lengths(store);
    let length = if rng.percent(50) { lengths[2] } else { rng.pick(&lengths) };
    store.room.table = (0..length).map(|_| rng.word() as i32).collect();
    Call::Limit
}

/// Limit queries with tables of all the lengths tried.
pub fn compare_limits(bench: &mut Bench, store: &mut Store, rng: &mut Rng) -> Outcome {
    for length in table_lengths(store) {
        store.room.table = vec![rng.word() as i32; length];
        bench.compare_only(store, &Call::Limit)?;
    }
    Ok(())
}

/// The lengths of a table for all triangles that are tried: none, one, a triangle, two and one short, the length
/// wanted, one and a triangle over, and what all slots would want.
pub fn view_lengths(store: &Store) -> [usize; 9] {
    let wanted = 9 * store.triangles();
    let short = |by: usize| wanted.saturating_sub(by);
    [0, 1, short(9), short(2), short(1), wanted, wanted + 1, wanted + 9, 9 * store.triangle_slots()]
}

/// All triangles for the viewer, in a table of any content, half of the time of a length that goes.
fn view(store: &mut Store, rng: &mut Rng) -> Call {
    let lengths = view_lengths(store);
    let length = if rng.percent(50) { rng.pick(&lengths[5..]) } else { rng.pick(&lengths) };
    store.room.view = some_numbers(length, rng);
    Call::ViewTriangles
}

/// The bits of so many f32: any, among them small ones, both zeros, infinite ones, and what is no number, with bits
/// that a copy as a number may change.
pub fn some_numbers(length: usize, rng: &mut Rng) -> Vec<u32> {
    let some = |rng: &mut Rng| {
        let (any, sign) = (rng.word(), rng.pick(&[0, 1 << 31]));
        let exact = (rng.between(-FARTHEST, FARTHEST) as f32 / 1024.0).to_bits();
        sign | rng.pick(&[any, exact, 0, any >> 9, 0x7F80_0000, 0x7FC0_0000 | any >> 10, 0x7F80_0001 | any >> 10])
    };
    (0..length).map(|_| some(rng)).collect()
}

/// The entries that the curve of a vertex's rim takes, none where it is refused.
pub fn curve_wanted(store: &Store, vertex: u32) -> usize {
    let mut store = store.clone();
    store.room.curve = vec![0; 9 * store.vertices()];
    let answer = Twin::UNBROKEN.answer(&mut store, &Call::RimCurve { vertex }).expect("the twin stays inside");
    9 * answer.length as usize
}

/// The lengths of a curve's table that are tried: none, one, a vertex, a point, two and one short, the length wanted,
/// one and a vertex over, and what does for every rim.
pub fn curve_lengths(store: &Store, vertex: u32) -> [usize; 10] {
    let wanted = curve_wanted(store, vertex);
    let short = |by: usize| wanted.saturating_sub(by);
    [0, 1, short(9), short(3), short(2), short(1), wanted, wanted + 1, wanted + 9, 9 * store.vertices()]
}

/// The rim of a vertex as a curve, mostly of one at the boundary, in a table of any content, mostly of a length that
/// goes.
fn rim_curve(store: &mut Store, rng: &mut Rng) -> Call {
    let at_boundary = boundary_vertices(store);
    let anywhere = at_boundary.is_empty() || rng.percent(25);
    let vertex = if anywhere { some_number(store.counts.vertices, rng) } else { rng.pick(&at_boundary) };
    let lengths = curve_lengths(store, vertex);
    let length = if rng.percent(60) { rng.pick(&lengths[6..]) } else { rng.pick(&lengths) };
    store.room.curve = some_coordinates(length, rng);
    Call::RimCurve { vertex }
}

/// The vertices that a side on the boundary leaves, be the tables sound or not.
pub fn boundary_vertices(store: &Store) -> Vec<u32> {
    let sides = store.tables.corners.iter().zip(&store.tables.links).take(3 * store.triangles());
    sides.filter(|(_, link)| **link == BOUNDARY).map(|(&corner, _)| corner).collect()
}

/// So many signed entries of any content.
pub fn some_coordinates(length: usize, rng: &mut Rng) -> Vec<i32> {
    (0..length).map(|_| rng.word() as i32).collect()
}

/// So many entries of any content.
pub fn some_entries(length: usize, rng: &mut Rng) -> Vec<u32> {
    (0..length).map(|_| rng.word() >> rng.below(32)).collect()
}

/// A refine with a note, mostly of as many entries as always do: the last note, or any content.
fn noted(store: &mut Store, rng: &mut Rng) -> Call {
    if rng.percent(30) {
        let length = rng.pick(&[0, 1, 3, 4, 12, 13, 22, 31, 40, 58, 85, NOTE_ENTRIES - 1, NOTE_ENTRIES + 3]);
        store.room.note = some_entries(length, rng);
    } else if store.room.note.len() < NOTE_ENTRIES || rng.percent(20) {
        store.room.note = some_entries(NOTE_ENTRIES, rng);
    }
    Call::RefineNoted { triangle: some_triangle(store, rng) }
}

/// A take-back by the note that there is, which may be late or used, sometimes altered, or by one that never was.
fn take_back(store: &mut Store, rng: &mut Rng) -> Call {
    match rng.below(10) {
        0 => store.room.note = some_note(store, rng),
        1..3 => alter(&mut store.room.note, rng),
        _ => {}
    }
    Call::TakeBack
}

/// A note that no refine wrote: of no slots, or of slots as they stand, with counts as they are or some splits ago.
pub fn some_note(store: &Store, rng: &mut Rng) -> Vec<u32> {
    let splits = rng.below(3) as u32;
    let Counts { vertices, triangles, .. } = store.counts;
    let old = [vertices.saturating_sub(splits), triangles.saturating_sub(2 * splits)];
    let slots = rng.below(3).min(store.triangles());
    let mut note = vec![some_triangle(store, rng), old[0], old[1], slots as u32];
    for slot in 0..slots {
        let three = |table: &[u32]| [0, 1, 2].map(|i| table.get(3 * slot + i).copied().unwrap_or(0));
        let byte = |table: &[u8]| table.get(slot).map_or(0, |&byte| u32::from(byte));
        note.push(slot as u32);
        note.extend(three(&store.tables.corners).into_iter().chain(three(&store.tables.links)));
        note.extend([byte(&store.tables.generations), byte(&store.tables.locks)]);
    }
    note
}

/// Changes a note in one way: it is cut, goes on, or has another number in one of its entries.
pub fn alter(note: &mut Vec<u32>, rng: &mut Rng) {
    let in_use = note.get(3).map_or(0, |&k| 4 + 9 * k as usize).min(note.len());
    match rng.below(8) {
        0 => note.truncate(rng.below(in_use + 1)),
        1 => note.push(rng.word()),
        _ if in_use == 0 => {}
        _ => {
            let entry = &mut note[rng.below(in_use)];
            *entry = rng.pick(&other_numbers(*entry));
        }
    }
}

/// The numbers that an entry of a note is tried with: beside it, far off, and with its low bits.
pub fn other_numbers(entry: u32) -> [u32; 8] {
    [entry.wrapping_add(1), entry.wrapping_sub(1), 0, 1, entry ^ 256, entry ^ 1 << 16, 1 << 31, u32::MAX]
}

/// The entries that the report of a call takes, none where it is refused.
pub fn report_wanted(store: &Store, call: &Call) -> usize {
    let answer = Twin::UNBROKEN.answer(&mut store.clone(), call).expect("the twin stays inside");
    (3 * answer.splits + 2 * answer.flips) as usize
}

/// The lengths of a report buffer that are tried: none, one, two and one short, the length wanted, one over and long.
pub fn report_lengths(wanted: usize) -> [usize; 7] {
    [0, 1, wanted.saturating_sub(2), wanted.saturating_sub(1), wanted, wanted + 1, 2 * wanted + 60]
}

/// The same call with a report, in a buffer of any content, mostly of a length that goes.
pub fn with_report(store: &mut Store, call: Call, rng: &mut Rng) -> Call {
    let lengths = report_lengths(report_wanted(store, &call));
    let length = if rng.percent(60) { rng.pick(&lengths[4..]) } else { rng.pick(&lengths) };
    store.room.report = some_entries(length, rng);
    call.reported()
}

/// Spare tables of the mesh's sizes, with any content.
pub fn fitting_spares(store: &Store, rng: &mut Rng) -> Tables {
    Tables::junk(store.tables.lengths(), rng)
}

/// Spare tables as the last list left them, or with the mesh in them, or with any content; some of a wrong size.
fn some_spares(store: &Store, rng: &mut Rng) -> Tables {
    let mut lengths = store.tables.lengths();
    let content = rng.below(100);
    if content < 30 && store.room.spares.lengths() == lengths {
        return store.room.spares.clone();
    }
    if content < 40 {
        return store.tables.clone();
    }
    if rng.percent(15) {
        let table = rng.below(5);
        lengths[table] = rng.pick(&other_lengths(lengths[table]));
    }
    Tables::junk(lengths, rng)
}

/// Lengths that a spare table is tried with where it ought to have another.
pub fn other_lengths(wanted: usize) -> [usize; 4] {
    let shorter = |by: usize| wanted.checked_sub(by).unwrap_or(wanted + by + 2);
    [shorter(1), shorter(3), wanted + 1, wanted + 3]
}

/// A list of any length up to the longest: triangles in use, anywhere or close together, so that some are listed again;
/// in many lists one entry that may fail.
pub fn some_list(store: &Store, rng: &mut Rng) -> Vec<u32> {
    let length = rng.below(LONGEST_LIST + 1);
    let mut list = entries_in_use(store, length, rng);
    if length > 0 && rng.percent(40) {
        list[rng.below(length)] = match rng.below(3) {
            // An earlier entry may have made it.
            0 => store.counts.triangles.wrapping_add(rng.below(2 * length) as u32),
            1 => some_triangle(store, rng),
            _ => some_number(store.counts.triangles, rng),
        };
    }
    list
}

/// So many triangles in use, anywhere or close together.
pub fn entries_in_use(store: &Store, length: usize, rng: &mut Rng) -> Vec<u32> {
    let in_use = store.triangles().max(1);
    let (first, reach) = (rng.below(in_use), rng.pick(&[3, 30, in_use]));
    (0..length).map(|_| ((first + rng.below(reach)) % in_use) as u32).collect()
}

/// A box; some with a low corner above the high one, or with no generation.
pub fn some_box(store: &Store, rng: &mut Rng) -> Call {
    let (mut bounds, mut below) = (some_bounds(store, rng), some_generation(store, rng));
    match rng.below(20) {
        0 => below = rng.pick(&NO_GENERATIONS),
        1 => {
            let axis = rng.below(3);
            let Bounds { low, high } = &mut bounds;
            (low[axis], high[axis]) = rng.pick(&[(1, 0), (high[axis], low[axis]), (i32::MAX, i32::MIN)]);
        }
        _ => {}
    }
    Call::RefineBox { bounds, below }
}

/// Numbers above the last generation: close to it, far off, and a generation in their low bits.
pub const NO_GENERATIONS: [u32; 6] = [21, 22, 258, 65_539, 1 << 31 | 4, u32::MAX];

/// A box in order: about one vertex, between two, from one on in some direction, everywhere or anywhere.
pub fn some_bounds(store: &Store, rng: &mut Rng) -> Bounds {
    let (one, other) = (some_point(store, rng), some_point(store, rng));
    match rng.below(8) {
        0 => Bounds::about(one, one),
        1 => Bounds::EVERYWHERE,
        2 => Bounds::about([-i32::MAX; 3], [i32::MAX; 3]),
        3 => Bounds::about(one, [(); 3].map(|()| rng.pick(&[-i32::MAX, i32::MAX, -FARTHEST, FARTHEST]))),
        4 => Bounds::about([(); 3].map(|()| rng.word() as i32), other),
        5 => Bounds::about(one.map(|coordinate| coordinate.saturating_add(rng.between(-1, 1))), other),
        _ => Bounds::about(one, other),
    }
}

/// Where a vertex in use is, if there is one.
fn some_point(store: &Store, rng: &mut Rng) -> [i32; 3] {
    match store.vertices() {
        0 => [0; 3],
        vertices => store.point(rng.below(vertices)),
    }
}

/// A generation, mostly one that a triangle in use is a little below.
fn some_generation(store: &Store, rng: &mut Rng) -> u32 {
    let last = u32::from(LAST_GENERATION);
    match (rng.below(8), store.triangles()) {
        (0, _) => last,
        (1, _) | (_, 0) => rng.below(LAST_GENERATION as usize + 1) as u32,
        (_, in_use) => last.min(u32::from(store.tables.generations[rng.below(in_use)]) + rng.below(4) as u32),
    }
}

/// A lock set or cleared, so that few are set at a time: mostly one set is cleared, or one near the work is set.
fn set_lock(store: &Store, rng: &mut Rng) -> Call {
    let locked = locked_triangles(store);
    if locked.is_empty() || rng.percent(45) {
        return Call::SetLock { triangle: near_work(store, rng), on: rng.percent(85) };
    }
    Call::SetLock { triangle: rng.pick(&locked) as u32, on: rng.percent(10) }
}
