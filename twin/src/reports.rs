//! Reports: of every refine of small meshes, of every chain, of lists and boxes, in buffers of every length, beside
//! every other refusal, and histories in which a viewer draws by them alone.

use crate::bench::{Bench, Outcome, difference};
use crate::boxes;
use crate::cages;
use crate::calls::{self, report_lengths, report_wanted, some_entries};
use crate::damage::{refined, small_stores, sound_and_refused};
use crate::handmade::{self, chain};
use crate::lists::{self, with_spares};
use crate::notes::{roomy_stores, with_note};
use crate::picks;
use crate::random_cages::random_cage;
use crate::redraw::Picture;
use crate::rng::Rng;
use crate::tables::{Bounds, Call, LAST_GENERATION, NOTE_ENTRIES, REPORT_ENTRIES, Store};

/// The same with a report buffer of so many entries.
fn with_entries(store: &Store, entries: usize, rng: &mut Rng) -> Store {
    let mut store = store.clone();
    store.room.report = some_entries(entries, rng);
    store
}

/// A call in buffers of all the lengths tried.
fn compare_lengths(bench: &mut Bench, store: &Store, call: &Call, rng: &mut Rng) -> Outcome {
    for entries in report_lengths(report_wanted(store, call)) {
        bench.compare_only(&with_entries(store, entries, rng), &call.clone().reported())?;
    }
    Ok(())
}

/// The refine of a triangle, and that with a note.
fn refines(triangle: u32) -> [Call; 2] {
    [Call::Refine { triangle }, Call::RefineNoted { triangle }]
}

/// Every refine of small meshes in buffers of every length up to that wanted and a little over.
pub fn lengths(bench: &mut Bench, rng: &mut Rng) -> Outcome {
    for store in roomy_stores(rng) {
        let store = with_note(store, some_entries(NOTE_ENTRIES, rng));
        for call in (0..store.counts.triangles).flat_map(refines) {
            let wanted = report_wanted(&store, &call);
            for entries in (0..wanted + 3).chain([REPORT_ENTRIES, 99]) {
                bench.compare_only(&with_entries(&store, entries, rng), &call.clone().reported())?;
            }
        }
    }
    Ok(())
}

/// Sound tables, damaged ones and those that do not fit each other, with and without room, locked and not, with
/// triangles in use, past use and far off, with notes and report buffers that are long enough and that are not.
pub fn orders(bench: &mut Bench, rng: &mut Rng) -> Outcome {
    for store in small_stores(rng).into_iter().flat_map(sound_and_refused) {
        for triangle in picks::all_numbers(store.counts.triangles, store.triangle_slots()) {
            let mut store = with_note(store.clone(), some_entries(rng.pick(&[0, 12, 30, NOTE_ENTRIES]), rng));
            if rng.percent(30) {
                let slot = rng.below(store.triangles().min(store.tables.locks.len()));
                store = store.locked(slot);
            }
            for call in refines(triangle) {
                let entries = rng.pick(&[0, 2, 3, 4, 5, 12, REPORT_ENTRIES]);
                bench.compare_only(&with_entries(&store, entries, rng), &call.reported())?;
            }
        }
    }
    Ok(())
}

/// Every number of splits and of flips that a refine can have, and every chain length over an even triangle and over
/// the boundary with other triangles about it, entered by either side.
pub fn chains(bench: &mut Bench, rng: &mut Rng) -> Outcome {
    for odd in 1..=10 {
        let store = handmade::crowded(odd, rng.below(odd + 3)).store(10, 20, rng);
        for call in refines(odd as u32) {
            compare_lengths(bench, &with_note(store.clone(), some_entries(NOTE_ENTRIES, rng)), &call, rng)?;
        }
    }
    for (odd, even_end) in (0..160).map(|code| (1 + code / 16, code % 4 != 0)) {
        let lowest = 2 * rng.below((20 - 2 * odd) / 2 + 1) as u8;
        let more: Vec<u8> = (0..rng.pick(&[0, 40])).map(|_| lowest + rng.below(2 * odd + 1) as u8).collect();
        let mut gluing = chain(odd, even_end, lowest, &more, rng);
        gluing.glue_at_random(rng.pick(&[0, 300, 900]), rng);
        let room = rng.pick(&[odd - 1, odd, 12]);
        let store = with_note(gluing.store(room, 2 * room, rng), some_entries(NOTE_ENTRIES, rng));
        for call in refines((odd - usize::from(!even_end)) as u32) {
            compare_lengths(bench, &store, &call, rng)?;
        }
    }
    Ok(())
}

/// Meshes for lists and boxes: closed and open ones, refined here and there, hand-made ones, tables in which the slots
/// give out, some with locks, and spare tables of other sizes.
fn batch_stores(rng: &mut Rng) -> Vec<Store> {
    let mut stores: Vec<Store> = boxes::some_stores(60, rng);
    stores.extend((0..60).map(|_| with_spares(handmade::random(rng), rng)));
    let tight: Vec<Store> = lists::tight_stores(rng).into_iter().step_by(5).collect();
    for mut store in tight {
        if rng.percent(30) {
            let slot = rng.below(store.triangles());
            store = store.locked(slot);
        }
        stores.push(store);
    }
    stores.extend(lists::with_other_spares(rng).into_iter().step_by(2));
    stores
}

/// Lists of some triangles, some of them twice, and of one that fails, with previews.
pub fn of_lists(bench: &mut Bench, rng: &mut Rng) -> Outcome {
    for store in batch_stores(rng) {
        for length in [0, 1, 2, 4, 12, 40] {
            let mut list = calls::entries_in_use(&store, length, rng);
            if rng.percent(20) {
                list.push(rng.pick(&[store.counts.triangles, store.counts.triangles + 1, u32::MAX]));
            }
            compare_lengths(bench, &store, &Call::RefineList { list }, rng)?;
        }
    }
    Ok(())
}

/// Boxes about one vertex, between some and of all, to a few generations.
pub fn of_boxes(bench: &mut Bench, rng: &mut Rng) -> Outcome {
    for store in batch_stores(rng) {
        for more in [0, 1, 1, 2, 3] {
            let lowest = store.tables.generations.first().copied().unwrap_or(0).min(LAST_GENERATION);
            let below = u32::from(lowest + more);
            let bounds = if rng.percent(50) { Bounds::EVERYWHERE } else { calls::some_bounds(&store, rng) };
            compare_lengths(bench, &store, &Call::RefineBox { bounds, below }, rng)?;
        }
    }
    Ok(())
}

/// A list of all triangles and a box, in buffers that just do, and a preview in one that is an entry short.
pub fn of_all(bench: &mut Bench, store: &Store, bounds: Bounds, rng: &mut Rng) -> Outcome {
    let list: Vec<u32> = (0..store.counts.triangles).collect();
    let (preview, boxed) = (Call::Preview { list: list.clone() }, Call::RefineBox { bounds, below: 1 });
    for (call, short_by) in [(preview, 1), (Call::RefineList { list }, 0), (boxed, 0)] {
        let entries = report_wanted(store, &call).saturating_sub(short_by);
        bench.compare_only(&with_entries(store, entries, rng), &call.reported())?;
    }
    Ok(())
}

/// Histories in which a viewer draws by reports alone, after each call what has changed; each time its picture has to
/// be that of the mesh.
pub fn redraws(bench: &mut Bench, rounds: usize, rng: &mut Rng) -> Outcome {
    for _ in 0..rounds {
        let mut store = match rng.below(3) {
            0 => handmade::random(rng),
            _ => refined(&rng.pick(&[cages::tetrahedron, cages::foil, || cages::disc(5)])(), &[], 90, rng),
        };
        let mut picture = Picture::of(&store);
        for _ in 0..20 + rng.below(30) {
            let call = some_drawn(&mut store, rng);
            let before = store.clone();
            let answer = bench.compare(&mut store, &call)?;
            picture.redraw(&call, &answer, &store);
            if picture != Picture::of(&store) {
                let what = "a picture drawn by reports is not that of the mesh".to_string();
                return Err(difference(what, before, &call));
            }
            bench.coverage.reports.note_redrawn(&call, &answer);
        }
    }
    Ok(())
}

/// A call of any kind, those that refine with a report; many with a note, and take-backs by it.
fn some_drawn(store: &mut Store, rng: &mut Rng) -> Call {
    let call = match rng.below(20) {
        0 => Call::Load { rule: picks::either_rule(rng), cage: random_cage(rng).bytes() },
        1..5 => Call::TakeBack,
        5..9 => {
            store.room.note = some_entries(NOTE_ENTRIES, rng);
            Call::RefineNoted { triangle: picks::some_triangle(store, rng) }
        }
        9..12 => {
            store.room.spares = calls::fitting_spares(store, rng);
            Call::RefineList { list: calls::some_list(store, rng) }
        }
        12..15 => {
            store.room.spares = calls::fitting_spares(store, rng);
            calls::some_box(store, rng)
        }
        _ => calls::random_call(store, rng).plain().clone(),
    };
    if call.refines() { calls::with_report(store, call, rng) } else { call }
}
