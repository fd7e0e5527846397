//! Reports against the words of their request, what is claimed of them, and a viewer that draws by them.

use crate::cages;
use crate::calls::{fitting_spares, report_wanted};
use crate::damage::small_stores;
use crate::examples::Example;
use crate::fault::Seeded;
use crate::handmade;
use crate::mesh::Mesh;
use crate::redraw::Picture;
use crate::report_examples::{self, Told};
use crate::reported::{violated_beside_unreported, violated_by_report};
use crate::rng::Rng;
use crate::tables::{Answer, Bounds, Call, NOTE_ENTRIES, REPORT_ENTRIES, Store};
use crate::tests::{after_requests, loaded, run};

/// The same with spare tables that fit and a report buffer of so many entries.
fn with_entries(store: &Store, entries: usize) -> Store {
    let mut store = store.clone();
    store.room.spares = fitting_spares(&store, &mut Rng::new(71));
    store.room.report = vec![7; entries];
    store
}

/// The answer of a call with a report, the store after it, and what it reports.
fn reported(before: &Store, call: &Call) -> (Answer, Store, Vec<u32>) {
    let mut after = with_entries(before, report_wanted(&with_entries(before, 0), call) + 2);
    let answer = run(&mut after, &call.clone().reported());
    let report = after.room.report[..answer.reported as usize].to_vec();
    (answer, after, report)
}

#[test]
fn reports_end_as_the_examples_say() {
    let rng = &mut Rng::new(72);
    for Told { example: Example { store, call, .. }, report } in report_examples::written(rng) {
        let mut after = store.clone();
        let answer = run(&mut after, &call);
        assert_eq!((answer.refusal, answer.reported as usize), (0, report.len()), "{call:?}");
        assert_eq!(after.room.report, report, "{call:?}");
        assert_eq!(violated_by_report(&store, &call, &answer, &after), None, "{call:?}");
    }
    for Example { refusal, store, call } in report_examples::others(rng) {
        let mut after = store.clone();
        let answer = run(&mut after, &call);
        assert_eq!(answer.refusal, refusal, "{call:?}");
        assert_eq!(violated_by_report(&store, &call, &answer, &after), None, "{call:?}");
        if refusal > 0 {
            after.room.spares.clone_from(&store.room.spares);
            assert_eq!((answer.splits, answer.flips, answer.reported), (0, 0, 0), "{call:?}");
            assert_eq!(after, store, "{call:?}");
        }
    }
}

#[test]
fn later_entries_keep_their_content_and_a_buffer_just_long_enough_is_accepted() {
    let store = after_requests(&cages::tetrahedron(), &[0]);
    for entries in 0..9 {
        let mut after = with_entries(&store, entries);
        let answer = run(&mut after, &Call::Refine { triangle: 0 }.reported());
        let mut due = vec![7; entries];
        if entries >= 5 {
            due[..5].copy_from_slice(&[1, 6, 7, 7, 0]);
        }
        assert_eq!((answer.refusal, after.room.report), (if entries < 5 { 23 } else { 0 }, due));
    }
}

#[test]
fn lists_and_boxes_join_the_reports_of_their_refines() {
    let store = after_requests(&cages::disc(5), &[0, 0, 3, 7, 2]);
    let list: Vec<u32> = (0..store.counts.triangles).chain([2, 0]).rev().collect();
    let (mut each, mut joined) = (store.clone(), Vec::new());
    for &triangle in &list {
        let generation = |store: &Store| store.tables.generations[triangle as usize];
        if generation(&each) == generation(&store) {
            let (_, after, report) = reported(&each, &Call::Refine { triangle });
            (each, joined) = (after, [joined, report].concat());
        }
    }
    let (answer, after, report) = reported(&store, &Call::RefineList { list: list.clone() });
    assert_eq!((&report, &after.tables, after.counts), (&joined, &each.tables, each.counts));
    assert_eq!(report.len() as u32, 3 * answer.splits + 2 * answer.flips);
    let (foreseen, standing, previewed) = reported(&store, &Call::Preview { list });
    assert_eq!((previewed, foreseen.reported), (report, answer.reported));
    assert_eq!((standing.tables, standing.room), (store.tables.clone(), after.room));
    let (bounds, below) = (Bounds::EVERYWHERE, 3);
    let (_, boxed, report) = reported(&store, &Call::RefineBox { bounds, below });
    let (mut each, mut joined) = (store, Vec::new());
    while let Some(slot) = (0..each.triangles()).find(|&slot| u32::from(each.tables.generations[slot]) < below) {
        let (_, after, report) = reported(&each, &Call::Refine { triangle: slot as u32 });
        (each, joined) = (after, [joined, report].concat());
    }
    assert_eq!((report, boxed.tables), (joined, each.tables));
}

#[test]
fn a_short_report_leaves_all_but_the_spare_tables() {
    let before = after_requests(&cages::tetrahedron(), &[0]);
    let list = vec![1, 2];
    let boxed = Call::RefineBox { bounds: Bounds::EVERYWHERE, below: 2 };
    for call in [Call::RefineList { list: list.clone() }, Call::Preview { list }, boxed] {
        let (done, made, report) = reported(&before, &call);
        let store = with_entries(&before, report.len() - 1);
        let mut after = store.clone();
        let answer = run(&mut after, &call.clone().reported());
        let foreseen = if matches!(call, Call::Preview { .. }) { [5, 6] } else { [0; 2] };
        let Answer { handled, spares, .. } = done;
        assert!(handled > 1 && spares.triangles > 8, "{call:?}");
        let due = Answer { refusal: 23, counts: before.counts, handled, spares, foreseen, ..Answer::default() };
        assert_eq!(answer, due, "{call:?}");
        assert_eq!(after.room.spares, made.room.spares, "{call:?}");
        after.room.spares.clone_from(&store.room.spares);
        assert_eq!(after, store, "{call:?}");
    }
    let mut store = with_entries(&before, 4);
    store.room.note = vec![7; NOTE_ENTRIES];
    let mut after = store.clone();
    let answer = run(&mut after, &Call::RefineNoted { triangle: 0 }.reported());
    assert_eq!(answer, Answer { refusal: 23, counts: before.counts, ..Answer::default() });
    assert_eq!(after, store);
}

#[test]
fn no_refine_reports_more_than_54_entries() {
    let rng = &mut Rng::new(73);
    let mut stores = small_stores(rng);
    stores.extend((0..2000).map(|_| handmade::random(rng)));
    stores.push(handmade::crowded(10, 12).store(0, 0, rng));
    let mut most = 0;
    for store in stores {
        let mesh = Mesh::read(&store.tables, store.counts, Seeded(None));
        for t in 0..mesh.triangles.len() {
            let mut refined = mesh.clone();
            let work = refined.refine(t);
            assert_eq!(refined.report().len() as u32, 3 * work.splits + 2 * work.flips, "{t} of {store:?}");
            most = most.max(refined.report().len());
        }
    }
    assert_eq!(most, REPORT_ENTRIES);
}

#[test]
fn claims_tell_wrong_reports() {
    let before = with_entries(&after_requests(&cages::tetrahedron(), &[0]), 9);
    let call = Call::Refine { triangle: 0 }.reported();
    let mut after = before.clone();
    let answer = run(&mut after, &call);
    let wrong = |answer: &Answer, after: &Store| violated_by_report(&before, &call, answer, after);
    assert_eq!(wrong(&answer, &after), None);
    assert!(wrong(&Answer { reported: 6, ..answer }, &after).is_some());
    assert!(wrong(&Answer { flips: 0, ..answer }, &after).is_some());
    assert!(wrong(&Answer { refusal: 23, ..answer }, &after).is_some());
    // Slots 1, 6, 7 and 0 are reported; 2 to 5 are not, and 8 is not in use.
    let spoils: [fn(&mut Store); 9] = [
        |store| store.room.report[5] = 6,
        |store| store.room.report[8] = 0,
        |store| store.room.report[1] = 1,
        |store| store.room.report[0] = 2,
        |store| store.room.report[4] = 8,
        |store| store.tables.corners.swap(6, 7),
        |store| store.tables.generations[5] += 1,
        |store| store.tables.links.swap(6, 7),
        |store| store.tables.generations[0] = 1,
    ];
    for (number, spoil) in spoils.iter().enumerate() {
        let mut spoilt = after.clone();
        spoil(&mut spoilt);
        assert!(wrong(&answer, &spoilt).is_some(), "{number}");
    }
}

#[test]
fn claims_tell_what_a_report_changes_beside() {
    let before = with_entries(&after_requests(&cages::tetrahedron(), &[0]), 9);
    let call = Call::RefineList { list: vec![0, 2] };
    let made = |entries: usize, call: &Call| {
        let mut store = before.clone();
        store.room.report.truncate(entries);
        let answer = run(&mut store, call);
        (answer, store)
    };
    let wrong = |entries: usize, (answer, after): &(Answer, Store)| {
        let (without, unreported) = made(entries, &call);
        let mut before = before.clone();
        before.room.report.truncate(entries);
        violated_beside_unreported(&before, &call, (&without, &unreported), (answer, after)).is_some()
    };
    let reporting = call.clone().reported();
    for entries in [0, 3, 7, 9] {
        let (answer, after) = made(entries, &reporting);
        assert!(!wrong(entries, &(answer, after.clone())), "{entries}");
        assert!(wrong(entries, &(Answer { handled: 1, ..answer }, after.clone())), "{entries}");
        assert!(wrong(entries, &(Answer { spares: before.counts, ..answer }, after.clone())), "{entries}");
        let spoils: [fn(&mut Store); 4] = [
            |store| store.tables.locks[0] = 1,
            |store| store.room.spares.corners[20] += 1,
            |store| store.room.note.push(1),
            |store| store.counts.vertices += 1,
        ];
        for (number, spoil) in spoils.iter().enumerate() {
            let mut spoilt = (answer, after.clone());
            spoil(&mut spoilt.1);
            assert!(wrong(entries, &spoilt), "{number} of {entries}");
        }
    }
}

#[test]
fn a_viewer_draws_by_reports_and_by_notes() {
    let mut store = with_entries(&loaded(&cages::disc(5)), REPORT_ENTRIES);
    store.room.note = vec![0; NOTE_ENTRIES];
    let mut picture = Picture::of(&store);
    for triangle in [0, 0, 3, 7, 2, 2, 5] {
        for call in [Call::Refine { triangle }.reported(), Call::RefineNoted { triangle }.reported(), Call::TakeBack] {
            let answer = run(&mut store, &call);
            assert_eq!(answer.refusal, 0, "{call:?}");
            assert_ne!(picture, Picture::of(&store), "{call:?}");
            picture.redraw(&call, &answer, &store);
            assert_eq!(picture, Picture::of(&store), "{call:?}");
        }
    }
    // A slot that is left out is seen.
    let call = Call::Refine { triangle: 1 }.reported();
    let answer = run(&mut store, &call);
    let report = store.room.report[..answer.reported as usize].to_vec();
    for &left_out in &report {
        let other = report.iter().find(|slot| **slot != left_out).expect("a report has several slots");
        let mut spoilt = store.clone();
        spoilt.room.report.iter_mut().filter(|slot| **slot == left_out).for_each(|slot| *slot = *other);
        let mut drawn = picture.clone();
        drawn.redraw(&call, &answer, &spoilt);
        assert_ne!(drawn, Picture::of(&store), "{left_out} of {report:?}");
    }
    picture.redraw(&call, &answer, &store);
    assert_eq!(picture, Picture::of(&store));
}

#[test]
fn a_viewer_draws_everything_after_loads_whole_steps_and_refines_without_a_report() {
    let mut store = with_entries(&loaded(&cages::disc(5)), 0);
    let mut picture = Picture::of(&store);
    let load = Call::Load { rule: 1, cage: cages::tetrahedron().bytes() };
    let list = vec![0, 1];
    for call in [load, Call::WholeStep, Call::Refine { triangle: 2 }, Call::RefineList { list }] {
        let answer = run(&mut store, &call);
        assert_eq!(answer.refusal, 0, "{call:?}");
        picture.redraw(&call, &answer, &store);
        assert_eq!(picture, Picture::of(&store), "{call:?}");
    }
    // Nothing is drawn after a call that is refused, or that reads alone.
    for call in [Call::Refine { triangle: 0 }.reported(), Call::Preview { list: vec![] }.reported(), Call::Limit] {
        let answer = run(&mut store, &call);
        picture.redraw(&call, &answer, &store);
        assert_eq!(picture, Picture::of(&store), "{call:?}");
    }
}
