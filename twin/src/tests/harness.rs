//! The harness against itself: what it makes is what it says, and what is broken is caught.

use crate::bench::Bench;
use crate::calls::{fitting_spares, some_numbers};
use crate::case::Case;
use crate::claims;
use crate::damage;
use crate::fault::{Fault, Seeded};
use crate::handmade;
use crate::journal_calls::edge_entries;
use crate::malformed;
use crate::mirror::{self, AXES};
use crate::parts;
use crate::rng::Rng;
use crate::sound::kind;
use crate::surgery::damaged_store;
use crate::tables::{Bounds, Call, Service, Store};
use crate::tests::plain_sound::sound;
use crate::twin::Twin;
use crate::unsound;

fn found_sound(store: &Store) -> bool {
    let look = Call::Position { vertex: u32::MAX };
    let answer = Twin::UNBROKEN.answer(&mut store.clone(), &look);
    answer.expect("the twin stays inside").refusal == 8
}

#[test]
fn hand_made_tables_are_sound_and_stay_so_when_raised() {
    let rng = &mut Rng::new(11);
    for _ in 0..500 {
        let store = handmade::random(rng);
        assert!(sound(&store) && found_sound(&store));
        assert!(found_sound(&handmade::raised(&store, rng)));
    }
}

#[test]
fn each_sentence_of_sound_is_needed() {
    for (broken, store) in unsound::one_way_each() {
        assert!(!sound(&store) && !found_sound(&store), "{broken}");
    }
}

#[test]
fn both_readings_of_sound_agree_on_damaged_tables() {
    let rng = &mut Rng::new(12);
    let (mut good, mut bad) = (0, 0);
    for _ in 0..4000 {
        let store = damaged_store(rng);
        let is_sound = sound(&store);
        assert_eq!(found_sound(&store), is_sound, "{store:?}");
        good += u32::from(is_sound);
        bad += u32::from(!is_sound);
    }
    assert!(good > 200 && bad > 200, "{good} sound, {bad} not");
}

#[test]
fn the_five_kinds_are_those_of_the_list() {
    assert_eq!(kind((4, 1), (4, 0)), Some(1));
    assert_eq!(kind((4, 1), (5, 0)), Some(2));
    assert_eq!(kind((5, 2), (6, 1)), Some(3));
    assert_eq!(kind((5, 2), (5, 1)), Some(4));
    assert_eq!(kind((3, 2), (5, 0)), Some(5));
    for wrong in [((4, 0), (6, 0)), ((5, 0), (5, 0)), ((5, 0), (5, 1)), ((4, 0), (5, 1)), ((4, 0), (3, 0))] {
        assert_eq!(kind(wrong.0, wrong.1), None);
    }
    assert_eq!(kind((0, 0), (255, 1)), None);
}

#[test]
fn cases_are_read_back_as_they_were_written() {
    let rng = &mut Rng::new(13);
    let mut store = handmade::random(rng);
    store.room.ring = vec![9, 9, 4];
    store.room.table = vec![-1, -1, i32::MAX];
    store.room.curve = vec![i32::MIN, 5, 5];
    store.room.view = vec![0, 1 << 31, 0x7FA0_0001, u32::MAX];
    store.room.note = vec![0, 4, 4, u32::MAX, 7, 7];
    store.room.report = vec![3, 3, u32::MAX];
    store.room.spares = fitting_spares(&store, rng);
    store.room.record = vec![0, 0, 255];
    store.room.numbers = vec![u32::MAX, 1];
    let calls = [
        Call::Load { rule: 1, cage: vec![1, 1, 1, 255, 0] },
        Call::Load { rule: u32::MAX, cage: vec![] },
        Call::Refine { triangle: 7 },
        Call::RefineNoted { triangle: u32::MAX },
        Call::TakeBack,
        Call::WholeStep,
        Call::SetLock { triangle: 0, on: true },
        Call::SetLock { triangle: u32::MAX, on: false },
        Call::Ring { vertex: 9 },
        Call::Position { vertex: u32::MAX },
        Call::Limit,
        Call::RimCurve { vertex: u32::MAX },
        Call::ViewPoint { vertex: 3 },
        Call::ViewTriangles,
        Call::RefineList { list: vec![] },
        Call::RefineList { list: vec![3, 3, 3, u32::MAX] },
        Call::Preview { list: vec![] },
        Call::Preview { list: vec![1, 0] },
        Call::RefineBox { bounds: Bounds::EVERYWHERE, below: 20 },
        Call::RefineBox { bounds: Bounds { low: [1, -2, 3], high: [3, 0, i32::MIN] }, below: u32::MAX },
        Call::Refine { triangle: 7 }.reported(),
        Call::RefineNoted { triangle: u32::MAX }.reported(),
        Call::RefineList { list: vec![3, 3, 3, u32::MAX] }.reported(),
        Call::Preview { list: vec![] }.reported(),
        Call::RefineBox { bounds: Bounds::EVERYWHERE, below: 20 }.reported(),
        Call::RecordHeader { slots: [7, u32::MAX] },
        Call::Replay { journal: vec![], at: 0 },
        Call::Replay { journal: vec![82, 80, 80, 0], at: usize::MAX },
    ];
    let records = edge_entries(rng).into_iter().map(Call::Record);
    for call in calls.into_iter().chain(records) {
        let case = Case { store: store.clone(), call };
        assert_eq!(case.to_string().parse(), Ok(case));
    }
    let empty = Case { store: Store::default(), call: Call::WholeStep };
    assert_eq!(empty.to_string().parse(), Ok(empty));
}

#[test]
fn claims_tell_broken_tables() {
    let rng = &mut Rng::new(14);
    let good = damage::refined(&crate::cages::tetrahedron(), &[0, 0, 0], 2, rng);
    assert_eq!(claims::violated(&good, 2), None);
    assert!(claims::violated(&good, 0).is_some());
    let mut crossed = good.clone();
    crossed.tables.links.swap(0, 4);
    assert!(claims::violated(&crossed, 2).is_some());
    let mut aged = good;
    aged.tables.generations[0] += 4;
    assert!(claims::violated(&aged, 2).is_some());
}

#[test]
fn mirror_images_tell_what_spoils_them() {
    let rng = &mut Rng::new(15);
    let mut store = handmade::random(rng);
    store.room.spares = fitting_spares(&store, rng);
    store.room.view = some_numbers(99, rng);
    store.room.curve = vec![4; 9];
    for axis in AXES {
        assert_ne!(mirror::of_store(&store, axis).tables, store.tables);
        assert_ne!(mirror::of_store(&store, axis).room.spares, store.room.spares);
        assert_ne!(mirror::of_store(&store, axis).room.view, store.room.view);
        assert_ne!(mirror::of_store(&store, axis).room.curve, store.room.curve);
        assert_eq!(mirror::of_store(&mirror::of_store(&store, axis), axis), store);
        let load = Call::Load { rule: 2, cage: malformed::random(rng) };
        let image = mirror::of_call(&load, axis).expect("a load has an image");
        assert_eq!(mirror::of_call(&image, axis), Some(load));
    }
    let boxed = |low, high| Call::RefineBox { bounds: Bounds { low, high }, below: 3 };
    assert_eq!(mirror::of_call(&boxed([1, 2, 3], [3, 5, 9]), 1), Some(boxed([1, -5, 3], [3, -2, 9])));
    assert_eq!(mirror::of_call(&boxed([1, 2, i32::MIN], [3, 5, 9]), 2), None);
    let image = mirror::of_call(&boxed([1, 2, 3], [3, 5, 9]).reported(), 1);
    assert_eq!(image, Some(boxed([1, -5, 3], [3, -2, 9]).reported()));
    // A twin beside itself: what both do wrong shows in the mirror alone.
    for fault in [Fault::HalfUpByRuleTwo, Fault::StepByRuleOne, Fault::LimitByRuleOne, Fault::HalvesDown] {
        let twin = Twin { fault: Seeded(Some(fault)) };
        let found = parts::run_all(&mut Bench::new(&twin, &twin), 1, false).expect_err("a fault is found");
        assert!(found.what.starts_with("coordinate"), "{fault:?}: {}", found.what);
    }
}
