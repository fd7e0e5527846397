//! Replays as they are told: with each refusal, with each stop, and bytes that a hand writes.

use crate::bench::{Bench, Outcome, difference};
use crate::bounds::Bounds;
use crate::cages::{self, Cage};
use crate::entry::Entry;
use crate::journal_calls::{journal_of, lend};
use crate::rng::Rng;
use crate::tables::{Call, HALF_UP, Store};

/// What some changes are recorded as, by the format and zlib's checksum: the tables have 5 and 7 slots.
pub fn written() -> Vec<(Entry, &'static [u8])> {
    vec![
        (Entry::WholeStep, &[0, 0, 0, 0, 3, 0, 0, 0, 135, 112, 151, 119, 0, 0, 0, 0]),
        (Entry::Refine { triangle: 258 }, &[4, 0, 0, 0, 2, 0, 0, 0, 24, 25, 97, 75, 2, 1, 0, 0, 160, 125, 143, 138]),
        (
            Entry::SetLock { triangle: 1, on: true },
            &[4, 0, 0, 0, 6, 0, 0, 0, 79, 142, 3, 196, 1, 0, 0, 0, 121, 184, 248, 153],
        ),
        (
            Entry::SetLock { triangle: u32::MAX, on: false },
            &[4, 0, 0, 0, 7, 0, 0, 0, 42, 233, 191, 124, 255, 255, 255, 255, 255, 255, 255, 255],
        ),
        (Entry::List { list: vec![] }, &[0, 0, 0, 0, 4, 0, 0, 0, 62, 72, 64, 234, 0, 0, 0, 0]),
        (
            Entry::List { list: vec![3, 1] },
            &[8, 0, 0, 0, 4, 0, 0, 0, 139, 83, 165, 57, 3, 0, 0, 0, 1, 0, 0, 0, 239, 191, 17, 83],
        ),
        (Entry::TakeBack { note: vec![9] }, &[4, 0, 0, 0, 8, 0, 0, 0, 124, 249, 220, 36, 9, 0, 0, 0, 150, 144, 76, 92]),
        (
            Entry::Load { rule: 2, cage: vec![7, 8, 9] },
            &[7, 0, 0, 0, 1, 0, 0, 0, 21, 177, 91, 215, 2, 0, 0, 0, 7, 8, 9, 126, 234, 185, 190],
        ),
        (
            Entry::Box { bounds: Bounds { low: [-1, i32::MIN, 2], high: [3, 0, i32::MAX] }, below: 20 },
            &[
                28, 0, 0, 0, 5, 0, 0, 0, 63, 11, 232, 121, 255, 255, 255, 255, 0, 0, 0, 128, 2, 0, 0, 0, 3, 0, 0, 0, 0,
                0, 0, 0, 255, 255, 255, 127, 20, 0, 0, 0, 238, 240, 10, 218,
            ],
        ),
    ]
}

/// The header for tables of 5 and 7 slots.
pub const HEADER_OF_5_AND_7: [u8; 20] = [82, 80, 76, 74, 1, 0, 0, 0, 5, 0, 0, 0, 7, 0, 0, 0, 131, 169, 215, 143];

/// A change that stops a replay, its refusal, and those before it.
pub struct Refused {
    pub refusal: u32,
    pub entry: Entry,
    pub before: Vec<Entry>,
}

/// One for each refusal, on tables of 90 and 170 slots that hold anything; 1 and 17 come from what is lent.
pub fn refused() -> Vec<Refused> {
    let load = |cage: Cage| Entry::Load { rule: HALF_UP, cage: cage.bytes() };
    let far = Cage { points: vec![[1 << 25, 0, 0], [0; 3], [0; 3]], ..cages::strip(1) };
    let (solid, twice) = (load(cages::tetrahedron()), Cage::of(vec![[0, 1, 2], [0, 1, 3]]));
    let everywhere = |below: u32| Entry::Box { bounds: Bounds::EVERYWHERE, below };
    let lock = |triangle: u32| Entry::SetLock { triangle, on: true };
    let ripe = [vec![load(cages::strip(1))], vec![Entry::Refine { triangle: 0 }; 19]].concat();
    let list = [
        (2, load(cages::torus(12, 12)), vec![solid.clone()]),
        (3, load(Cage::of(vec![[0, 1, 1]])), vec![]),
        (4, load(far), vec![solid.clone()]),
        (5, load(twice), vec![]),
        (6, load(cages::foil()), vec![solid.clone()]),
        (7, Entry::Refine { triangle: 0 }, vec![]),
        (7, Entry::WholeStep, vec![]),
        (7, lock(0), vec![]),
        (7, Entry::TakeBack { note: vec![] }, vec![]),
        (8, Entry::Refine { triangle: 4 }, vec![solid.clone()]),
        (8, lock(u32::MAX), vec![solid.clone()]),
        (8, Entry::List { list: vec![0, 1, 99] }, vec![solid.clone()]),
        (9, Entry::Refine { triangle: 0 }, ripe),
        (11, everywhere(20), vec![solid.clone()]),
        (12, Entry::WholeStep, vec![load(cages::strip(2))]),
        (13, Entry::WholeStep, vec![load(cages::double_pyramid(13))]),
        (16, Entry::Load { rule: 3, cage: cages::tetrahedron().bytes() }, vec![solid.clone()]),
        (18, everywhere(21), vec![solid.clone()]),
        (19, Entry::Refine { triangle: 2 }, vec![solid.clone(), lock(2)]),
        (19, Entry::WholeStep, vec![solid.clone(), lock(3)]),
        (21, Entry::TakeBack { note: vec![0, 4, 4, 0] }, vec![solid]),
    ];
    list.map(|(refusal, entry, before)| Refused { refusal, entry, before }).into()
}

/// A record or a header that has to be these bytes, in a buffer that they fill.
fn compare_written(bench: &mut Bench, call: &Call, bytes: &[u8]) -> Outcome {
    let mut store = Store::fresh(5, 7);
    store.room.record = vec![7; bytes.len()];
    let before = store.clone();
    bench.compare(&mut store, call)?;
    if store.room.record != bytes {
        let what = format!("the bytes {:?}, by hand {bytes:?}", store.room.record);
        return Err(difference(what, before, call));
    }
    Ok(())
}

/// All of these: what is written, and each change that is refused with a change behind it, which is never reached; and
/// the same with what is lent another.
pub fn as_told(bench: &mut Bench, rng: &mut Rng) -> Outcome {
    compare_written(bench, &Call::RecordHeader { slots: [5, 7] }, &HEADER_OF_5_AND_7)?;
    written().into_iter().try_for_each(|(entry, bytes)| compare_written(bench, &Call::Record(entry), bytes))?;
    for Refused { refusal, entry, before } in refused() {
        let mut store = Store::junk(90, 170, rng);
        lend(&mut store, 4, rng);
        let batch = matches!(entry, Entry::List { .. } | Entry::Box { .. });
        let (numbers, entries) = (entry.numbers(), [&before[..], &[entry, Entry::WholeStep]].concat());
        let call = Call::Replay { journal: journal_of(&store, &entries), at: 0 };
        let mut compare = |store: &Store, due: (u32, u32, usize)| {
            let answer = bench.compare_only(store, &call)?;
            if (answer.stop, answer.refusal, answer.records) != due {
                return Err(difference(format!("to be {due:?} by hand, is {answer:?}"), store.clone(), &call));
            }
            Ok(())
        };
        compare(&store, (5, refusal, before.len()))?;
        if numbers > 0 {
            let mut short = store.clone();
            short.room.numbers.truncate(numbers - 1);
            compare(&short, (7, 0, before.len()))?;
        }
        if batch {
            let mut unfit = store.clone();
            unfit.room.spares.links.pop();
            compare(&unfit, (5, 17, before.len()))?;
        }
        store.tables.corners.pop();
        compare(&store, (5, 1, 0))?;
    }
    Ok(())
}
