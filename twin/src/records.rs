//! Records of every change in buffers of every length, and long ones.

use crate::bench::{Bench, Outcome, difference};
use crate::cages;
use crate::calls;
use crate::damage::small_stores;
use crate::entry::Entry;
use crate::journal::HEADER;
use crate::journal_calls::{edge_entries, some_bytes, some_entry};
use crate::picks;
use crate::rng::Rng;
use crate::tables::{Call, Store};
use crate::twin::Twin;

/// A record in a buffer of this length and any content.
fn compare_length(bench: &mut Bench, store: &mut Store, call: &Call, length: usize, rng: &mut Rng) -> Outcome {
    store.room.record = some_bytes(length, rng);
    bench.compare(store, call)?;
    Ok(())
}

/// Changes with every edge, and headers, in buffers of every length from none to one more than is needed.
pub fn lengths(bench: &mut Bench, rng: &mut Rng) -> Outcome {
    let mut store = Store::junk(3, 3, rng);
    for entry in edge_entries(rng) {
        let wanted = Twin::UNBROKEN.encode(&entry).len();
        let call = Call::Record(entry);
        (0..wanted + 2).try_for_each(|length| compare_length(bench, &mut store, &call, length, rng))?;
        compare_length(bench, &mut store, &call, 2 * wanted + 9, rng)?;
    }
    let numbers = [0, 1, 255, 256, 32_768, 65_536, 0x0102_0304, 1 << 31, u32::MAX];
    for slots in numbers.iter().flat_map(|&one| numbers.map(|other| [one, other])) {
        let call = Call::RecordHeader { slots };
        (0..HEADER + 2).try_for_each(|length| compare_length(bench, &mut store, &call, length, rng))?;
        compare_length(bench, &mut store, &call, 3 * HEADER, rng)?;
    }
    Ok(())
}

/// Random changes of small meshes, in buffers about as long as they need.
pub fn random(bench: &mut Bench, rounds: usize, rng: &mut Rng) -> Outcome {
    for _ in 0..rounds {
        for mut store in small_stores(rng) {
            let entry = some_entry(&store, rng);
            let wanted = Twin::UNBROKEN.encode(&entry).len();
            let call = Call::Record(entry);
            for length in [0, rng.below(wanted), wanted - 1, wanted, wanted + 1, wanted + rng.below(40)] {
                compare_length(bench, &mut store, &call, length, rng)?;
            }
            let slots = store.tables.slots().map(|slots| slots as u32);
            compare_length(bench, &mut store, &Call::RecordHeader { slots }, HEADER, rng)?;
        }
    }
    Ok(())
}

/// The largest cage, and lists and notes of as many numbers as there are triangles; the load is replayed.
pub fn long(bench: &mut Bench, rng: &mut Rng) -> Outcome {
    let cage = cages::torus(128, 256).shuffled(rng).scattered(rng).bytes();
    let (list, note) = (calls::some_entries(65_536, rng), calls::some_entries(65_537, rng));
    let load = Entry::Load { rule: picks::either_rule(rng), cage };
    let mut store = Store::fresh(32_768, 65_536);
    for entry in [load.clone(), Entry::List { list }, Entry::TakeBack { note }] {
        let wanted = Twin::UNBROKEN.encode(&entry).len();
        let call = Call::Record(entry);
        for length in [wanted - 1, wanted, wanted + 1] {
            compare_length(bench, &mut store, &call, length, rng)?;
        }
    }
    compare_length(bench, &mut store, &Call::RecordHeader { slots: [32_768, 65_536] }, HEADER, rng)?;
    let mut journal = store.room.record.clone();
    compare_length(bench, &mut store, &Call::Record(load.clone()), Twin::UNBROKEN.encode(&load).len(), rng)?;
    journal.extend(&store.room.record);
    let replay = Call::Replay { journal, at: 0 };
    if bench.compare_only(&store, &replay)?.stop != 1 {
        return Err(difference("the largest cage is not replayed".to_string(), store, &replay));
    }
    Ok(())
}
