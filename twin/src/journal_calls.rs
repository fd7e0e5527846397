//! Changes to be recorded, journals of them, and replays, at random.

use crate::bench::{Bench, Outcome};
use crate::bounds::Bounds;
use crate::cages;
use crate::calls;
use crate::entry::Entry;
use crate::malformed;
use crate::picks;
use crate::replay::entry_of;
use crate::rng::Rng;
use crate::tables::{Call, NOTE_ENTRIES, Store, Tables};
use crate::twin::Twin;

/// So many bytes of any content.
pub fn some_bytes(length: usize, rng: &mut Rng) -> Vec<u8> {
    (0..length).map(|_| rng.word() as u8).collect()
}

/// A change of any kind, mostly one that may be carried out on these tables.
pub fn some_entry(store: &Store, rng: &mut Rng) -> Entry {
    match rng.below(12) {
        0 => Entry::Load { rule: picks::some_rule(rng), cage: small_cage(rng).bytes() },
        1 => Entry::Load { rule: picks::either_rule(rng), cage: malformed::random(rng) },
        2..5 => Entry::Refine { triangle: picks::some_triangle(store, rng) },
        5 => Entry::WholeStep,
        6 => Entry::List { list: short_list(store, rng) },
        7 => entry_of(&calls::some_box(store, rng), &[]).expect("a box is recorded"),
        8 => Entry::SetLock { triangle: picks::near_work(store, rng), on: true },
        9 => Entry::SetLock { triangle: picks::some_triangle(store, rng), on: false },
        10 => Entry::TakeBack { note: calls::some_note(store, rng) },
        _ => Entry::TakeBack { note: store.room.note.clone() },
    }
}

pub fn small_cage(rng: &mut Rng) -> cages::Cage {
    let cage = rng.pick(&[cages::tetrahedron, || cages::strip(2), || cages::disc(4), || cages::double_pyramid(4)])();
    cage.shuffled(rng).scattered(rng)
}

fn short_list(store: &Store, rng: &mut Rng) -> Vec<u32> {
    let length = rng.below(6);
    let mut list = calls::entries_in_use(store, length, rng);
    if length > 0 && rng.percent(20) {
        list[rng.below(length)] = picks::some_number(store.counts.triangles, rng);
    }
    list
}

/// Changes with every edge: empty lists and cages, numbers of all sizes, notes of no slots, boxes of extreme corners.
pub fn edge_entries(rng: &mut Rng) -> Vec<Entry> {
    let numbers = [0, 1, 2, 255, 256, 65_535, 1 << 24, 0x0102_0304, 1 << 31, u32::MAX];
    let corners = [[0; 3], [i32::MIN; 3], [i32::MAX; 3], [-1, 0, 1], [1, -2, 0x0102_0304], [i32::MIN, i32::MAX, -256]];
    let mut list = vec![Entry::WholeStep];
    for number in numbers {
        list.extend([true, false].map(|on| Entry::SetLock { triangle: number, on }));
        list.push(Entry::Refine { triangle: number });
        list.push(Entry::Load { rule: number, cage: some_bytes(rng.below(20), rng) });
        list.push(Entry::Box { bounds: Bounds::EVERYWHERE, below: number });
    }
    for low in corners {
        list.extend(corners.map(|high| Entry::Box { bounds: Bounds { low, high }, below: rng.word() }));
    }
    for length in 0..14 {
        list.push(Entry::Load { rule: 1, cage: some_bytes(length, rng) });
        list.push(Entry::List { list: calls::some_entries(length, rng) });
        list.push(Entry::TakeBack { note: calls::some_entries(length, rng) });
        list.push(Entry::List { list: vec![numbers[length % 10]; length] });
    }
    for k in 0..4 {
        let mut note = calls::some_entries(4 + 9 * k + rng.below(3), rng);
        note[3] = k as u32;
        list.push(Entry::TakeBack { note });
    }
    list.push(Entry::TakeBack { note: calls::some_entries(NOTE_ENTRIES, rng) });
    list.push(Entry::Load { rule: 2, cage: cages::tetrahedron().bytes() });
    list.push(Entry::Load { rule: 2, cage: vec![0; 100] });
    list
}

/// The journal of some changes, for the tables of a store.
pub fn journal_of(store: &Store, entries: &[Entry]) -> Vec<u8> {
    let mut journal = Twin::UNBROKEN.header(store.tables.slots().map(|slots| slots as u32));
    journal.extend(entries.iter().flat_map(|entry| Twin::UNBROKEN.encode(entry)));
    journal
}

/// Lends what a replay needs: spare tables that fit, and a table for so many numbers.
pub fn lend(store: &mut Store, numbers: usize, rng: &mut Rng) {
    store.room.spares = calls::fitting_spares(store, rng);
    store.room.numbers = calls::some_entries(numbers, rng);
}

/// A replay of a short journal, in which some changes may be refused, with spare tables that mostly fit and a table of
/// mostly enough numbers; some journals are spoilt.
pub fn some_replay(store: &mut Store, rng: &mut Rng) -> Call {
    let length = 1 + rng.below(4);
    let entries: Vec<Entry> = (0..length).map(|_| some_entry(store, rng)).collect();
    let longest = entries.iter().map(Entry::numbers).max().unwrap_or(0);
    let numbers = if rng.percent(10) { rng.below(longest + 1) } else { longest + rng.below(2) };
    lend(store, numbers, rng);
    if rng.percent(8) {
        let mut lengths = store.tables.lengths();
        let table = rng.below(5);
        lengths[table] = rng.pick(&calls::other_lengths(lengths[table]));
        store.room.spares = Tables::junk(if rng.percent(30) { [0; 5] } else { lengths }, rng);
    }
    let mut journal = journal_of(store, &entries);
    match rng.below(30) {
        0 => journal.truncate(rng.below(journal.len())),
        1 => {
            let place = rng.below(journal.len());
            journal[place] ^= 1 << rng.below(8);
        }
        2 => journal.extend(some_bytes(30, rng)),
        _ => {}
    }
    let at = if rng.percent(90) { 0 } else { rng.pick(&[1, 19, 20, 21, 36, 40, 56, journal.len(), journal.len() + 1]) };
    Call::Replay { journal, at }
}

/// Compares a replay, with room of its own, and the record of a change in a buffer about as long as it needs.
pub fn compare_some(bench: &mut Bench, store: &Store, rng: &mut Rng) -> Outcome {
    let mut store = store.clone();
    let call = some_replay(&mut store, rng);
    bench.compare_only(&store, &call)?;
    let entry = some_entry(&store, rng);
    let wanted = Twin::UNBROKEN.encode(&entry).len();
    store.room.record = some_bytes((wanted + rng.below(4)).saturating_sub(2), rng);
    bench.compare_only(&store, &Call::Record(entry))?;
    Ok(())
}
