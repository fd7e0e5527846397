//! Journals of histories, replayed: at once and in parts, on what the history began with and on fresh tables, on tables
//! of other slots, with spare tables that do not fit and tables of too few numbers, and on damaged tables.

use crate::bench::{Bench, Outcome, difference};
use crate::bounds::Bounds;
use crate::cages;
use crate::calls;
use crate::damage::{small_stores, sound_and_refused};
use crate::entry::Entry;
use crate::journal::HEADER;
use crate::journal_calls::{journal_of, lend, some_bytes, some_entry, some_replay};
use crate::journaled::{violated_by_history, violated_by_parts};
use crate::picks;
use crate::random_cages::random_cage;
use crate::replay::entry_of;
use crate::rng::Rng;
use crate::tables::{Answer, Call, NOTE_ENTRIES, Store, Tables};
use crate::twin::Twin;

/// A history with its journal.
pub struct Journal {
    /// The tables as they were before it, and as it leaves them.
    pub start: Store,
    pub store: Store,
    pub bytes: Vec<u8>,
    /// Where its records end, the header first.
    pub ends: Vec<usize>,
    /// The most numbers that one of them has.
    pub numbers: usize,
}

impl Journal {
    /// A journal with a header alone, for tables as they are.
    pub fn begun(bench: &mut Bench, start: Store, rng: &mut Rng) -> Outcome<Journal> {
        let slots = start.tables.slots().map(|slots| slots as u32);
        let store = start.clone();
        let mut journal = Journal { start, store, bytes: Vec::new(), ends: Vec::new(), numbers: 0 };
        journal.append(bench, &Call::RecordHeader { slots }, HEADER, rng)?;
        Ok(journal)
    }

    /// Makes a call, and records it if it is a change that is carried out.
    pub fn make(&mut self, bench: &mut Bench, call: &Call, rng: &mut Rng) -> Outcome<Answer> {
        let answer = bench.compare(&mut self.store, call)?;
        if let (Some(entry), 0) = (entry_of(call, &self.store.room.note), answer.refusal) {
            let entry = if rng.percent(50) { shortened(entry) } else { entry };
            let wanted = Twin::UNBROKEN.encode(&entry).len();
            self.numbers = self.numbers.max(entry.numbers());
            self.append(bench, &Call::Record(entry), wanted + rng.below(2), rng)?;
        }
        Ok(answer)
    }

    /// Appends what a call records in a buffer of some length.
    fn append(&mut self, bench: &mut Bench, call: &Call, length: usize, rng: &mut Rng) -> Outcome {
        self.store.room.record = some_bytes(length, rng);
        let written = bench.compare(&mut self.store, call)?.written;
        self.bytes.extend(&self.store.room.record[..written]);
        self.ends.push(self.bytes.len());
        Ok(())
    }

    /// A replay of all of it from a place on.
    pub fn replay(&self, at: usize) -> Call {
        Call::Replay { journal: self.bytes.clone(), at }
    }

    /// A replay of its first bytes.
    pub fn replay_of_first(&self, length: usize) -> Call {
        Call::Replay { journal: self.bytes[..length].to_vec(), at: 0 }
    }

    /// What it began with, lent all that a replay needs.
    pub fn lent(&self, rng: &mut Rng) -> Store {
        let mut store = self.start.clone();
        lend(&mut store, self.numbers, rng);
        store
    }

    /// Compares a replay, which has to leave what the history did.
    fn compare_replayed(&self, bench: &mut Bench, mut store: Store) -> Outcome {
        let (before, call) = (store.clone(), self.replay(0));
        let answer = bench.compare(&mut store, &call)?;
        match violated_by_history(&self.store, self.ends.len() - 1, self.bytes.len(), (&answer, &store)) {
            Some(what) => Err(difference(what, before, &call)),
            None => Ok(()),
        }
    }

    /// Compares a replay of its first bytes, gone on with by the whole of it, with a replay at once.
    pub fn compare_parts(&self, bench: &mut Bench, store: &Store, length: usize) -> Outcome {
        let (mut whole, mut parts) = (store.clone(), store.clone());
        let at_once = Twin::UNBROKEN.replay(&mut whole, &self.bytes, 0);
        whole.counts = at_once.counts;
        let first = bench.compare(&mut parts, &self.replay_of_first(length))?;
        let call = self.replay(first.end);
        let before = parts.clone();
        let second = bench.compare(&mut parts, &call)?;
        match violated_by_parts((&at_once, &whole), &first, (&second, &parts)) {
            Some(what) => Err(difference(what, before, &call)),
            None => Ok(()),
        }
    }
}

/// The same change with a note that ends where it says.
fn shortened(entry: Entry) -> Entry {
    match entry {
        Entry::TakeBack { mut note } => {
            note.truncate(4 + 9 * note[3] as usize);
            Entry::TakeBack { note }
        }
        entry => entry,
    }
}

/// A short history with every change: a load, a whole step, a refine with a note that is taken back, a list, a box, a
/// lock and an unlock.
pub fn of_every_kind(bench: &mut Bench, rng: &mut Rng) -> Outcome<Journal> {
    let mut start = Store::junk(60, 120, rng);
    start.room.note = calls::some_entries(NOTE_ENTRIES, rng);
    start.room.spares = calls::fitting_spares(&start, rng);
    let mut journal = Journal::begun(bench, start, rng)?;
    let cage = cages::tetrahedron().shuffled(rng).scattered(rng).bytes();
    journal.make(bench, &Call::Load { rule: picks::either_rule(rng), cage }, rng)?;
    let point = journal.store.point(rng.below(4));
    let triangle = rng.below(12) as u32;
    let changes = [
        Call::WholeStep,
        Call::RefineNoted { triangle },
        Call::TakeBack,
        Call::SetLock { triangle, on: true },
        Call::SetLock { triangle, on: false },
        Call::RefineList { list: vec![triangle, 0, triangle, 3] },
        Call::RefineBox { bounds: Bounds::about(point, point), below: 3 },
        Call::Refine { triangle: 1 },
    ];
    changes.iter().try_for_each(|call| journal.make(bench, call, rng).map(drop))?;
    Ok(journal)
}

/// A random history of so many calls, begun with a load or on a mesh that there is.
pub fn at_random(bench: &mut Bench, calls: usize, rng: &mut Rng) -> Outcome<Journal> {
    let from_load = rng.percent(70);
    let cage = random_cage(rng);
    let (vertices, triangles) = rng.pick(&[(2, 4), (30, 60), (80, 160)]);
    let start = match from_load {
        true => Store::junk(cage.points.len() + vertices, cage.triangles.len() + triangles, rng),
        false => small_stores(rng).swap_remove(rng.below(14)),
    };
    let mut journal = Journal::begun(bench, start, rng)?;
    if from_load {
        journal.make(bench, &Call::Load { rule: picks::either_rule(rng), cage: cage.bytes() }, rng)?;
    }
    for _ in 0..calls {
        let call = match rng.below(30) {
            0 => Call::Load { rule: picks::some_rule(rng), cage: random_cage(rng).bytes() },
            1..5 => {
                // One that is noted, so that what comes next may be taken back.
                journal.store.room.note = calls::some_entries(NOTE_ENTRIES, rng);
                let triangle = picks::some_triangle(&journal.store, rng);
                journal.make(bench, &Call::RefineNoted { triangle }, rng)?;
                Call::TakeBack
            }
            _ => calls::random_call(&mut journal.store, rng),
        };
        journal.make(bench, &call, rng)?;
    }
    Ok(journal)
}

/// Random histories, replayed on what they began with, which leaves the same tables, and where they began with a load
/// on fresh ones; then in parts from each record's end on.
pub fn of_histories(bench: &mut Bench, rounds: usize, rng: &mut Rng) -> Outcome {
    for _ in 0..rounds {
        let length = rng.pick(&[4, 12, 40]);
        let journal = at_random(bench, length, rng)?;
        let store = journal.lent(rng);
        journal.compare_replayed(bench, store.clone())?;
        let mut made = store.clone();
        Twin::UNBROKEN.replay(&mut made, &journal.bytes, 0);
        if made.tables != journal.store.tables {
            let what = "a replay leaves other slots past use than the history".to_string();
            return Err(difference(what, store, &journal.replay(0)));
        }
        let begins_with_load = journal.bytes.get(HEADER + 4) == Some(&1);
        if begins_with_load {
            let [vertex_slots, triangle_slots] = journal.start.tables.slots();
            let mut fresh = Store::fresh(vertex_slots, triangle_slots);
            lend(&mut fresh, journal.numbers, rng);
            journal.compare_replayed(bench, fresh)?;
        }
        for &end in &journal.ends {
            journal.compare_parts(bench, &store, end)?;
        }
        numbers_and_spares(bench, &journal, rng)?;
    }
    Ok(())
}

/// A journal with tables of no numbers, of one less than its longest list or note has, of just as many and one more,
/// with spare tables of which one does not fit, or all, and on tables of other slots.
fn numbers_and_spares(bench: &mut Bench, journal: &Journal, rng: &mut Rng) -> Outcome {
    let wanted = journal.numbers;
    for length in [0, 1, wanted.saturating_sub(1), wanted, wanted + 1, wanted + NOTE_ENTRIES] {
        let mut store = journal.lent(rng);
        store.room.numbers = calls::some_entries(length, rng);
        bench.compare_only(&store, &journal.replay(0))?;
    }
    let mut store = journal.lent(rng);
    let lengths = store.tables.lengths();
    for table in 0..5 {
        let mut others = lengths;
        others[table] = rng.pick(&calls::other_lengths(lengths[table]));
        store.room.spares = Tables::junk(others, rng);
        bench.compare_only(&store, &journal.replay(0))?;
    }
    store.room.spares = Tables::default();
    bench.compare_only(&store, &journal.replay(0))?;
    let [vertex_slots, triangle_slots] = store.tables.slots();
    for (vertices, triangles) in [(1, 0), (0, 1), (1, 1), (0, 2), (9, 0)] {
        let mut wider = Store::junk(vertex_slots + vertices, triangle_slots + triangles, rng);
        wider.tables.take_over(&store.tables, store.counts);
        wider.counts = store.counts;
        lend(&mut wider, wanted, rng);
        bench.compare_only(&wider, &journal.replay(0))?;
    }
    store.tables.cut_to([vertex_slots - 1, triangle_slots]);
    bench.compare_only(&store, &journal.replay(0))?;
    Ok(())
}

/// Journals of every change, with places before the first record, at each byte and past the end.
pub fn places(bench: &mut Bench, rng: &mut Rng) -> Outcome {
    for _ in 0..4 {
        let journal = of_every_kind(bench, rng)?;
        let store = journal.lent(rng);
        let length = journal.bytes.len();
        for at in (0..length + 3).chain([2 * length, 1 << 32, usize::MAX - 1, usize::MAX]) {
            bench.compare_only(&store, &journal.replay(at))?;
        }
        for &end in &journal.ends {
            let mut part = store.clone();
            bench.compare(&mut part, &journal.replay_of_first(end))?;
            bench.compare_only(&part, &journal.replay(end))?;
        }
    }
    Ok(())
}

/// Sound tables, damaged ones and those that do not fit each other, with each change as the first and after others.
pub fn orders(bench: &mut Bench, rng: &mut Rng) -> Outcome {
    for mut store in small_stores(rng).into_iter().flat_map(sound_and_refused) {
        for _ in 0..40 {
            let entries = [some_entry(&store, rng), some_entry(&store, rng)];
            let numbers = rng.pick(&[0, 1, 5, 40, NOTE_ENTRIES]);
            lend(&mut store, numbers, rng);
            let spares = rng.pick(&[0, 1, 2]);
            store.room.spares = if spares == 0 { Tables::default() } else { calls::fitting_spares(&store, rng) };
            bench.compare_only(&store, &Call::Replay { journal: journal_of(&store, &entries), at: 0 })?;
        }
    }
    Ok(())
}

/// Short journals on small tables, one after another, each on what the one before left.
pub fn random(bench: &mut Bench, rounds: usize, rng: &mut Rng) -> Outcome {
    for _ in 0..rounds {
        for mut store in small_stores(rng) {
            for _ in 0..3 {
                let call = some_replay(&mut store, rng);
                bench.compare(&mut store, &call)?;
            }
        }
    }
    Ok(())
}
