//! Journals that are damaged: cut at every byte, with every byte changed, of garbage, with records of wrong kinds and
//! sizes whose checksums hold, and with records that hold anything.

use crate::bench::{Bench, Outcome, difference};
use crate::bounds::Bounds;
use crate::calls;
use crate::damage::small_stores;
use crate::entry::Entry;
use crate::journal::{HEAD, header_numbers, header_of, record_of};
use crate::journal_calls::{journal_of, lend, some_bytes};
use crate::journals::{Journal, at_random, of_every_kind};
use crate::malformed;
use crate::picks;
use crate::rng::Rng;
use crate::tables::{Call, NOTE_ENTRIES, Store};

/// A journal with records of every kind, and then those of random histories.
fn some_journal(bench: &mut Bench, round: usize, rng: &mut Rng) -> Outcome<Journal> {
    if round == 0 { of_every_kind(bench, rng) } else { at_random(bench, 3 + round, rng) }
}

/// Cut at every byte: each stops before the record that is cut, and goes on to what comes of it at once.
pub fn cut(bench: &mut Bench, rng: &mut Rng) -> Outcome {
    for round in 0..5 {
        let journal = some_journal(bench, round, rng)?;
        let store = journal.lent(rng);
        for length in 0..journal.bytes.len() {
            let (call, whole) = (journal.replay_of_first(length), journal.ends.contains(&length));
            let answer = bench.compare_only(&store, &call)?;
            let due = journal.ends.iter().copied().filter(|end| *end <= length).max().unwrap_or(0);
            let stop = if whole || length == 0 { 1 } else { 2 };
            if (answer.stop, answer.end) != (stop, due) {
                let what = format!("cut at {length}, the last whole record ends at {due}, answered {answer:?}");
                return Err(difference(what, store, &call));
            }
            if due > 0 {
                journal.compare_parts(bench, &store, length)?;
            }
        }
    }
    Ok(())
}

/// Every byte changed, in one bit, to its opposite and to any: each stops before the record that it is of, with 3.
pub fn changed(bench: &mut Bench, rng: &mut Rng) -> Outcome {
    for round in 0..4 {
        let journal = some_journal(bench, round, rng)?;
        let store = journal.lent(rng);
        for place in 0..journal.bytes.len() {
            let due = journal.ends.iter().copied().filter(|end| *end <= place).max().unwrap_or(0);
            for by in [1 << rng.below(8), 0xFF, 1 + rng.below(255) as u8] {
                let mut bytes = journal.bytes.clone();
                bytes[place] ^= by;
                let call = Call::Replay { journal: bytes, at: 0 };
                let answer = bench.compare_only(&store, &call)?;
                if (answer.stop, answer.end) != (3, due) {
                    let what = format!("byte {place} is another, its record starts at {due}, answered {answer:?}");
                    return Err(difference(what, store, &call));
                }
            }
        }
    }
    Ok(())
}

/// Bytes of any content for a journal, behind its header and amid it.
pub fn garbage(bench: &mut Bench, rng: &mut Rng) -> Outcome {
    let journal = of_every_kind(bench, rng)?;
    let store = journal.lent(rng);
    for length in 0..300 {
        for first in [0, 20, journal.ends[rng.below(journal.ends.len())]] {
            let bytes = match rng.below(3) {
                0 => vec![rng.pick(&[0, 1, 255]); length],
                _ => some_bytes(length, rng),
            };
            let bytes = [&journal.bytes[..first], &bytes].concat();
            let at = rng.pick(&[0, 20, first, length]);
            bench.compare_only(&store, &Call::Replay { journal: bytes, at })?;
        }
    }
    for _ in 0..300 {
        let mut bytes = journal.bytes.clone();
        let (from, length) = (rng.below(bytes.len()), rng.below(40));
        match rng.below(3) {
            0 => drop(bytes.drain(from..(from + length).min(journal.bytes.len()))),
            1 => drop(bytes.splice(from..from, some_bytes(length, rng))),
            _ => bytes.rotate_left(from),
        }
        bench.compare_only(&store, &Call::Replay { journal: bytes, at: 0 })?;
    }
    Ok(())
}

/// Headers with every number another, and the checksum of what they are or not, for tables of any slots.
pub fn headers(bench: &mut Bench, rng: &mut Rng) -> Outcome {
    let journal = of_every_kind(bench, rng)?;
    let store = journal.lent(rng);
    let due = header_numbers(store.tables.slots().map(|slots| slots as u32));
    for one in 0..4 {
        for other in 0..4 {
            for (by, and) in [(1, 1), (2, 0), (1 << 8, 1 << 16), (1 << 31, 0), (u32::MAX, 1)] {
                let mut numbers = due;
                numbers[one] ^= by;
                numbers[other] ^= and;
                let mut header = header_of(numbers);
                for spoilt in [false, true] {
                    header[16] ^= u8::from(spoilt);
                    let bytes = [&header, &journal.bytes[20..]].concat();
                    let at = rng.pick(&[0, 20, journal.ends[2]]);
                    bench.compare_only(&store, &Call::Replay { journal: bytes, at })?;
                }
            }
        }
    }
    Ok(())
}

/// Records of every kind, and numbers that are none, with bodies of every size, whose checksums hold: whole, cut in the
/// body and with another checksum, as the first record and as a later one, with others behind them.
pub fn odd_records(bench: &mut Bench, rng: &mut Rng) -> Outcome {
    let journal = of_every_kind(bench, rng)?;
    let store = journal.lent(rng);
    let kinds = (0..=12).chain([255, 256, 257, 258, 260, 1 << 16 | 3, 1 << 31 | 8, u32::MAX]);
    for kind in kinds {
        for size in (0..34).chain([36, 41, 100]) {
            let record = record_of(kind, &some_bytes(size, rng));
            compare_record(bench, &journal, &store, record, rng)?;
        }
    }
    Ok(())
}

fn compare_record(bench: &mut Bench, journal: &Journal, store: &Store, record: Vec<u8>, rng: &mut Rng) -> Outcome {
    let start = journal.ends[rng.below(4)];
    let end = start + record.len();
    let mut bytes = [&journal.bytes[..start], &record, &journal.bytes[start..]].concat();
    bench.compare_only(store, &Call::Replay { journal: bytes.clone(), at: 0 })?;
    if record.len() > HEAD + 4 && rng.percent(50) {
        let length = start + HEAD + rng.below(record.len() - HEAD);
        bench.compare_only(store, &Call::Replay { journal: bytes[..length].to_vec(), at: 0 })?;
    }
    bytes[end - 1 - rng.below(4)] ^= 1 << rng.below(8);
    bench.compare_only(store, &Call::Replay { journal: bytes, at: 0 })?;
    Ok(())
}

/// Records with anything in them on small tables: lists and notes of odd content and any length, boxes of any corners,
/// numbers far off, cages that are none.
pub fn odd_content(bench: &mut Bench, rounds: usize, rng: &mut Rng) -> Outcome {
    for _ in 0..rounds {
        for mut store in small_stores(rng) {
            let length = rng.pick(&[0, 1, 3, 4, 13, 22, 40, NOTE_ENTRIES, NOTE_ENTRIES + 1]);
            let mut note = store.room.note.clone();
            calls::alter(&mut note, rng);
            let (any, some_note) = (calls::some_entries(length, rng), calls::some_note(&store, rng));
            let corner = |rng: &mut Rng| [(); 3].map(|()| rng.word() as i32);
            let entries = [
                Entry::List { list: any.clone() },
                Entry::List { list: calls::some_list(&store, rng) },
                Entry::TakeBack { note: any },
                Entry::TakeBack { note },
                Entry::TakeBack { note: some_note },
                Entry::Box { bounds: Bounds { low: corner(rng), high: corner(rng) }, below: rng.word() >> 28 },
                Entry::Box { bounds: Bounds::EVERYWHERE, below: rng.below(23) as u32 },
                Entry::Load { rule: picks::some_rule(rng), cage: malformed::random(rng) },
                Entry::Refine { triangle: picks::some_number(store.counts.triangles, rng) },
                Entry::SetLock { triangle: picks::some_number(store.counts.triangles, rng), on: rng.percent(50) },
            ];
            for entry in entries {
                let numbers = rng.pick(&[0, entry.numbers(), entry.numbers(), entry.numbers().saturating_sub(1), 300]);
                lend(&mut store, numbers, rng);
                let first = Entry::Refine { triangle: rng.below(store.triangles()) as u32 };
                let entries = if rng.percent(50) { vec![entry] } else { vec![first, entry] };
                bench.compare_only(&store, &Call::Replay { journal: journal_of(&store, &entries), at: 0 })?;
            }
        }
    }
    Ok(())
}
