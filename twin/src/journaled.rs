//! What is claimed of records and replays, read from the bytes themselves: a record has its length, its checksums hold
//! and nothing else is written; a replay ends where so many records lead that it says, and without one leaves the mesh.

use crate::entry::Entry;
use crate::journal::{AROUND_BODY, HEAD, HEADER, crc32, record_length};
use crate::tables::{Answer, Call, Room, Store};

/// The checksum of any bytes with their checksum behind them.
const OF_SEALED: u32 = 0x2144_DF1C;

/// What a call that records or replays has written or answered that it must not.
pub fn violated_by_journal(before: &Store, call: &Call, answer: &Answer, after: &Store) -> Option<String> {
    let kept = Room { record: before.room.record.clone(), ..after.room.clone() };
    if kept != before.room {
        return Some("what is lent beside the mesh was written".to_string());
    }
    match call {
        Call::RecordHeader { .. } => wrongly_recorded(before, HEADER, &[HEADER], answer, after),
        Call::Record(entry) => {
            let body = body_length(entry);
            wrongly_recorded(before, AROUND_BODY + body, &[HEAD, body + 4], answer, after)
        }
        Call::Replay { journal, at } => wrongly_replayed(before, journal, *at, answer, after),
        _ => None,
    }
}

/// The bytes of the body of a change.
fn body_length(entry: &Entry) -> usize {
    match entry {
        Entry::Load { cage, .. } => 4 + cage.len(),
        Entry::Refine { .. } | Entry::SetLock { .. } => 4,
        Entry::WholeStep => 0,
        Entry::Box { .. } => 28,
        Entry::List { .. } | Entry::TakeBack { .. } => 4 * entry.numbers(),
    }
}

/// What is wrong with a record of a length, of which parts of these lengths have their checksums at the end.
fn wrongly_recorded(before: &Store, length: usize, parts: &[usize], answer: &Answer, after: &Store) -> Option<String> {
    let (lent, buffer) = (&before.room.record, &after.room.record);
    let due = if length <= lent.len() { length } else { 0 };
    if *answer != (Answer { written: due, counts: before.counts, ..Answer::default() }) {
        return Some(format!("{due} bytes are to be written, answered {answer:?}"));
    }
    if (&before.tables, before.counts) != (&after.tables, after.counts) {
        return Some("a record changed the mesh".to_string());
    }
    if lent[due..] != buffer[due..] {
        return Some("a buffer was written where there is no record".to_string());
    }
    let mut rest = &buffer[..due];
    for (part, &length) in parts.iter().enumerate().take_while(|_| due > 0) {
        let (sealed, later) = rest.split_at(length);
        if crc32(sealed) != OF_SEALED {
            return Some(format!("the checksum of part {part} does not hold"));
        }
        rest = later;
    }
    None
}

fn wrongly_replayed(before: &Store, journal: &[u8], at: usize, answer: &Answer, after: &Store) -> Option<String> {
    let &Answer { stop, refusal, records, end, counts, .. } = answer;
    if !matches!(stop, 1..=7) || (refusal != 0) != (stop == 5) {
        return Some(format!("a replay stops with {stop} for the refusal {refusal}"));
    }
    if *answer != (Answer { stop, refusal, records, end, counts, ..Answer::default() }) {
        return Some(format!("a replay answers {answer:?}"));
    }
    let unchanged = (&before.tables, before.counts) == (&after.tables, after.counts);
    if records == 0 && !unchanged {
        return Some("a replay of no record changed the mesh".to_string());
    }
    if end == 0 {
        let by_header = matches!(stop, 1..=4 | 6) && records == 0;
        return (!by_header).then(|| "a replay ends before the header".to_string());
    }
    let rest = |place: usize| journal.get(place..).unwrap_or_default();
    let place = (0..records).fold(at.max(HEADER), |place, _| place + record_length(rest(place)));
    if place != end || records > 0 && end > journal.len() {
        return Some(format!("{records} records from {at} on end at {place}, answered {end}"));
    }
    ((stop == 1) != rest(end).is_empty()).then(|| format!("stopped with {stop} at {end} of {} bytes", journal.len()))
}

/// What is wrong with a replay in two parts beside the same at once: together they are the same.
pub fn violated_by_parts(whole: (&Answer, &Store), first: &Answer, second: (&Answer, &Store)) -> Option<String> {
    let due = Answer { records: first.records + second.0.records, ..*second.0 };
    let same = *whole.0 == due && (&whole.1.tables, whole.1.counts) == (&second.1.tables, second.1.counts);
    (!same).then(|| format!("at once {:?}, in parts {first:?} and {:?}", whole.0, second.0))
}

/// What is wrong with a replay of a history's journal: all records are replayed, and what is in use is as the history
/// left it.
pub fn violated_by_history(made: &Store, records: usize, length: usize, replayed: (&Answer, &Store)) -> Option<String> {
    let (answer, after) = replayed;
    let due = Answer { stop: 1, records, end: length, counts: made.counts, ..Answer::default() };
    if *answer != due {
        return Some(format!("the journal of a history is to be answered {due:?}, not {answer:?}"));
    }
    let mut expected = after.tables.clone();
    expected.take_over(&made.tables, made.counts);
    (after.tables != expected).then(|| "a replay leaves another mesh than the history".to_string())
}
