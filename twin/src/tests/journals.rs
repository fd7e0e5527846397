//! Journals against the words of their format, and what is claimed of them.

use crate::cages;
use crate::entry::Entry;
use crate::journal::{HEADER, crc32, entry_at, header_numbers, header_of, record_length, record_of};
use crate::journal_calls::{edge_entries, journal_of, lend};
use crate::journal_examples::{HEADER_OF_5_AND_7, Refused, refused, written};
use crate::journaled::{violated_by_history, violated_by_journal, violated_by_parts};
use crate::replay::{call_of, entry_of};
use crate::rng::Rng;
use crate::tables::{Answer, Call, HALF_UP, NOTE_ENTRIES, Store};
use crate::tests::{loaded, run};
use crate::twin::Twin;

/// The tetrahedron loaded and refined twice, on tables of 20 and 40 slots.
fn some_changes() -> Vec<Entry> {
    let load = Entry::Load { rule: HALF_UP, cage: cages::tetrahedron().bytes() };
    vec![load, Entry::Refine { triangle: 0 }, Entry::List { list: vec![1, 1] }]
}

/// Tables of 20 and 40 slots, lent what a replay needs.
fn lent() -> Store {
    let rng = &mut Rng::new(81);
    let mut store = Store::junk(20, 40, rng);
    lend(&mut store, 2, rng);
    store
}

fn replayed(store: &Store, journal: &[u8], at: usize) -> (Answer, Store) {
    let mut after = store.clone();
    let answer = run(&mut after, &Call::Replay { journal: journal.to_vec(), at });
    (answer, after)
}

#[test]
fn checksums_are_those_of_zlib() {
    assert_eq!(crc32(b"123456789"), 0xCBF4_3926);
    assert_eq!([crc32(b""), crc32(&[0]), crc32(&[0; 4]), crc32(&[255; 4])], [0, 0xD202_EF8D, 0x2144_DF1C, u32::MAX]);
}

#[test]
fn records_and_headers_are_written_as_the_examples_say() {
    assert_eq!(Twin::UNBROKEN.header([5, 7]), HEADER_OF_5_AND_7);
    for (entry, bytes) in written() {
        assert_eq!(Twin::UNBROKEN.encode(&entry), bytes, "{entry:?}");
    }
}

#[test]
fn records_are_read_as_they_are_written() {
    for entry in edge_entries(&mut Rng::new(82)) {
        let record = Twin::UNBROKEN.encode(&entry);
        assert_eq!((Twin::UNBROKEN.stop_at(&record), record_length(&record)), (0, record.len()), "{entry:?}");
        assert_eq!(entry_at(&record), entry);
        let with_more = [&record[..], &[1, 2, 3]].concat();
        assert_eq!((Twin::UNBROKEN.stop_at(&with_more), entry_at(&with_more)), (0, entry.clone()));
        for length in 0..record.len() {
            let stop = if length == 0 { 1 } else { 2 };
            assert_eq!(Twin::UNBROKEN.stop_at(&record[..length]), stop, "{entry:?} cut at {length}");
        }
        let note = if let Entry::TakeBack { note } = &entry { note.clone() } else { Vec::new() };
        assert_eq!(entry_of(&call_of(&entry), &note), Some(entry));
    }
}

#[test]
fn stops_have_their_order() {
    let stop = |bytes: &[u8]| Twin::UNBROKEN.stop_at(bytes);
    let changed = |mut bytes: Vec<u8>, place: usize| {
        bytes[place] ^= 1;
        bytes
    };
    let unknown = record_of(9, &[1, 2, 3]);
    assert_eq!(stop(&unknown), 4);
    assert_eq!(stop(&unknown[..18]), 2);
    assert_eq!(stop(&changed(unknown.clone(), 18)), 3);
    assert_eq!(stop(&changed(unknown.clone(), 8)), 3);
    assert_eq!(stop(&changed(unknown, 8)[..14]), 3);
    for (kind, sizes) in [(0, vec![]), (1, (4..40).collect()), (2, vec![4]), (3, vec![0]), (5, vec![28]), (9, vec![])] {
        for size in 0..40 {
            let due = if sizes.contains(&size) { 0 } else { 4 };
            assert_eq!(stop(&record_of(kind, &vec![0; size])), due, "kind {kind}, size {size}");
        }
    }
    for (kind, size) in [4, 6, 7, 8].into_iter().flat_map(|kind| (0..40).map(move |size| (kind, size))) {
        let due = if size == 4 || size % 4 == 0 && matches!(kind, 4 | 8) { 0 } else { 4 };
        assert_eq!(stop(&record_of(kind, &vec![0; size])), due, "kind {kind}, size {size}");
    }
    let header = |numbers: [u32; 4]| Twin::UNBROKEN.header_stop([5, 7], &header_of(numbers));
    let [mark, version, ..] = header_numbers([5, 7]);
    assert_eq!(header([mark, version, 5, 7]), 0);
    assert_eq!([header([mark, 2, 5, 6]), header([mark + 1, 1, 5, 7]), header([mark, 1, 7, 5])], [4, 4, 6]);
    let spoilt = changed(header_of([mark, 2, 5, 6]), 9);
    assert_eq!([0, 19, 20].map(|length| Twin::UNBROKEN.header_stop([5, 7], &spoilt[..length])), [1, 2, 3]);
}

#[test]
fn replays_are_refused_as_the_examples_say() {
    for Refused { refusal, entry, before } in refused() {
        let rng = &mut Rng::new(83);
        let mut store = Store::junk(90, 170, rng);
        lend(&mut store, NOTE_ENTRIES, rng);
        let journal = journal_of(&store, &[&before[..], std::slice::from_ref(&entry)].concat());
        let end = journal.len() - Twin::UNBROKEN.encode(&entry).len();
        let (answer, after) = replayed(&store, &journal, 0);
        let (made, at_the_end) = replayed(&store, &journal[..end], 0);
        let due = Answer { stop: 5, refusal, records: before.len(), end, counts: made.counts, ..Answer::default() };
        assert_eq!((answer, after), (due, at_the_end), "{entry:?}");
        assert_eq!((made.stop, made.end), (1, end));
    }
}

#[test]
fn a_replay_makes_the_calls_of_its_records() {
    let (store, entries) = (lent(), some_changes());
    let journal = journal_of(&store, &entries);
    let mut made = store.clone();
    entries.iter().for_each(|entry| assert_eq!(run(&mut made, &call_of(entry)).refusal, 0));
    let (answer, after) = replayed(&store, &journal, 0);
    assert_eq!((answer.stop, answer.records, answer.end), (1, 3, journal.len()));
    assert_eq!((&after.tables, after.counts), (&made.tables, made.counts));
    assert_eq!(after.room, store.room);
    assert_eq!(violated_by_history(&made, 3, journal.len(), (&answer, &after)), None);
    // A place before the first record is that; past the journal nothing is left.
    for at in 0..=HEADER {
        assert_eq!(replayed(&store, &journal, at), (answer, after.clone()));
    }
    for at in [journal.len(), journal.len() + 1, usize::MAX] {
        let (answer, after) = replayed(&store, &journal, at);
        assert_eq!((answer.stop, answer.records, answer.end), (1, 0, at));
        assert_eq!(after, store);
    }
}

#[test]
fn claims_tell_wrong_records() {
    let mut before = loaded(&cages::tetrahedron());
    before.room.record = vec![7; 24];
    let call = Call::Record(Entry::Refine { triangle: 3 });
    let mut after = before.clone();
    let answer = run(&mut after, &call);
    let wrong = |answer: &Answer, after: &Store| violated_by_journal(&before, &call, answer, after).is_some();
    assert!(!wrong(&answer, &after));
    assert!(wrong(&Answer { written: 19, ..answer }, &after));
    for place in 0..24 {
        let mut spoilt = after.clone();
        spoilt.room.record[place] ^= 1;
        assert!(wrong(&answer, &spoilt), "byte {place}");
    }
    let mut spoilt = after.clone();
    spoilt.tables.locks[0] ^= 1;
    assert!(wrong(&answer, &spoilt));
}

#[test]
fn claims_tell_wrong_replays() {
    let before = lent();
    let journal = journal_of(&before, &some_changes());
    let (answer, after) = replayed(&before, &journal, 0);
    let call = Call::Replay { journal: journal.clone(), at: 0 };
    let wrong = |answer: &Answer, after: &Store| violated_by_journal(&before, &call, answer, after).is_some();
    assert!(!wrong(&answer, &after));
    let answers = [
        Answer { records: 2, ..answer },
        Answer { end: answer.end - 20, ..answer },
        Answer { stop: 2, ..answer },
        Answer { stop: 5, ..answer },
        Answer { refusal: 8, ..answer },
        Answer { splits: 1, ..answer },
        Answer { records: 0, end: HEADER, ..answer },
        Answer { end: 0, ..answer },
    ];
    answers.iter().for_each(|answer| assert!(wrong(answer, &after), "{answer:?}"));
    let mut spoilt = after.clone();
    spoilt.room.numbers[0] ^= 1;
    assert!(wrong(&answer, &spoilt));
    // In parts, and as a history.
    let middle = answer.end - 24;
    let (first, part) = replayed(&before, &journal[..middle + 3], 0);
    let (second, parts) = replayed(&part, &journal, first.end);
    assert_eq!((first.stop, first.end), (2, middle));
    assert_eq!(violated_by_parts((&answer, &after), &first, (&second, &parts)), None);
    assert!(violated_by_parts((&answer, &after), &second, (&second, &parts)).is_some());
    assert!(violated_by_parts((&answer, &part), &first, (&second, &parts)).is_some());
    assert!(violated_by_history(&after, 2, journal.len(), (&answer, &after)).is_some());
    assert!(violated_by_history(&part, 3, journal.len(), (&answer, &after)).is_some());
}
