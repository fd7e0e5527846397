//! What a run has met of journals: the records written and the lengths of buffers, why replays stopped, what they
//! replayed and were refused, from which places, and with tables of which lengths for numbers.

use crate::entry::Entry;
use crate::journal::{HEAD, HEADER, entry_at, header_numbers, is_kind, kind_at, kind_of, number_at};
use crate::journal::{record_length, size_at};
use crate::tables::{Answer, Call, Store};
use crate::twin::Twin;

#[derive(Default)]
pub struct JournalCoverage {
    /// Replays by why they stopped, and by the records that they replayed.
    pub stops: [u64; 8],
    pub records: [u64; 13],
    /// Records written, and those that did not fit, in the order of `KINDS`.
    written: [u64; 9],
    short: [u64; 9],
    /// Buffers for records, as `LENGTHS` lists them.
    lengths: [u64; 6],
    /// Headers that stopped a replay, as `HEADERS` lists them.
    headers: [u64; 9],
    /// Records replayed, and those whose calls were refused, in the order of `KINDS` without the first.
    replayed: [u64; 8],
    refused: [u64; 8],
    /// What stopped replays after their headers, as `ENDS` lists it, and two reasons at once, as `BESIDE` does.
    ends: [u64; 20],
    beside: [u64; 5],
    /// Where replays began, as `PLACES` lists it.
    places: [u64; 7],
    /// Tables for the numbers of lists and notes, as `LENGTHS` lists them.
    numbers: [u64; 6],
}

const KINDS: [&str; 9] = ["header", "load", "refine", "whole step", "list", "box", "lock", "unlock", "take-back"];
const LENGTHS: [&str; 6] = ["none", "short", "one short", "just enough", "one over", "longer"];
const HEADERS: [&str; 9] = [
    "nothing",
    "torn",
    "checksum",
    "checksum, and other slots",
    "another mark",
    "another version",
    "one of both, and other slots",
    "other vertex slots",
    "other triangle slots alone",
];
const ENDS: [&str; 20] = [
    "nothing left",
    "torn head",
    "torn body",
    "torn behind the body",
    "checksum of a head",
    "checksum of a body",
    "kind 0",
    "a kind above 8",
    "size of a load",
    "of a refine",
    "of a whole step",
    "of a list",
    "of a box",
    "of a lock",
    "of an unlock",
    "of a take-back",
    "numbers of a list",
    "numbers of a note",
    "refused at once",
    "refused later",
];
const BESIDE: [&str; 5] =
    ["4 and a torn body", "4 and a checksum", "5 and 7", "5 after a list or box", "a list or box with no spare tables"];
const PLACES: [&str; 7] = ["0", "1 to 19", "20", "a later record", "amid a record", "the end", "past the end"];

/// The place of a length in the list, beside that wanted.
fn length_place(length: usize, wanted: usize) -> usize {
    match length {
        0 if wanted > 0 => 0,
        length if length + 1 < wanted => 1,
        length if length <= wanted + 1 => length + 3 - wanted,
        _ => 5,
    }
}

/// The bytes of a journal from a place on.
fn rest(journal: &[u8], place: usize) -> &[u8] {
    journal.get(place..).unwrap_or_default()
}

/// The place in the list of what stops a replay where a header does.
fn header_place(before: &Store, journal: &[u8], stop: u32) -> usize {
    let slots = before.tables.slots().map(|slots| slots as u32);
    let due = header_numbers(slots);
    let found = [0, 4, 8, 12].map(|place| number_at(journal, place));
    let other_slots = usize::from(due[2..] != found[2..]);
    match stop {
        1 => 0,
        2 => 1,
        3 => 2 + other_slots,
        4 if other_slots == 1 => 6,
        4 => 4 + usize::from(due[0] == found[0]),
        _ => 7 + usize::from(due[2] == found[2]),
    }
}

/// The place in the list of what stops a replay before some bytes.
fn end_place(bytes: &[u8], answer: &Answer) -> usize {
    let (kind, size) = (kind_at(bytes) as usize, size_at(bytes));
    match answer.stop {
        1 => 0,
        2 if bytes.len() < HEAD => 1,
        2 => 2 + usize::from(bytes.len() >= HEAD + size),
        3 => 4 + usize::from(Twin::UNBROKEN.stop_at(&bytes[..HEAD]) == 2),
        4 if kind == 0 => 6,
        4 if kind > 8 => 7,
        4 => 7 + kind,
        7 => 16 + usize::from(kind == 8),
        _ => 18 + usize::from(answer.records > 0),
    }
}

impl JournalCoverage {
    /// Notes a call on the tables as they were before it, and its answer.
    pub fn note(&mut self, before: &Store, call: &Call, answer: &Answer) {
        match call {
            Call::RecordHeader { slots } => self.note_record(before, 0, Twin::UNBROKEN.header(*slots).len(), answer),
            Call::Record(entry) => {
                let length = Twin::UNBROKEN.encode(entry).len();
                self.note_record(before, kind_of(entry) as usize, length, answer);
            }
            Call::Replay { journal, at } => self.note_replay(before, journal, *at, answer),
            _ => {}
        }
    }

    fn note_record(&mut self, before: &Store, kind: usize, wanted: usize, answer: &Answer) {
        let met = if answer.written > 0 { &mut self.written } else { &mut self.short };
        met[kind] += 1;
        self.lengths[length_place(before.room.record.len(), wanted)] += 1;
    }

    fn note_replay(&mut self, before: &Store, journal: &[u8], at: usize, answer: &Answer) {
        self.stops[answer.stop as usize] += 1;
        self.records[answer.records.min(12)] += 1;
        if answer.end == 0 {
            self.headers[header_place(before, journal, answer.stop)] += 1;
            return;
        }
        self.places[start_place(journal, at)] += 1;
        let mut place = at.max(HEADER);
        let mut batches = 0;
        for _ in 0..answer.records {
            let bytes = rest(journal, place);
            self.replayed[kind_at(bytes) as usize - 1] += 1;
            batches += usize::from(matches!(kind_at(bytes), 4 | 5));
            self.note_numbers(before, &entry_at(bytes));
            place += record_length(bytes);
        }
        let bytes = rest(journal, answer.end);
        self.ends[end_place(bytes, answer)] += 1;
        let no_kind = !is_kind(kind_at(bytes), size_at(bytes));
        match answer.stop {
            2 => self.beside[0] += u64::from(no_kind && bytes.len() >= HEAD),
            3 => self.beside[1] += u64::from(no_kind && bytes.len() >= HEAD + size_at(bytes)),
            5 => {
                let kind = kind_at(bytes);
                self.refused[kind as usize - 1] += 1;
                self.beside[3] += u64::from(batches > 0);
                self.beside[4] += u64::from(answer.refusal == 17 && before.room.spares.lengths() == [0; 5]);
                self.note_numbers(before, &entry_at(bytes));
            }
            7 => {
                self.beside[2] += u64::from(refused_too(before, journal, at));
                self.note_numbers(before, &entry_at(bytes));
            }
            _ => {}
        }
    }

    /// The table that a list or a note is read into.
    fn note_numbers(&mut self, before: &Store, entry: &Entry) {
        if matches!(entry, Entry::List { .. } | Entry::TakeBack { .. }) {
            self.numbers[length_place(before.room.numbers.len(), entry.numbers())] += 1;
        }
    }

    /// The counts of what has names, with their titles.
    pub fn named(&self) -> [(&str, &[&str], &[u64]); 10] {
        [
            ("records written", &KINDS, &self.written),
            ("records without room", &KINDS, &self.short),
            ("buffers for records", &LENGTHS, &self.lengths),
            ("headers that stop replays", &HEADERS, &self.headers),
            ("records replayed", &KINDS[1..], &self.replayed),
            ("records refused", &KINDS[1..], &self.refused),
            ("ends of replays", &ENDS, &self.ends),
            ("replays with two conditions", &BESIDE, &self.beside),
            ("places that replays begin at", &PLACES, &self.places),
            ("tables for numbers", &LENGTHS, &self.numbers),
        ]
    }
}

/// The place in the list of where a replay begins.
fn start_place(journal: &[u8], at: usize) -> usize {
    match at {
        0 => 0,
        1..HEADER => 1,
        HEADER => 2,
        at if at > journal.len() => 6,
        at if at == journal.len() => 5,
        at => 3 + usize::from(!is_record_start(journal, at)),
    }
}

/// Whether records lead from the header to a place.
fn is_record_start(journal: &[u8], at: usize) -> bool {
    let mut place = HEADER;
    while place < at && Twin::UNBROKEN.stop_at(rest(journal, place)) == 0 {
        place += record_length(rest(journal, place));
    }
    place == at
}

/// Whether a replay that stops with 7 would stop with 5 there if it had a longer table.
fn refused_too(before: &Store, journal: &[u8], at: usize) -> bool {
    let mut store = before.clone();
    let end = Twin::UNBROKEN.replay(&mut store, journal, at).end;
    store.room.numbers = vec![0; journal.len()];
    let next = Twin::UNBROKEN.replay(&mut store, journal, end);
    next.stop == 5 && next.records == 0
}
