//! What a run has met of reports: the splits and flips in them and what slots these write, how they are joined, the
//! lengths of buffers, what other condition holds beside 23, and after which calls a viewer has drawn anew.

use std::collections::BTreeMap;

use crate::fault::Seeded;
use crate::locked::locked_triangles;
use crate::mesh::{Mesh, Operation};
use crate::refine::{handle, operations};
use crate::tables::{Answer, Call, Store};

#[derive(Default)]
pub struct ReportCoverage {
    /// Reports of refines, by their splits and by their flips.
    pub splits: [u64; 11],
    pub flips: [u64; 13],
    /// Splits in reports, as `SPLITS` tells them apart with their flips.
    made: [u64; 7],
    /// Reports with such slots, as `SLOTS` lists them.
    slots: [u64; 8],
    /// Reports, as `JOINED` lists what they are made of.
    joined: [u64; 10],
    /// Buffers of calls that are carried out or refused with 23, as `CALLS` and `LENGTHS` list them.
    lengths: [[u64; 6]; 5],
    /// Calls refused otherwise while the buffer is too short, as `BESIDE` lists them.
    beside: [u64; 11],
    /// Calls after which a viewer has drawn anew, as `REDRAWN` lists them.
    redrawn: [u64; 7],
}

const SPLITS: [&str; 7] = [
    "face split",
    "face split with one flip",
    "face split with two",
    "face split with three",
    "rim split",
    "rim split with one flip",
    "rim split with two",
];
const SLOTS: [&str; 8] = [
    "s the split's own",
    "s slot F",
    "s slot F+1",
    "u made by the call",
    "made by the call and split",
    "twice",
    "three times or more",
    "some in use locked",
];
const JOINED: [&str; 10] = [
    "nothing",
    "chain over an even triangle",
    "chain over the boundary",
    "list of one refine",
    "list of several",
    "list with entries passed over",
    "preview of one refine",
    "preview of several",
    "box of one refine",
    "box of several",
];
const CALLS: [&str; 5] = [
    "report buffers of refines",
    "report buffers of refines with a note",
    "report buffers of lists",
    "report buffers of previews",
    "report buffers of boxes",
];
const LENGTHS: [&str; 6] = ["none", "short", "one short", "just enough", "one over", "longer"];
const BESIDE: [&str; 11] = [
    "1 and no entries",
    "17 and no entries",
    "18 and no entries",
    "7 and no entries",
    "8 and no entries",
    "9 and no entries",
    "11",
    "19",
    "22",
    "an entry that fails",
    "a refine of a box that fails",
];
const REDRAWN: [&str; 7] = ["refine", "refine with a note", "list", "box", "take-back", "load", "whole step"];

fn is_flip(operation: &Operation) -> bool {
    matches!(operation, Operation::Flip { .. })
}

/// The entries of a report.
fn entries(made: &[Operation]) -> Vec<usize> {
    made.iter().flat_map(|operation| operation.written()).collect()
}

impl ReportCoverage {
    /// Notes a call on the tables as they were before it, and its answer.
    pub fn note(&mut self, before: &Store, call: &Call, answer: &Answer) {
        let Call::Reported(plain) = call else {
            return;
        };
        if !matches!(answer.refusal, 0 | 23) {
            return self.note_refused(before, plain, answer.refusal);
        }
        let made = operations(before, plain);
        self.note_length(plain, before.room.report.len(), entries(&made).len());
        if answer.refusal == 0 {
            made.chunk_by(|_, next| is_flip(next)).for_each(|split| self.note_split(split));
            self.note_slots(before, &made);
            self.note_joined(before, plain, answer, &made);
        }
    }

    /// Notes what else is refused while the buffer is too short.
    fn note_refused(&mut self, before: &Store, plain: &Call, refusal: u32) {
        let one = matches!(plain, Call::Refine { .. } | Call::RefineNoted { .. });
        let place = match refusal {
            1 => 0,
            17 => 1,
            18 => 2,
            7 => 3,
            8 if one => 4,
            9 if one => 5,
            11 if one => 6,
            19 if one => 7,
            22 => 8,
            _ => 9 + usize::from(matches!(plain, Call::RefineBox { .. })),
        };
        let wanted = if place < 6 { 1 } else { entries(&operations(before, plain)).len() };
        self.beside[place] += u64::from(before.room.report.len() < wanted);
    }

    fn note_length(&mut self, plain: &Call, length: usize, wanted: usize) {
        let place = match length {
            0 if wanted > 0 => 0,
            length if length + 1 < wanted => 1,
            length if length <= wanted + 1 => length + 3 - wanted,
            _ => 5,
        };
        let call = match plain {
            Call::Refine { .. } => 0,
            Call::RefineNoted { .. } => 1,
            Call::RefineList { .. } => 2,
            Call::Preview { .. } => 3,
            _ => 4,
        };
        self.lengths[call][place] += 1;
    }

    /// Notes a split with its flips.
    fn note_split(&mut self, split: &[Operation]) {
        let first = if matches!(split[0], Operation::RimSplit { .. }) { 4 } else { 0 };
        self.made[first + split.len() - 1] += 1;
        let new = split[0].written();
        for operation in &split[1..] {
            let s = operation.written()[0];
            self.slots[new.iter().position(|&slot| slot == s).expect("s is of the split")] += 1;
        }
    }

    fn note_slots(&mut self, before: &Store, made: &[Operation]) {
        let is_new = |slot: usize| slot >= before.triangles();
        let mut times: BTreeMap<usize, usize> = BTreeMap::new();
        entries(made).into_iter().for_each(|slot| *times.entry(slot).or_default() += 1);
        let met = [
            made.iter().any(|&operation| is_flip(&operation) && is_new(operation.written()[1])),
            made.iter().any(|&operation| !is_flip(&operation) && is_new(operation.written()[0])),
            times.values().any(|&times| times == 2),
            times.values().any(|&times| times > 2),
            !made.is_empty() && !locked_triangles(before).is_empty(),
        ];
        for (count, met) in self.slots[3..].iter_mut().zip(met) {
            *count += u64::from(met);
        }
    }

    fn note_joined(&mut self, before: &Store, plain: &Call, answer: &Answer, made: &[Operation]) {
        self.joined[0] += u64::from(made.is_empty());
        match plain {
            Call::Refine { .. } | Call::RefineNoted { .. } => {
                self.splits[answer.splits as usize] += 1;
                self.flips[answer.flips as usize] += 1;
                let at_boundary = matches!(made[0], Operation::RimSplit { .. });
                self.joined[1 + usize::from(at_boundary)] += u64::from(answer.splits > 1);
            }
            Call::RefineList { list } | Call::Preview { list } => {
                let start = Mesh::read(&before.tables, before.counts, Seeded(None));
                let refines = handle(&start, list, before.tables.slots()).refined.len();
                let first = if matches!(plain, Call::Preview { .. }) { 6 } else { 3 };
                self.joined[first + usize::from(refines > 1)] += u64::from(refines > 0);
                self.joined[5] += u64::from(first == 3 && refines > 0 && refines < list.len());
            }
            _ => self.joined[8 + usize::from(answer.handled > 1)] += u64::from(answer.handled > 0),
        }
    }

    /// Notes a call that a viewer has drawn anew after.
    pub fn note_redrawn(&mut self, call: &Call, answer: &Answer) {
        let place = match call.plain() {
            Call::Refine { .. } => 0,
            Call::RefineNoted { .. } => 1,
            Call::RefineList { .. } if answer.splits > 1 => 2,
            Call::RefineBox { .. } if answer.splits > 1 => 3,
            Call::TakeBack => 4,
            Call::Load { .. } => 5,
            Call::WholeStep => 6,
            _ => return,
        };
        self.redrawn[place] += u64::from(answer.refusal == 0);
    }

    /// The counts of what has names, with their titles.
    pub fn named(&self) -> Vec<(&str, &[&str], &[u64])> {
        let mut named: Vec<(&str, &[&str], &[u64])> = vec![
            ("splits in reports", &SPLITS, &self.made),
            ("slots in reports", &SLOTS, &self.slots),
            ("reports written", &JOINED, &self.joined),
        ];
        named.extend(CALLS.iter().zip(&self.lengths).map(|(title, met)| (*title, &LENGTHS[..], &met[..])));
        named.push(("refusals with a report buffer that is too short", &BESIDE, &self.beside));
        named.push(("redraws by reports", &REDRAWN, &self.redrawn));
        named
    }
}
