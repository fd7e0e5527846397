//! Recording and replaying.

use crate::conditions::Twin;
use crate::entry::Entry;
use crate::fault::{Fault, Seeded};
use crate::journal::{HEADER, entry_at, record_length};
use crate::tables::{Answer, Call, Counts, Service, Store};

/// The call of a recorded change, but for the note of a take-back.
pub fn call_of(entry: &Entry) -> Call {
    match entry.clone() {
        Entry::Load { rule, cage } => Call::Load { rule, cage },
        Entry::Refine { triangle } => Call::Refine { triangle },
        Entry::WholeStep => Call::WholeStep,
        Entry::List { list } => Call::RefineList { list },
        Entry::Box { bounds, below } => Call::RefineBox { bounds, below },
        Entry::SetLock { triangle, on } => Call::SetLock { triangle, on },
        Entry::TakeBack { .. } => Call::TakeBack,
    }
}

/// What a call that is carried out with this note has to leave in a journal, if anything.
pub fn entry_of(call: &Call, note: &[u32]) -> Option<Entry> {
    match call.plain().clone() {
        Call::Load { rule, cage } => Some(Entry::Load { rule, cage }),
        Call::Refine { triangle } | Call::RefineNoted { triangle } => Some(Entry::Refine { triangle }),
        Call::WholeStep => Some(Entry::WholeStep),
        Call::RefineList { list } => Some(Entry::List { list }),
        Call::RefineBox { bounds, below } => Some(Entry::Box { bounds, below }),
        Call::SetLock { triangle, on } => Some(Entry::SetLock { triangle, on }),
        Call::TakeBack => Some(Entry::TakeBack { note: note.to_vec() }),
        _ => None,
    }
}

/// Why a replay stops before a record, and what its call is refused with.
struct Stopped {
    stop: u32,
    refusal: u32,
}

impl Twin {
    /// Writes what is to be recorded to the front of a buffer, or nothing where it does not fit.
    pub fn record(&self, counts: Counts, bytes: &[u8], buffer: &mut [u8]) -> Answer {
        let fits = match self.fault.0 {
            Some(Fault::ExactRecordRefused) => bytes.len() < buffer.len(),
            _ => bytes.len() <= buffer.len(),
        };
        if fits || self.fault.has(Fault::ShortRecordFilled) {
            buffer.iter_mut().zip(bytes).for_each(|(byte, &of_record)| *byte = of_record);
        }
        let rest = buffer.iter_mut().skip(bytes.len());
        match self.fault.0 {
            Some(Fault::RecordClearsRest) => rest.for_each(|byte| *byte = 0),
            Some(Fault::RecordPastLast) => rest.take(1).for_each(|byte| *byte = 0),
            _ => {}
        }
        let told = self.fault.unless(Fault::RecordTellsRoom, bytes.len(), buffer.len());
        let written = if fits || self.fault.has(Fault::ShortRecordTold) { told } else { 0 };
        Answer { written, counts, ..Answer::default() }
    }

    /// Replays a journal from a place on, or from its first record where the place is before that.
    pub fn replay(&self, store: &mut Store, journal: &[u8], at: usize) -> Answer {
        let before = store.counts;
        let untested = self.fault.has(Fault::HeaderTestedFirst) && at > HEADER;
        let stop = if untested { 0 } else { self.header_stop(store.tables.slots(), journal) };
        if stop != 0 {
            let end = self.fault.unless(Fault::HeaderStopsBehind, 0, HEADER.min(journal.len()));
            return Answer { stop, end, counts: before, ..Answer::default() };
        }
        let room = store.room.clone();
        let first = if self.fault.has(Fault::PlaceAsGiven) { at } else { at.max(HEADER) };
        let (mut end, mut records) = (first, 0);
        let Stopped { stop, refusal } = loop {
            match self.replay_next(store, journal.get(end..).unwrap_or_default()) {
                Ok(length) => {
                    end += length;
                    records += 1;
                }
                Err(stopped) => break stopped,
            }
        };
        store.room = room;
        let refused = usize::from(stop == 5);
        let answer = Answer { stop, refusal, records, end, counts: store.counts, ..Answer::default() };
        match self.fault.0 {
            Some(Fault::RefusedCounted) => Answer { records: records + refused, ..answer },
            Some(Fault::RefusedEndPassed) if stop == 5 => {
                Answer { end: end + record_length(&journal[end..]), ..answer }
            }
            Some(Fault::RefusalUntold) => Answer { refusal: 0, ..answer },
            Some(Fault::EndFromPlace) => Answer { end: end - first, ..answer },
            Some(Fault::EndOneOff) => Answer { end: end + 1, ..answer },
            Some(Fault::RecordsOneOff) => Answer { records: records + 1, ..answer },
            Some(Fault::EndCutToJournal) => Answer { end: end.min(journal.len()), ..answer },
            Some(Fault::ReplayKeepsRule) => Answer { counts: Counts { rule: before.rule, ..answer.counts }, ..answer },
            _ => answer,
        }
    }

    /// Replays the record at the front of some bytes, and answers its length.
    fn replay_next(&self, store: &mut Store, bytes: &[u8]) -> Result<usize, Stopped> {
        let stop = self.stop_at(bytes);
        if stop != 0 {
            return Err(Stopped { stop, refusal: 0 });
        }
        let entry = entry_at(bytes);
        if !self.numbers_fit(entry.numbers(), store.room.numbers.len()) {
            let refused_first = self.fault.has(Fault::RefusedBeforeNumbers);
            let refusal = if refused_first { self.again(&mut store.clone(), &entry) } else { 0 };
            return Err(Stopped { stop: if refusal == 0 { 7 } else { 5 }, refusal });
        }
        let refusal = self.again(store, &entry);
        if refusal != 0 && !self.fault.has(Fault::RefusedPassedOver) {
            return Err(Stopped { stop: 5, refusal });
        }
        Ok(record_length(bytes))
    }

    /// The opposite of stop 7.
    fn numbers_fit(&self, wanted: usize, length: usize) -> bool {
        match self.fault.0 {
            Some(Fault::NumbersExactRefused) => wanted < length || wanted == 0,
            Some(Fault::NumbersShortByOne) => wanted <= length + 1,
            Some(Fault::NumbersAlwaysWanted) => wanted <= length && length > 0,
            _ => wanted <= length,
        }
    }

    /// Makes the call of a recorded change, and answers its refusal.
    fn again(&self, store: &mut Store, entry: &Entry) -> u32 {
        let mut call = call_of(entry);
        match (entry, self.fault.0) {
            (Entry::SetLock { triangle, .. }, Some(Fault::ReplayUnlockLocks)) => {
                call = Call::SetLock { triangle: *triangle, on: true };
            }
            (Entry::List { list }, Some(Fault::ListReplayedSingly)) => {
                let each = list.iter().map(|&triangle| Call::Refine { triangle });
                return each.map(|refine| self.refusal(store, &refine)).find(|&refusal| refusal != 0).unwrap_or(0);
            }
            (Entry::List { .. } | Entry::Box { .. }, Some(Fault::RefusedReplayLeaves)) => {
                return Twin { fault: Seeded(Some(Fault::FailedListWrites)) }.refusal(store, &call);
            }
            (Entry::TakeBack { note }, _) => store.room.note.clone_from(note),
            _ => {}
        }
        self.refusal(store, &call)
    }

    fn refusal(&self, store: &mut Store, call: &Call) -> u32 {
        self.answer(store, call).expect("the twin stays inside").refusal
    }
}
