//! The comparison: two services get the same call on the same tables, and everything they return and leave is
//! compared; then the second gets the mirror images of the call.

use std::fmt::Debug;
use std::fs;
use std::path::PathBuf;

use crate::case::Case;
use crate::claims::{violated_by_box, violated_by_list, violated_by_preview, violated_by_refine};
use crate::coverage::Coverage;
use crate::curved::violated_by_curve;
use crate::journaled::violated_by_journal;
use crate::locked::violated_by_lock;
use crate::mirror;
use crate::noted::{violated_beside_plain, violated_by_note, violated_by_repeat, violated_by_return};
use crate::reported::{violated_beside_unreported, violated_by_report};
use crate::tables::{Answer, Call, Counts, HALF_AWAY, HALF_UP, Service, Store, Tables};
use crate::viewed::violated_by_view;

/// A case on which the services differ, or on which a claim of demand 3 fails.
#[derive(Debug)]
pub struct Difference {
    pub what: String,
    pub case: Case,
}

/// The end of a part of the run: the first difference stops it.
pub type Outcome<T = ()> = Result<T, Box<Difference>>;

pub struct Bench<'a> {
    twin: &'a dyn Service,
    other: &'a dyn Service,
    /// Each case is left in this file before it runs, for a library that does not come back.
    pub watch: Option<PathBuf>,
    pub coverage: Coverage,
    pub comparisons: u64,
    /// Calls of the other service on mirror images.
    pub mirrored: u64,
}

impl<'a> Bench<'a> {
    pub fn new(twin: &'a dyn Service, other: &'a dyn Service) -> Bench<'a> {
        Bench { twin, other, watch: None, coverage: Coverage::default(), comparisons: 0, mirrored: 0 }
    }

    /// Runs one call on both services and leaves the store as the call leaves it. A list is previewed first, a refine
    /// with a note is taken back in a copy, what is taken back is made again there, and what is made with a report is
    /// made without one there.
    pub fn compare(&mut self, store: &mut Store, call: &Call) -> Outcome<Answer> {
        match call {
            Call::RefineList { list } => self.compare_previewed(store, call, &Call::Preview { list: list.clone() }),
            Call::RefineNoted { triangle } => self.compare_noted(store, *triangle),
            Call::TakeBack => self.compare_taken_back(store),
            Call::Reported(plain) => self.compare_reported(store, call, plain),
            _ => self.compare_once(store, call),
        }
    }

    /// Previews a list, and previews it again, which has to give the same again. Then carries it out, with the spare
    /// tables as the previews left them, and as they are lent.
    fn compare_previewed(&mut self, store: &mut Store, call: &Call, preview: &Call) -> Outcome<Answer> {
        let mut previewed = store.clone();
        let foreseen = self.compare_once(&mut previewed, preview)?;
        let mut again = previewed.clone();
        if (self.compare_once(&mut again, preview)?, &again) != (foreseen, &previewed) {
            return Err(difference("a preview again is another".to_string(), previewed, preview));
        }
        self.compare_foreseen(&mut again, call, (&foreseen, &previewed))?;
        self.compare_foreseen(store, call, (&foreseen, &previewed))
    }

    /// Carries a list out, and compares what comes of it with what was foreseen, too.
    fn compare_foreseen(&mut self, store: &mut Store, call: &Call, previewed: (&Answer, &Store)) -> Outcome<Answer> {
        let before = store.clone();
        let answer = self.compare_once(store, call)?;
        match violated_by_preview(previewed, (&answer, store)) {
            Some(what) => Err(difference(what, before, call)),
            None => Ok(answer),
        }
    }

    /// Makes a call with a report, a list with one after previews with the same, and in a copy without one, which has
    /// to be the same.
    fn compare_reported(&mut self, store: &mut Store, call: &Call, plain: &Call) -> Outcome<Answer> {
        let (before, mut unreported) = (store.clone(), store.clone());
        let answer = match plain {
            Call::RefineList { list } => {
                self.compare_previewed(store, call, &Call::Preview { list: list.clone() }.reported())?
            }
            _ => self.compare_once(store, call)?,
        };
        let without = self.compare_once(&mut unreported, plain)?;
        match violated_beside_unreported(&before, plain, (&without, &unreported), (&answer, store)) {
            Some(what) => Err(difference(what, before, call)),
            None => Ok(answer),
        }
    }

    /// Refines with a note, and without one, which has to make the same. In a copy what was made is taken back, which
    /// has to give the mesh of before, and taken back again, which is refused.
    fn compare_noted(&mut self, store: &mut Store, triangle: u32) -> Outcome<Answer> {
        let (before, call) = (store.clone(), Call::RefineNoted { triangle });
        let answer = self.compare_once(store, &call)?;
        let mut plain = before.clone();
        let without_note = self.compare_once(&mut plain, &Call::Refine { triangle })?;
        if let Some(what) = violated_beside_plain((&without_note, &plain), (&answer, store)) {
            return Err(difference(what, before, &call));
        }
        if answer.refusal == 0 {
            let mut returned = store.clone();
            let taken_back = self.compare_taken_back(&mut returned)?;
            if let Some(what) = violated_by_return(&before, store, (&taken_back, &returned)) {
                return Err(difference(what, store.clone(), &Call::TakeBack));
            }
            if self.compare_once(&mut returned.clone(), &Call::TakeBack)?.refusal != 21 {
                return Err(difference("a note is accepted twice".to_string(), returned, &Call::TakeBack));
            }
        }
        Ok(answer)
    }

    /// Takes a refine back, and if that is accepted makes it again in a copy, which has to give the mesh of before.
    fn compare_taken_back(&mut self, store: &mut Store) -> Outcome<Answer> {
        let before = store.clone();
        let answer = self.compare_once(store, &Call::TakeBack)?;
        if answer.refusal == 0 {
            let mut repeated = store.clone();
            let again = self.compare_once(&mut repeated, &Call::Refine { triangle: store.room.note[0] })?;
            if let Some(what) = violated_by_repeat(&before, (&again, &repeated)) {
                return Err(difference(what, before, &Call::TakeBack));
            }
        }
        Ok(answer)
    }

    /// Runs one call on both services and leaves the store as the call leaves it.
    fn compare_once(&mut self, store: &mut Store, call: &Call) -> Outcome<Answer> {
        let before = store.clone();
        if let Some(path) = &self.watch {
            let case = Case { store: before.clone(), call: call.clone() };
            fs::write(path, case.to_string()).expect("the watched case can be written");
        }
        self.comparisons += 1;
        let answered = self.answer_of_both(store, &before, call);
        answered.map_err(|what| difference(what, before, call))
    }

    /// Runs one call on both services and leaves the store as it is.
    pub fn compare_only(&mut self, store: &Store, call: &Call) -> Outcome<Answer> {
        self.compare(&mut store.clone(), call)
    }

    /// The answer of both services, with the store as they leave it, or what differs.
    fn answer_of_both(&mut self, store: &mut Store, before: &Store, call: &Call) -> Result<Answer, String> {
        let mut others = before.clone();
        let answer = self.twin.answer(store, call)?;
        let by_other = self.other.answer(&mut others, call)?;
        if let Some(apart) = Apart::first((&answer, store), (&by_other, &others)) {
            return Err(apart.told([&self.twin.name(), &self.other.name()]));
        }
        if let Some(what) = claim_violated(before, call, &answer, store) {
            return Err(what);
        }
        self.compare_mirrored(before, call, &answer, store)?;
        self.coverage.note(before, call, &answer);
        Ok(answer)
    }

    /// Compares what the other service makes of the mirror images of a call with the mirror images of what is made of
    /// the call. Rule 1 does not keep them in calls that round halves: these are compared by rule 2.
    fn compare_mirrored(&mut self, before: &Store, call: &Call, answer: &Answer, after: &Store) -> Result<(), String> {
        if before.counts.rule == HALF_UP && mirror::rounds_halves(call) {
            let before = Store { counts: Counts { rule: HALF_AWAY, ..before.counts }, ..before.clone() };
            let mut after = before.clone();
            let answer = self.other.answer(&mut after, call)?;
            return self.compare_mirrored(&before, call, &answer, &after);
        }
        for axis in mirror::AXES {
            let Some(image_of_call) = mirror::of_call(call, axis) else {
                continue;
            };
            let mut image = mirror::of_store(before, axis);
            let of_image = self.other.answer(&mut image, &image_of_call)?;
            self.mirrored += 1;
            let image_after = mirror::of_store(after, axis);
            let expected = (&mirror::of_answer(answer, axis), &image_after);
            if let Some(apart) = Apart::first(expected, (&of_image, &image)) {
                let names = ["the mirror image of the outcome", "the outcome of the mirror image"];
                return Err(format!("coordinate {axis} negated: {}", apart.told(names)));
            }
        }
        Ok(())
    }
}

/// What differs in two outcomes, and what it is in each.
struct Apart {
    what: String,
    one: String,
    other: String,
}

impl Apart {
    /// The answers, or the first entry in which what was lent differs, slots past the counts included.
    fn first(one: (&Answer, &Store), other: (&Answer, &Store)) -> Option<Apart> {
        if one.0 != other.0 {
            return Some(Apart::of("answers differ".to_string(), one.0, other.0));
        }
        let ((tables, room), (others, other_room)) = ((&one.1.tables, &one.1.room), (&other.1.tables, &other.1.room));
        Apart::tables("", tables, others)
            .or_else(|| Apart::tables("spare ", &room.spares, &other_room.spares))
            .or_else(|| Apart::entry("", "ring buffers", &room.ring, &other_room.ring))
            .or_else(|| Apart::entry("", "limit tables", &room.table, &other_room.table))
            .or_else(|| Apart::entry("", "curve tables", &room.curve, &other_room.curve))
            .or_else(|| Apart::entry("", "view tables", &room.view, &other_room.view))
            .or_else(|| Apart::entry("", "notes", &room.note, &other_room.note))
            .or_else(|| Apart::entry("", "report buffers", &room.report, &other_room.report))
            .or_else(|| Apart::entry("", "record buffers", &room.record, &other_room.record))
            .or_else(|| Apart::entry("", "tables of numbers", &room.numbers, &other_room.numbers))
    }

    fn tables(which: &str, one: &Tables, other: &Tables) -> Option<Apart> {
        Apart::entry(which, "positions", &one.positions, &other.positions)
            .or_else(|| Apart::entry(which, "corners", &one.corners, &other.corners))
            .or_else(|| Apart::entry(which, "links", &one.links, &other.links))
            .or_else(|| Apart::entry(which, "generations", &one.generations, &other.generations))
            .or_else(|| Apart::entry(which, "locks", &one.locks, &other.locks))
    }

    fn entry<T: PartialEq + Debug>(which: &str, table: &str, one: &[T], other: &[T]) -> Option<Apart> {
        let place = one.iter().zip(other).position(|(one, other)| one != other)?;
        Some(Apart::of(format!("{which}{table} differ in entry {place}"), &one[place], &other[place]))
    }

    fn of(what: String, one: &impl Debug, other: &impl Debug) -> Apart {
        Apart { what, one: format!("{one:?}"), other: format!("{other:?}") }
    }

    /// As text, the two by their names.
    fn told(&self, [one, other]: [&str; 2]) -> String {
        format!("{}\n  {one}: {}\n  {other}: {}", self.what, self.one, self.other)
    }
}

/// Boxes a difference with the case it was found on.
pub fn difference(what: String, store: Store, call: &Call) -> Box<Difference> {
    Box::new(Difference { what, case: Case { store, call: call.clone() } })
}

/// The fourth claim of demand 3, for every refine that is carried out; what every list and every box that is carried
/// out adds; that a box leaves none; that locked triangles stay as they are; that what is seen is exact; that a curve
/// is that of its rim; what is noted and taken back; what is reported; and what is recorded and replayed.
fn claim_violated(before: &Store, call: &Call, answer: &Answer, after: &Store) -> Option<String> {
    if call.is_of_journal() {
        return violated_by_journal(before, call, answer, after);
    }
    let plain = call.plain();
    let violated = match (plain, answer.refusal) {
        (&Call::Refine { triangle } | &Call::RefineNoted { triangle }, 0) => {
            violated_by_refine(before, triangle as usize, answer, after)
        }
        (Call::RefineList { .. }, 0) => violated_by_list(before, answer, after),
        (Call::RefineBox { bounds, below }, 0) => {
            violated_by_list(before, answer, after).or_else(|| violated_by_box(bounds, *below, after))
        }
        _ => None,
    };
    let violated = violated.or_else(|| violated_by_lock(before, plain, answer, after));
    let violated = violated.or_else(|| violated_by_view(before, plain, answer, after));
    let violated = violated.or_else(|| violated_by_curve(before, plain, answer, after));
    let violated = violated.or_else(|| violated_by_note(before, plain, answer, after));
    violated.or_else(|| violated_by_report(before, call, answer, after))
}
