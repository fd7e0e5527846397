//! What a run has met: each refusal of each call, each rule, each kind of linked pair, each chain length over an even
//! triangle and over the boundary, each ring length of a whole step and of a limit query, halves in these, sides linked
//! to themselves, what becomes of the entries of lists, foils, boxes, locks, views, notes, reports, curves, and
//! journals.

mod table;

use std::collections::{BTreeMap, BTreeSet};

use crate::box_coverage::BoxCoverage;
use crate::claims::read_chain;
use crate::curve_coverage::CurveCoverage;
use crate::fault::Seeded;
use crate::journal_coverage::JournalCoverage;
use crate::load::linked_mesh;
use crate::lock_coverage::LockCoverage;
use crate::mesh::Mesh;
use crate::note_coverage::NoteCoverage;
use crate::refine::handle;
use crate::report_coverage::ReportCoverage;
use crate::smooth::{Fraction, fractions};
use crate::sound::{has_one_fan_each, kind};
use crate::tables::{Answer, BOUNDARY, Call, HALF_UP, Store};
use crate::view_coverage::ViewCoverage;

/// The calls, each with the refusals that it can give and 0 for none.
const CALLS: &[(&str, &[u32])] = &[
    ("load", &[0, 1, 2, 3, 4, 5, 6, 16]),
    ("refine", &[0, 1, 7, 8, 9, 11, 19]),
    ("whole step", &[0, 1, 7, 9, 11, 12, 13, 19]),
    ("ring", &[0, 1, 7, 8, 14]),
    ("position", &[0, 1, 7, 8]),
    ("limit", &[0, 1, 7, 12, 13, 15]),
    ("refine list", &[0, 1, 7, 8, 9, 11, 17, 19]),
    ("preview", &[0, 1, 7, 8, 9, 11, 17, 19]),
    ("refine box", &[0, 1, 7, 9, 11, 17, 18, 19]),
    ("lock", &[0, 1, 7, 8]),
    ("unlock", &[0, 1, 7, 8]),
    ("view point", &[0, 1, 7, 8]),
    ("view all", &[0, 1, 7, 20]),
    ("with note", &[0, 1, 7, 8, 9, 11, 19, 22]),
    ("take back", &[0, 1, 7, 21]),
    ("with report", &[0, 1, 7, 8, 9, 11, 19, 23]),
    ("with both", &[0, 1, 7, 8, 9, 11, 19, 22, 23]),
    ("list report", &[0, 1, 7, 8, 9, 11, 17, 19, 23]),
    ("preview rep.", &[0, 1, 7, 8, 9, 11, 17, 19, 23]),
    ("box report", &[0, 1, 7, 9, 11, 17, 18, 19, 23]),
    ("rim curve", &[0, 1, 7, 8, 24, 25]),
    ("record", &[0]),
    ("replay", &[0, 1, 2, 3, 4, 5, 6, 7, 8, 9, 11, 12, 13, 16, 17, 18, 19, 21]),
];

/// The longest of the lists that have to be met in every length.
pub const LONGEST_LIST: usize = 40;

/// The refusal that no call gives: a base chain that ends at the boundary is split there.
const NEVER_GIVEN: u32 = 10;

#[derive(Default)]
pub struct Coverage {
    /// By call and refusal.
    answers: BTreeMap<(usize, u32), u64>,
    /// The five kinds, at the sides of triangles that were refined.
    kinds: [u64; 6],
    /// Chains of refines carried out, over an even triangle and over the boundary, by their odd triangles.
    chains: [u64; 11],
    boundary_chains: [u64; 11],
    /// Rim splits of the triangle refined itself, by their flips.
    rim_flips: [u64; 3],
    /// Refines refused with 9, by the triangle's generation.
    too_old: [u64; 21],
    /// Sides by which chains of refines carried out enter an odd triangle.
    entered: [u64; 3],
    /// Rings of whole steps carried out, by their length.
    rings: [u64; 13],
    /// Rings of limit queries carried out, by their length.
    limit_rings: [u64; 13],
    /// Calls carried out, by the rule that they leave.
    rules: [u64; 3],
    /// Coordinates that lay half-way in whole steps and in limit queries carried out, as `HALVES` lists them.
    step_halves: [u64; 4],
    limit_halves: [u64; 4],
    /// Sides linked to themselves in tables refused with 7, by their number in the triangle.
    self_linked: [u64; 3],
    /// Lists that were carried out, by their length, and those that failed, by the place of the entry.
    list_lengths: BTreeMap<usize, u64>,
    failing_places: BTreeMap<usize, u64>,
    /// Entries of lists, as `ENTRIES` tells them apart.
    entries: [u64; 9],
    /// Spare tables of another length, in the order of the tables.
    spare_sizes: [u64; 5],
    /// Loads refused with 6, as `SIXES` lists what holds.
    sixes: [u64; 4],
    /// Calls carried out where two triangles are a fan, as `TWOS` lists them.
    twos: [u64; 2],
    boxes: BoxCoverage,
    locks: LockCoverage,
    views: ViewCoverage,
    notes: NoteCoverage,
    pub reports: ReportCoverage,
    curves: CurveCoverage,
    journals: JournalCoverage,
}

/// What a load is refused with 6 for.
const SIXES: [&str; 4] = ["vertex without triangles", "several fans", "foil alone", "foil beside others"];

/// A refine of a triangle that lies back to back with another, as it does in a foil, and a load of a cage with a
/// boundary vertex of two triangles.
const TWOS: [&str; 2] = ["refines in a foil", "loads with one on the boundary"];

/// The halves that are told apart.
const HALVES: [&str; 4] = ["rule 1, below zero", "rule 1, above", "rule 2, below zero", "rule 2, above"];

/// What becomes of an entry of a list.
const ENTRIES: [&str; 9] = [
    "refined",
    "passed over",
    "8",
    "8, made by an entry before",
    "9",
    "11",
    "11, slots taken by entries before",
    "19",
    "19, after splits of entries before",
];

const TABLES: [&str; 5] = ["positions", "corners", "links", "generations", "locks"];

/// The place of a call in the list.
fn row(call: &Call) -> usize {
    match call {
        Call::Load { .. } => 0,
        Call::Refine { .. } => 1,
        Call::WholeStep => 2,
        Call::Ring { .. } => 3,
        Call::Position { .. } => 4,
        Call::Limit => 5,
        Call::RefineList { .. } => 6,
        Call::Preview { .. } => 7,
        Call::RefineBox { .. } => 8,
        Call::SetLock { on: true, .. } => 9,
        Call::SetLock { on: false, .. } => 10,
        Call::ViewPoint { .. } => 11,
        Call::ViewTriangles => 12,
        Call::RefineNoted { .. } => 13,
        Call::TakeBack => 14,
        Call::Reported(plain) => match **plain {
            Call::Refine { .. } => 15,
            Call::RefineNoted { .. } => 16,
            Call::RefineList { .. } => 17,
            Call::Preview { .. } => 18,
            _ => 19,
        },
        Call::RimCurve { .. } => 20,
        Call::RecordHeader { .. } | Call::Record(_) => 21,
        Call::Replay { .. } => 22,
    }
}

/// Counts one more; what lies beyond the list cannot occur and is left out.
fn count(met: &mut [u64], index: usize) {
    if let Some(met) = met.get_mut(index) {
        *met += 1;
    }
}

/// The counts of the first so many numbers.
fn first_of(met: &BTreeMap<usize, u64>, length: usize) -> Vec<u64> {
    (0..length).map(|number| met.get(&number).copied().unwrap_or(0)).collect()
}

/// In a mesh without boundary a ring is as long as its vertex has triangles.
fn note_rings(met: &mut [u64], before: &Store) {
    let mut lengths = vec![0; before.counts.vertices as usize];
    for &corner in &before.tables.corners[..3 * before.counts.triangles as usize] {
        lengths[corner as usize] += 1;
    }
    lengths.into_iter().for_each(|length| count(met, length));
}

fn note_halves(met: &mut [u64; 4], before: &Store, rounded: impl Fn([Fraction; 2]) -> Fraction) {
    let mesh = Mesh::read(&before.tables, before.counts, Seeded(None));
    for half in fractions(&mesh).into_iter().map(rounded).filter(|fraction| fraction.is_half()) {
        let by_rule = if before.counts.rule == HALF_UP { 0 } else { 2 };
        count(met, by_rule + usize::from(!half.is_negative()));
    }
}

/// The mesh of a cage that passes 2 to 5.
fn mesh_in(store: &Store, rule: u32, cage: &[u8]) -> Option<Mesh> {
    linked_mesh(cage, rule, store.tables.slots(), Seeded(None)).ok()
}

impl Coverage {
    /// Notes a call on the tables as they were before it, and its answer.
    pub fn note(&mut self, before: &Store, call: &Call, answer: &Answer) {
        *self.answers.entry((row(call), answer.refusal)).or_default() += 1;
        if call.is_of_journal() {
            return self.journals.note(before, call, answer);
        }
        if answer.refusal == 0 {
            count(&mut self.rules, answer.counts.rule as usize);
        }
        self.locks.note(before, call, answer);
        self.views.note(before, call, answer);
        self.notes.note(before, call, answer);
        self.reports.note(before, call, answer);
        self.curves.note(before, call, answer);
        match (call, answer.refusal) {
            (&Call::Refine { triangle }, 0) => self.note_refine(before, triangle as usize, answer),
            (&Call::Refine { triangle }, 9) => {
                count(&mut self.too_old, usize::from(before.tables.generations[triangle as usize]));
            }
            (Call::WholeStep, 0) => {
                note_rings(&mut self.rings, before);
                note_halves(&mut self.step_halves, before, |[moved, _]| moved);
            }
            (Call::Limit, 0) => {
                note_rings(&mut self.limit_rings, before);
                note_halves(&mut self.limit_halves, before, |[_, limit]| limit);
            }
            (Call::Load { rule, cage }, 6) => self.note_six(before, *rule, cage),
            (Call::Load { rule, cage }, 0) => self.note_load(before, *rule, cage),
            (_, 7) => self.note_self_linked(before),
            (Call::RefineList { .. } | Call::RefineBox { .. }, 17) => self.note_spare_sizes(before),
            (Call::RefineList { list }, 0 | 8 | 9 | 11 | 19) => self.note_list(before, list, answer),
            (Call::RefineBox { bounds, below }, 18) => self.boxes.note_refused(bounds, *below),
            (Call::RefineBox { bounds, below }, 0 | 9 | 11 | 19) => self.boxes.note(before, bounds, *below, answer),
            _ => {}
        }
    }

    fn note_refine(&mut self, before: &Store, triangle: usize, answer: &Answer) {
        let tables = &before.tables;
        let chain = read_chain(tables, triangle);
        count(if chain.ends_at_boundary { &mut self.boundary_chains } else { &mut self.chains }, chain.odd);
        if chain.ends_at_boundary && chain.odd == 1 {
            count(&mut self.rim_flips, answer.flips as usize);
        }
        chain.entered_by.iter().for_each(|&side| count(&mut self.entered, side));
        let across = |side: usize| tables.links[3 * triangle + side] / 3;
        let back_to_back = across(0) == across(1) && across(1) == across(2) && tables.links[3 * triangle] != BOUNDARY;
        self.twos[0] += u64::from(back_to_back);
        let end = |side: usize| (tables.generations[side / 3], side % 3);
        for side in 3 * triangle..3 * triangle + 3 {
            let link = tables.links[side];
            if link != BOUNDARY {
                count(&mut self.kinds, kind(end(side), end(link as usize)).unwrap_or(0));
            }
        }
    }

    fn note_spare_sizes(&mut self, before: &Store) {
        let lengths = before.tables.lengths().into_iter().zip(before.room.spares.lengths());
        for (table, _) in lengths.enumerate().filter(|(_, (length, spare))| length != spare) {
            count(&mut self.spare_sizes, table);
        }
    }

    fn note_list(&mut self, before: &Store, list: &[u32], answer: &Answer) {
        let start = Mesh::read(&before.tables, before.counts, Seeded(None));
        let done = handle(&start, list, before.tables.slots());
        self.entries[0] += done.refined.len() as u64;
        self.entries[1] += (done.entries - done.refined.len()) as u64;
        if answer.refusal == 0 {
            *self.list_lengths.entry(list.len()).or_default() += 1;
            return;
        }
        *self.failing_places.entry(answer.handled).or_default() += 1;
        let made = answer.spares.triangles > before.counts.triangles;
        let kind = match answer.refusal {
            8 => 2 + usize::from(list[answer.handled] < answer.spares.triangles),
            9 => 4,
            11 => 5 + usize::from(made),
            _ => 7 + usize::from(made),
        };
        count(&mut self.entries, kind);
    }

    fn note_six(&mut self, before: &Store, rule: u32, cage: &[u8]) {
        let Some(mesh) = mesh_in(before, rule, cage) else {
            return;
        };
        let unused = mesh.leaving_sides().iter().any(Vec::is_empty);
        let reason = match (unused, has_one_fan_each(&mesh), mesh.triangles.len()) {
            (true, ..) => 0,
            (false, false, _) => 1,
            (false, true, 2) => 2,
            (false, true, _) => 3,
        };
        count(&mut self.sixes, reason);
    }

    fn note_load(&mut self, before: &Store, rule: u32, cage: &[u8]) {
        let mesh = mesh_in(before, rule, cage);
        let two = mesh.is_some_and(|mesh| mesh.leaving_sides().iter().any(|leaving| leaving.len() == 2));
        self.twos[1] += u64::from(two);
    }

    fn note_self_linked(&mut self, before: &Store) {
        let in_use = (0..before.counts.triangles as usize).zip(before.tables.links.chunks_exact(3));
        for (triangle, links) in in_use {
            for (number, &link) in links.iter().enumerate() {
                if link as usize == 3 * triangle + number {
                    count(&mut self.self_linked, number);
                }
            }
        }
    }

    /// The refusals that have a number or were met.
    fn refusals(&self) -> BTreeSet<u32> {
        let possible = CALLS.iter().flat_map(|(_, possible)| possible.iter().copied());
        possible.chain([NEVER_GIVEN]).chain(self.answers.keys().map(|&(_, refusal)| refusal)).collect()
    }

    /// What can occur and was never met, and what was met although it cannot occur.
    pub fn gaps(&self) -> Vec<String> {
        let mut gaps = Vec::new();
        for (number, (call, possible)) in CALLS.iter().enumerate() {
            for refusal in self.refusals() {
                let met = self.answers.contains_key(&(number, refusal));
                if met != possible.contains(&refusal) {
                    let what = if met { "met, but not in its order" } else { "never met" };
                    gaps.push(format!("{call} {refusal}: {what}"));
                }
            }
        }
        let mut expect = |name: &str, met: &[u64], from: usize| {
            for (number, _) in met.iter().enumerate().skip(from).filter(|(_, count)| **count == 0) {
                gaps.push(format!("{name} {number}: never met"));
            }
        };
        expect("kind of linked pair", &self.kinds, 1);
        expect("chain over an even triangle, length", &self.chains, 0);
        expect("chain over the boundary, length", &self.boundary_chains, 1);
        expect("flips of a rim split", &self.rim_flips, 0);
        expect("refine refused with 9, generation", &self.too_old, 19);
        expect("chain entering by side", &self.entered, 1);
        expect("ring in a whole step, length", &self.rings, 2);
        expect("ring in a limit query, length", &self.limit_rings, 2);
        expect("call by rule", &self.rules, 1);
        expect("side linked to itself, number", &self.self_linked, 0);
        expect("box carried out, generation", &self.boxes.generations, 0);
        expect("note written, slots", &self.notes.slots, 1);
        expect("report of a refine, splits", &self.reports.splits, 1);
        expect("report of a refine, flips", &self.reports.flips, 0);
        expect("curve of a rim, vertices", &self.curves.vertices, 2);
        expect("coordinate of a curve, 27ths over", &self.curves.rests, 0);
        expect("replay that stops with", &self.journals.stops, 1);
        expect("replay, records", &self.journals.records, 0);
        expect("list carried out, length", &first_of(&self.list_lengths, LONGEST_LIST + 1), 0);
        expect("entry of a list that fails, place", &first_of(&self.failing_places, LONGEST_LIST), 0);
        for (title, names, met) in self.named() {
            let missed = names.iter().zip(met).filter(|(_, met)| **met == 0);
            gaps.extend(missed.map(|(name, _)| format!("{title}, {name}: never met")));
        }
        gaps
    }

    /// The counts of what has names, with their titles.
    fn named(&self) -> Vec<(&str, &[&str], &[u64])> {
        let mut named: Vec<(&str, &[&str], &[u64])> = vec![
            ("loads refused with 6", &SIXES, &self.sixes),
            ("fans of two triangles", &TWOS, &self.twos),
            ("halves in whole steps", &HALVES, &self.step_halves),
            ("halves in limit queries", &HALVES, &self.limit_halves),
            ("entries of lists", &ENTRIES, &self.entries),
            ("spare tables of other lengths", &TABLES, &self.spare_sizes),
        ];
        named.extend(self.boxes.named());
        named.extend(self.locks.named());
        named.extend(self.views.named());
        named.extend(self.notes.named());
        named.extend(self.reports.named());
        named.extend(self.curves.named());
        named.extend(self.journals.named());
        named
    }
}
