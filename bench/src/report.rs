//! The table.

use crate::cases::{
    BACKS, BATCHES_REPORTED, BOXES, CURVES, Case, LIMITS, LISTS, NOTED, ONE_BY_ONE, PREVIEWS, RECORDS,
    REFINES_REPORTED, REPLAYS, VIEW, is_listed,
};
use crate::measure::{Counted, Timed};

/// Instructions of a C program without proofs, written by an expert, for closed meshes in order.
const EXPERT: [(&str, usize, u64); 4] = [
    ("load", 64_980, 20_600_000),
    ("soundness", 2_000, 360_000),
    ("soundness", 64_980, 11_700_000),
    ("whole step", 21_780, 9_800_000),
];
/// How many times the expert's instructions a call may take.
const MOST_TIMES: f64 = 1.0;
/// How many instructions calls may take in all.
const MOST_IN_ALL: [(&str, usize, u64); 2] = [("load", 4, 4_000), ("whole step", 21_780, 8_700_000)];
/// How many instructions beyond those of soundness a refine, a lock, a ring or a position, in millimetres or not, may
/// take, and limit positions and a view of all triangles for each triangle.
const MOST_BEYOND: u64 = 3_000;
/// The same for a refine with a note, and how many times soundness a take-back may take.
const MOST_WITH_NOTE: u64 = 4_500;
const MOST_TO_TAKE_BACK: u64 = 3;
const MOST_FOR_EACH: u64 = 150;
const MOST_TO_SHOW: u64 = 90;
/// A curve, beyond soundness: for each vertex of the rim, and for each triangle about it.
const MOST_TO_CURVE: u64 = 200;
const MOST_TO_TURN: u64 = 20;
/// How many instructions the limit positions of a tetrahedron may take, with soundness.
const MOST_OF_SMALL: u64 = 3_500;
/// How many instructions beyond those of soundness a list may take: for each triangle in use, to copy it to the spare
/// tables and back, for each split and for each entry.
const MOST_TO_COPY: u64 = 75;
const MOST_TO_SPLIT: u64 = 450;
const MOST_TO_HANDLE: u64 = 60;
/// A box, beside the copies: for each triangle in use, to look at it, and for each split.
const MOST_TO_LOOK: u64 = 40;
const MOST_TO_SPLIT_IN_BOX: u64 = 1_200;
/// How many instructions more a call with a report may take for each split. A list or a box may take the rest twice.
const MOST_TO_REPORT: u64 = 60;
/// How many instructions a replay of 10,000 refines may take, with soundness, and any beyond it for each split.
const MOST_OF_REPLAY: u64 = 30_000_000;
const MOST_TO_REPLAY: u64 = 1_500;

const HEADS: [&str; 13] = [
    "call",
    "triangles",
    "order",
    "library",
    "beyond soundness",
    "expert",
    "library / expert",
    "fast",
    "library / fast",
    "scan",
    "library, µs",
    "fast, µs",
    "scan, µs",
];

pub fn print(cases: &[Case], counts: Option<&[Counted]>, times: &[Timed]) {
    println!("| {} |", HEADS.join(" | "));
    println!("|---|--:|---|{}", "--:|".repeat(HEADS.len() - 3));
    for (i, case) in cases.iter().enumerate() {
        let order = if case.shuffled { "shuffled" } else { "in order" };
        let counted = counts.map_or_else(Default::default, |counts| count_columns(i, cases, counts));
        let [library, _, fast, scan] = times[i].map(microseconds);
        let triangles = thousands(case.triangles as u64);
        let counted = counted.join(" | ");
        println!("| {} | {triangles} | {order} | {counted} | {library} | {fast} | {scan} |", case.name);
    }
    println!("\nA figure above its bound is bold.");
    if let Some(counts) = counts {
        println!("\n{}", shares("Lists", LISTS, cases, counts));
        println!("{}", shares("Previews", PREVIEWS, cases, counts));
        println!("{}", shares_of_boxes(cases, counts));
        println!("{}", shares_of_curves(cases, counts));
        println!("{}", shares_of_view(cases, counts));
        println!("{}", shares_of_reports(cases, counts));
        println!("{}", shares_of_replays(cases, counts));
        println!("{}", shares_of_records(cases, counts));
    }
    println!("{}", speed_of_records(cases, times));
}

/// What lists take beyond soundness, by triangle in use, by split and by entry that is passed over: the differences of
/// the list of one triangle, that of as many as there are entries, and that of one triangle as often, in order.
fn shares(title: &str, names: [&str; 4], cases: &[Case], counts: &[Counted]) -> String {
    let [(one, case), (many, long), (again, _)] =
        [names[0], names[2], names[3]].map(|name| beyond(name, cases, counts));
    let more = long.lent.list.len() as f64 - 1.0;
    let (entry, split) = ((again - one) / more, (many - again) / more);
    let copies = (one - split - entry) / case.triangles as f64;
    format!("{title}: {copies:.1} for each triangle in use, {split:.1} for each split, {entry:.1} for each entry.")
}

/// What boxes take beyond soundness, by triangle in use and by split: the box of nothing, and the difference of that of
/// a twentieth to it, in order.
fn shares_of_boxes(cases: &[Case], counts: &[Counted]) -> String {
    let [(nothing, case), (some, boxed)] = [BOXES[0], BOXES[1]].map(|name| beyond(name, cases, counts));
    let (triangle, split) = (nothing / case.triangles as f64, (some - nothing) / boxed.splits_made() as f64);
    format!("Boxes: {triangle:.1} for each triangle in use, {split:.1} for each split.")
}

/// What a curve takes beyond soundness, by vertex of the rim and by triangle about it: the difference of the largest
/// cylinder and the largest disc, in order.
fn shares_of_curves(cases: &[Case], counts: &[Counted]) -> String {
    let [(three, most), (two, least)] = [CURVES[1], CURVES[2]].map(|name| {
        let (beyond, case) = beyond(name, cases, counts);
        let [vertices, triangles] = case.rim().map(|count| count as f64);
        (beyond / vertices, triangles / vertices)
    });
    let triangle = (three - two) / (most - least);
    format!(
        "Curves: {:.1} for each vertex of the rim, {triangle:.1} for each triangle about it.",
        two - least * triangle
    )
}

/// What a view takes for each triangle of the largest mesh, in order: soundness, and beyond it.
fn shares_of_view(cases: &[Case], counts: &[Counted]) -> String {
    let place = largest(VIEW, cases);
    let [library, soundness, ..] = counts[place].map(|count| count as f64 / cases[place].triangles as f64);
    format!("Views: {soundness:.1} for each triangle in use to find it sound, {:.1} to show it.", library - soundness)
}

/// What a report takes more, in order: of refines for each split; of lists, previews and boxes, by the differences of
/// those with few splits to those with many, for each call and for each split.
fn shares_of_reports(cases: &[Case], counts: &[Counted]) -> String {
    let more = |name: &str| {
        let (reported, case) = beyond(name, cases, counts);
        (reported - beyond(case.plain, cases, counts).0, case.splits_made() as f64)
    };
    let [even, one, two, three, chain, rim, rim_chain, noted] =
        REFINES_REPORTED.map(more).map(|(more, splits)| more / splits);
    let batches = BATCHES_REPORTED.map(|names| {
        let [(few, fewer), (many, splits)] = names.map(more);
        let split = (many - few) / (splits - fewer);
        format!("{:.0} and {split:.1}", few - fewer * split)
    });
    let [list, preview, panel] = batches;
    format!(
        "Reports: {even:.1} more for the split of an even triangle, {one:.1} with one flip, {two:.1} with two, \
         {three:.1} with three; {rim:.1} for a rim split; for each split of a chain of 10 {chain:.1}, at the boundary \
         {rim_chain:.1}, with a note {noted:.1}; for each call and each split, {list} more of a list, {preview} of a \
         preview, {panel} of a box."
    )
}

/// What a replay takes beyond soundness for each refine in order, by the difference of the few to the many, and what a
/// refine takes by a call of its own, with soundness.
fn shares_of_replays(cases: &[Case], counts: &[Counted]) -> String {
    let [(few, short), (many, long)] = REPLAYS.map(|name| beyond(name, cases, counts));
    let refine = (many - few) / (long.lent.list.len() - short.lent.list.len()) as f64;
    let place = largest(ONE_BY_ONE, cases);
    let alone = counts[place][0] as f64 / cases[place].lent.list.len() as f64;
    format!("Replays: {refine:.1} for each refine; by a call of its own it takes {alone:.0}.")
}

/// What a record takes for each byte of the largest cage, library and fast.
fn shares_of_records(cases: &[Case], counts: &[Counted]) -> String {
    let place = largest(RECORDS[0], cases);
    let [library, _, fast, _] = counts[place].map(|count| count as f64 / cases[place].lent.record.len() as f64);
    format!("Records: {library:.2} for each byte of a load's, {fast:.2} fast.")
}

/// The same in megabytes a second, by the wall time.
fn speed_of_records(cases: &[Case], times: &[Timed]) -> String {
    let place = largest(RECORDS[0], cases);
    let [library, _, fast, _] = times[place].map(|time| cases[place].lent.record.len() as f64 / time);
    format!("Records: {library:.0} MB/s of a load's, {fast:.0} MB/s fast.")
}

/// What a case takes in order beyond soundness, and the case.
fn beyond<'a>(name: &str, cases: &'a [Case], counts: &[Counted]) -> (f64, &'a Case) {
    let place = largest(name, cases);
    let [library, soundness, ..] = counts[place];
    (library as f64 - soundness as f64, &cases[place])
}

/// The place of the case with the largest mesh in order.
fn largest(name: &str, cases: &[Case]) -> usize {
    cases.iter().rposition(|case| case.name == name && !case.shuffled).expect("each name is a case")
}

fn count_columns(place: usize, cases: &[Case], counts: &[Counted]) -> [String; 7] {
    let case = &cases[place];
    let [library, soundness, fast, scan] = counts[place];
    let most = most_beyond(case, cases, counts, soundness);
    let expert = expert(case);
    let ratio = expert.map(|expert| library as f64 / expert as f64);
    let beyond = library.saturating_sub(soundness);
    [
        bold_if(most_in_all(case).is_some_and(|most| library > most), thousands(library)),
        most.map_or(String::new(), |most| bold_if(beyond > most, thousands(beyond))),
        expert.map_or(String::new(), thousands),
        ratio.map_or(String::new(), |ratio| bold_if(ratio > MOST_TIMES, format!("{ratio:.2}"))),
        thousands(fast),
        format!("{:.2}", library as f64 / fast as f64),
        thousands(scan),
    ]
}

fn most_in_all(case: &Case) -> Option<u64> {
    let same = |of: &&(&str, usize, u64)| (of.0, of.1) == (case.name, case.triangles);
    let replay = (case.name == REPLAYS[1]).then_some(MOST_OF_REPLAY);
    MOST_IN_ALL.iter().find(same).map(|of| of.2).or(replay)
}

fn expert(case: &Case) -> Option<u64> {
    let (_, _, count) =
        EXPERT.iter().find(|(name, triangles, _)| *name == case.name && *triangles == case.triangles)?;
    (!case.shuffled).then_some(*count)
}

/// What a call may take beyond soundness on the same tables, where its bound is stated by this. A refine with a report
/// is held to what the one without takes.
fn most_beyond(case: &Case, cases: &[Case], counts: &[Counted], soundness: u64) -> Option<u64> {
    let most = most_without_report(case, soundness)?;
    if case.name == case.plain {
        return Some(most);
    }
    let plain = if REFINES_REPORTED.contains(&case.name) { without_report(case, cases, counts) } else { 2 * most };
    Some(plain + MOST_TO_REPORT * case.splits_made() as u64)
}

/// What the case without a report takes beyond soundness on the same tables.
fn without_report(case: &Case, cases: &[Case], counts: &[Counted]) -> u64 {
    let same =
        |other: &Case| (other.name, other.triangles, other.shuffled) == (case.plain, case.triangles, case.shuffled);
    let [library, soundness, ..] =
        counts[cases.iter().position(same).expect("each case with a report has one without")];
    library - soundness
}

fn most_without_report(case: &Case, soundness: u64) -> Option<u64> {
    match case.plain {
        name if LIMITS.contains(&name) => match case.triangles {
            4 => Some(MOST_OF_SMALL.saturating_sub(soundness)),
            triangles => Some(MOST_FOR_EACH * triangles as u64),
        },
        name if is_listed(name) => {
            let [splits, entries] = [case.listed_once(), case.lent.list.len()].map(|count| count as u64);
            Some(MOST_TO_COPY * case.triangles as u64 + MOST_TO_SPLIT * splits + MOST_TO_HANDLE * entries)
        }
        name if BOXES.contains(&name) => {
            let splits = case.splits_made() as u64;
            Some((MOST_TO_COPY + MOST_TO_LOOK) * case.triangles as u64 + MOST_TO_SPLIT_IN_BOX * splits)
        }
        name if CURVES.contains(&name) => {
            let [vertices, triangles] = case.rim().map(|count| count as u64);
            Some(MOST_TO_CURVE * vertices + MOST_TO_TURN * triangles)
        }
        VIEW => Some(MOST_TO_SHOW * case.triangles as u64),
        name if REPLAYS.contains(&name) => Some(MOST_TO_REPLAY * case.splits_made() as u64),
        name if NOTED.contains(&name) => Some(MOST_WITH_NOTE),
        name if BACKS.contains(&name) => Some((MOST_TO_TAKE_BACK - 1) * soundness),
        "lock" | "unlock" | "ring" | "position" | "view point" => Some(MOST_BEYOND),
        name => name.starts_with("refine").then_some(MOST_BEYOND),
    }
}

fn bold_if(condition: bool, text: String) -> String {
    if condition { format!("**{text}**") } else { text }
}

/// A number with commas between groups of three digits.
fn thousands(number: u64) -> String {
    let digits = number.to_string();
    let groups: Vec<&str> =
        digits.as_bytes().rchunks(3).rev().map(|group| str::from_utf8(group).expect("digits")).collect();
    groups.join(",")
}

fn microseconds(time: f64) -> String {
    match time {
        ..10.0 => format!("{time:.2}"),
        ..100.0 => format!("{time:.1}"),
        _ => thousands(time.round() as u64),
    }
}
