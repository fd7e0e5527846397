//! A case: what is lent and one call, as text that can be replayed.
//!
//! Each line is a word and numbers; `7*12` stands for twelve times 7.

use std::fmt::{self, Display, Write};
use std::str::FromStr;

use crate::entry::Entry;
use crate::replay::{call_of, entry_of};
use crate::tables::{Bounds, Call, Counts, Room, Store, Tables};

/// What stands before the word of a call that is given a buffer for its report.
const REPORTED: &str = "reported-";

/// What stands before the word of a change that is recorded.
const RECORD: &str = "record-";

#[derive(Clone, Debug, PartialEq, Eq)]
pub struct Case {
    pub store: Store,
    pub call: Call,
}

impl Display for Case {
    fn fmt(&self, out: &mut fmt::Formatter<'_>) -> fmt::Result {
        let Store { tables, counts, room } = &self.store;
        write_tables(out, "", tables)?;
        writeln!(out, "counts {} {} {}", counts.vertices, counts.triangles, counts.rule)?;
        writeln!(out, "ring-buffer{}", numbers(&room.ring))?;
        writeln!(out, "limit-table{}", numbers(&room.table))?;
        writeln!(out, "curve-table{}", numbers(&room.curve))?;
        writeln!(out, "view-table{}", numbers(&room.view))?;
        writeln!(out, "note{}", numbers(&room.note))?;
        writeln!(out, "report-buffer{}", numbers(&room.report))?;
        write_tables(out, "spare-", &room.spares)?;
        writeln!(out, "record-buffer{}", numbers(&room.record))?;
        writeln!(out, "numbers{}", numbers(&room.numbers))?;
        write_call(out, &self.call)
    }
}

fn write_call(out: &mut fmt::Formatter<'_>, call: &Call) -> fmt::Result {
    match call {
        Call::Load { rule, cage } => writeln!(out, "load {rule}{}", numbers(cage)),
        Call::Refine { triangle } => writeln!(out, "refine {triangle}"),
        Call::RefineNoted { triangle } => writeln!(out, "refine-noted {triangle}"),
        Call::TakeBack => writeln!(out, "take-back"),
        Call::WholeStep => writeln!(out, "whole-step"),
        Call::SetLock { triangle, on: true } => writeln!(out, "lock {triangle}"),
        Call::SetLock { triangle, on: false } => writeln!(out, "unlock {triangle}"),
        Call::Ring { vertex } => writeln!(out, "ring {vertex}"),
        Call::Position { vertex } => writeln!(out, "position {vertex}"),
        Call::Limit => writeln!(out, "limit"),
        Call::RimCurve { vertex } => writeln!(out, "rim-curve {vertex}"),
        Call::ViewPoint { vertex } => writeln!(out, "view-point {vertex}"),
        Call::ViewTriangles => writeln!(out, "view-triangles"),
        Call::RefineList { list } => writeln!(out, "refine-list{}", numbers(list)),
        Call::Preview { list } => writeln!(out, "preview{}", numbers(list)),
        Call::RefineBox { bounds: Bounds { low, high }, below } => {
            writeln!(out, "refine-box {below}{}{}", numbers(low), numbers(high))
        }
        Call::Reported(call) => {
            write!(out, "{REPORTED}")?;
            write_call(out, call)
        }
        Call::RecordHeader { slots } => writeln!(out, "{RECORD}header{}", numbers(slots)),
        Call::Record(entry) => write_entry(out, entry),
        Call::Replay { journal, at } => writeln!(out, "replay {at}{}", numbers(journal)),
    }
}

fn write_entry(out: &mut fmt::Formatter<'_>, entry: &Entry) -> fmt::Result {
    write!(out, "{RECORD}")?;
    match entry {
        Entry::TakeBack { note } => writeln!(out, "take-back{}", numbers(note)),
        entry => write_call(out, &call_of(entry)),
    }
}

fn write_tables(out: &mut fmt::Formatter<'_>, which: &str, tables: &Tables) -> fmt::Result {
    writeln!(out, "{which}positions{}", numbers(&tables.positions))?;
    writeln!(out, "{which}corners{}", numbers(&tables.corners))?;
    writeln!(out, "{which}links{}", numbers(&tables.links))?;
    writeln!(out, "{which}generations{}", numbers(&tables.generations))?;
    writeln!(out, "{which}locks{}", numbers(&tables.locks))
}

/// Numbers with a blank before each, equal neighbours drawn together.
fn numbers<T: Display + PartialEq>(list: &[T]) -> String {
    let mut text = String::new();
    for run in list.chunk_by(|one, next| one == next) {
        let repeat = if run.len() > 1 { format!("*{}", run.len()) } else { String::new() };
        write!(text, " {}{repeat}", run[0]).expect("a string takes all text");
    }
    text
}

fn parsed<T: FromStr + Clone>(words: &[&str]) -> Result<Vec<T>, String> {
    let mut list = Vec::new();
    for word in words {
        let (number, repeat) = word.split_once('*').unwrap_or((word, "1"));
        let number: T = number.parse().map_err(|_| format!("not a number: {word}"))?;
        let repeat: usize = repeat.parse().map_err(|_| format!("not a repeat: {word}"))?;
        list.extend(vec![number; repeat]);
    }
    Ok(list)
}

impl FromStr for Case {
    type Err = String;

    fn from_str(text: &str) -> Result<Case, String> {
        let lines: Vec<Vec<&str>> = text
            .lines()
            .map(|line| line.split_whitespace().collect())
            .filter(|line: &Vec<&str>| !line.is_empty())
            .collect();
        let tables = parsed_tables(&lines, "")?;
        let counts: Vec<u32> = parsed(words_of(&lines, "counts")?)?;
        let [vertices, triangles, rule] = counts[..] else {
            return Err("counts are three numbers".to_string());
        };
        let room = Room {
            ring: parsed(words_of(&lines, "ring-buffer")?)?,
            table: parsed(words_of(&lines, "limit-table")?)?,
            curve: parsed(words_of(&lines, "curve-table")?)?,
            view: parsed(words_of(&lines, "view-table")?)?,
            note: parsed(words_of(&lines, "note")?)?,
            report: parsed(words_of(&lines, "report-buffer")?)?,
            spares: parsed_tables(&lines, "spare-")?,
            record: parsed(words_of(&lines, "record-buffer")?)?,
            numbers: parsed(words_of(&lines, "numbers")?)?,
        };
        let call = parsed_call(lines.last().expect("there are lines"))?;
        Ok(Case { store: Store { tables, counts: Counts { vertices, triangles, rule }, room }, call })
    }
}

/// What follows the first word of a line.
fn words_of<'a, 'b>(lines: &'b [Vec<&'a str>], name: &str) -> Result<&'b [&'a str], String> {
    let found = lines.iter().find(|line| line[0] == name);
    found.map(|line| &line[1..]).ok_or(format!("no line `{name}`"))
}

fn parsed_tables(lines: &[Vec<&str>], which: &str) -> Result<Tables, String> {
    let words = |table: &str| words_of(lines, &format!("{which}{table}"));
    Ok(Tables {
        positions: parsed(words("positions")?)?,
        corners: parsed(words("corners")?)?,
        links: parsed(words("links")?)?,
        generations: parsed(words("generations")?)?,
        locks: parsed(words("locks")?)?,
    })
}

fn parsed_call(words: &[&str]) -> Result<Call, String> {
    if let Some(plain) = words[0].strip_prefix(REPORTED) {
        let call = parsed_call(&[&[plain], &words[1..]].concat())?;
        return if call.refines() { Ok(call.reported()) } else { Err(format!("`{plain}` has no report")) };
    }
    if let Some(change) = words[0].strip_prefix(RECORD) {
        return parsed_record(&[&[change], &words[1..]].concat());
    }
    let number = || -> Result<u32, String> {
        let word = words.get(1).ok_or("a number is missing")?;
        word.parse().map_err(|_| format!("not a number: {word}"))
    };
    match words[0] {
        "load" => Ok(Call::Load { rule: number()?, cage: parsed(&words[2..])? }),
        "refine" => Ok(Call::Refine { triangle: number()? }),
        "refine-noted" => Ok(Call::RefineNoted { triangle: number()? }),
        "take-back" => Ok(Call::TakeBack),
        "whole-step" => Ok(Call::WholeStep),
        "lock" => Ok(Call::SetLock { triangle: number()?, on: true }),
        "unlock" => Ok(Call::SetLock { triangle: number()?, on: false }),
        "ring" => Ok(Call::Ring { vertex: number()? }),
        "position" => Ok(Call::Position { vertex: number()? }),
        "limit" => Ok(Call::Limit),
        "rim-curve" => Ok(Call::RimCurve { vertex: number()? }),
        "view-point" => Ok(Call::ViewPoint { vertex: number()? }),
        "view-triangles" => Ok(Call::ViewTriangles),
        "refine-list" => Ok(Call::RefineList { list: parsed(&words[1..])? }),
        "preview" => Ok(Call::Preview { list: parsed(&words[1..])? }),
        "refine-box" => Ok(Call::RefineBox { below: number()?, bounds: parsed_bounds(&words[2..])? }),
        "replay" => {
            let at = words.get(1).and_then(|word| word.parse().ok()).ok_or("a place is missing")?;
            Ok(Call::Replay { at, journal: parsed(&words[2..])? })
        }
        other => Err(format!("no call `{other}`")),
    }
}

fn parsed_record(words: &[&str]) -> Result<Call, String> {
    match words[0] {
        "header" => match parsed(&words[1..])?[..] {
            [vertex_slots, triangle_slots] => Ok(Call::RecordHeader { slots: [vertex_slots, triangle_slots] }),
            _ => Err("the slots of a header are two numbers".to_string()),
        },
        "take-back" => Ok(Call::Record(Entry::TakeBack { note: parsed(&words[1..])? })),
        change => {
            let entry = entry_of(&parsed_call(words)?, &[]);
            Ok(Call::Record(entry.ok_or(format!("`{change}` has no record"))?))
        }
    }
}

fn parsed_bounds(words: &[&str]) -> Result<Bounds, String> {
    match parsed(words)?[..] {
        [a, b, c, d, e, f] => Ok(Bounds { low: [a, b, c], high: [d, e, f] }),
        _ => Err("the corners of a box are six numbers".to_string()),
    }
}
