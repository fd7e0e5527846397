//! What is claimed of reports, read from the tables themselves: every slot that is not reported has its corners, its
//! generation and its links as before, save links that lead to a reported slot, before and after; and nothing else is
//! written.

use crate::tables::{Answer, BOUNDARY, Call, Counts, REPORT_ENTRIES, Store, Tables};

/// What a call has reported or written that it must not.
pub fn violated_by_report(before: &Store, call: &Call, answer: &Answer, after: &Store) -> Option<String> {
    let reports = matches!(call, Call::Reported(_)) && answer.refusal == 0;
    let length = if reports { (3 * answer.splits + 2 * answer.flips) as usize } else { 0 };
    if answer.reported as usize != length {
        return Some(format!("{} entries reported, the work gives {length}", answer.reported));
    }
    let (lent, written) = (&before.room.report, &after.room.report);
    if lent.len() < length || lent[length..] != written[length..] {
        return Some("the report buffer was written where nothing is reported".to_string());
    }
    if !reports {
        return None;
    }
    let most = match call.plain() {
        Call::Refine { .. } | Call::RefineNoted { .. } => REPORT_ENTRIES,
        _ => 3 * before.triangle_slots() - 2 * before.triangles(),
    };
    let (tables, counts) = made(call.plain(), answer, after);
    let too_long = (length > most).then(|| format!("the report has {length} entries"));
    too_long.or_else(|| wrongly_reported(before, &written[..length], tables, counts.triangles as usize))
}

/// What a call made: the mesh, which a preview leaves in the spare tables.
fn made<'a>(plain: &Call, answer: &Answer, after: &'a Store) -> (&'a Tables, Counts) {
    match plain {
        Call::Preview { .. } => (&after.room.spares, answer.spares),
        _ => (&after.tables, after.counts),
    }
}

/// A slot that is reported and has not risen, or is not reported and has changed.
fn wrongly_reported(before: &Store, report: &[u32], tables: &Tables, triangles: usize) -> Option<String> {
    let mut is_reported = vec![false; triangles];
    for &slot in report {
        match is_reported.get_mut(slot as usize) {
            Some(reported) => *reported = true,
            None => return Some(format!("triangle {slot} is reported and not in use")),
        }
    }
    let leads_to_reported = |link: u32| link != BOUNDARY && is_reported.get(link as usize / 3) == Some(&true);
    let old = &before.tables;
    let changed = |slot: usize| {
        let three = |table: &[u32]| [0, 1, 2].map(|i| table[3 * slot + i]);
        let links = three(&old.links).into_iter().zip(three(&tables.links));
        three(&old.corners) != three(&tables.corners)
            || old.generations[slot] != tables.generations[slot]
            || links.filter(|(was, is)| was != is).any(|(was, is)| !leads_to_reported(was) || !leads_to_reported(is))
    };
    (0..triangles).find_map(|slot| match (is_reported[slot], slot < before.triangles()) {
        (true, true) if tables.generations[slot] <= old.generations[slot] => {
            Some(format!("triangle {slot} is reported and has not risen"))
        }
        (false, true) if changed(slot) => Some(format!("triangle {slot} changed and is not reported")),
        (false, false) => Some(format!("triangle {slot} is new and not reported")),
        _ => None,
    })
}

/// What is wrong with a call that has a report beside the same without one: it is the same but for the report. Where 23
/// refuses it, the one without is carried out, the mesh and the note stand, and the spare tables are as after that.
pub fn violated_beside_unreported(
    before: &Store,
    call: &Call,
    without: (&Answer, &Store),
    with: (&Answer, &Store),
) -> Option<String> {
    let ((plain, plain_after), (answer, after)) = (without, with);
    let (mut due, mut due_after) = (Answer { reported: answer.reported, ..*plain }, plain_after.clone());
    if answer.refusal == 23 && plain.refusal == 0 {
        let Counts { vertices, triangles, .. } = before.counts;
        let foreseen = if matches!(call, Call::Preview { .. }) { [vertices, triangles] } else { [0; 2] };
        let &Answer { handled, spares, .. } = plain;
        due = Answer { refusal: 23, counts: before.counts, handled, spares, foreseen, ..Answer::default() };
        due_after = before.clone();
        due_after.room.spares.clone_from(&plain_after.room.spares);
    }
    due_after.room.report.clone_from(&after.room.report);
    let same = *answer == due && *after == due_after;
    (!same).then(|| format!("answered {plain:?} without a report, {answer:?} with one"))
}
