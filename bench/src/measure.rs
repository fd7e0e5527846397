//! Instructions and wall times of each case.

use std::fs;
use std::hint::black_box;
use std::io::ErrorKind;
use std::path::Path;
use std::process::Command;
use std::time::Instant;

use crate::cases::{
    AT_BOUNDARY, BOXES, Case, FLIPPING, LOCKED_STEP, LONGEST, LONGEST_AT_BOUNDARY, LONGEST_BESIDE_LOCKS, NOTED,
    ONE_BY_ONE, RECORDS, REPLAYS, STEPS, flips, is_listed,
};
use crate::tables::{Answer, Lent, Reported, scan_tables};
use crate::{fast, library};

/// What is measured of a case.
#[derive(Clone, Copy)]
enum Subject {
    Library,
    /// The library's soundness on the tables of the case.
    Soundness,
    Fast,
    Scan,
}

/// All subjects. Counts and times have their order.
const SUBJECTS: [Subject; 4] = [Subject::Library, Subject::Soundness, Subject::Fast, Subject::Scan];

/// Instructions and microseconds of the subjects: the library, its soundness on the same tables, the fast
/// implementation and the scan.
pub type Counted = [u64; SUBJECTS.len()];
pub type Timed = [f64; SUBJECTS.len()];

fn run(case: &Case, subject: Subject, lent: &mut Lent) {
    let _ = black_box(match subject {
        Subject::Library => library::answer(lent, case.call),
        Subject::Soundness => library::answer(lent, case.soundness()),
        Subject::Fast => fast::answer(lent, case.call),
        Subject::Scan => {
            black_box(scan_tables(lent));
            return;
        }
    });
}

/// Fails unless library and fast implementation agree on a case: answer, tables with the slots past the counts, and
/// what else is lent. Fails, too, if the case is not what its name says.
pub fn compare(case: &Case) {
    let (mut ours, mut theirs) = (case.lent.clone(), case.lent.clone());
    let (answer, other) = (library::answer(&mut ours, case.call), fast::answer(&mut theirs, case.call));
    assert!(answer == other, "{}, {} triangles: {answer:?}, but fast {other:?}", case.name, case.triangles);
    assert!(ours == theirs, "{}, {} triangles: the tables differ", case.name, case.triangles);
    let (refusal, splits) = match answer {
        Answer::Worked(worked) => (worked.refusal, worked.splits),
        Answer::Ring(read) => (read.refusal, 0),
        Answer::Position(read) => (read.refusal, 0),
        Answer::Limit(read) => (read.refusal, 0),
        Answer::Rim(read) => (read.refusal, 0),
        Answer::Seen(seen) => (seen.refusal, 0),
        Answer::Shown(shown) => (shown.refusal, 0),
        Answer::List(worked) => (worked.refusal, worked.splits),
        Answer::Preview(foreseen) => (foreseen.refusal, foreseen.splits),
        Answer::Reported(told) => (told.worked.refusal, told.worked.splits),
        Answer::ListReported(told) => (told.worked.refusal, told.worked.splits),
        Answer::PreviewReported(told) => (told.foreseen.refusal, told.foreseen.splits),
        Answer::Recorded(bytes) => (0, bytes as u32),
        Answer::Replayed(replayed) => (replayed.refusal, replayed.records as u32),
    };
    let expected = match case.plain {
        "soundness" => (8, 0),
        "refine even" | "refine odd" | AT_BOUNDARY => (0, 1),
        LONGEST | LONGEST_BESIDE_LOCKS => (0, 10),
        name if FLIPPING.contains(&name) => (0, 1),
        LOCKED_STEP => (19, 0),
        LONGEST_AT_BOUNDARY => (0, 9),
        name if NOTED[2..].contains(&name) => (0, 10),
        name if NOTED.contains(&name) => (0, 1),
        name if STEPS.contains(&name) => (0, case.triangles),
        name if RECORDS.contains(&name) => (0, case.lent.record.len()),
        name if REPLAYS.contains(&name) || name == ONE_BY_ONE => (0, case.lent.list.len()),
        name if is_listed(name) => (0, case.listed_once()),
        name if name == BOXES[1] => (0, case.splits_made()),
        name if name == BOXES[2] => (11, 0),
        _ => (0, 0),
    };
    let flipped = match answer {
        Answer::Worked(worked) | Answer::Reported(Reported { worked, .. }) if flips(case.plain) > 0 => worked.flips,
        _ => 0,
    };
    let made = (refusal, splits as usize) == expected && flipped as usize == flips(case.plain);
    assert!(made, "{}, {} triangles: {answer:?}", case.name, case.triangles);
    assert!(case.name != NOTED[3] || ours.note[3] == 25, "{}, {} triangles: few slots", case.name, case.triangles);
}

/// Callgrind writes what it has counted whenever this is entered.
#[unsafe(no_mangle)]
#[inline(never)]
extern "C" fn end_of_count() {
    black_box(());
}

/// The run under callgrind: after the set-up, each subject of each case once.
pub fn run_counted(cases: &[Case]) {
    end_of_count();
    for case in cases {
        for subject in SUBJECTS {
            let mut lent = case.lent.clone();
            run(case, subject, &mut lent);
            end_of_count();
        }
    }
}

/// The instructions of each subject of each case: those of the call alone, with what it calls. None without valgrind.
pub fn count_instructions(cases: &[Case]) -> Option<Vec<Counted>> {
    let folder = std::env::temp_dir().join(format!("rawplinth-bench-{}", std::process::id()));
    fs::create_dir_all(&folder).expect("a folder for the counts can be made");
    let out = folder.join("counts");
    let status = Command::new("valgrind")
        .args(["--quiet", "--tool=callgrind", "--max-stackframe=8388608", "--dump-before=end_of_count"])
        .args(["rawplinth_*", "fast_*", "scan_tables"].map(|function| format!("--toggle-collect={function}")))
        .arg(format!("--callgrind-out-file={}", out.display()))
        .arg(std::env::current_exe().expect("the program has a path"))
        .arg("--counted")
        .status();
    let counts = match status {
        Err(error) if error.kind() == ErrorKind::NotFound => None,
        status => {
            assert!(status.is_ok_and(|status| status.success()), "the run under valgrind failed");
            // The first part is the set-up.
            let mut parts = 2..;
            Some(cases.iter().map(|_| SUBJECTS.map(|_| total(&out, parts.next().expect("endless")))).collect())
        }
    };
    fs::remove_dir_all(&folder).expect("the folder for the counts can be removed");
    counts
}

/// The total of one part that callgrind has written.
fn total(out: &Path, part: usize) -> u64 {
    let path = format!("{}.{part}", out.display());
    let text = fs::read_to_string(&path).unwrap_or_else(|error| panic!("{path}: {error}"));
    let line = text.lines().find_map(|line| line.strip_prefix("totals:")).expect("a part has totals");
    line.trim().parse().expect("totals are a number")
}

const ROUNDS: usize = 15;

/// The median times in microseconds of each subject of each case. All take turns, so that a while in which the machine
/// is busy spoils a round of all and not every round of one.
pub fn time(cases: &[Case]) -> Vec<Timed> {
    let rounds: Vec<Vec<Timed>> = (0..ROUNDS)
        .map(|_| cases.iter().map(|case| SUBJECTS.map(|subject| time_once(case, subject))).collect())
        .collect();
    let median = |case: usize, subject: usize| {
        let mut times: Vec<f64> = rounds.iter().map(|round| round[case][subject]).collect();
        times.sort_by(f64::total_cmp);
        times[ROUNDS / 2]
    };
    (0..cases.len()).map(|case| std::array::from_fn(|subject| median(case, subject))).collect()
}

/// The time of one call, from a run over so many copies of a small case that the clock does not show.
fn time_once(case: &Case, subject: Subject) -> f64 {
    let copies = (16_384 / case.triangles).clamp(1, 1_000);
    let mut lent = vec![case.lent.clone(); copies];
    let start = Instant::now();
    lent.iter_mut().for_each(|lent| run(case, subject, lent));
    start.elapsed().as_secs_f64() * 1e6 / copies as f64
}
