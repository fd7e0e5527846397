//! The differential run: the twin beside the library under test, entry for entry.

mod altered_notes;
mod batch;
mod bench;
mod bounds;
mod box_coverage;
mod boxes;
mod cages;
mod calls;
mod case;
mod claims;
mod conditions;
mod coverage;
mod curve;
mod curve_coverage;
mod curve_examples;
mod curved;
mod curves;
mod damage;
mod entry;
mod examples;
mod fault;
#[cfg(linked)]
mod ffi;
#[cfg(linked)]
mod ffi_journal;
mod guard;
mod halves;
mod handmade;
mod histories;
mod journal;
mod journal_calls;
mod journal_coverage;
mod journal_damage;
mod journal_examples;
mod journaled;
mod journals;
#[cfg(linked)]
mod lent;
mod limits;
mod lists;
mod load;
mod lock_coverage;
mod locked;
mod locks;
mod malformed;
mod mesh;
mod mirror;
mod note;
mod note_coverage;
mod note_examples;
mod noted;
mod notes;
mod options;
mod parts;
mod picks;
mod program;
mod random_cages;
#[path = "../../include/rawplinth.rs"]
#[cfg_attr(not(linked), allow(dead_code))]
mod rawplinth;
mod records;
mod redraw;
mod refine;
mod replay;
mod report;
mod report_coverage;
mod report_examples;
mod reported;
mod reports;
mod rng;
mod smooth;
mod sound;
mod split;
mod surgery;
mod tables;
#[cfg(test)]
mod tests;
mod twin;
mod unsound;
mod view;
mod view_coverage;
mod viewed;
mod views;

use std::fs;
use std::panic::{AssertUnwindSafe, catch_unwind};
use std::path::Path;
use std::process::ExitCode;
use std::thread;
use std::time::{Duration, Instant};

use bench::{Bench, Outcome};
use case::Case;
use fault::{Fault, Seeded};
use options::{Mode, Options};
use rng::Rng;
use tables::Service;
use twin::Twin;

/// 16 MB of stack; a call of the library needs at most 2.8 MB of it.
const STACK: usize = 16 << 20;

fn main() -> ExitCode {
    let options = match Options::from_arguments(std::env::args().skip(1)) {
        Ok(options) => options,
        Err(message) => {
            eprintln!("{message}\n{}", options::USAGE);
            return ExitCode::from(2);
        }
    };
    let run = thread::Builder::new().stack_size(STACK).spawn(move || run(&options)).expect("a thread can be started");
    let good = run.join().unwrap_or(false);
    if good { ExitCode::SUCCESS } else { ExitCode::FAILURE }
}

/// Runs what is asked for; answers whether all is well.
fn run(options: &Options) -> bool {
    if let Mode::Program(path) = &options.mode {
        return run_program(options, path);
    }
    let Some(other) = other_service(options) else {
        eprintln!("no library is linked: build with RAWPLINTH_LIB, or compare the twin with itself by --self");
        return false;
    };
    match &options.mode {
        Mode::Replay(path) => replay(options, other.as_ref(), path),
        Mode::Faults => run_faults(options, other.as_ref()),
        _ => run_differential(options, other.as_ref()),
    }
}

/// What the twin is compared with: the library, or with `--self` the unbroken twin.
fn other_service(options: &Options) -> Option<Box<dyn Service>> {
    if options.with_itself {
        return Some(Box::new(Twin::UNBROKEN));
    }
    #[cfg(linked)]
    return Some(Box::new(ffi::Library));
    #[cfg(not(linked))]
    None
}

fn run_differential(options: &Options, other: &dyn Service) -> bool {
    let twin = Twin { fault: Seeded(options.fault) };
    let mut bench = Bench::new(&twin, other);
    bench.watch.clone_from(&options.watch);
    println!("{} beside {}, seed {}", twin.name(), other.name(), options.seed);
    let outcome = run_and_soak(&mut bench, options);
    let title = if options.with_itself { "self-comparison" } else { "differential" };
    match outcome {
        Err(found) => {
            println!("difference: {}\nthe case, for --replay:\n{}", found.what, found.case);
            println!("{title}: {} comparisons, 1 difference", bench.comparisons);
            false
        }
        Ok(()) => {
            print!("{}", bench.coverage);
            println!("calls on mirror images  {}\n", bench.mirrored);
            let gaps = bench.coverage.gaps();
            gaps.iter().for_each(|gap| println!("coverage: {gap}"));
            let lacking = if gaps.is_empty() { "" } else { ", coverage incomplete" };
            println!("{title}: {} comparisons, 0 differences{lacking}", bench.comparisons);
            gaps.is_empty()
        }
    }
}

fn run_and_soak(bench: &mut Bench, options: &Options) -> Outcome {
    let start = Instant::now();
    parts::run_all(bench, options.seed, true)?;
    let mut rng = Rng::for_part(options.seed, u64::MAX);
    while start.elapsed() < Duration::from_secs(options.seconds) {
        parts::soak_round(bench, &mut rng)?;
    }
    Ok(())
}

/// Runs each seeded fault up to the first difference; all is well if each is caught.
fn run_faults(options: &Options, other: &dyn Service) -> bool {
    let mut missed = 0;
    for (index, &(fault, meaning)) in Fault::ALL.iter().enumerate() {
        let twin = Twin { fault: Seeded(Some(fault)) };
        let mut bench = Bench::new(&twin, other);
        let outcome = catch_unwind(AssertUnwindSafe(|| parts::run_all(&mut bench, options.seed, false)));
        let result = match outcome {
            Ok(Ok(())) => "NOT CAUGHT",
            Ok(Err(found)) if agrees_unbroken(&found.case, other) => "caught",
            Ok(Err(_)) => "NOT CAUGHT: the unbroken twin differs, too,",
            Err(_) => "caught by a panic",
        };
        missed += u32::from(result.starts_with("NOT"));
        println!("fault {:>3}: {meaning:<58} {result} after {} comparisons", index + 1, bench.comparisons);
    }
    println!("faults: {} seeded, {missed} missed, beside {}", Fault::ALL.len(), other.name());
    missed == 0
}

/// Whether the twin without faults agrees on a case, so that a difference comes from the fault alone.
fn agrees_unbroken(case: &Case, other: &dyn Service) -> bool {
    Bench::new(&Twin::UNBROKEN, other).compare_only(&case.store, &case.call).is_ok()
}

fn replay(options: &Options, other: &dyn Service, path: &Path) -> bool {
    let text = fs::read_to_string(path).map_err(|error| error.to_string());
    let case = match text.and_then(|text| text.parse::<Case>()) {
        Ok(case) => case,
        Err(message) => {
            eprintln!("{}: {message}", path.display());
            return false;
        }
    };
    let twin = Twin { fault: Seeded(options.fault) };
    let mut bench = Bench::new(&twin, other);
    match bench.compare_only(&case.store, &case.call) {
        Ok(answer) => {
            println!("no difference: {answer:?}");
            true
        }
        Err(found) => {
            println!("difference: {}", found.what);
            false
        }
    }
}

fn run_program(options: &Options, path: &Path) -> bool {
    println!("{} beside its model, seed {}", path.display(), options.seed);
    let mut rng = Rng::for_part(options.seed, 0);
    match program::run(path, 300, options.seconds, &mut rng) {
        Ok(runs) => println!("program: {runs} runs, 0 differences"),
        Err(what) => {
            println!("difference: {what}");
            return false;
        }
    }
    true
}
