//! Measures the library's calls: instructions by callgrind and wall times, as a markdown table.

mod cages;
mod cases;
mod fast;
mod library;
mod measure;
#[path = "../../include/rawplinth.rs"]
#[allow(dead_code)]
mod rawplinth;
mod report;
mod setups;
mod slots;
mod tables;

use std::thread;

/// 16 MB of stack; a call of the library needs at most 2.8 MB of it.
const STACK: usize = 16 << 20;

fn main() {
    let counted = std::env::args().any(|argument| argument == "--counted");
    let work = move || if counted { measure::run_counted(&cases::all()) } else { run() };
    let thread = thread::Builder::new().stack_size(STACK).spawn(work).expect("a thread can be started");
    thread.join().expect("a panic ends the program");
}

fn run() {
    let cases = cases::all();
    cases.iter().for_each(measure::compare);
    eprintln!("{} cases: the library and the fast implementation agree", cases.len());
    let counts = measure::count_instructions(&cases);
    if counts.is_none() {
        eprintln!("valgrind is missing: no instructions are counted");
    }
    let times = measure::time(&cases);
    report::print(&cases, counts.as_deref(), &times);
}
