//! The program `refine` beside a model of it: both read `cage.bin` and `requests.bin`, and the lines are compared.

use std::fs;
use std::path::{Path, PathBuf};
use std::process::Command;
use std::time::{Duration, Instant};

use crate::cages::{self, Cage};
use crate::examples;
use crate::malformed;
use crate::random_cages::random_cage;
use crate::rng::Rng;
use crate::tables::{Answer, Call, HALF_UP, Service, Store};
use crate::twin::Twin;

/// The two files; none for a missing one.
#[derive(Clone, Default)]
pub struct Files {
    pub cage: Option<Vec<u8>>,
    pub requests: Option<Vec<u8>>,
}

impl Files {
    fn new(cage: Vec<u8>, requests: &[u32], left_over: usize) -> Files {
        let mut bytes: Vec<u8> = requests.iter().flat_map(|request| request.to_le_bytes()).collect();
        bytes.extend(vec![1; left_over]);
        Files { cage: Some(cage), requests: Some(bytes) }
    }
}

/// What the program prints: a line for the load and one for each request.
pub fn model(files: &Files) -> String {
    // The program's own store.
    let mut store = Store::fresh(1_024, 2_048);
    // A missing file is empty. The program's rule is 1, which none of its lines shows.
    let load = Call::Load { rule: HALF_UP, cage: files.cage.clone().unwrap_or_default() };
    let requests = files.requests.clone().unwrap_or_default();
    // Bytes left over at the end are dropped.
    let numbers = requests.chunks_exact(4).map(|b| u32::from_le_bytes([b[0], b[1], b[2], b[3]]));
    let refines = numbers.map(|triangle| Call::Refine { triangle });
    std::iter::once(load).chain(refines).map(|call| line(&mut store, &call)).collect()
}

fn line(store: &mut Store, call: &Call) -> String {
    let Answer { refusal, splits, flips, counts, .. } =
        Twin::UNBROKEN.answer(store, call).expect("the twin stays inside");
    format!("{refusal} {splits} {flips} {} {}\n", counts.vertices, counts.triangles)
}

/// Runs the program on all files of the list, then on random ones, at least `runs` and for at least `seconds`.
/// Answers the number of runs, or what differs.
pub fn run(program: &Path, runs: usize, seconds: u64, rng: &mut Rng) -> Result<usize, String> {
    let program = fs::canonicalize(program).map_err(|error| format!("{}: {error}", program.display()))?;
    let folder = std::env::temp_dir().join(format!("refine-{}", std::process::id()));
    let start = Instant::now();
    let mut done = 0;
    for files in directed(rng) {
        run_once(&program, &folder, &files)?;
        done += 1;
    }
    while done < runs || start.elapsed() < Duration::from_secs(seconds) {
        run_once(&program, &folder, &random_files(rng))?;
        done += 1;
    }
    Ok(done)
}

fn run_once(program: &Path, folder: &PathBuf, files: &Files) -> Result<(), String> {
    let told = |error: std::io::Error| format!("{}: {error}", folder.display());
    fs::create_dir_all(folder).map_err(told)?;
    for (name, content) in [("cage.bin", &files.cage), ("requests.bin", &files.requests)] {
        if let Some(content) = content {
            fs::write(folder.join(name), content).map_err(told)?;
        }
    }
    let output = Command::new(program).current_dir(folder).output().map_err(told)?;
    let printed = String::from_utf8_lossy(&output.stdout);
    let expected = model(files);
    if output.status.code().is_none() {
        return Err(format!("the program was ended by a signal; its files are in {}", folder.display()));
    }
    if printed != expected {
        return Err(format!("{}; the files are in {}", first_line_apart(&printed, &expected), folder.display()));
    }
    fs::remove_dir_all(folder).map_err(told)
}

fn first_line_apart(printed: &str, expected: &str) -> String {
    let same = printed.split('\n').zip(expected.split('\n')).take_while(|(one, other)| one == other).count();
    let shown = |text: &str| text.split('\n').nth(same).unwrap_or("nothing").to_string();
    format!("line {}: printed `{}`, expected `{}`", same + 1, shown(printed), shown(expected))
}

/// The files that the papers speak of.
fn directed(rng: &mut Rng) -> Vec<Files> {
    let mut list: Vec<Files> =
        examples::request_lists().iter().map(|(cage, requests)| Files::new(cage.bytes(), requests, 0)).collect();
    let full = cages::torus(32, 32).shuffled(rng).scattered(rng);
    let mut longer = full.bytes();
    longer.push(0);
    let mut much_longer = full.bytes();
    much_longer.resize(200_000, 1);
    list.extend([full.bytes(), longer, much_longer].map(|cage| Files::new(cage, &[0, 1, u32::MAX], 0)));
    let tetrahedron = cages::tetrahedron().bytes();
    let ten = Files::new(tetrahedron.clone(), &[0, 0, 1, 1, 2, 2, 3, 3, 4, 5], 3);
    list.push(Files { cage: None, ..ten.clone() });
    list.push(Files { requests: None, ..ten });
    list.push(Files::default());
    list.extend((0..4).map(|left_over| Files::new(tetrahedron.clone(), &[], left_over)));
    list.extend(long_lists(rng));
    list.extend((0..tetrahedron.len()).step_by(5).map(|length| Files::new(tetrahedron[..length].to_vec(), &[0], 0)));
    list
}

/// Lists around the lengths at which a reader's buffer ends. The longest meet a mesh that stays small, as all triangles
/// but the last are not in use, or none.
fn long_lists(rng: &mut Rng) -> Vec<Files> {
    let mut list = Vec::new();
    for (cage, least, lengths) in [
        (cages::tetrahedron().bytes(), 0, [1_023, 1_024, 1_025, 2_000]),
        (cages::strip(1).bytes(), 1, [4_095, 4_096, 16_385, 40_000]),
        (Vec::new(), 0, [16_383, 16_384, 16_385, 100_000]),
    ] {
        for length in lengths {
            let mut numbers: Vec<u32> = (1..length).map(|_| least + rng.below(2_100) as u32).collect();
            numbers.push(0);
            list.push(Files::new(cage.clone(), &numbers, rng.below(4)));
        }
    }
    list
}

fn random_files(rng: &mut Rng) -> Files {
    let cage = if rng.percent(75) { some_cage(rng).bytes() } else { malformed::random(rng) };
    let length = rng.pick(&[0, 1, 5, 5, 30, 30, 30, 200, 200, 1_200]);
    let mut numbers = Vec::new();
    for made in 0..length {
        let in_use = 4 + 2 * made;
        let number = match rng.below(30) {
            0 => rng.word(),
            1 => rng.pick(&[u32::MAX, 2_047, 2_048, 1 << 31]),
            2..10 => numbers.last().copied().unwrap_or(0),
            _ => rng.below(in_use.min(2_048)) as u32,
        };
        numbers.push(number);
    }
    let mut files = Files::new(cage, &numbers, rng.pick(&[0, 0, 1, 2, 3]));
    if rng.percent(3) {
        files.cage = None;
    }
    if rng.percent(3) {
        files.requests = None;
    }
    files
}

fn some_cage(rng: &mut Rng) -> Cage {
    if rng.percent(90) { random_cage(rng) } else { cages::torus(20, 3 + rng.below(50) as u32).shuffled(rng) }
}
