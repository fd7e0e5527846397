//! Tests of the twin against the papers, and of the harness against itself.

mod boxes;
mod curves;
mod harness;
mod journals;
mod lists;
mod locks;
mod modules;
mod notes;
mod plain_sound;
mod reports;
mod rules;
mod runs;
mod version;
mod views;

use crate::cages::Cage;
use crate::rng::Rng;
use crate::tables::{Answer, Call, Counts, HALF_UP, Service, Store, Tables};
use crate::twin::Twin;

/// Runs a call on the twin; the store's counts follow.
fn run(store: &mut Store, call: &Call) -> Answer {
    Twin::UNBROKEN.answer(store, call).expect("the twin stays inside")
}

fn loaded(cage: &Cage) -> Store {
    loaded_by(HALF_UP, cage)
}

fn loaded_by(rule: u32, cage: &Cage) -> Store {
    let mut store = Store::junk(60, 100, &mut Rng::new(5));
    assert_eq!(run(&mut store, &Call::Load { rule, cage: cage.bytes() }).refusal, 0);
    store
}

fn after_requests(cage: &Cage, requests: &[u32]) -> Store {
    refined(loaded(cage), requests)
}

fn refined(mut store: Store, requests: &[u32]) -> Store {
    for &triangle in requests {
        run(&mut store, &Call::Refine { triangle });
    }
    store
}

/// Tables with what a mesh has in use in the first of them, and all the rest of the second.
fn put_over(mesh: &Tables, counts: Counts, tables: &Tables) -> Tables {
    let mut over = tables.clone();
    over.take_over(mesh, counts);
    over
}
