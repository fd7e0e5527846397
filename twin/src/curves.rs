//! Curves of rims: in tables of every length, beside every other refusal, of shells with one rim and with several as
//! they are refined, of hand-made tables with rims of two vertices, of coordinates that leave every number of 27ths
//! over, and of shells with equal rims.

use crate::bench::{Bench, Outcome, difference};
use crate::cages::{self, Cage};
use crate::calls::{self, some_coordinates};
use crate::curved::{all_rims, rim_vertices};
use crate::damage::{refined, small_stores, sound_and_refused};
use crate::handmade;
use crate::picks;
use crate::rng::Rng;
use crate::tables::{Call, FARTHEST, Store};

/// The curve of a vertex in a table of this length.
fn compare_length(bench: &mut Bench, store: &mut Store, vertex: u32, length: usize, rng: &mut Rng) -> Outcome {
    store.room.curve = some_coordinates(length, rng);
    bench.compare(store, &Call::RimCurve { vertex })?;
    Ok(())
}

/// The curve of a vertex in tables of all the lengths tried.
pub fn compare_lengths(bench: &mut Bench, store: &mut Store, vertex: u32, rng: &mut Rng) -> Outcome {
    let lengths = calls::curve_lengths(store, vertex);
    lengths.into_iter().try_for_each(|length| compare_length(bench, store, vertex, length, rng))
}

/// The curve of some vertices in tables that do for every rim, or that just do.
fn compare_each(bench: &mut Bench, store: &mut Store, vertices: Vec<u32>, rng: &mut Rng) -> Outcome {
    for vertex in vertices {
        let wanted = calls::curve_wanted(store, vertex);
        let length = rng.pick(&[wanted, wanted + 1, 9 * store.vertices()]);
        compare_length(bench, store, vertex, length, rng)?;
    }
    Ok(())
}

/// A vertex of each rim in sound tables.
fn one_of_each_rim(store: &Store, rng: &mut Rng) -> Vec<u32> {
    all_rims(store).iter().map(|sides| store.tables.corners[rng.pick(sides)]).collect()
}

/// Shells with one rim, short and long, with two and three, alone and in several parts, beside what has none.
fn shells(rng: &mut Rng) -> Vec<Cage> {
    let opened = cages::tetrahedron().without(rng.below(4));
    let twice = cages::torus(4, 4).without(20).without(0);
    let mut list = vec![opened.clone(), twice, cages::pierced(), cages::sheet(2, 3), cages::sheet(1, 1)];
    list.extend([3, 4, 7, 12].map(cages::disc));
    list.extend([1, 2, 3, 8].map(cages::strip));
    list.extend([2, 3, 9].map(cages::open_fan));
    list.extend([3, 6].map(cages::band));
    list.push(cages::disc(5).with(&cages::double_pyramid(4)).with(&cages::band(3)));
    list.push(cages::strip(1).with(&opened));
    list
}

/// Small meshes in tables of every length, up to more than a vertex over.
pub fn lengths(bench: &mut Bench, rng: &mut Rng) -> Outcome {
    let pockets = [0, 1].map(|generation| handmade::pocket(generation).store(3, 6, rng));
    for mut store in small_stores(rng).into_iter().chain(pockets) {
        for vertex in one_of_each_rim(&store, rng) {
            let wanted = calls::curve_wanted(&store, vertex);
            (0..wanted + 12).try_for_each(|length| compare_length(bench, &mut store, vertex, length, rng))?;
        }
    }
    Ok(())
}

/// Sound tables, damaged ones and those that do not fit each other, with vertices on a rim and off, past use and far
/// off, and with tables of all the lengths tried.
pub fn orders(bench: &mut Bench, rng: &mut Rng) -> Outcome {
    for mut store in small_stores(rng).into_iter().flat_map(sound_and_refused) {
        for vertex in picks::all_numbers(store.counts.vertices, store.vertex_slots()) {
            compare_lengths(bench, &mut store, vertex, rng)?;
        }
    }
    Ok(())
}

/// All shells, refined at their rims and elsewhere: the curve of each rim after each refine, and of every vertex at the
/// end.
pub fn of_shells(bench: &mut Bench, rounds: usize, rng: &mut Rng) -> Outcome {
    for _ in 0..rounds {
        for cage in shells(rng) {
            let mut store = refined(&cage.shuffled(rng).scattered(rng), &[], rng.pick(&[3, 60]), rng);
            for _ in 0..rng.pick(&[0, 4, 12]) {
                let anywhere = rng.percent(20);
                let triangle = if anywhere { picks::some_triangle } else { picks::boundary_triangle }(&store, rng);
                bench.compare(&mut store, &Call::Refine { triangle })?;
                let vertices = one_of_each_rim(&store, rng);
                compare_each(bench, &mut store, vertices, rng)?;
            }
            let all = (0..store.counts.vertices).collect();
            compare_each(bench, &mut store, all, rng)?;
        }
    }
    Ok(())
}

/// Pockets of every generation, and other hand-made tables: every vertex at a rim, and some that are not, before and
/// after some refines.
pub fn of_hand_made(bench: &mut Bench, rounds: usize, rng: &mut Rng) -> Outcome {
    let pockets: Vec<Store> = (0..=20).map(|generation| handmade::pocket(generation).store(8, 16, rng)).collect();
    let others: Vec<Store> = (0..rounds).map(|_| handmade::random(rng)).collect();
    for mut store in pockets.into_iter().chain(others) {
        for _ in 0..3 {
            let mut vertices = calls::boundary_vertices(&store);
            vertices.push(picks::some_number(store.counts.vertices, rng));
            compare_each(bench, &mut store, vertices, rng)?;
            let triangle = picks::boundary_triangle(&store, rng);
            bench.compare(&mut store, &Call::Refine { triangle })?;
        }
    }
    Ok(())
}

/// Coordinates that leave every number of 27ths over, below zero and above, and the farthest ones, on every axis.
pub fn coordinates(bench: &mut Bench, rng: &mut Rng) -> Outcome {
    let pocket = handmade::pocket(4).store(0, 0, rng);
    let cages = [cages::strip(1), cages::disc(3), cages::band(3)];
    let stores = cages.map(|cage| refined(&cage, &[], 0, rng)).into_iter().chain([pocket]);
    for mut store in stores {
        for round in 0..600 {
            let reach = [1, 4, 30, FARTHEST][round % 4];
            store.tables.positions.fill_with(|| match rng.below(if round % 8 == 7 { 2 } else { 6 }) {
                0 => FARTHEST,
                1 => -FARTHEST,
                _ => rng.between(-reach, reach),
            });
            let vertices = one_of_each_rim(&store, rng);
            compare_each(bench, &mut store, vertices, rng)?;
        }
    }
    Ok(())
}

/// Shells whose rims have equal points from some vertex on, and nothing else in common: their curves have to be equal.
pub fn of_equal_rims(bench: &mut Bench, rounds: usize, rng: &mut Rng) -> Outcome {
    for round in 0..rounds {
        let vertices = 3 + round % 10;
        let reach = rng.pick(&[9, 100_000, FARTHEST]);
        let points: Vec<[i32; 3]> = (0..vertices).map(|_| [(); 3].map(|()| rng.between(-reach, reach))).collect();
        let of_all = [cages::strip, cages::open_fan].map(|shell| shell(vertices as u32 - 2));
        let some = [cages::disc, cages::band].map(|shell| shell(vertices as u32));
        let mut first: Option<Vec<i32>> = None;
        for cage in of_all.into_iter().chain(some) {
            let (store, vertex) = with_rim(&cage, &points, rng);
            let (mut after, call) = (store.clone(), Call::RimCurve { vertex });
            bench.compare(&mut after, &call)?;
            let curve = after.room.curve;
            if first.get_or_insert_with(|| curve.clone()) != &curve {
                return Err(difference("equal rims have different curves".to_string(), store, &call));
            }
        }
    }
    Ok(())
}

/// A shell with these points on a rim of as many vertices, the vertex of the first of them, and a table for the curve.
pub fn with_rim(cage: &Cage, points: &[[i32; 3]], rng: &mut Rng) -> (Store, u32) {
    let mut store = refined(&cage.shuffled(rng).scattered(rng), &[], 1, rng);
    let vertex = one_of_each_rim(&store, rng)[0];
    let rim = rim_vertices(&store, vertex).expect("it is on a rim");
    assert_eq!(rim.len(), points.len(), "the shell has such a rim");
    for (&at, point) in rim.iter().zip(points) {
        store.tables.positions[3 * at as usize..][..3].copy_from_slice(point);
    }
    store.room.curve = vec![7; 9 * points.len()];
    (store, vertex)
}

/// The rim of a vertex in a table that just does, and in one that is an entry short; a closed mesh has none.
pub fn of_one(bench: &mut Bench, store: &Store, vertex: u32, rng: &mut Rng) -> Outcome {
    let mut store = store.clone();
    match calls::curve_wanted(&store, vertex) {
        0 => compare_length(bench, &mut store, vertex, 9, rng),
        wanted => {
            [wanted - 1, wanted].iter().try_for_each(|&length| compare_length(bench, &mut store, vertex, length, rng))
        }
    }
}
