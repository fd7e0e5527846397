//! The twin against the papers: P1 to P12, the readings, the refusals.

use crate::cages::{self, Cage};
use crate::examples::{self, Example};
use crate::halves::{IN_LIMIT, IN_STEP};
use crate::handmade::store_cage;
use crate::malformed::RawCage;
use crate::mirror;
use crate::program::{Files, model};
use crate::rng::Rng;
use crate::tables::{Answer, BOUNDARY, Call, Counts, FARTHEST, HALF_AWAY, HALF_UP, Store};
use crate::tests::{after_requests, loaded, loaded_by, refined, run};

/// A cage in the tables, be it one that load turns away.
fn stored(cage: &Cage) -> Store {
    stored_by(HALF_UP, cage)
}

fn stored_by(rule: u32, cage: &Cage) -> Store {
    let mut store = Store::junk(60, 100, &mut Rng::new(5));
    assert!(store_cage(&mut store, rule, &cage.bytes()));
    store
}

/// The program's lines for a cage and its requests.
fn lines(cage: &Cage, requests: &[u32]) -> String {
    let requests = requests.iter().flat_map(|request| request.to_le_bytes()).collect();
    model(&Files { cage: Some(cage.bytes()), requests: Some(requests) })
}

fn slot(store: &Store, triangle: usize) -> ([u32; 3], u8) {
    let corners = &store.tables.corners[3 * triangle..];
    ([corners[0], corners[1], corners[2]], store.tables.generations[triangle])
}

#[test]
fn tetrahedron_run_prints_p1_to_p6() {
    let expected = "0 0 0 4 4\n0 1 0 5 6\n0 1 1 6 8\n0 1 0 7 10\n0 2 3 9 14\n8 0 0 9 14\n";
    assert_eq!(lines(&cages::tetrahedron(), &[0, 0, 0, 0, 99]), expected);
}

#[test]
fn tetrahedron_run_leaves_p7_to_p10() {
    let store = after_requests(&cages::tetrahedron(), &[0, 0, 0, 0, 99]);
    assert_eq!(slot(&store, 0), ([0, 8, 6], 4));
    assert_eq!(slot(&store, 5), ([2, 7, 4], 2));
    assert_eq!(store.point(6), [2, 1, 1]);
    assert_eq!(store.point(8), [1, 1, 2]);
}

#[test]
fn whole_step_on_the_tetrahedron_gives_p11_and_p12() {
    let mut store = loaded(&cages::tetrahedron());
    let counts = Counts { vertices: 8, triangles: 12, rule: HALF_UP };
    let answer = Answer { splits: 4, flips: 6, counts, ..Answer::default() };
    assert_eq!(run(&mut store, &Call::WholeStep), answer);
    assert_eq!(store.point(0), [2, 2, 2]);
    assert_eq!(store.point(1), [4, 2, 2]);
}

#[test]
fn an_even_triangle_may_rise_by_two() {
    let upper = [[0, 1, 2], [0, 2, 3], [0, 3, 4], [0, 4, 1]];
    let lower = [[2, 1, 5], [3, 2, 5], [4, 3, 5], [1, 4, 5]];
    let octahedron = Cage::of([upper, lower].concat());
    assert_eq!(lines(&octahedron, &[0, 4]), "0 0 0 6 8\n0 1 0 7 10\n0 1 1 8 12\n");
    assert_eq!(slot(&after_requests(&octahedron, &[0, 4]), 4), ([2, 6, 7], 2));
    assert_eq!(slot(&refined(stored(&cages::foil()), &[0, 1]), 1).1, 2);
}

#[test]
fn the_even_triangle_across_may_stand_in_another_slot() {
    let expected = "0 0 0 4 4\n0 1 0 5 6\n0 1 1 6 8\n0 1 0 7 10\n0 2 3 9 14\n";
    assert_eq!(lines(&cages::tetrahedron(), &[0, 3, 7, 9]), expected);
    let store = after_requests(&cages::tetrahedron(), &[0, 3, 7, 9]);
    assert_eq!(slot(&store, 9), ([5, 8, 6], 4));
    assert_eq!(slot(&store, 6), ([3, 7, 5], 2));
    assert_eq!(slot(&store, 1), ([0, 6, 8], 4));
}

#[test]
fn rim_splits_make_nine_triangles_of_one() {
    let expected = "0 0 0 3 1\n0 1 0 4 3\n0 1 0 6 5\n0 1 1 8 7\n0 1 2 10 9\n";
    assert_eq!(lines(&cages::strip(1), &[0, 0, 1, 2]), expected);
    let store = after_requests(&cages::strip(1), &[0, 0, 1, 2]);
    let nine = (0..9).map(|triangle| slot(&store, triangle));
    let figure = [
        ([3, 9, 4], 4),
        ([2, 8, 7], 4),
        ([3, 7, 8], 4),
        ([4, 5, 3], 4),
        ([1, 6, 5], 4),
        ([6, 7, 3], 4),
        ([3, 5, 6], 4),
        ([8, 9, 3], 4),
        ([0, 4, 9], 4),
    ];
    let turned = |[a, b, c]: [u32; 3]| [[a, b, c], [b, c, a], [c, a, b]].into_iter().min();
    let sorted = |cells: Vec<([u32; 3], u8)>| {
        let mut cells: Vec<_> = cells.into_iter().map(|(corners, generation)| (turned(corners), generation)).collect();
        cells.sort_unstable();
        cells
    };
    assert_eq!(sorted(nine.collect()), sorted(figure.to_vec()));
    assert_eq!(store.tables.links[..27].iter().filter(|&&link| link == BOUNDARY).count(), 9);
}

#[test]
fn rim_splits_place_the_nearest_thirds_in_order() {
    let mut cage = cages::strip(1);
    // Thirds of the base: 2A + B is 0 in x, −5 in y and 1 in z; A + 2B is 9, −4 and 2.
    cage.points = vec![[-3, -2, 0], [6, -1, 1], [0, 0, 0]];
    let store = after_requests(&cage, &[0, 0]);
    assert_eq!((store.point(4), store.point(5)), ([0, -2, 0], [3, -1, 1]));
    assert_eq!(slot(&store, 0), ([3, 0, 4], 3));
    assert_eq!(slot(&store, 3), ([4, 5, 3], 4));
    assert_eq!(slot(&store, 4), ([1, 3, 5], 3));
    assert_eq!(store.tables.links[..3], [7, BOUNDARY, 11]);
}

#[test]
fn links_are_no_function_of_the_corners() {
    let store = refined(stored(&cages::foil()), &[0, 1]);
    let sides = (0..18).filter(|&side: &usize| {
        let ends = [side, side - side % 3 + (side + 1) % 3].map(|corner| store.tables.corners[corner]);
        ends == [3, 4]
    });
    assert_eq!((store.counts.triangles, sides.count()), (6, 3));
}

#[test]
fn a_foil_is_turned_away_and_two_triangles_on_the_boundary_are_not() {
    let foil = cages::foil();
    assert_eq!(lines(&foil, &[0]), "6 0 0 0 0\n7 0 0 0 0\n");
    assert_eq!(lines(&cages::tetrahedron().with(&foil), &[]), "6 0 0 0 0\n");
    assert_eq!(lines(&foil.with(&cages::strip(1)), &[]), "6 0 0 0 0\n");
    assert_eq!(lines(&cages::strip(2), &[]), "0 0 0 4 2\n");
    assert_eq!(lines(&cages::strip(1), &[]), "0 0 0 3 1\n");
}

#[test]
fn refusals_are_those_of_the_table() {
    let rng = &mut Rng::new(3);
    let table = examples::refusals(rng);
    assert!(table.iter().map(|example| example.refusal).eq((1..=20).filter(|&number| number != 10)));
    for Example { refusal, store, call } in table.into_iter().chain(examples::orders(rng)) {
        let mut after = store.clone();
        let answer = run(&mut after, &call);
        assert_eq!(answer.refusal, refusal, "{call:?}");
        if refusal > 0 {
            assert_eq!(after, store, "{call:?}");
            // Zeros and the counts as they were.
            assert_eq!(answer, Answer { refusal, counts: store.counts, ..Answer::default() });
        }
    }
}

#[test]
fn of_several_faults_in_a_cage_the_lowest_number_is_given() {
    let rng = &mut Rng::new(8);
    for cage in cages::shapes() {
        for set in 1..32_u32 {
            let mut raw = RawCage::new(&cage);
            let faults = (2..=6).filter(|refusal| set & (1 << (refusal - 2)) != 0);
            faults.clone().rev().for_each(|refusal| raw.spoil(refusal, rng));
            let mut store = Store::fresh(cage.points.len() + 4, cage.triangles.len() + 3);
            let load = |rule: u32| Call::Load { rule, cage: raw.bytes() };
            assert_eq!(Some(run(&mut store, &load(HALF_AWAY)).refusal), faults.min());
            assert_eq!(run(&mut store, &load(3)).refusal, 16);
        }
    }
}

#[test]
fn thirds_round_to_the_nearest() {
    for (sum, third) in [(4, 1), (5, 2), (-1, 0), (-4, -1), (-5, -2), (3 * FARTHEST, FARTHEST)] {
        let mut cage = cages::strip(1);
        cage.points = vec![[sum / 3, 0, 0], [sum / 3, 0, 0], [sum - sum / 3 * 2, 0, 0]];
        assert_eq!(after_requests(&cage, &[0]).point(3)[0], third, "a third of {sum}");
    }
}

#[test]
fn halves_go_up_by_rule_1_and_away_from_zero_by_rule_2() {
    let tetrahedron = |x: i32| Cage { points: vec![[0; 3], [x, 0, 0], [0; 3], [0; 3]], ..cages::tetrahedron() };
    for (rule, x, moved) in [(1, 98_304, 18_205), (1, -98_304, -18_204), (2, 98_304, 18_205), (2, -98_304, -18_205)] {
        let mut store = loaded_by(rule, &tetrahedron(x));
        run(&mut store, &Call::WholeStep);
        assert_eq!(store.point(0)[0], moved);
    }
    for rule in [HALF_UP, HALF_AWAY] {
        for halfway in &IN_STEP {
            let mut store = stored_by(rule, &halfway.cage());
            run(&mut store, &Call::WholeStep);
            assert_eq!(store.point(halfway.vertex()), halfway.expected(rule), "{} entries", halfway.entries);
        }
        for halfway in &IN_LIMIT {
            let limits = limits(&mut stored_by(rule, &halfway.cage()));
            assert_eq!(limits[halfway.vertex()], halfway.expected(rule), "{} entries", halfway.entries);
        }
    }
}

#[test]
fn rule_2_keeps_mirror_images_and_rule_1_does_not() {
    for rule in [HALF_UP, HALF_AWAY] {
        for (halfway, call) in [(&IN_STEP[1], Call::WholeStep), (&IN_LIMIT[1], Call::Limit)] {
            let mut store = stored_by(rule, &halfway.cage());
            store.room.table = vec![-5; 3 * store.vertices()];
            let mut image = mirror::of_store(&store, 1);
            run(&mut store, &call);
            run(&mut image, &call);
            assert_eq!(image == mirror::of_store(&store, 1), rule == HALF_AWAY, "{call:?} by rule {rule}");
        }
    }
}

#[test]
fn the_rule_stays_with_the_counts_until_a_load_is_carried_out() {
    let mut store = Store::fresh(60, 100);
    let load = |rule: u32, cage: Vec<u8>| Call::Load { rule, cage };
    let tetrahedron = cages::tetrahedron().bytes();
    store.room.table = vec![0; 12];
    let calls = [
        (load(2, tetrahedron.clone()), 0, 2),
        (load(1, vec![0; 7]), 2, 2),
        (load(0, tetrahedron.clone()), 16, 2),
        (Call::Limit, 0, 2),
        (Call::WholeStep, 0, 2),
        (Call::Refine { triangle: 5 }, 0, 2),
        (Call::Refine { triangle: 99 }, 8, 2),
        (Call::Ring { vertex: 0 }, 14, 2),
        (Call::Position { vertex: 0 }, 0, 2),
        (load(1, tetrahedron.clone()), 0, 1),
        (load(3, tetrahedron), 16, 1),
        (Call::WholeStep, 0, 1),
    ];
    for (call, refusal, rule) in calls {
        let answer = run(&mut store, &call);
        assert_eq!((answer.refusal, answer.counts.rule, store.counts.rule), (refusal, rule, rule), "{call:?}");
    }
}

#[test]
fn weights_are_the_formula_to_the_nearest() {
    let mut foil = cages::foil();
    foil.points[0] = [65_536, 0, 0];
    let mut store = stored(&foil);
    run(&mut store, &Call::WholeStep);
    assert_eq!(store.point(0)[0], 65_536 - 43_691);
    for sides in 3..=12_u32 {
        let mut cage = cages::double_pyramid(sides);
        // The apex alone lies away from the origin, so that it keeps the share (65536 − w) / 65536 of its way.
        cage.points[sides as usize] = [65_536, 0, 0];
        let mut store = loaded(&cage);
        run(&mut store, &Call::WholeStep);
        let cosine = (std::f64::consts::TAU / f64::from(sides)).cos();
        let weight = (65_536.0 * (4.0 - 2.0 * cosine) / 9.0).round() as i32;
        assert_eq!(store.point(sides as usize)[0], 65_536 - weight, "{sides} sides");
    }
}

/// The limit positions of a mesh, one point a vertex.
fn limits(store: &mut Store) -> Vec<[i32; 3]> {
    store.room.table = vec![99; 3 * store.counts.vertices as usize];
    let before = store.clone();
    assert_eq!(run(store, &Call::Limit), Answer { counts: before.counts, ..Answer::default() });
    assert_eq!((&store.tables, store.counts), (&before.tables, before.counts), "the mesh is only read");
    store.room.table.chunks_exact(3).map(|point| [point[0], point[1], point[2]]).collect()
}

#[test]
fn limits_are_the_formula_to_the_nearest() {
    let tetrahedron = limits(&mut loaded(&cages::tetrahedron()));
    assert_eq!(tetrahedron, [[2, 2, 2], [3, 2, 2], [2, 3, 2], [2, 2, 3]]);
    for sides in 3..=12_u32 {
        let mut cage = cages::double_pyramid(sides);
        // The apex alone lies away from the origin, so that it keeps the share 1 / (1 + 3α) of its way (document 000,
        // formulas (7) and (8) at infinity).
        cage.points[sides as usize] = [1_000_000, 0, -1_000_000];
        let cosine = (std::f64::consts::TAU / f64::from(sides)).cos();
        let share = 1_000_000.0 / (1.0 + 3.0 * (4.0 - 2.0 * cosine) / 9.0);
        let [x, y, z] = limits(&mut loaded(&cage))[sides as usize];
        // The weights of the table are off by 1/131072 at most.
        assert!((f64::from(x) - share).abs() < 12.0 && x + z == 0 && y == 0, "{sides} sides: {x} for {share}");
    }
}

#[test]
fn whole_steps_lead_to_the_limits() {
    let rng = &mut Rng::new(6);
    for cage in [cages::tetrahedron(), cages::foil(), cages::double_pyramid(5), cages::double_pyramid(12)] {
        let mut cage = cage;
        cage.points.iter_mut().flatten().for_each(|coordinate| *coordinate = rng.between(-1_000_000, 1_000_000));
        let mut store = Store::junk(9_000, 18_000, rng);
        assert!(store_cage(&mut store, HALF_UP, &cage.bytes()));
        let first = limits(&mut store);
        for _ in 0..6 {
            assert_eq!(run(&mut store, &Call::WholeStep).refusal, 0);
        }
        let last = limits(&mut store);
        for (vertex, limit) in first.iter().enumerate() {
            for axis in 0..3 {
                // Each step rounds the vertex and its ring; 0.42 to the sixth power is below 1/180.
                assert!((last[vertex][axis] - limit[axis]).abs() <= 8, "{vertex}: {limit:?}, {:?}", last[vertex]);
                assert!((store.point(vertex)[axis] - limit[axis]).abs() <= 4_000_000 / 180);
            }
        }
    }
}

#[test]
fn rings_start_and_end_where_the_papers_say() {
    let ring = |store: &mut Store, vertex: u32| {
        store.room.ring = vec![99; 6];
        let length = run(store, &Call::Ring { vertex }).length as usize;
        let (written, rest) = store.room.ring.split_at(length);
        assert!(rest.iter().all(|&entry| entry == 99));
        written.to_vec()
    };
    assert_eq!(ring(&mut loaded(&cages::strip(1)), 0), [1, 2]);
    assert_eq!(ring(&mut loaded(&cages::tetrahedron()), 0), [1, 2, 3]);
    assert_eq!(ring(&mut loaded(&cages::tetrahedron()), 3), [1, 0, 2]);
    assert_eq!(ring(&mut stored(&cages::foil()), 1), [2, 0]);
    assert_eq!(ring(&mut loaded(&cages::open_fan(3)), 0), [1, 2, 3, 4]);
    assert_eq!(ring(&mut loaded(&cages::open_fan(3)), 2), [3, 0, 1]);
}

#[test]
fn whole_step_splits_every_triangle_and_flips_every_edge() {
    let rng = &mut Rng::new(4);
    for cage in [cages::torus(3, 3), cages::double_pyramid(7), cages::foil(), cages::tetrahedron()] {
        let mut store = stored(&cage.shuffled(rng).scattered(rng));
        let before = store.clone();
        let faces = before.counts.triangles;
        let answer = run(&mut store, &Call::WholeStep);
        assert_eq!((answer.refusal, answer.splits, answer.flips), (0, faces, 3 * faces / 2));
        assert!(store.tables.generations[..3 * faces as usize].iter().all(|&generation| generation == 2));
        assert!(store.tables.links[..9 * faces as usize].iter().all(|&link| link != BOUNDARY));
        let valence = |store: &Store, vertex: u32| {
            store.tables.corners[..3 * store.counts.triangles as usize].iter().filter(|&&v| v == vertex).count()
        };
        for vertex in 0..store.counts.vertices {
            let old = vertex < before.counts.vertices;
            assert_eq!(valence(&store, vertex), if old { valence(&before, vertex) } else { 6 });
        }
    }
}
