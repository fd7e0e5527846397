//! Histories: lists of calls on one mesh, refused ones among them, and the claims of demand 3 after each.

use crate::bench::{Bench, Outcome, difference};
use crate::cages::{self, Cage};
use crate::calls;
use crate::claims;
use crate::curved::all_rims;
use crate::curves;
use crate::damage;
use crate::handmade;
use crate::journal_calls;
use crate::malformed;
use crate::picks;
use crate::random_cages::random_cage;
use crate::reports;
use crate::rng::Rng;
use crate::tables::{BOUNDARY, Bounds, Call, Counts, LAST_GENERATION, NOTE_ENTRIES, Store};
use crate::views;

/// A mesh in the course of a history, with V − E + F of the cage of the last accepted load.
struct History {
    store: Store,
    euler_number: Option<i64>,
}

impl History {
    /// Histories that begin on any tables and counts.
    fn begun(vertex_slots: usize, triangle_slots: usize, rng: &mut Rng) -> History {
        let mut store = match rng.below(3) {
            0 => Store::fresh(vertex_slots, triangle_slots),
            _ => Store::junk(vertex_slots, triangle_slots, rng),
        };
        if rng.percent(30) {
            let vertices = picks::some_number(vertex_slots as u32, rng);
            let triangles = picks::some_number(triangle_slots as u32, rng);
            store.counts = Counts { vertices, triangles, rule: picks::some_rule(rng) };
        }
        History { store, euler_number: None }
    }

    /// Loads a cage by a rule.
    fn load(&mut self, bench: &mut Bench, rule: u32, cage: Vec<u8>) -> Outcome {
        let call = Call::Load { rule, cage };
        let answer = bench.compare(&mut self.store, &call)?;
        if let (Call::Load { cage, .. }, 0) = (&call, answer.refusal) {
            self.euler_number = Some(Cage::of_bytes(cage).euler_number());
        }
        Ok(())
    }

    /// The same; a cage that is turned away for a foil is then put into the tables by hand.
    fn load_or_store(&mut self, bench: &mut Bench, cage: &Cage, rng: &mut Rng) -> Outcome {
        let rule = picks::either_rule(rng);
        self.load(bench, rule, cage.bytes())?;
        if self.euler_number.is_none() && handmade::store_cage(&mut self.store, rule, &cage.bytes()) {
            self.euler_number = Some(cage.euler_number());
        }
        Ok(())
    }

    fn refine(&mut self, bench: &mut Bench, triangle: u32) -> Outcome<u32> {
        Ok(bench.compare(&mut self.store, &Call::Refine { triangle })?.refusal)
    }

    /// The claims of demand 3, once a load was accepted or a cage stored: three on the tables, and the fourth, which
    /// every comparison of a refine tests, on some triangles.
    fn check(&self, bench: &mut Bench, rng: &mut Rng) -> Outcome {
        let Some(euler_number) = self.euler_number else {
            return Ok(());
        };
        let look = Call::Position { vertex: 0 };
        let wrong = claims::violated(&self.store, euler_number);
        if let Some(what) = wrong.or_else(|| claims::unreached_boundary(&self.store)) {
            return Err(difference(what, self.store.clone(), &look));
        }
        // Rims of two vertices come from no load.
        if let Some(rim) = all_rims(&self.store).iter().find(|rim| rim.len() < 3) {
            return Err(difference(format!("the rim of side {} is narrow", rim[0]), self.store.clone(), &look));
        }
        if bench.compare_only(&self.store, &look)?.refusal != 0 {
            let what = "tables not sound after an accepted load".to_string();
            return Err(difference(what, self.store.clone(), &look));
        }
        for _ in 0..6 {
            let triangle = rng.below(self.store.triangles()) as u32;
            bench.compare_only(&self.store, &Call::Refine { triangle })?;
        }
        Ok(())
    }
}

/// Every shape, plain and shuffled: loaded or stored, all rings, positions and curves read and all triangles shown,
/// limits and the whole step tried, refined at random.
pub fn shapes(bench: &mut Bench, rng: &mut Rng) -> Outcome {
    for shape in cages::shapes() {
        for shuffle in 0..3 {
            let cage = if shuffle == 0 { shape.clone() } else { shape.shuffled(rng).scattered(rng) };
            let spare = rng.pick(&[0, 30, 200]);
            let mut history = History::begun(cage.points.len() + spare, cage.triangles.len() + 2 * spare, rng);
            history.load_or_store(bench, &cage, rng)?;
            for vertex in 0..cage.points.len() as u32 {
                read_vertex(bench, &mut history.store, vertex, rng)?;
            }
            views::compare_lengths(bench, &mut history.store, rng)?;
            calls::compare_limits(bench, &mut history.store, rng)?;
            bench.compare_only(&history.store, &Call::WholeStep)?;
            calls::compare_some(bench, &mut history.store, 40, rng)?;
            history.check(bench, rng)?;
        }
    }
    Ok(())
}

/// A vertex's position, also in millimetres, the curve of its rim, and its ring in a buffer that is long, just long
/// enough, and one entry too short.
fn read_vertex(bench: &mut Bench, store: &mut Store, vertex: u32, rng: &mut Rng) -> Outcome {
    bench.compare_only(store, &Call::Position { vertex })?;
    bench.compare_only(store, &Call::ViewPoint { vertex })?;
    curves::compare_lengths(bench, store, vertex, rng)?;
    store.room.ring = vec![rng.word(); 42];
    let length = bench.compare_only(store, &Call::Ring { vertex })?.length;
    for length in [length, length.saturating_sub(1)] {
        store.room.ring = vec![rng.word(); length as usize];
        bench.compare_only(store, &Call::Ring { vertex })?;
    }
    Ok(())
}

/// Whole steps one after another as long as there is room, the limits read before each, with a little refining at the
/// end.
pub fn whole_steps(bench: &mut Bench, rng: &mut Rng) -> Outcome {
    for round in 0..60 {
        let (vertices, triangles) = rng.pick(&[(80, 150), (700, 1400), (2000, 4000)]);
        let mut history = History::begun(vertices, triangles, rng);
        let closed = [cages::tetrahedron(), cages::foil(), cages::double_pyramid(3 + round % 11), cages::torus(3, 4)];
        let cage = closed[round as usize % 4].clone().shuffled(rng).scattered(rng);
        history.load_or_store(bench, &cage, rng)?;
        for _ in 0..6 {
            calls::compare_limits(bench, &mut history.store, rng)?;
            bench.compare(&mut history.store, &Call::WholeStep)?;
        }
        calls::compare_some(bench, &mut history.store, 6, rng)?;
        history.check(bench, rng)?;
    }
    Ok(())
}

/// Long refine histories that go deep in one place, to generation 20 and to chains of ten where there is room.
pub fn deep(bench: &mut Bench, rounds: usize, rng: &mut Rng) -> Outcome {
    for _ in 0..rounds {
        let spare = rng.pick(&[60, 250, 500]);
        let cage = random_cage(rng);
        let mut history = History::begun(cage.points.len() + spare, cage.triangles.len() + 2 * spare, rng);
        history.load_or_store(bench, &cage, rng)?;
        if history.euler_number.is_none() {
            continue;
        }
        let style = rng.below(3);
        for step in 0..rng.pick(&[60, 120]) {
            let triangle = match style {
                0 => picks::deepest_triangle(&history.store),
                1 if step % 24 == 23 => picks::longest_chain_triangle(&history.store),
                1 => chain_lengthener(&history.store, rng),
                _ if rng.percent(70) => picks::deepest_triangle(&history.store),
                _ => picks::longest_chain_triangle(&history.store),
            };
            if history.refine(bench, triangle)? != 0 {
                calls::compare_some(bench, &mut history.store, 3, rng)?;
            }
        }
        calls::compare_some(bench, &mut history.store, 6, rng)?;
        history.check(bench, rng)?;
    }
    Ok(())
}

/// Refine histories of shells that go along their boundary, where rim splits are made, and deep at one place of it.
pub fn shells(bench: &mut Bench, rounds: u32, rng: &mut Rng) -> Outcome {
    for round in 0..rounds {
        let size = 3 + round % 5;
        let open = [cages::strip(size - 2), cages::disc(size), cages::band(size), cages::sheet(2, size)];
        let cage = open[rng.below(open.len())].shuffled(rng).scattered(rng);
        let spare = rng.pick(&[20, 150, 400]);
        let mut history = History::begun(cage.points.len() + spare, cage.triangles.len() + 2 * spare, rng);
        history.load(bench, picks::either_rule(rng), cage.bytes())?;
        let deep = rng.pick(&[10, 50, 90]);
        for _ in 0..rng.pick(&[12, 40, 100]) {
            let triangle = if rng.percent(deep) {
                picks::deepest_triangle(&history.store)
            } else {
                picks::boundary_triangle(&history.store, rng)
            };
            if history.refine(bench, triangle)? != 0 {
                calls::compare_some(bench, &mut history.store, 2, rng)?;
            }
        }
        for vertex in 0..4 {
            read_vertex(bench, &mut history.store, vertex, rng)?;
        }
        history.check(bench, rng)?;
    }
    Ok(())
}

/// A triangle whose refining may lengthen the longest base chain: an even one beside a non-base side of its first
/// triangle, whose child then stands on that side; or, to get such an even one, an odd triangle there.
pub fn chain_lengthener(store: &Store, rng: &mut Rng) -> u32 {
    let first = picks::longest_chain_triangle(store) as usize;
    let side = 3 * first + 1 + rng.below(2);
    let beside = store.tables.links[side];
    let generation = store.tables.generations[first];
    if generation.is_multiple_of(2) || beside == BOUNDARY || generation + 1 >= LAST_GENERATION || rng.percent(10) {
        return rng.below(store.triangles()) as u32;
    }
    beside / 3
}

/// Random histories of all calls, on stores with slots to spare and with none.
pub fn random(bench: &mut Bench, rounds: usize, rng: &mut Rng) -> Outcome {
    for _ in 0..rounds {
        let cage = random_cage(rng);
        let (vertices, triangles) = rng.pick(&[(0, 0), (0, 0), (1, 2), (2, 3), (5, 10), (5, 60), (40, 20), (80, 160)]);
        let mut history = History::begun(cage.points.len() + vertices, cage.triangles.len() + triangles, rng);
        if rng.percent(90) {
            calls::compare_some(bench, &mut history.store, rng.below(3), rng)?;
            history.load(bench, picks::some_rule(rng), cage.bytes())?;
        }
        for _ in 0..10 + rng.below(40) {
            match rng.below(40) {
                0 => history.load(bench, picks::some_rule(rng), random_cage(rng).bytes())?,
                1 => history.load(bench, picks::some_rule(rng), malformed::random(rng))?,
                2 => journal_calls::compare_some(bench, &history.store, rng)?,
                _ => calls::compare_some(bench, &mut history.store, 1, rng)?,
            }
        }
        history.check(bench, rng)?;
        if history.euler_number.is_some() && rng.percent(30) {
            // The same mesh near generation 20, as no history gives it.
            let mut raised = handmade::raised(&history.store, rng);
            calls::compare_some(bench, &mut raised, 6, rng)?;
        }
    }
    Ok(())
}

/// All cages of one or two triangles on four vertices, repeated corners included, and all of three proper ones.
pub fn small_cages(bench: &mut Bench, rng: &mut Rng) -> Outcome {
    let all: Vec<[u32; 3]> = (0..64).map(|code| [code / 16, code / 4 % 4, code % 4]).collect();
    let proper = all.iter().filter(|[a, b, c]| a != b && b != c && c != a);
    let ones = all.iter().map(|&one| vec![one]);
    let twos = all.iter().flat_map(|&one| all.iter().map(move |&two| vec![one, two]));
    let threes = proper.clone().flat_map(|&one| {
        let proper = proper.clone();
        proper.clone().flat_map(move |&two| proper.clone().map(move |&three| vec![one, two, three]))
    });
    for triangles in ones.chain(twos).chain(threes) {
        let mut store = Store::junk(8, 9, rng);
        let call = Call::Load { rule: picks::either_rule(rng), cage: Cage::of(triangles).bytes() };
        if bench.compare(&mut store, &call)?.refusal == 0 {
            calls::compare_some(bench, &mut store, 2, rng)?;
        }
    }
    Ok(())
}

/// Every list of a few requests on small cages.
pub fn all_request_lists(bench: &mut Bench, rng: &mut Rng) -> Outcome {
    let open = [cages::strip(1), cages::strip(2), cages::disc(3)];
    for cage in [cages::tetrahedron(), cages::foil()].into_iter().chain(open) {
        let spare = 6;
        let store = damage::refined(&cage, &[], spare, rng);
        all_lists_from(bench, &store, 4)?;
    }
    Ok(())
}

fn all_lists_from(bench: &mut Bench, store: &Store, length: usize) -> Outcome {
    for triangle in 0..store.counts.triangles + u32::from(length == 1) {
        let mut refined = store.clone();
        let answer = bench.compare(&mut refined, &Call::Refine { triangle })?;
        if length > 1 && answer.refusal == 0 {
            all_lists_from(bench, &refined, length - 1)?;
        }
    }
    Ok(())
}

/// Cages that fill the largest tables, a whole step that nearly does, and rings, lists, boxes, reports, curves and
/// views of tens of thousands, with a refine taken back.
pub fn largest(bench: &mut Bench, rng: &mut Rng) -> Outcome {
    let fans = [cages::double_pyramid(32_700), cages::open_fan(32_766)];
    for cage in [cages::torus(128, 256), cages::torus(106, 103)].into_iter().chain(fans) {
        let mut history = History::begun(32_768, 65_536, rng);
        history.load(bench, picks::either_rule(rng), cage.shuffled(rng).scattered(rng).bytes())?;
        history.store.room.spares = calls::fitting_spares(&history.store, rng);
        let list: Vec<u32> = (0..history.store.counts.triangles).step_by(2).collect();
        let half_space = Bounds { low: [0, i32::MIN, i32::MIN], ..Bounds::EVERYWHERE };
        // As far as a lock lets them, and to the end.
        for (on, bounds) in [(true, Bounds::EVERYWHERE), (false, half_space)] {
            bench.compare(&mut history.store, &Call::SetLock { triangle: list[4], on })?;
            bench.compare_only(&history.store, &Call::RefineList { list: list.clone() })?;
            bench.compare_only(&history.store, &Call::RefineBox { bounds, below: 1 })?;
        }
        let far = (0..4).map(|_| history.store.point(rng.below(cage.points.len()))[0]).max();
        let slab = Bounds { low: [far.unwrap_or(0), i32::MIN, i32::MIN], ..Bounds::EVERYWHERE };
        reports::of_all(bench, &history.store, slab, rng)?;
        curves::of_one(bench, &history.store, rng.below(cage.points.len()) as u32, rng)?;
        for _ in 0..2 {
            history.store.room.table = vec![7; 3 * history.store.vertices()];
            bench.compare(&mut history.store, &Call::Limit)?;
            bench.compare(&mut history.store, &Call::WholeStep)?;
            calls::compare_some(bench, &mut history.store, 4, rng)?;
        }
        history.store.room.view = calls::some_numbers(9 * history.store.triangles() + 9, rng);
        bench.compare(&mut history.store, &Call::ViewTriangles)?;
        history.store.room.view.truncate(9 * history.store.triangles() - 1);
        bench.compare(&mut history.store, &Call::ViewTriangles)?;
        history.store.room.note = calls::some_entries(NOTE_ENTRIES, rng);
        for triangle in [0, history.store.counts.triangles - 1] {
            bench.compare(&mut history.store, &Call::RefineNoted { triangle })?;
        }
        bench.compare(&mut history.store, &Call::TakeBack)?;
        history.store.room.ring = vec![7; 32_768];
        bench.compare(&mut history.store, &Call::Ring { vertex: rng.below(cage.points.len()) as u32 })?;
        history.check(bench, rng)?;
    }
    Ok(())
}
