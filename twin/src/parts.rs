//! The parts of the differential run.

use std::time::Instant;

use crate::bench::{Bench, Outcome};
use crate::rng::Rng;
use crate::{
    altered_notes, boxes, curve_examples, curves, damage, examples, halves, handmade, histories, journal_damage,
    journal_examples, journals, limits, lists, locks, malformed, note_examples, notes, records, report_examples,
    reports, surgery, unsound, views,
};

type Part = fn(&mut Bench, &mut Rng) -> Outcome;

/// All parts of one run, in order; each has its own random numbers.
const PARTS: &[(&str, Part)] = &[
    ("examples of the papers", examples::run),
    ("locks as they are told", locks::as_told),
    ("locks set and cleared", locks::set_and_clear),
    ("whole steps with locks", locks::whole_steps),
    ("curves as they are told", curve_examples::as_told),
    ("curve tables of all lengths", curves::lengths),
    ("curves with all refusals", curves::orders),
    ("coordinates in curves", curves::coordinates),
    ("journals as they are told", journal_examples::as_told),
    ("records of all lengths", records::lengths),
    ("replays with all refusals", journals::orders),
    ("places in journals", journals::places),
    ("headers of other journals", journal_damage::headers),
    ("records of no kind", journal_damage::odd_records),
    ("views as they are told", views::as_told),
    ("view tables of all lengths", views::lengths),
    ("views with all refusals", views::orders),
    ("coordinates in views", views::coordinates),
    ("views of hand-made tables", |bench, rng| views::random(bench, 2_000, rng)),
    ("reports as they are told", report_examples::as_told),
    ("reports of all lengths", reports::lengths),
    ("reports with all refusals", reports::orders),
    ("reports of chains", reports::chains),
    ("reports of lists", reports::of_lists),
    ("reports of boxes", reports::of_boxes),
    ("redraws by reports", |bench, rng| reports::redraws(bench, 500, rng)),
    ("notes as they are told", note_examples::as_told),
    ("notes of all lengths", notes::lengths),
    ("notes with all refusals", notes::orders),
    ("notes altered", altered_notes::altered),
    ("notes rearranged", altered_notes::rearranged),
    ("notes of changed meshes", notes::stale),
    ("notes of other meshes", notes::of_others),
    ("notes of all sizes", notes::crowds),
    ("halves by both rules", halves::run),
    ("cages with sets of faults", malformed::sets_of_faults),
    ("cages of all lengths", malformed::lengths_and_slots),
    ("cages of fitting lengths", malformed::fitting_lengths),
    ("random malformed cages", |bench, rng| malformed::random_loads(bench, 6_000, rng)),
    ("all small cages", histories::small_cages),
    ("shapes", histories::shapes),
    ("all short request lists", histories::all_request_lists),
    ("hand-made chains", handmade::chains),
    ("hand-made tables", |bench, rng| handmade::histories(bench, 4_000, rng)),
    ("unsound in one way", unsound::run),
    ("all pairs of sides", unsound::all_pairs),
    ("tables of other lengths", damage::lengths),
    ("counts off", damage::counts),
    ("every entry damaged", damage::single_entries),
    ("damage that keeps order", |bench, rng| surgery::random_damage(bench, 8_000, rng)),
    ("chains with locks", locks::chains),
    ("each triangle locked alone", locks::each_alone),
    ("numbers for locks", locks::values),
    ("several locks", |bench, rng| locks::several(bench, 3_000, rng)),
    ("limit positions", limits::run),
    ("curves of shells", |bench, rng| curves::of_shells(bench, 12, rng)),
    ("curves of hand-made tables", |bench, rng| curves::of_hand_made(bench, 400, rng)),
    ("curves of equal rims", |bench, rng| curves::of_equal_rims(bench, 100, rng)),
    ("lists of all lengths", lists::lengths),
    ("lists without room", lists::without_room),
    ("spare tables of other sizes", lists::spare_sizes),
    ("all short lists", lists::all_short),
    ("boxes of all generations", boxes::generations),
    ("boxes with faces at vertices", boxes::faces),
    ("boxes between vertices", boxes::between),
    ("boxes with all refusals", boxes::orders),
    ("boxes without room", boxes::without_room),
    ("boxes of last generations", boxes::ripe),
    ("all small boxes", boxes::all_small),
    ("notes of chains", notes::chains),
    ("notes used late and twice", |bench, rng| notes::late(bench, 400, rng)),
    ("back to the load", |bench, rng| notes::back_to_load(bench, 60, rng)),
    ("whole steps", histories::whole_steps),
    ("shells with boundary", |bench, rng| histories::shells(bench, 150, rng)),
    ("deep histories", |bench, rng| histories::deep(bench, 120, rng)),
    ("random histories", |bench, rng| histories::random(bench, 4_000, rng)),
    ("random records", |bench, rng| records::random(bench, 60, rng)),
    ("records that hold anything", |bench, rng| journal_damage::odd_content(bench, 60, rng)),
    ("journals cut", journal_damage::cut),
    ("journals changed", journal_damage::changed),
    ("journals of garbage", journal_damage::garbage),
    ("random journals", |bench, rng| journals::random(bench, 200, rng)),
    ("journals of histories", |bench, rng| journals::of_histories(bench, 300, rng)),
    ("longest records", records::long),
    ("views of every coordinate", views::every_coordinate),
    ("largest tables", histories::largest),
];

/// Runs all parts up to the first difference.
pub fn run_all(bench: &mut Bench, seed: u64, report: bool) -> Outcome {
    for (number, (name, part)) in PARTS.iter().enumerate() {
        let (start, before) = (Instant::now(), bench.comparisons);
        let outcome = part(bench, &mut Rng::for_part(seed, number as u64));
        if report {
            let seconds = start.elapsed().as_secs_f64();
            println!("{name:<28}{:>9} comparisons {seconds:>7.1} s", bench.comparisons - before);
        }
        outcome?;
    }
    Ok(())
}

/// One more round of the random parts.
pub fn soak_round(bench: &mut Bench, rng: &mut Rng) -> Outcome {
    malformed::random_loads(bench, 20, rng)?;
    handmade::histories(bench, 20, rng)?;
    surgery::random_damage(bench, 30, rng)?;
    locks::several(bench, 20, rng)?;
    views::random(bench, 20, rng)?;
    curves::of_shells(bench, 1, rng)?;
    curves::of_hand_made(bench, 10, rng)?;
    notes::late(bench, 4, rng)?;
    notes::back_to_load(bench, 1, rng)?;
    reports::redraws(bench, 4, rng)?;
    records::random(bench, 1, rng)?;
    journals::random(bench, 2, rng)?;
    journals::of_histories(bench, 2, rng)?;
    journal_damage::odd_content(bench, 1, rng)?;
    histories::shells(bench, 1, rng)?;
    histories::deep(bench, 1, rng)?;
    histories::random(bench, 20, rng)
}
