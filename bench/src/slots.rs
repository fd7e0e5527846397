//! The slots that a refine changes, and their order.

use crate::tables::Lent;

/// Gives the slots that refining this triangle changes each other's numbers, so that each that is found has as many of
/// those found before it below it as take the most to pass: the greatest odd number. Answers the triangle's new number.
pub fn in_dearest_order(lent: &mut Lent, triangle: u32) -> u32 {
    let found = found_changed(lent, triangle);
    let mut rising: Vec<u32> = Vec::new();
    for (place, &slot) in found.iter().enumerate() {
        rising.insert(if place == 0 { 0 } else { (place - 1) | 1 }, slot);
    }
    let mut numbers = found;
    numbers.sort_unstable();
    let mut moved: Vec<u32> = (0..lent.counts.triangles).collect();
    rising.iter().zip(&numbers).for_each(|(&slot, &number)| moved[slot as usize] = number);
    let before = lent.tables.clone();
    for (slot, &number) in moved.iter().enumerate() {
        let number = number as usize;
        lent.tables.generations[number] = before.generations[slot];
        for side in 0..3 {
            let link = before.links[3 * slot + side];
            lent.tables.corners[3 * number + side] = before.corners[3 * slot + side];
            lent.tables.links[3 * number + side] = 3 * moved[link as usize / 3] + link % 3;
        }
    }
    moved[triangle as usize]
}

/// The slots that refining this triangle of a closed mesh changes, where all sides of its chain's end meet bases, in the
/// order in which the library finds them: the odd triangles of the chain but the last and those whose bases meet the
/// end, each with the one across its side 1, and the end.
fn found_changed(lent: &Lent, triangle: u32) -> Vec<u32> {
    let across = |slot: u32, side: usize| lent.tables.links[3 * slot as usize + side] / 3;
    let chain: Vec<u32> = std::iter::successors(Some(triangle), |&slot| Some(across(slot, 0)))
        .take_while(|&slot| lent.tables.generations[slot as usize] % 2 == 1)
        .collect();
    let (last, others) = chain.split_last().expect("the triangle is odd");
    let end = across(*last, 0);
    let odd = others.iter().copied().chain((0..3).map(|side| across(end, side)));
    odd.flat_map(|slot| [slot, across(slot, 1)]).chain([end]).collect()
}
