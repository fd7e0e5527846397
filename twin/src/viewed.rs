//! What is claimed of views: each number is a coordinate divided by 1024 exactly, and times 1024 the coordinate again;
//! and nothing else is written.

use crate::tables::{Answer, Call, Store};

/// What a call has shown or written that it must not.
pub fn violated_by_view(before: &Store, call: &Call, answer: &Answer, after: &Store) -> Option<String> {
    let shows_all = matches!(call, Call::ViewTriangles) && answer.refusal == 0;
    let shown = if shows_all { 9 * before.triangles() } else { 0 };
    if before.room.view.get(shown..) != after.room.view.get(shown..) {
        return Some("the view table was written where nothing is shown".to_string());
    }
    let (numbers, coordinates): (&[u32], Vec<i32>) = match (call, answer.refusal) {
        (Call::ViewPoint { vertex }, 0) => (&answer.seen, before.point(*vertex as usize).to_vec()),
        (Call::ViewPoint { .. }, _) => (&answer.seen, vec![0; 3]),
        (Call::ViewTriangles, _) => (&after.room.view[..shown], coordinates_shown(before).take(shown).collect()),
        _ => return None,
    };
    if (&before.tables, before.counts) != (&after.tables, after.counts) {
        return Some("a view wrote the mesh".to_string());
    }
    let wrong = numbers.iter().zip(&coordinates).position(|(&bits, &x)| !is_seen(bits, x))?;
    Some(format!("number {wrong} of a view is {:#010x} for {}", numbers[wrong], coordinates[wrong]))
}

/// The coordinates of all corners in use, in the order of the slots.
pub fn coordinates_shown(store: &Store) -> impl Iterator<Item = i32> {
    let corners = store.tables.corners.iter().take(3 * store.triangles());
    corners.flat_map(|&corner| store.point(corner as usize))
}

/// Whether an f32 is x / 1024 exactly, and times 1024 x again.
fn is_seen(bits: u32, x: i32) -> bool {
    is_exact(bits, x) && (f32::from_bits(bits) * 1024.0) as i32 == x
}

/// Whether the f32 of these bits is x / 1024, told by whole numbers alone. Of the two zeros it is the one without sign.
/// Other numbers are 2^(e − 150) times one of 24 bits, of which the first is not stored.
pub fn is_exact(bits: u32, x: i32) -> bool {
    if x == 0 {
        return bits == 0;
    }
    let (exponent, low_bits) = (bits >> 23 & 0xFF, bits & 0x7F_FFFF);
    let (of_24_bits, size) = (u64::from(1 << 23 | low_bits), u64::from(x.unsigned_abs()));
    // The power of 2 that it is times 1024.
    let same_size = match exponent as i32 - 150 + 10 {
        power @ 0..=8 => of_24_bits << power == size,
        power @ -23..=-1 => of_24_bits == size << -power,
        _ => false,
    };
    same_size && (bits >> 31 == 1) == (x < 0)
}
