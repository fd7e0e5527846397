//! Mirror images: one coordinate negated everywhere, in slots that are not in use, in what is lent for work and
//! results, in the cage of a load and in the corners of a box, too.

use crate::tables::{Answer, Bounds, Call, Store};

/// The three coordinates, each of which may be negated.
pub const AXES: [usize; 3] = [0, 1, 2];

/// Whether a call rounds halves, so that only rule 2 keeps mirror images in it.
pub fn rounds_halves(call: &Call) -> bool {
    matches!(call, Call::WholeStep | Call::Limit)
}

pub fn of_store(store: &Store, axis: usize) -> Store {
    let mut image = store.clone();
    negate(&mut image.tables.positions, axis);
    negate(&mut image.room.table, axis);
    negate(&mut image.room.curve, axis);
    negate_seen(&mut image.room.view, axis);
    negate(&mut image.room.spares.positions, axis);
    image
}

/// The mirror image of a call. A box has none where a bound is the least number of all, which has no opposite, and what
/// records or replays has none, as its cages and boxes are bytes with checksums.
pub fn of_call(call: &Call, axis: usize) -> Option<Call> {
    match call {
        Call::Load { rule, cage } => Some(Call::Load { rule: *rule, cage: of_cage(cage, axis) }),
        &Call::RefineBox { mut bounds, below } => {
            let Bounds { low, high } = &mut bounds;
            (low[axis], high[axis]) = (high[axis].checked_neg()?, low[axis].checked_neg()?);
            Some(Call::RefineBox { bounds, below })
        }
        Call::Reported(call) => Some(of_call(call, axis)?.reported()),
        call if call.is_of_journal() => None,
        other => Some(other.clone()),
    }
}

pub fn of_answer(answer: &Answer, axis: usize) -> Answer {
    let mut answer = *answer;
    negate(&mut answer.point, axis);
    negate_seen(&mut answer.seen, axis);
    answer
}

/// The least number of all, which is no coordinate, is its own opposite here.
fn negate(coordinates: &mut [i32], axis: usize) {
    for coordinate in coordinates.iter_mut().skip(axis).step_by(3) {
        *coordinate = coordinate.wrapping_neg();
    }
}

/// The same by the bits of f32, numbers or not. Both zeros stay: that of a coordinate has one sign only.
fn negate_seen(numbers: &mut [u32], axis: usize) {
    const SIGN: u32 = 1 << 31;
    for bits in numbers.iter_mut().skip(axis).step_by(3).filter(|bits| **bits & !SIGN != 0) {
        *bits ^= SIGN;
    }
}

/// Negates one coordinate of as many vertices as the cage says it has, as far as its bytes go.
fn of_cage(cage: &[u8], axis: usize) -> Vec<u8> {
    let mut image = cage.to_vec();
    let (words, _) = image.as_chunks_mut::<4>();
    if let [vertices, _, rest @ ..] = words {
        let vertices = u32::from_le_bytes(*vertices) as usize;
        for point in rest.chunks_exact_mut(3).take(vertices) {
            point[axis] = i32::from_le_bytes(point[axis]).wrapping_neg().to_le_bytes();
        }
    }
    image
}
