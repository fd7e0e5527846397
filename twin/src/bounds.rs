//! A box, by its corners.

/// A box: all points from its low corner to its high one in each coordinate, its faces included.
#[derive(Clone, Copy, Debug, PartialEq, Eq)]
pub struct Bounds {
    pub low: [i32; 3],
    pub high: [i32; 3],
}

impl Bounds {
    pub const EVERYWHERE: Bounds = Bounds { low: [i32::MIN; 3], high: [i32::MAX; 3] };

    /// The smallest box with these two points in it.
    pub fn about(one: [i32; 3], other: [i32; 3]) -> Bounds {
        let corner = |pick: fn(i32, i32) -> i32| std::array::from_fn(|axis| pick(one[axis], other[axis]));
        Bounds { low: corner(i32::min), high: corner(i32::max) }
    }

    pub fn holds(&self, point: [i32; 3]) -> bool {
        (0..3).all(|axis| self.low[axis] <= point[axis] && point[axis] <= self.high[axis])
    }
}
