//! The face split, the rim split, the flip, the base chain and the refining of one triangle.

use crate::fault::Fault;
use crate::mesh::{Mesh, Operation, Side, Triangle};

/// The base chain of a triangle: its odd triangles in order, and the even one at its end, or none where it ends at
/// the boundary.
pub struct BaseChain {
    pub odd: Vec<usize>,
    pub even_end: Option<usize>,
}

impl BaseChain {
    /// The triangle that is split first: the even one, or the last odd one at the boundary.
    pub fn end(&self) -> usize {
        self.even_end.or(self.odd.last().copied()).expect("a chain has a triangle")
    }
}

/// Splits, face and rim, and flips, counted as they are made.
#[derive(Clone, Copy, Debug, Default, PartialEq, Eq)]
pub struct Work {
    pub splits: u32,
    pub flips: u32,
}

impl Work {
    /// One split more, with its flips.
    fn add(&mut self, flips: u32) {
        *self = self.and(Work { splits: 1, flips });
    }

    /// Both together.
    pub fn and(self, other: Work) -> Work {
        Work { splits: self.splits + other.splits, flips: self.flips + other.flips }
    }
}

impl Mesh {
    /// Links two new sides.
    fn join(&mut self, one: Side, other: Side) {
        self.set_link(one, Some(other));
        self.set_link(other, Some(one));
    }

    /// Moves old sides with their partners, which are told. Each pair is an old place and a new one. A partner may
    /// itself be among the moved sides.
    fn move_sides(&mut self, moves: &[(Side, Side)]) {
        let new_place = |side: Side| moves.iter().find(|(from, _)| *from == side).map_or(side, |&(_, to)| to);
        let partners: Vec<Option<Side>> = moves.iter().map(|&(from, _)| self.across(from).map(new_place)).collect();
        for (&(from, to), partner) in moves.iter().zip(partners) {
            self.set_link(to, partner);
            if let Some(partner) = partner
                && !(self.fault.has(Fault::PartnerNotTold) && from != to)
                && !(self.fault.has(Fault::LockedNotTold) && self.is_locked(partner.triangle))
            {
                self.set_link(partner, Some(to));
            }
        }
    }

    /// The place of a new vertex: the nearest third of the sum of three vertices in each coordinate.
    fn third_of(&self, vertices: [usize; 3]) -> [i32; 3] {
        std::array::from_fn(|axis| {
            let sum: i64 = vertices.iter().map(|&vertex| i64::from(self.points[vertex][axis])).sum();
            self.fault.unless(Fault::ThirdsTruncated, (sum + 1).div_euclid(3), sum / 3) as i32
        })
    }

    /// The face split: children in slots t, F and F+1, then a flip for each of them, in this order, whose base meets a
    /// base. Answers the flips.
    ///
    /// ```text
    ///         C                   C          Old side i becomes the base of child i; side 1 of child i
    ///        / \                 /|\         and side 2 of the next child are the new sides.
    ///       /   \      →        / P \
    ///      /  T  \             / . . \
    ///     A-------B           A-------B
    /// ```
    pub fn face_split(&mut self, t: usize) -> u32 {
        let Triangle { corners: [a, b, c], generation, .. } = self.triangles[t];
        let p = self.points.len();
        self.points.push(self.third_of([a, b, c]));
        let f = self.triangles.len();
        let slots = self.fault.unless(Fault::ChildSlotsExchanged, [t, f, f + 1], [t, f + 1, f]);
        self.operations.push(Operation::FaceSplit { t, f });
        self.triangles.extend([self.triangles[t]; 2]);
        self.locks.extend([0; 2]);
        self.move_sides(&[0, 1, 2].map(|i| (Side::new(t, i), Side::new(slots[i], 0))));
        for (i, corners) in [[a, b, p], [b, c, p], [c, a, p]].into_iter().enumerate() {
            self.triangles[slots[i]].corners = corners;
            self.triangles[slots[i]].generation = generation + 1;
            self.join(Side::new(slots[i], 1), Side::new(slots[(i + 1) % 3], 2));
        }
        self.flip_those_of(&slots)
    }

    /// The rim split of an odd triangle whose base is on the boundary: the base is cut in three at A' and B', children
    /// are in slots t, F and F+1, and the first and the last of them are flipped, in this order, where their base meets
    /// a base. Answers the flips.
    ///
    /// ```text
    ///             P                          P            Old side 2 becomes the base of the first child, old side
    ///           .   .                     . / \ .         1 that of the last. The middle one is even, a generation
    ///         .       .        →        .  /   \  .       above the other two.
    ///       .     t     .             .   /     \   .
    ///      A-------------B           A---A'-----B'---B
    /// ```
    pub fn rim_split(&mut self, t: usize) -> u32 {
        let Triangle { corners: [a, b, p], generation, .. } = self.triangles[t];
        let v = self.points.len();
        let thirds = [[a, a, b], [a, b, b]].map(|vertices| self.third_of(vertices));
        let [near_a, near_b] = self.fault.unless(Fault::ThirdsExchanged, thirds, [thirds[1], thirds[0]]);
        self.points.extend([near_a, near_b]);
        let (f, e) = (self.triangles.len(), self.triangles.len() + 1);
        let middle = generation + self.fault.unless(Fault::MiddleTwoAbove, 3, 2);
        let children = [(t, [p, a, v], generation + 2), (f, [v, v + 1, p], middle), (e, [b, p, v + 1], generation + 2)];
        self.operations.push(Operation::RimSplit { t, f });
        self.triangles.extend([self.triangles[t]; 2]);
        self.locks.extend(self.fault.unless(Fault::MiddleLocked, [0; 2], [1, 0]));
        self.move_sides(&[
            (Side::new(t, 2), Side::new(t, 0)), // P→A
            (Side::new(t, 1), Side::new(e, 0)), // B→P
        ]);
        for (slot, corners, generation) in children {
            self.triangles[slot].corners = corners;
            self.triangles[slot].generation = generation;
        }
        // A→A', A'→B' and B'→B.
        for side in [Side::new(t, 1), Side::new(f, 0), Side::new(e, 2)] {
            self.set_link(side, None);
        }
        self.join(Side::new(t, 2), Side::new(f, 2)); // A'→P and P→A'
        self.join(Side::new(f, 1), Side::new(e, 1)); // B'→P and P→B'
        if self.fault.has(Fault::OuterNotFlipped) { 0 } else { self.flip_those_of(&[t, e]) }
    }

    /// Flips each of these triangles, in this order, whose base meets a base. Answers the flips.
    fn flip_those_of(&mut self, slots: &[usize]) -> u32 {
        let mut flips = 0;
        for &s in slots {
            if let Some(u) = self.base_meets_base(s) {
                self.flip(s, u);
                flips += 1;
            }
        }
        flips
    }

    /// The triangle across side 0 of s, if that is the base of both.
    fn base_meets_base(&self, s: usize) -> Option<usize> {
        let across = self.across(Side::new(s, 0))?;
        let odd = self.triangles[across.triangle].is_odd() || self.fault.has(Fault::FlipBySideNumber);
        let is_base = across.number == 0 || self.fault.has(Fault::FlipAcrossNoBase);
        (odd && is_base).then_some(across.triangle)
    }

    /// The flip of (A,B,P) in s and (B,A,Q) in u to (A,Q,P) and (B,P,Q), one generation on.
    ///
    /// ```text
    ///        P                P
    ///       / \              /|\
    ///      / s \            / | \
    ///     A-----B    →     A s|u B
    ///      \ u /            \ | /
    ///       \ /              \|/
    ///        Q                Q
    /// ```
    fn flip(&mut self, s: usize, u: usize) {
        let [a, b, p] = self.triangles[s].corners;
        let q = self.triangles[u].corners[2];
        self.operations.push(Operation::Flip { s, u });
        self.move_sides(&[
            (Side::new(s, 1), Side::new(u, 0)), // B→P
            (Side::new(s, 2), Side::new(s, 2)), // P→A
            (Side::new(u, 1), Side::new(s, 0)), // A→Q
            (Side::new(u, 2), Side::new(u, 2)), // Q→B
        ]);
        self.triangles[s].corners = [a, q, p];
        self.triangles[u].corners = [b, p, q];
        self.triangles[s].generation += 1;
        self.triangles[u].generation += self.fault.unless(Fault::OldGenerationKept, 1, 0);
        self.join(Side::new(s, 1), Side::new(u, 1)); // Q→P and P→Q
    }

    /// The base chain of a triangle: across bases as long as triangles are odd. On a sound mesh the generation falls
    /// along it.
    pub fn base_chain(&self, t: usize) -> BaseChain {
        let mut odd = Vec::new();
        let mut at = t;
        while self.triangles[at].is_odd() {
            odd.push(at);
            match self.across(Side::new(at, 0)) {
                Some(base) => at = base.triangle,
                None => return BaseChain { odd, even_end: None },
            }
        }
        BaseChain { odd, even_end: Some(at) }
    }

    /// Refines a triangle. Even: one face split. Odd: splits from the chain's end on, until the triangle is flipped.
    /// The face split of an even end flips the last odd triangle; the rim split at the boundary takes the last odd one,
    /// and flips the one before it. Each of the others is flipped by the face split of what is then across its base.
    pub fn refine(&mut self, t: usize) -> Work {
        let chain = self.base_chain(t);
        let length = chain.odd.len();
        let mut work = Work::default();
        let mut unflipped = length;
        if chain.even_end.is_none() {
            work.add(self.rim_split(chain.odd[length - 1]));
            unflipped = length.saturating_sub(2);
        } else if length == 0 {
            work.add(self.face_split(t));
        }
        let followed = self.fault.unless(Fault::ChainNotFollowed, unflipped, unflipped.min(1));
        for index in (0..followed).rev() {
            // The even triangle may stand in another slot than the chain member it comes from: the link is followed
            // each time.
            let base = Side::new(chain.odd[index], 0);
            let even = self.across(base).expect("only the last base of a chain can be on the boundary").triangle;
            let remembered = chain.odd.get(index + 1).copied().unwrap_or(even);
            work.add(self.face_split(self.fault.unless(Fault::ChainSlotsRemembered, even, remembered)));
        }
        work
    }
}
