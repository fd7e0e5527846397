//! Which triangles a refine alters, and whether one of them is locked.

use crate::fault::Fault;
use crate::mesh::{Mesh, Operation, Side};
use crate::split::BaseChain;

impl Mesh {
    /// Condition 19: refining a triangle would split or flip a locked one.
    pub fn alters_locked(&self, t: usize) -> bool {
        self.has_locked() && self.guarded(t).into_iter().any(|slot| self.is_locked(slot))
    }

    /// Whether some triangle is locked.
    pub fn has_locked(&self) -> bool {
        self.locks.contains(&1)
    }

    pub fn is_locked(&self, slot: usize) -> bool {
        self.locks.get(slot) == Some(&1)
    }

    /// The slots that refining a triangle splits and flips, some of them not in use yet. It is refined for that, in a
    /// copy that has room for everything.
    pub fn altered(&self, t: usize) -> Vec<usize> {
        let mut copy = Mesh { operations: Vec::new(), ..self.clone() };
        copy.refine(t);
        copy.operations.into_iter().flat_map(Operation::altered).collect()
    }

    /// The slots that count if they are locked: those altered, with a fault fewer or more.
    fn guarded(&self, t: usize) -> Vec<usize> {
        let (altered, chain) = (self.altered(t), self.base_chain(t));
        let more = self.wrongly_guarded(&altered, &chain);
        altered.into_iter().filter(|&slot| !self.is_overlooked(slot, t, &chain)).chain(more).collect()
    }

    /// Whether a fault lets an altered slot pass.
    fn is_overlooked(&self, slot: usize, t: usize, chain: &BaseChain) -> bool {
        let (is_end, in_chain) = (slot == chain.end(), chain.odd.contains(&slot));
        let is_last = chain.odd.last() == Some(&slot);
        match self.fault.0 {
            Some(Fault::AskedUnguarded) => slot == t,
            Some(Fault::AskedAloneGuarded) => slot != t,
            Some(Fault::EvenEndUnguarded) => is_end && !in_chain,
            Some(Fault::RimEndUnguarded) => is_end && in_chain,
            Some(Fault::LastOddUnguarded) => is_last && !is_end,
            Some(Fault::MiddleOddUnguarded) => in_chain && slot != t && !is_last,
            Some(Fault::BesideUnguarded) => !is_end && !in_chain,
            Some(Fault::BesideThirdUnguarded) => {
                let third = self.across(Side::new(chain.end(), 2));
                !in_chain && third.is_some_and(|side| side.triangle == slot)
            }
            _ => false,
        }
    }

    /// The slots that a fault counts beside those altered.
    fn wrongly_guarded(&self, altered: &[usize], chain: &BaseChain) -> Vec<usize> {
        let beside = |slot: usize| [0, 1, 2].into_iter().filter_map(move |number| self.across(Side::new(slot, number)));
        let is_odd = |side: &Side| self.triangles[side.triangle].is_odd();
        let in_use = altered.iter().copied().filter(|&slot| slot < self.triangles.len());
        let sides: Vec<Side> = match self.fault.0 {
            Some(Fault::FollowingGuarded) => in_use.flat_map(beside).collect(),
            Some(Fault::OddBesideGuarded) => beside(chain.end()).filter(is_odd).collect(),
            Some(Fault::EvenBesideGuarded) => beside(chain.end()).filter(|side| side.number == 0).collect(),
            Some(Fault::BesideChainGuarded) => {
                let bases = chain.odd.iter().copied().flat_map(beside).filter(|side| side.number == 0);
                bases.filter(is_odd).collect()
            }
            _ => Vec::new(),
        };
        sides.into_iter().map(|side| side.triangle).collect()
    }
}
