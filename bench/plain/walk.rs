//! The walk over the terms of a pivot sum.
use crate::fraction::Frac;
use crate::keys::Key;
use crate::plan::Plan;
use crate::splits::{Bounds, Rest, Splits};
use crate::tensors::Shape;

/// Takes the terms of a pivot sum one after another, with ranks in place of keys.
pub trait Visitor {
    /// The term v.
    fn alone(&mut self, v: Frac);
    /// The term (m v) F.
    fn once(&mut self, times: u8, v: Frac, rank: u32);
    /// The w of the terms until the next call, None if it isn't in range.
    fn weight(&mut self, w: Option<Frac>);
    /// The term w F.
    fn joined(&mut self, rank: u32);
    /// The term ((w q) F1) F2.
    fn twice(&mut self, ways: u32, left: u32, right: u32);
}

impl Plan {
    /// Hands over all terms of the pivot sum of a planned key, for one of its indices, in their order.
    #[inline]
    pub fn walk<V: Visitor>(&self, key: &Key, pivot: u8, splits: &mut Splits, visitor: &mut V) {
        let rest = Rest::of(&self.ranks, self.per_n, key, pivot);
        match (key.genus, key.places) {
            (0, 3) => {
                let first = rest.runs()[0].index;
                let second = rest.runs()[rest.runs().len() - 1].index;
                visitor.alone(self.tensors.a(pivot, first, second));
            }
            (1, 1) => visitor.alone(self.tensors.d(pivot)),
            (genus, _) => {
                self.walk_b(genus as usize, pivot, &rest, visitor);
                self.walk_c(genus as usize, pivot, &rest, splits, visitor);
            }
        }
    }

    fn walk_b<V: Visitor>(&self, genus: usize, pivot: u8, rest: &Rest, visitor: &mut V) {
        let code = rest.code.wrapping_add(self.ranks.genus_code(genus));
        for run in rest.runs() {
            let sum = rest.sum - run.index as i32;
            let code = code.wrapping_sub(run.code);
            for (a, v) in self.tensors.row_b(pivot, run.index) {
                if self.live(genus, rest.places, sum + *a as i32) {
                    let rank = self
                        .ranks
                        .find(code.wrapping_add(self.ranks.index_code(*a)));
                    visitor.once(run.count, *v, rank);
                }
            }
        }
    }

    fn walk_c<V: Visitor>(
        &self,
        genus: usize,
        pivot: u8,
        rest: &Rest,
        splits: &mut Splits,
        visitor: &mut V,
    ) {
        let row = self.tensors.row_c(pivot);
        if row.is_empty() {
            return;
        }
        match self.tensors.shape {
            Shape::Exact(_) => splits.link(rest),
            _ => splits.list(rest.runs()),
        }
        for (a, b, v) in row {
            visitor.weight(if a == b { v.mul(self.half) } else { Some(*v) });
            self.walk_joined(genus, (*a, *b), rest, visitor);
            for k in 0..=genus {
                self.walk_products((k, genus - k), (*a, *b), rest, splits, visitor);
            }
        }
    }

    fn walk_joined<V: Visitor>(
        &self,
        genus: usize,
        (a, b): (u8, u8),
        rest: &Rest,
        visitor: &mut V,
    ) {
        let sum = rest.sum + a as i32 + b as i32;
        if genus > 0 && self.live(genus - 1, rest.places + 2, sum) {
            let both = self
                .ranks
                .index_code(a)
                .wrapping_add(self.ranks.index_code(b));
            let code = self.ranks.genus_code(genus - 1).wrapping_add(both);
            visitor.joined(self.ranks.find(code.wrapping_add(rest.code)));
        }
    }

    /// Hands over the products of a pair with these genera on the left and on the right.
    #[inline(always)]
    fn walk_products<V: Visitor>(
        &self,
        (k, l): (usize, usize),
        (a, b): (u8, u8),
        rest: &Rest,
        splits: &Splits,
        visitor: &mut V,
    ) {
        let Some(bounds) = self.bounds((k, l), (a, b), rest) else {
            return;
        };
        let left = self
            .ranks
            .genus_code(k)
            .wrapping_add(self.ranks.index_code(a));
        let right = self
            .ranks
            .genus_code(l)
            .wrapping_add(self.ranks.index_code(b));
        let right = right.wrapping_add(rest.code);
        let take = |code, ways| {
            let left = self.ranks.find(left.wrapping_add(code));
            let right = self.ranks.find(right.wrapping_sub(code));
            visitor.twice(ways, left, right);
        };
        match self.tensors.shape {
            Shape::Exact(_) => splits.each_linked(&bounds, take),
            _ => splits.each_within(&bounds, take),
        }
    }

    /// The bounds of the parts with which both keys of a split are planned, where there may be any.
    fn bounds(&self, (k, l): (usize, usize), (a, b): (u8, u8), rest: &Rest) -> Option<Bounds> {
        let (low, high) = match self.tensors.shape {
            Shape::All => (rest.least, rest.most),
            Shape::Exact(law) | Shape::AtMost(law) => (
                rest.excess - (law.number(l, 1) - b as i32),
                law.number(k, 1) - a as i32,
            ),
        };
        let exact = matches!(self.tensors.shape, Shape::Exact(_));
        if exact && low != high {
            return None;
        }
        let fewest = if k == 0 { 2 } else { 0 };
        let most = rest.places.checked_sub(if l == 0 { 2 } else { 0 })?;
        if low > high || rest.most < low || rest.least > high || most < fewest {
            return None;
        }
        Some(Bounds {
            low,
            high,
            fewest,
            most,
        })
    }
}
