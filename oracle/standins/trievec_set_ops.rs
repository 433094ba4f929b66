// Stands in for src/trievec/set_ops.rs: two containers combined.
// Certain: the operators, that both sides are mutable references, and the suffixes that
// result. Not known: the cost, the kind of the result, and its stored order.
// Ours: walks both sides in ascending order, writes the result in ascending order, and
// makes it a trie when a side was one. Compare results as sets, never by kind or order.

use super::{TrieOrVec, TrieVec};
use crate::sliced_int::SlicedInt;
use core::ops::*;
use itertools::EitherOrBoth::{self, Both, Left, Right};
use itertools::Itertools;

type Pair<const BYTES: usize> = EitherOrBoth<SlicedInt<BYTES>, SlicedInt<BYTES>>;

impl<const BYTES: usize> TrieVec<BYTES> {
    /// Ours: the driver asks for the kind.
    pub fn is_trie(&self) -> bool {
        matches!(self.0, TrieOrVec::Trie(..))
    }

    fn combine(&mut self, other: &mut Self, keeps: impl Fn(&Pair<BYTES>) -> bool) -> Self {
        let trie = self.is_trie() || other.is_trie();
        let mut result = Self::new();
        result.insert_sorted_iter(
            self.iter_sorted()
                .merge_join_by(other.iter_sorted(), |a, b| a.cmp(b))
                .filter(|pair| keeps(pair))
                .map(|pair| match pair {
                    Left(suffix) | Right(suffix) | Both(suffix, _) => suffix,
                }),
        );
        if trie {
            result.as_trie();
        }
        result
    }
}

macro_rules! operator {
    ($trait:ident, $method:ident, $assign:ident, $assign_method:ident, $keeps:expr) => {
        impl<const BYTES: usize> $trait<Self> for &mut TrieVec<BYTES> {
            type Output = TrieVec<BYTES>;
            fn $method(self, other: Self) -> TrieVec<BYTES> {
                self.combine(other, $keeps)
            }
        }

        impl<const BYTES: usize> $assign<&mut Self> for TrieVec<BYTES> {
            fn $assign_method(&mut self, other: &mut Self) {
                *self = self.combine(other, $keeps);
            }
        }
    };
}

operator!(BitOr, bitor, BitOrAssign, bitor_assign, |_| true);
operator!(BitAnd, bitand, BitAndAssign, bitand_assign, |pair| matches!(pair, Both(..)));
operator!(Sub, sub, SubAssign, sub_assign, |pair| matches!(pair, Left(_)));
operator!(BitXor, bitxor, BitXorAssign, bitxor_assign, |pair| !matches!(pair, Both(..)));
