// Stands in for src/bitvector/set_ops.rs: the prefix bitmaps combined in place.
// Certain: the four operators, that the right side is a shared reference, and the bits
// that result. Not known: the cost.

use super::Bitvector;
use core::ops::{BitAndAssign, BitOrAssign, BitXorAssign, SubAssign};

impl Bitvector {
    fn combine(&mut self, other: &Self, with: impl Fn(u64, u64) -> u64) {
        for block in 0..self.bv.num_blocks() {
            let bits = with(self.bv.get_block(block), other.bv.get_block(block));
            self.bv.update_block(block, bits);
        }
    }
}

impl BitOrAssign<&Self> for Bitvector {
    fn bitor_assign(&mut self, other: &Self) {
        self.combine(other, |a, b| a | b);
    }
}

impl BitAndAssign<&Self> for Bitvector {
    fn bitand_assign(&mut self, other: &Self) {
        self.combine(other, |a, b| a & b);
    }
}

impl SubAssign<&Self> for Bitvector {
    fn sub_assign(&mut self, other: &Self) {
        self.combine(other, |a, b| a & !b);
    }
}

impl BitXorAssign<&Self> for Bitvector {
    fn bitxor_assign(&mut self, other: &Self) {
        self.combine(other, |a, b| a ^ b);
    }
}
