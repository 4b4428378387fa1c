//! A stand-in for the crate `bit`, which is not at hand, with no more than the
//! published files use: bit n, and bits a up to but without b as a number.

use std::ops::Range;

pub trait BitIndex {
    /// Bit `n`, where bit 0 is the lowest.
    fn bit(&self, n: usize) -> bool;

    /// The bits from `range.start` up to but without `range.end`, as a number.
    fn bit_range(&self, range: Range<usize>) -> Self;

    /// Sets or clears bit `n`.
    fn set_bit(&mut self, n: usize, value: bool);

    /// Puts the low bits of `value` in place of the bits of `range`.
    fn set_bit_range(&mut self, range: Range<usize>, value: Self);
}

/// As many low bits set as the range is long.
fn low_bits(range: &Range<usize>) -> u64 {
    (1 << (range.end - range.start)) - 1
}

macro_rules! bit_index {
    ($($number:ty),*) => {$(
        impl BitIndex for $number {
            #[inline]
            fn bit(&self, n: usize) -> bool {
                *self >> n & 1 == 1
            }

            #[inline]
            fn bit_range(&self, range: Range<usize>) -> Self {
                *self >> range.start & low_bits(&range) as $number
            }

            #[inline]
            fn set_bit(&mut self, n: usize, value: bool) {
                self.set_bit_range(n..n + 1, value as $number);
            }

            #[inline]
            fn set_bit_range(&mut self, range: Range<usize>, value: Self) {
                let mask = low_bits(&range) as $number;
                *self = *self & !(mask << range.start) | (value & mask) << range.start;
            }
        }
    )*};
}

bit_index!(u8, u16, u32);

#[cfg(test)]
mod tests {
    use super::BitIndex;

    #[test]
    fn reads() {
        assert!(0x8000_0000u32.bit(31) && !0x7fff_ffffu32.bit(31));
        assert!(1u8.bit(0) && !0xfeu8.bit(0));
        assert_eq!(0xf123_4567u32.bit_range(28..32), 0xf);
        assert_eq!(0xf123_4567u32.bit_range(0..32), 0xf123_4567);
        assert_eq!(0xabcdu16.bit_range(8..11), 3);
        assert_eq!(0xffu8.bit_range(3..3), 0);
    }

    #[test]
    fn writes() {
        let mut word = 0xffff_ffffu32;
        word.set_bit(31, false);
        word.set_bit_range(0..5, 0b1_0010);
        assert_eq!(word, 0x7fff_fff2);
        word.set_bit(31, true);
        word.set_bit_range(4..8, 0x35);
        assert_eq!(word, 0xffff_ff52);
    }
}
