//! Stand-in for the crate `bitvec`.
//!
//! It covers what cores.rs uses: on `u8` and `u16`, `view_bits::<Lsb0>()` with `[index]`, and `view_bits_mut::<Lsb0>()` with `[index]` and
//! `set(index, bit)`. Bit 0 is the least significant. An index beyond the number's bits panics, as the original crate's does.

use std::cell::Cell;
use std::ops::Index;

pub mod prelude {
    pub use crate::{BitOrder, BitView, Lsb0};
}

/// The order of bits; `Lsb0` alone.
pub trait BitOrder {}

pub struct Lsb0;

impl BitOrder for Lsb0 {}

/// The bits of a number as they were.
pub struct Bits {
    bits: u16,
    len: usize,
}

/// The bits of a number that `set` changes. A cell, since the original binds it without `mut`.
pub struct BitsMut<'a, T>(&'a Cell<T>);

pub trait BitView: Copy {
    fn bits(self) -> Bits;
    fn with(self, index: usize, bit: bool) -> Self;

    fn view_bits<O: BitOrder>(&self) -> Bits {
        self.bits()
    }

    fn view_bits_mut<O: BitOrder>(&mut self) -> BitsMut<'_, Self> {
        BitsMut(Cell::from_mut(self))
    }
}

impl<T: BitView> BitsMut<'_, T> {
    pub fn set(&self, index: usize, bit: bool) {
        self.0.set(self.0.get().with(index, bit));
    }
}

impl Index<usize> for Bits {
    type Output = bool;

    fn index(&self, index: usize) -> &bool {
        assert!(index < self.len, "bit {index} of {}", self.len);
        if self.bits >> index & 1 == 1 {
            &true
        } else {
            &false
        }
    }
}

impl<T: BitView> Index<usize> for BitsMut<'_, T> {
    type Output = bool;

    fn index(&self, index: usize) -> &bool {
        if self.0.get().bits()[index] {
            &true
        } else {
            &false
        }
    }
}

macro_rules! numbers {
    ($($number:ty),*) => {$(
        impl BitView for $number {
            fn bits(self) -> Bits {
                Bits { bits: self.into(), len: <$number>::BITS as usize }
            }

            fn with(self, index: usize, bit: bool) -> Self {
                assert!(index < <$number>::BITS as usize, "bit {index} of {}", <$number>::BITS);
                if bit { self | 1 << index } else { self & !(1 << index) }
            }
        }
    )*};
}

numbers!(u8, u16);

#[cfg(test)]
mod tests {
    use super::prelude::*;

    #[test]
    fn bits_are_those_of_the_binary_text() {
        for number in 0..=u16::MAX {
            let text: Vec<char> = format!("{number:016b}").chars().rev().collect();
            let bits = number.view_bits::<Lsb0>();
            assert!((0..16).all(|index| bits[index] == (text[index] == '1')));
        }
    }

    #[test]
    fn set_changes_one_bit() {
        for number in 0..=u8::MAX {
            for index in 0..8 {
                let (mut up, mut down) = (number, number);
                up.view_bits_mut::<Lsb0>().set(index, true);
                down.view_bits_mut::<Lsb0>().set(index, false);
                assert_eq!((up & !down, up | number, down & number), (1 << index, up, down));
                assert!(up.view_bits_mut::<Lsb0>()[index] && !down.view_bits_mut::<Lsb0>()[index]);
            }
        }
    }

    #[test]
    #[should_panic]
    fn a_ninth_bit_of_a_byte_panics() {
        let _ = 0u8.view_bits::<Lsb0>()[8];
    }
}
