//! Stands in for the crate dbl 0.5, which Debian does not have: the doubling of RFC 7253, section 2, on blocks of sixteen bytes.
#![no_std]

use hybrid_array::{Array, sizes::U16};

pub trait Dbl {
    fn dbl(self) -> Self;
}

impl Dbl for Array<u8, U16> {
    fn dbl(self) -> Self {
        let number = u128::from_be_bytes(self.0);
        let lost_bit = number >> 127;
        Array((number << 1 ^ lost_bit * 0x87).to_be_bytes())
    }
}
