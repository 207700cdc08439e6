//! Places that are lent to the library. Before a call each holds a mark of its own, or what it is
//! given, so that a place that should have stayed, and was written or moved, is seen after it.

use std::fmt::UpperHex;

/// Places past the lent ones: no call may know of them.
const BEYOND: usize = 4;

/// Room for doubles or for whole numbers, as bits.
#[derive(Clone)]
pub struct Places<T = u64> {
    bits: Vec<T>,
    lent: usize,
}

/// The bits of a place.
pub trait Bits: Copy + PartialEq + UpperHex {
    /// The mark of a place.
    fn mark(place: usize) -> Self;
}

impl Bits for u64 {
    /// A signalling NaN, with the place in its payload.
    fn mark(place: usize) -> u64 {
        0x7FF4_5EED_0000_0000 + place as u64
    }
}

impl Bits for u32 {
    fn mark(place: usize) -> u32 {
        0x5EED_0000 + place as u32
    }
}

impl<T: Bits> Places<T> {
    /// `lent` places, each with its mark.
    pub fn new(lent: usize) -> Places<T> {
        Places {
            bits: (0..lent + BEYOND).map(T::mark).collect(),
            lent,
        }
    }

    /// A place for each of these, which it holds.
    pub fn holding(held: impl ExactSizeIterator<Item = T>) -> Places<T> {
        let lent = held.len();
        Places {
            bits: held.chain((lent..lent + BEYOND).map(T::mark)).collect(),
            lent,
        }
    }

    pub fn lent(&self) -> usize {
        self.lent
    }

    /// What stands in the places.
    pub fn bits(&self) -> &[T] {
        &self.bits
    }

    /// The places that are lent, to write in.
    pub fn held(&mut self) -> &mut [T] {
        &mut self.bits[..self.lent]
    }

    /// What is wrong with the places from `from` on, which should have stayed.
    pub fn stay(&self, from: usize) -> Option<String> {
        let moved = |&place: &usize| self.bits[place] != T::mark(place);
        let place = (from..self.bits.len()).find(moved)?;
        let (lent, bits) = (self.lent, self.bits[place]);
        Some(format!(
            "place {place} of {lent} holds {bits:0width$X}",
            width = 2 * size_of::<T>()
        ))
    }

    /// What is wrong with the places, which should hold these, and their marks past them.
    pub fn hold(&self, want: impl ExactSizeIterator<Item = T>) -> Option<String> {
        let past = want.len();
        let mut pairs = self.bits.iter().zip(want).enumerate();
        let Some((place, (ours, want))) = pairs.find(|(_, (ours, want))| **ours != *want) else {
            return self.stay(past);
        };
        Some(format!(
            "place {place}: ours {ours:0width$X}, and it is {want:0width$X}",
            width = 2 * size_of::<T>()
        ))
    }
}

impl Places {
    pub fn doubles(&mut self) -> *mut f64 {
        self.bits.as_mut_ptr().cast()
    }

    pub fn wholes(&mut self) -> *mut usize {
        const { assert!(size_of::<usize>() == size_of::<u64>()) }
        self.bits.as_mut_ptr().cast()
    }
}

impl Places<u32> {
    pub fn numbers(&mut self) -> *mut u32 {
        self.bits.as_mut_ptr()
    }
}
