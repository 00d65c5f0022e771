//! Areas that a call is lent, each between guards in the same piece of memory: whoever writes past an area, or into
//! one that it may only read, is seen.

use std::hint::black_box;
use std::ops::{Deref, DerefMut};

/// How many elements guard an area before it and after it.
const GUARDS: usize = 32;

/// What an area is made of.
pub trait Element: Copy + PartialEq {
    /// The guard with this number.
    fn guard(number: usize) -> Self;
}

impl Element for u8 {
    /// From 80 to FF: no 0 and no 1, which claim areas and work areas are written with.
    fn guard(number: usize) -> u8 {
        0x80 | number as u8
    }
}

impl Element for u32 {
    fn guard(number: usize) -> u32 {
        u32::from_be_bytes([0, 1, 2, 3].map(|byte| u8::guard(4 * number + byte)))
    }
}

/// An area that may have been lent.
pub trait Watched {
    /// Whether nothing has changed that may not.
    fn is_intact(&self) -> bool;
}

/// An area that may be written. It is its elements; the guards are around them.
#[derive(Debug)]
pub struct Area<T> {
    all: Vec<T>,
    before: usize,
}

impl<T: Element> Area<T> {
    /// An area with these elements. It lies `shift` elements further than it would, so that areas do not all lie at
    /// round addresses.
    pub fn new(elements: &[T], shift: usize) -> Area<T> {
        let before = GUARDS + shift % 16;
        let mut all: Vec<T> = (0..before).map(T::guard).collect();
        all.extend_from_slice(elements);
        all.extend((0..GUARDS).map(T::guard));
        Area { all, before }
    }

    /// An area of so many elements alike.
    pub fn filled(element: T, length: usize, shift: usize) -> Area<T> {
        Area::new(&vec![element; length], shift)
    }
}

impl<T> Deref for Area<T> {
    type Target = [T];

    fn deref(&self) -> &[T] {
        &self.all[self.before..self.all.len() - GUARDS]
    }
}

impl<T> DerefMut for Area<T> {
    fn deref_mut(&mut self) -> &mut [T] {
        let end = self.all.len() - GUARDS;
        &mut self.all[self.before..end]
    }
}

impl<T: Element> Watched for Area<T> {
    fn is_intact(&self) -> bool {
        // what the compiler believes of the bytes does not count
        let Area { all, before } = black_box(self);
        let stand = |guards: &[T]| (0..).zip(guards).all(|(number, guard)| *guard == T::guard(number));
        stand(&all[..*before]) && stand(&all[all.len() - GUARDS..])
    }
}

/// An area that may only be read.
#[derive(Debug)]
pub struct Shown<T> {
    area: Area<T>,
    copy: Vec<T>,
}

impl<T: Element> Shown<T> {
    /// An area with these elements, as in [`Area::new`].
    pub fn new(elements: &[T], shift: usize) -> Shown<T> {
        Shown { area: Area::new(elements, shift), copy: elements.to_vec() }
    }

    /// Changes elements from this place on, if they lie in the area.
    pub fn put(&mut self, place: usize, new: &[T]) -> Option<()> {
        for elements in [&mut *self.area, &mut self.copy] {
            elements.get_mut(place..)?.get_mut(..new.len())?.copy_from_slice(new);
        }
        Some(())
    }
}

impl<T> Deref for Shown<T> {
    type Target = [T];

    fn deref(&self) -> &[T] {
        &self.area
    }
}

impl<T: Element> Watched for Shown<T> {
    fn is_intact(&self) -> bool {
        black_box(&*self.area) == black_box(&self.copy[..]) && self.area.is_intact()
    }
}

#[cfg(test)]
mod tests {
    use super::*;

    #[test]
    fn an_area_is_its_elements() {
        for (length, shift) in [(0, 0), (0, 5), (1, 1), (7, 15), (901_120, 3)] {
            let mut area = Area::filled(0xAA_u8, length, shift);
            assert!(area.len() == length && area.iter().all(|&byte| byte == 0xAA));
            assert!(area.is_intact());
            area.fill(0);
            assert!(area.is_intact() && area.iter().all(|&byte| byte == 0));
        }
        assert_eq!(Area::new(&[1_u32, 2, 3], 4)[..], [1, 2, 3]);
    }

    /// Areas of bytes lie at all addresses modulo 8.
    #[test]
    fn a_shift_moves_an_area() {
        let places = (0..8).map(|shift| Area::filled(0_u8, 100, shift).as_ptr() as usize % 8);
        assert_eq!(places.fold(0, |seen, place| seen | 1 << place), 0xFF);
    }

    /// Any element around an area, changed to anything that a call may write.
    #[test]
    fn a_change_of_any_guard_is_seen() {
        for shift in 0..16 {
            for length in [0, 1, 9] {
                let mut area = Area::filled(0x55_u8, length, shift);
                let around =
                    (0..area.all.len()).filter(|&place| place < area.before || place >= area.before + length);
                for place in around {
                    for new in [0, 1, 0x55, area.all[place] ^ 1] {
                        let old = std::mem::replace(&mut area.all[place], new);
                        assert!(!area.is_intact(), "{place} of {length} is {new}");
                        area.all[place] = old;
                    }
                }
                assert!(area.is_intact());
            }
        }
        let mut area = Area::filled(0_u32, 3, 0);
        area.all[GUARDS - 1] = 0;
        assert!(!area.is_intact());
    }

    #[test]
    fn a_change_of_what_is_only_shown_is_seen() {
        let mut shown = Shown::new(&[3_u8; 100], 7);
        assert!(shown.is_intact());
        for place in [0, 50, 99] {
            shown.area[place] ^= 0x10;
            assert!(!shown.is_intact(), "{place}");
            shown.area[place] ^= 0x10;
        }
        shown.area.all[2] = 0;
        assert!(!shown.is_intact());
    }

    #[test]
    fn what_is_put_is_shown() {
        let mut shown = Shown::new(&[3_u8; 10], 7);
        assert_eq!(shown.put(8, &[1, 2]), Some(()));
        assert_eq!(shown.put(10, &[]), Some(()));
        assert_eq!(shown.put(9, &[1, 2]), None);
        assert_eq!(shown.put(11, &[]), None);
        assert_eq!(shown[..], [3, 3, 3, 3, 3, 3, 3, 3, 1, 2]);
        assert!(shown.is_intact());
    }
}
