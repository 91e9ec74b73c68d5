//! Memory that is lent to the C functions, with a guard on either side of it,
//! so that a stray write is seen and a stray read is likely to be.

use independent::random::Random;
use std::ptr;

/// How many elements each of the two guards has.
const GUARD: usize = 16;

/// A guard of bytes that stand in no line and in no answer.
const STRANGE: [u8; GUARD] = *b"\xa0\xa1\xa2\xa3\xa4\xa5\xa6\xa7\xa8\xa9\xaa\xab\xac\xad\xae\xaf";

/// A guard that would end or go on with a line, for a reader that goes too far.
const LURE: [u8; GUARD] = *b"\n0123456789abcd\n";

/// A guard of values that no field of a message would leave unnoticed.
const STRANGE_VALUES: [u32; GUARD] = [0xdead_beef; GUARD];

/// A piece of memory between two guards, and how it all was before it was lent.
pub struct Lent<T> {
    memory: Vec<T>,
    before: Vec<T>,
    null: bool,
}

impl Lent<u8> {
    /// Lays bytes out to be read; where there are none, one time out of two as a null pointer.
    pub fn bytes(random: &mut Random, bytes: &[u8]) -> Lent<u8> {
        let guard = *random.pick(&[STRANGE, LURE]);
        let null = bytes.is_empty() && random.chance(2);
        Lent::new(bytes, &guard, null)
    }

    /// Lays a buffer out to be written, with what stands in it before.
    pub fn buffer(bytes: &[u8]) -> Lent<u8> {
        Lent::new(bytes, &STRANGE, false)
    }
}

impl Lent<u32> {
    /// Lays values out to be read; where there are none, one time out of two as a null pointer.
    pub fn values(random: &mut Random, values: &[u32]) -> Lent<u32> {
        let null = values.is_empty() && random.chance(2);
        Lent::new(values, &STRANGE_VALUES, null)
    }
}

impl<T: Copy + PartialEq> Lent<T> {
    /// Lays elements out between two copies of a guard.
    fn new(inside: &[T], guard: &[T; GUARD], null: bool) -> Lent<T> {
        let before = [guard, inside, guard].concat();
        Lent {
            memory: before.clone(),
            before,
            null,
        }
    }

    /// Gives the pointer to hand over: of the whole memory, since a stray write may go anywhere in it.
    pub fn pointer(&mut self) -> *mut T {
        if self.null {
            ptr::null_mut()
        } else {
            self.memory.as_mut_ptr().wrapping_add(GUARD)
        }
    }

    /// Gives the length to hand over.
    pub fn length(&self) -> usize {
        self.memory.len() - 2 * GUARD
    }

    /// Gives what stands between the guards now.
    pub fn inside(&self) -> &[T] {
        &self.memory[GUARD..GUARD + self.length()]
    }

    /// Says how it is handed over, for the tables.
    pub fn sort(&self) -> &'static str {
        match (self.null, self.length()) {
            (true, _) => "null",
            (false, 0) => "empty",
            _ => "filled",
        }
    }

    /// Gives its name as a difference shows it, which says so where a null pointer is handed over.
    pub fn named(&self, name: &str) -> String {
        let note = if self.null { " (a null pointer)" } else { "" };
        format!("{name}{note}")
    }

    /// Names what has changed that no call may change: a guard.
    pub fn harm_around(&self) -> Option<&'static str> {
        let behind = GUARD + self.length();
        if self.memory[..GUARD] != self.before[..GUARD] {
            Some("the memory in front of it")
        } else if self.memory[behind..] != self.before[behind..] {
            Some("the memory behind it")
        } else {
            None
        }
    }

    /// Names what has changed of something lent only to be read: a guard, or what stands between them.
    pub fn harm(&self) -> Option<&'static str> {
        if self.memory == self.before {
            return None;
        }
        Some(self.harm_around().unwrap_or("its own bytes"))
    }
}

#[cfg(test)]
mod tests {
    use super::*;

    /// A change at any place is seen, and told to be where it is.
    #[test]
    fn every_change_is_seen() {
        for place in 0..GUARD + 5 + GUARD {
            let mut lent = Lent::bytes(&mut Random::new(place as u64), b"01234");
            assert_eq!((lent.harm(), lent.harm_around()), (None, None));
            lent.memory[place] ^= 1;
            let around = match place {
                0..GUARD => Some("the memory in front of it"),
                place if place < GUARD + 5 => None,
                _ => Some("the memory behind it"),
            };
            assert_eq!(lent.harm_around(), around);
            assert_eq!(lent.harm(), around.or(Some("its own bytes")));
        }
    }

    /// Nothing is lent as a null pointer or as an empty place, anything else as itself.
    #[test]
    fn empty_and_null() {
        let mut random = Random::new(11);
        let mut met = [0; 2];
        for _ in 0..100 {
            let mut lent = Lent::values(&mut random, &[]);
            assert_eq!((lent.length(), lent.inside()), (0, &[][..]));
            assert_eq!(lent.sort() == "null", lent.pointer().is_null());
            assert_eq!(lent.named("it") != "it", lent.pointer().is_null());
            met[usize::from(lent.pointer().is_null())] += 1;
            assert_eq!(Lent::bytes(&mut random, b"0").sort(), "filled");
            assert_eq!(Lent::buffer(b"").sort(), "empty");
        }
        assert!(met.iter().all(|&count| count > 20), "{met:?}");
    }
}
