//! The bytes of guests' memories that owned ends put their items into.

use crate::Guest;
use alloc::collections::BTreeMap;
use core::ops::Range;

/// What a room's address and length are multiples of: the greatest alignment of an item.
const GRAIN: u32 = 8;

/// Bytes of a guest's memory for the items of one end.
#[derive(Clone, Copy, Debug)]
pub(crate) struct Room {
    pub guest: Guest,
    pub address: u32,
    /// How many bytes are given back; 0 of a room that the caller named.
    pub len: u32,
}

/// The bytes of one guest's memory that are no end's: each run of them by its address, with its length.
#[derive(Default)]
pub(crate) struct Rooms {
    free: BTreeMap<u32, u32>,
}

impl Rooms {
    /// All grains of these bytes are free now.
    pub fn add(&mut self, bytes: Range<u32>) {
        let (Some(from), to) = (
            bytes.start.checked_next_multiple_of(GRAIN),
            bytes.end / GRAIN * GRAIN,
        ) else {
            return;
        };
        if from < to {
            self.give(from, to - from);
        }
    }

    /// The first free bytes that are so many, if there are such.
    pub fn take(&mut self, len: u32) -> Option<u32> {
        let (&address, &free) = self.free.iter().find(|(_, free)| **free >= len)?;
        self.free.remove(&address);
        if free > len {
            self.free.insert(address + len, free - len);
        }
        Some(address)
    }

    /// Bytes that were taken are free again, one run with those beside them.
    pub fn give(&mut self, address: u32, len: u32) {
        let (mut from, mut to) = (address, address + len);
        if let Some((&before, &free)) = self.free.range(..from).next_back() {
            if before + free == from {
                from = before;
            }
        }
        if let Some(free) = self.free.remove(&to) {
            to += free;
        }
        self.free.insert(from, to - from);
    }
}

/// The bytes that items of this size take, in whole grains; none where they are too many for any memory.
pub(crate) fn room_len(size: usize, count: u32) -> Option<u32> {
    u32::try_from(size)
        .ok()?
        .checked_mul(count)?
        .checked_next_multiple_of(GRAIN)
}

#[cfg(test)]
mod tests {
    use super::*;
    use alloc::vec::Vec;

    #[test]
    fn rooms_that_are_given_back_are_one_again() {
        let mut rooms = Rooms::default();
        rooms.add(3..100);
        let taken: Vec<u32> = core::iter::from_fn(|| rooms.take(16)).collect();
        assert_eq!(taken, [8, 24, 40, 56, 72]);
        assert_eq!(rooms.take(8), Some(88));
        for address in [24, 72, 8, 56, 40] {
            rooms.give(address, 16);
        }
        rooms.give(88, 8);
        assert_eq!(rooms.take(88), Some(8));
        assert_eq!(rooms.take(8), None);
    }

    #[test]
    fn a_room_has_whole_grains() {
        assert_eq!(room_len(1, 9), Some(16));
        assert_eq!(room_len(0, u32::MAX), Some(0));
        assert_eq!(room_len(8, 1 << 29), None);
        assert_eq!(room_len(1, u32::MAX), None);
    }
}
