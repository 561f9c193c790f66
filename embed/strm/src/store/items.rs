//! Items in guests' memories.

use crate::{Error, Guest, Item, Refusal, Store};
use alloc::vec::Vec;
use core::ops::Range;

/// Items in guests' memories.
impl Store {
    /// Puts items into a guest's memory, from an address on, as the Canonical ABI lays them out. Padding stays.
    ///
    /// # Errors
    ///
    /// Refused, in this order: `UnknownGuest`, `OutOfBounds`.
    ///
    /// ```
    /// # let (mut store, guest, _, _) = strm::example()?;
    /// store.put_items(guest, 8, &[(1u8, -2i32), (3, -4)])?;
    /// assert_eq!(store.memory(guest)?[8..16], [1, 0, 0, 0, 0xfe, 0xff, 0xff, 0xff]);
    /// assert_eq!(store.get_items::<(u8, i32)>(guest, 8, 2)?, [(1, -2), (3, -4)]);
    /// # Ok::<(), strm::Error>(())
    /// ```
    pub fn put_items<T: Item>(&mut self, guest: Guest, address: u32, items: &[T]) -> Result<(), Error> {
        let memory = self.memory_mut(guest)?;
        let region = region::<T>(address, items.len(), memory.len())?;
        if T::SIZE > 0 {
            let places = memory[region].chunks_exact_mut(T::SIZE);
            places.zip(items).for_each(|(bytes, item)| item.put(bytes));
        }
        Ok(())
    }

    /// So many items of a guest's memory, from an address on.
    ///
    /// # Errors
    ///
    /// Refused, in this order: `UnknownGuest`, `OutOfBounds`. [`Error::NotAnItem`] where the bytes are none, which a
    /// char's may be.
    ///
    /// ```
    /// # use strm::Error;
    /// # let (mut store, guest, _, _) = strm::example()?;
    /// store.memory_write(guest, 0, &[0x41, 0, 0, 0, 0, 0xd8, 0, 0])?;
    /// assert_eq!(store.get_items::<char>(guest, 0, 1)?, ['A']);
    /// assert_eq!(store.get_items::<char>(guest, 0, 2), Err(Error::NotAnItem));
    /// # Ok::<(), Error>(())
    /// ```
    pub fn get_items<T: Item>(&self, guest: Guest, address: u32, count: u32) -> Result<Vec<T>, Error> {
        let memory = self.memory(guest)?;
        let region = region::<T>(address, count as usize, memory.len())?;
        let items: Option<Vec<T>> = match T::SIZE {
            0 => (0..count).map(|_| T::get(&[])).collect(),
            size => memory[region].chunks_exact(size).map(T::get).collect(),
        };
        items.ok_or(Error::NotAnItem)
    }
}

// The bytes of so many items from an address on, in a memory of so many.
fn region<T: Item>(address: u32, count: usize, len: usize) -> Result<Range<usize>, Error> {
    let from = address as usize;
    count
        .checked_mul(T::SIZE)
        .and_then(|size| from.checked_add(size))
        .filter(|to| *to <= len)
        .map(|to| from..to)
        .ok_or(Error::Refused(Refusal::OutOfBounds))
}
