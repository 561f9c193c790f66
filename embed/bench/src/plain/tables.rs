//! The handles of a guest, and other numbers that are given again.

use super::status::Status;
use super::streams::Side;

/// The first number that no handle has.
const MAX_HANDLE: usize = 1 << 28;

/// What a handle stands for.
#[derive(Clone, Copy, Debug)]
pub enum Entry {
    /// The write end of a stream or future.
    Writer(u32),
    /// The read end of one.
    Reader(u32),
    Set(u32),
    Context(u32),
}

impl Entry {
    pub fn of_end(stream: u32, side: Side) -> Entry {
        match side {
            Side::Writing => Entry::Writer(stream),
            Side::Reading => Entry::Reader(stream),
        }
    }
}

#[derive(Clone, Copy)]
enum Slot {
    /// The handle that was freed before this one, or 0.
    Free(u32),
    Full(Entry),
}

/// Handles from 1 on; the one that was freed last is given first.
#[derive(Default)]
pub struct Table {
    slots: Vec<Slot>,
    first_free: u32,
    free: u32,
}

impl Table {
    pub fn get(&self, handle: u32) -> Option<Entry> {
        match self.slots.get((handle as usize).wrapping_sub(1))? {
            Slot::Full(entry) => Some(*entry),
            Slot::Free(_) => None,
        }
    }

    /// How many handles stand for something.
    pub fn len(&self) -> u32 {
        self.slots.len() as u32 - self.free
    }

    /// Whether there are numbers for so many more.
    pub fn has_numbers(&self, count: u32) -> bool {
        self.slots.len() + (count.saturating_sub(self.free) as usize) < MAX_HANDLE
    }

    /// Room for so many more.
    pub fn reserve(&mut self, count: u32) -> Result<(), Status> {
        if count > self.free {
            self.slots.try_reserve((count - self.free) as usize)?;
        }
        Ok(())
    }

    pub fn insert(&mut self, entry: Entry) -> u32 {
        let handle = self.first_free;
        match self.slots.get_mut((handle as usize).wrapping_sub(1)) {
            Some(slot) => {
                if let Slot::Free(next) = *slot {
                    self.first_free = next;
                }
                *slot = Slot::Full(entry);
                self.free -= 1;
                handle
            }
            None => {
                self.slots.push(Slot::Full(entry));
                self.slots.len() as u32
            }
        }
    }

    /// Frees a handle that stands for something.
    pub fn remove(&mut self, handle: u32) {
        self.slots[handle as usize - 1] = Slot::Free(self.first_free);
        self.first_free = handle;
        self.free += 1;
    }
}

/// Things by their numbers, which are given again.
pub struct Slab<T> {
    items: Vec<Option<T>>,
    free: Vec<u32>,
}

impl<T> Default for Slab<T> {
    fn default() -> Slab<T> {
        let (items, free) = (Vec::new(), Vec::new());
        Slab { items, free }
    }
}

impl<T> Slab<T> {
    pub fn get(&self, number: u32) -> Option<&T> {
        self.items.get(number as usize)?.as_ref()
    }

    pub fn get_mut(&mut self, number: u32) -> Option<&mut T> {
        self.items.get_mut(number as usize)?.as_mut()
    }

    /// Room for one more, and to free it.
    pub fn reserve(&mut self) -> Result<(), Status> {
        if self.free.is_empty() {
            self.items.try_reserve(1)?;
            self.free.try_reserve(self.items.len() + 1)?;
        }
        Ok(())
    }

    pub fn insert(&mut self, item: T) -> u32 {
        match self.free.pop() {
            Some(number) => {
                self.items[number as usize] = Some(item);
                number
            }
            None => {
                self.items.push(Some(item));
                self.items.len() as u32 - 1
            }
        }
    }

    pub fn remove(&mut self, number: u32) {
        self.items[number as usize] = None;
        self.free.push(number);
    }
}
