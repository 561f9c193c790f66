//! Items that wait in a row: those that a host writer was fed, or that are held of it.

/// Items as they lie in memory, one behind the other.
#[derive(Clone, Debug, Default)]
pub struct Items {
    size: usize,
    count: u64,
    bytes: Vec<u8>,
    // Where the first of them lies.
    start: usize,
}

impl Items {
    /// No items, of so many bytes each.
    pub fn new(size: usize) -> Items {
        Items { size, ..Items::default() }
    }

    pub fn len(&self) -> u64 {
        self.count
    }

    pub fn is_empty(&self) -> bool {
        self.count == 0
    }

    /// The bytes of the first items, of which there are as many.
    pub fn first(&self, count: u64) -> &[u8] {
        &self.bytes[self.start..][..count as usize * self.size]
    }

    /// Appends items.
    pub fn extend(&mut self, count: u64, bytes: &[u8]) {
        self.count += count;
        self.bytes.extend_from_slice(bytes);
    }

    /// Drops the first items, of which there are as many.
    pub fn skip(&mut self, count: u64) {
        self.count -= count;
        self.start += count as usize * self.size;
        if self.start == self.bytes.len() {
            self.bytes.clear();
            self.start = 0;
        } else if self.start > self.bytes.len() / 2 {
            self.bytes.drain(..self.start);
            self.start = 0;
        }
    }

    pub fn clear(&mut self) {
        self.skip(self.count);
    }
}
