//! Bytes of the host's own, that a guest's memory is.

use crate::Error;
use alloc::boxed::Box;
use alloc::vec::Vec;
use core::ffi::{c_int, c_void};
use core::ptr::{NonNull, slice_from_raw_parts_mut};
use core::{fmt, mem, ptr};

// The system's, as it is on the one platform of the archive.
unsafe extern "C" {
    fn mmap(
        at: *mut c_void,
        len: usize,
        protection: c_int,
        flags: c_int,
        file: c_int,
        offset: i64,
    ) -> *mut c_void;
    fn munmap(at: *mut c_void, len: usize) -> c_int;
}

const READ_AND_WRITE: c_int = 1 | 2;
const PRIVATE_ZEROS_WITHOUT_RESERVE: c_int = 0x2 | 0x20 | 0x4000;

/// Bytes that the host owns and lends to a guest, as [`Store::add_guest_with`](crate::Store::add_guest_with) has
/// them: a boxed slice, or pages of the system's, of which none is there before it is touched. The store frees
/// them when the guest ends, or it is dropped.
///
/// ```
/// use strm::Memory;
///
/// let boxed = Memory::from(vec![7u8; 64]);
/// let mapped = Memory::mapped(65536, 1 << 30)?;
/// assert_eq!((boxed.len(), mapped.len()), (64, 65536));
/// # Ok::<(), strm::Error>(())
/// ```
pub struct Memory {
    // A block of this value's own: of `len` bytes from a box, or of `reserved` zeros that were mapped.
    at: NonNull<u8>,
    len: usize,
    mapped: Option<usize>,
}

// SAFETY: the block is this value's own, and no other has its address.
unsafe impl Send for Memory {}

impl Memory {
    /// So many zero bytes, of pages that are not there before they are touched, with room to grow where they
    /// lie: `reserved` bytes of addresses in all.
    ///
    /// # Errors
    ///
    /// [`Error::OutOfMemory`] where the system has no room for them.
    pub fn mapped(len: usize, reserved: usize) -> Result<Memory, Error> {
        let reserved = reserved.max(len).max(1);
        // SAFETY: a mapping where the system likes best takes no address that is in use.
        let at = unsafe {
            mmap(
                ptr::null_mut(),
                reserved,
                READ_AND_WRITE,
                PRIVATE_ZEROS_WITHOUT_RESERVE,
                -1,
                0,
            )
        };
        // It answers -1 where it fails.
        match NonNull::new(at.cast::<u8>()) {
            Some(at) if at.as_ptr().addr() != usize::MAX => Ok(Memory {
                at,
                len,
                mapped: Some(reserved),
            }),
            _ => Err(Error::OutOfMemory),
        }
    }

    /// How many bytes there are.
    pub fn len(&self) -> usize {
        self.len
    }

    /// Whether there are none.
    pub fn is_empty(&self) -> bool {
        self.len == 0
    }

    // Where the first of them lies; of none it is an address all the same.
    pub(crate) fn at(&self) -> NonNull<u8> {
        self.at
    }

    // Where so many zeros lie directly behind the end, if there is room; they are this memory's once `grew`
    // tells it.
    pub(crate) fn behind(&self, more: usize) -> Option<NonNull<u8>> {
        let len = self.len.checked_add(more)?;
        // SAFETY: the place lies within the pages that were mapped, or at their end.
        (self.mapped? >= len).then(|| unsafe { self.at.add(self.len) })
    }

    pub(crate) fn grew(&mut self, more: usize) {
        self.len += more;
    }

    // Another memory of its kind, which begins with these bytes, and has so many zeros behind them.
    pub(crate) fn longer(&self, more: usize) -> Result<Memory, Error> {
        let len = self.len.checked_add(more).ok_or(Error::OutOfMemory)?;
        let new = match self.mapped {
            Some(_) => Memory::mapped(len, len)?,
            None => Memory::from(zeros(len)?),
        };
        // SAFETY: both blocks have so many bytes, and are two.
        unsafe { ptr::copy_nonoverlapping(self.at.as_ptr(), new.at.as_ptr(), self.len) };
        Ok(new)
    }
}

// So many zero bytes, which an allocator that has them need not touch.
fn zeros(len: usize) -> Result<Box<[u8]>, Error> {
    let mut bytes = Vec::new();
    bytes.try_reserve_exact(len).map_err(|_| Error::OutOfMemory)?;
    bytes.resize(len, 0);
    Ok(bytes.into_boxed_slice())
}

impl From<Box<[u8]>> for Memory {
    fn from(bytes: Box<[u8]>) -> Memory {
        let len = bytes.len();
        let at = Box::into_raw(bytes).cast();
        Memory {
            // SAFETY: a box is at no null address.
            at: unsafe { NonNull::new_unchecked(at) },
            len,
            mapped: None,
        }
    }
}

impl From<Vec<u8>> for Memory {
    fn from(bytes: Vec<u8>) -> Memory {
        Memory::from(bytes.into_boxed_slice())
    }
}

impl Drop for Memory {
    fn drop(&mut self) {
        let at = self.at.as_ptr();
        match self.mapped {
            // SAFETY: the pages were mapped for this value, and nobody has their address any more.
            Some(reserved) => drop(unsafe { munmap(at.cast(), reserved) }),
            // SAFETY: the block is that of the box it was made of, and nobody has its address any more.
            None => drop(unsafe { Box::from_raw(slice_from_raw_parts_mut(at, mem::take(&mut self.len))) }),
        }
    }
}

impl fmt::Debug for Memory {
    fn fmt(&self, f: &mut fmt::Formatter<'_>) -> fmt::Result {
        f.debug_struct("Memory")
            .field("len", &self.len)
            .field("reserved", &self.mapped)
            .finish_non_exhaustive()
    }
}
