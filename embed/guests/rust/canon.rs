//! What a guest calls: the built-ins of the Canonical ABI for streams of bytes, and the words by which an async
//! function that has a callback says how it goes on.
#![allow(dead_code)]

use core::cell::UnsafeCell;

#[link(wasm_import_module = "canon")]
extern "C" {
    #[link_name = "stream<u8>.read"]
    fn stream_read(handle: u32, at: *mut u8, count: usize) -> u32;
    #[link_name = "stream<u8>.write"]
    fn stream_write(handle: u32, at: *const u8, count: usize) -> u32;
    #[link_name = "stream<u8>.cancel-read"]
    fn stream_cancel_read(handle: u32) -> u32;
    #[link_name = "stream<u8>.drop-readable"]
    fn stream_drop_readable(handle: u32);
    #[link_name = "stream<u8>.drop-writable"]
    fn stream_drop_writable(handle: u32);
    #[link_name = "waitable-set.new"]
    fn waitable_set_new() -> u32;
    #[link_name = "waitable.join"]
    fn waitable_join(handle: u32, set: u32);
}

/// What a read, a write or an event tells, if it does not wait.
#[derive(Clone, Copy)]
pub struct Code(u32);

impl Code {
    /// The code of a word that is told; none of one that says that it waits.
    pub fn of(word: u32) -> Option<Code> {
        (word != 0xffff_ffff).then_some(Code(word))
    }

    /// How many items moved.
    pub fn count(self) -> usize {
        (self.0 >> 4) as usize
    }

    /// Whether the other end is gone.
    pub fn is_dropped(self) -> bool {
        self.0 & 15 == 1
    }
}

/// The read end of a stream of bytes.
pub struct Reader(pub u32);

impl Reader {
    /// # Safety
    /// Where it waits, `bytes` are the store's until an event tells of it or it is cancelled.
    pub unsafe fn read(&self, bytes: &mut [u8]) -> Option<Code> {
        Code::of(stream_read(self.0, bytes.as_mut_ptr(), bytes.len()))
    }

    pub fn cancel(&self) {
        unsafe { stream_cancel_read(self.0) };
    }

    pub fn drop(&self) {
        unsafe { stream_drop_readable(self.0) }
    }
}

/// The write end of a stream of bytes.
pub struct Writer(pub u32);

impl Writer {
    /// # Safety
    /// Where it waits, `bytes` stay as they are until an event tells of it.
    pub unsafe fn write(&self, bytes: &[u8]) -> Option<Code> {
        Code::of(stream_write(self.0, bytes.as_ptr(), bytes.len()))
    }

    pub fn drop(&self) {
        unsafe { stream_drop_writable(self.0) }
    }
}

/// A new waitable set with these ends.
pub fn set_of(handles: &[u32]) -> u32 {
    unsafe {
        let set = waitable_set_new();
        handles.iter().for_each(|handle| waitable_join(*handle, set));
        set
    }
}

pub const EVENT_STREAM_READ: u32 = 2;
pub const EVENT_STREAM_WRITE: u32 = 3;

/// How a function or its callback goes on: it is done.
pub const EXIT: u32 = 0;

/// It is called again when the set has an event.
pub const fn wait_for(set: u32) -> u32 {
    2 | set << 4
}

/// What a guest keeps between its calls. It runs on one thread, and is not entered from within.
pub struct Kept<T>(UnsafeCell<T>);

unsafe impl<T> Sync for Kept<T> {}

impl<T> Kept<T> {
    pub const fn new(value: T) -> Kept<T> {
        Kept(UnsafeCell::new(value))
    }

    pub fn with<R>(&self, work: impl FnOnce(&mut T) -> R) -> R {
        work(unsafe { &mut *self.0.get() })
    }
}

#[panic_handler]
fn panic(_: &core::panic::PanicInfo) -> ! {
    core::arch::wasm32::unreachable()
}
