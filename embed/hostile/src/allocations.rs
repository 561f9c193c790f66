//! The archive's allocations, which can be refused: `malloc` and `realloc` of the whole program go by here.

use std::ffi::c_void;
use std::sync::atomic::{AtomicBool, AtomicU32, Ordering::Relaxed};

static GRANTED: AtomicU32 = AtomicU32::new(u32::MAX);
static WAS_REFUSED: AtomicBool = AtomicBool::new(false);

/// Makes a call of the archive, of whose allocations so many are granted: what it answers, and whether any was
/// refused. None grants all.
pub fn granting<T>(granted: Option<u32>, call: impl FnOnce() -> T) -> (T, bool) {
    let Some(granted) = granted else { return (call(), false) };
    WAS_REFUSED.store(false, Relaxed);
    GRANTED.store(granted, Relaxed);
    let answer = call();
    GRANTED.store(u32::MAX, Relaxed);
    (answer, WAS_REFUSED.load(Relaxed))
}

fn is_refused() -> bool {
    match GRANTED.load(Relaxed) {
        u32::MAX => false,
        0 => {
            WAS_REFUSED.store(true, Relaxed);
            true
        }
        granted => {
            GRANTED.store(granted - 1, Relaxed);
            false
        }
    }
}

unsafe extern "C" {
    fn __real_malloc(size: usize) -> *mut c_void;
    fn __real_realloc(block: *mut c_void, size: usize) -> *mut c_void;
}

/// # Safety
///
/// As of `malloc`.
#[unsafe(no_mangle)]
unsafe extern "C" fn __wrap_malloc(size: usize) -> *mut c_void {
    if is_refused() {
        return std::ptr::null_mut();
    }
    // SAFETY: the caller's.
    unsafe { __real_malloc(size) }
}

/// # Safety
///
/// As of `realloc`.
#[unsafe(no_mangle)]
unsafe extern "C" fn __wrap_realloc(block: *mut c_void, size: usize) -> *mut c_void {
    if is_refused() {
        return std::ptr::null_mut();
    }
    // SAFETY: the caller's.
    unsafe { __real_realloc(block, size) }
}
