//! Stores that several ends share.

use crate::Store;
use alloc::rc::Rc;
use core::cell::RefCell;

/// A share of a store, by which an [`Owned`](crate::Owned) end makes its calls.
///
/// It is there for `Rc<RefCell<Store>>`, of one thread, and for `Arc<Mutex<Store>>`, of several. Another lock takes
/// one call:
///
/// ```
/// use std::sync::{Arc, RwLock};
/// use strm::{Limits, Share, Store};
///
/// #[derive(Clone)]
/// struct Locked(Arc<RwLock<Store>>);
///
/// impl Share for Locked {
///     fn access<R>(&self, calls: impl FnOnce(&mut Store) -> R) -> R {
///         calls(&mut self.0.write().unwrap())
///     }
/// }
///
/// let store = Locked(Arc::new(RwLock::new(Store::new(0, Limits::default())?)));
/// let guest = store.with(|store| store.add_guest(64))?;
/// # Ok::<(), strm::Error>(())
/// ```
///
/// Meanwhile no owned end is used or dropped, since each needs the store too: `RefCell` panics, and a lock is waited
/// for for ever. Whoever uses the store directly, as by `borrow_mut`, wakes tasks while it is borrowed, which is well
/// where a waker does no more than to put its task into a queue.
pub trait Share: Clone {
    /// Makes calls on the store, which nobody else uses meanwhile.
    fn access<R>(&self, calls: impl FnOnce(&mut Store) -> R) -> R;

    /// Makes calls on the store, and wakes the tasks that they made ready afterwards, when the store is free again:
    /// so a waker may do what it likes, also drop the last end of a task.
    ///
    /// ```
    /// use std::{cell::RefCell, rc::Rc};
    /// use strm::{Limits, Share, Store};
    ///
    /// let store = Rc::new(RefCell::new(Store::new(7, Limits::default())?));
    /// assert_eq!(store.with(|store| store.tag()), 7);
    /// # Ok::<(), strm::Error>(())
    /// ```
    fn with<R>(&self, calls: impl FnOnce(&mut Store) -> R) -> R {
        let (result, released) = self.access(|store| store.deferred(calls));
        released.wake();
        result
    }
}

impl Share for Rc<RefCell<Store>> {
    fn access<R>(&self, calls: impl FnOnce(&mut Store) -> R) -> R {
        calls(&mut self.borrow_mut())
    }
}

// A thread that panicked left the store as a call left it.
#[cfg(feature = "std")]
impl Share for std::sync::Arc<std::sync::Mutex<Store>> {
    fn access<R>(&self, calls: impl FnOnce(&mut Store) -> R) -> R {
        calls(&mut self.lock().unwrap_or_else(std::sync::PoisonError::into_inner))
    }
}
