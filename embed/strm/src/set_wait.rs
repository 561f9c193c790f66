//! Waitable sets that are awaited.

use crate::{Error, Guest, Member, Share, WaitableSet};
use core::fmt;
use core::future::Future;
use core::pin::Pin;
use core::task::{Context, Poll};

/// Waits until a member of a set has something to be told, and takes that: see [`set_wait`].
#[must_use = "nothing waits until it is awaited"]
pub struct SetWait<S: Share> {
    store: S,
    guest: Guest,
    set: WaitableSet,
    // How many guests had the number before the one whose set it waits for, once it was polled.
    life: Option<u64>,
    // Under which it is kept while it waits.
    key: Option<u64>,
}

/// Waits until a member of a guest's set has something to be told, and takes that, as [`Store::set_poll`] does: so a
/// task runs a guest that asked to wait for its set.
///
/// Its task is woken when an end of the guest gets something to be told, or an end joins a set of the guest or a set
/// is dropped, and asks the set again; any number of tasks may wait. Where the future is dropped nothing was taken.
/// Where the guest ends meanwhile it is refused with `UnknownHandle`, also where another has begun under its number.
///
/// [`Store::set_poll`]: crate::Store::set_poll
///
/// # Errors
///
/// Those of [`Store::set_poll`].
///
/// ```
/// use strm::{Code, Error, Share};
/// # let (store, a, b) = strm::example_shared()?;
/// let (writer, reader) = store.with(|store| store.stream_between::<u8>(a, b))?;
/// let set = store.with(|store| store.set_new(b))?;
/// store.with(|store| reader.join(store, set))?;
///
/// let guest = async {
///     let told = strm::set_wait(&store, b, set).await?;
///     assert_eq!((told.handle, told.code), (reader.handle(), Code::Dropped(0)));
///     # Ok::<(), Error>(())
/// };
/// let other = async {
///     store.with(|store| writer.close(store))?;
///     # Ok::<(), Error>(())
/// };
/// # strm::example_run(other, guest)?;
/// # Ok::<(), Error>(())
/// ```
pub fn set_wait<S: Share>(store: &S, guest: Guest, set: WaitableSet) -> SetWait<S> {
    SetWait {
        store: store.clone(),
        guest,
        set,
        life: None,
        key: None,
    }
}

// Nothing in it is pinned.
impl<S: Share> Unpin for SetWait<S> {}

impl<S: Share> Future for SetWait<S> {
    type Output = Result<Member, Error>;

    fn poll(self: Pin<&mut Self>, cx: &mut Context<'_>) -> Poll<Result<Member, Error>> {
        let this = self.get_mut();
        let (guest, set, life, key) = (this.guest, this.set, &mut this.life, &mut this.key);
        let told = this.store.with(|store| {
            let life = *life.get_or_insert_with(|| store.life(guest));
            store.in_life(guest, life, |store| store.poll_set(guest, set, key, cx.waker()))
        });
        match told.transpose() {
            None => Poll::Pending,
            Some(answer) => Poll::Ready(answer),
        }
    }
}

impl<S: Share> Drop for SetWait<S> {
    fn drop(&mut self) {
        if let Some(key) = self.key {
            self.store.with(|store| store.unwait_set(self.guest, key));
        }
    }
}

impl<S: Share> fmt::Debug for SetWait<S> {
    fn fmt(&self, f: &mut fmt::Formatter<'_>) -> fmt::Result {
        f.debug_struct("SetWait")
            .field("guest", &self.guest)
            .field("set", &self.set)
            .finish_non_exhaustive()
    }
}
