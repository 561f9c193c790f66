//! Tasks that are polled when they were woken, and never else: one whose wake is missed stays unfinished.

#![allow(dead_code)] // Each test uses a part of it.

use std::cell::RefCell;
use std::collections::VecDeque;
use std::future::Future;
use std::pin::Pin;
use std::rc::Rc;
use std::sync::{Arc, Mutex};
use std::task::{Context, Wake, Waker};
use strm::{Error, Guest, Limits, Share, Store};

pub type Shared = Rc<RefCell<Store>>;

type Queue = Arc<Mutex<VecDeque<usize>>>;

struct Entry {
    number: usize,
    queue: Queue,
}

impl Wake for Entry {
    fn wake(self: Arc<Self>) {
        self.queue.lock().unwrap().push_back(self.number);
    }
}

type Task<'a> = Pin<Box<dyn Future<Output = Result<(), Error>> + 'a>>;

#[derive(Default)]
pub struct Tasks<'a> {
    tasks: Vec<Option<Task<'a>>>,
    queue: Queue,
    polls: usize,
}

impl<'a> Tasks<'a> {
    pub fn spawn(&mut self, task: impl Future<Output = Result<(), Error>> + 'a) -> usize {
        let number = self.tasks.len();
        self.tasks.push(Some(Box::pin(task)));
        self.queue.lock().unwrap().push_back(number);
        number
    }

    /// Polls a woken task, if there is one.
    pub fn step(&mut self) -> bool {
        let Some(number) = self.queue.lock().unwrap().pop_front() else {
            return false;
        };
        let entry = Arc::new(Entry {
            number,
            queue: self.queue.clone(),
        });
        if let Some(task) = &mut self.tasks[number] {
            self.polls += 1;
            let waker = Waker::from(entry);
            if let std::task::Poll::Ready(result) = task.as_mut().poll(&mut Context::from_waker(&waker)) {
                self.tasks[number] = None;
                result.unwrap_or_else(|error| panic!("task {number}: {error}"));
            }
        }
        true
    }

    /// Runs until no task is woken: which are not finished.
    pub fn run(&mut self) -> Vec<usize> {
        while self.step() {}
        (0..self.tasks.len())
            .filter(|number| self.tasks[*number].is_some())
            .collect()
    }

    /// Polls a task though nobody woke it.
    pub fn disturb(&mut self, number: usize) {
        self.queue.lock().unwrap().push_back(number);
    }

    /// Drops a task where it is.
    pub fn drop_task(&mut self, number: usize) {
        self.tasks[number] = None;
    }

    /// How many polls there were since this was asked last.
    pub fn polls(&mut self) -> usize {
        std::mem::take(&mut self.polls)
    }
}

/// A store with so many guests, each with 64 KiB that are room for items.
pub fn hosts<const N: usize>() -> (Shared, [Guest; N]) {
    let mut store = Store::new(0, Limits::default()).expect("a store");
    let guests = std::array::from_fn(|_| store.add_host(65536).expect("a guest"));
    (Rc::new(RefCell::new(store)), guests)
}

/// How many handles the guests have.
pub fn handles(store: &Shared, guests: &[Guest]) -> u32 {
    store.with(|store| {
        guests
            .iter()
            .map(|guest| store.handle_count(*guest).expect("a guest"))
            .sum()
    })
}

/// A task that does nothing once.
pub async fn step() {
    let mut is_first = true;
    std::future::poll_fn(|cx| {
        if std::mem::take(&mut is_first) {
            cx.waker().wake_by_ref();
            return std::task::Poll::Pending;
        }
        std::task::Poll::Ready(())
    })
    .await
}

/// The result of a call, or none where it is dropped after so many polls.
pub async fn within<R>(polls: usize, call: impl Future<Output = R>) -> Option<R> {
    let mut call = Box::pin(call);
    let mut left = polls;
    std::future::poll_fn(|cx| match call.as_mut().poll(cx) {
        std::task::Poll::Ready(result) => std::task::Poll::Ready(Some(result)),
        std::task::Poll::Pending if left == 0 => std::task::Poll::Ready(None),
        std::task::Poll::Pending => {
            left -= 1;
            cx.waker().wake_by_ref();
            std::task::Poll::Pending
        }
    })
    .await
}

/// Numbers that are the same in each run.
pub struct Draws(pub u64);

impl Draws {
    pub fn below(&mut self, limit: usize) -> usize {
        self.0 ^= self.0 << 13;
        self.0 ^= self.0 >> 7;
        self.0 ^= self.0 << 17;
        (self.0 >> 33) as usize % limit
    }
}
