//! A thousand tasks over one store, on one thread: a number goes round a ring of 999 of them, each of which adds one,
//! and comes back to the last. The executor is the example's own, in 40 lines: it polls a task when it was woken, and
//! never else.

use std::cell::{Cell, RefCell};
use std::collections::VecDeque;
use std::error::Error;
use std::future::Future;
use std::pin::Pin;
use std::rc::Rc;
use std::sync::{Arc, Mutex};
use std::task::{Context, Wake, Waker};
use strm::{Limits, Receiver, Sender, Share, Store};

const TASKS: usize = 1000;
const ROUNDS: usize = 20;

type Shared = Rc<RefCell<Store>>;
type Queue = Arc<Mutex<VecDeque<usize>>>;

/// Puts its task into the queue.
struct Entry {
    number: usize,
    queue: Queue,
}

impl Wake for Entry {
    fn wake(self: Arc<Self>) {
        self.queue.lock().expect("no task panics").push_back(self.number);
    }
}

#[derive(Default)]
struct Executor {
    tasks: Vec<Option<Pin<Box<dyn Future<Output = ()>>>>>,
    wakers: Vec<Waker>,
    queue: Queue,
}

impl Executor {
    fn spawn(&mut self, task: impl Future<Output = Result<(), strm::Error>> + 'static) {
        let number = self.tasks.len();
        self.tasks
            .push(Some(Box::pin(async { task.await.expect("no call is refused") })));
        self.wakers.push(Waker::from(Arc::new(Entry {
            number,
            queue: self.queue.clone(),
        })));
        self.wakers[number].wake_by_ref();
    }

    /// Runs until no task is woken any more: how many polls that took.
    fn run(&mut self) -> usize {
        let mut polls = 0;
        while let Some(number) = self.next() {
            let Some(task) = &mut self.tasks[number] else {
                continue;
            };
            polls += 1;
            if task
                .as_mut()
                .poll(&mut Context::from_waker(&self.wakers[number]))
                .is_ready()
            {
                self.tasks[number] = None;
            }
        }
        polls
    }

    fn next(&self) -> Option<usize> {
        self.queue.lock().expect("no task panics").pop_front()
    }
}

/// Passes on what comes, and adds one.
async fn pass(mut from: Receiver<u64, Shared>, mut to: Sender<u64, Shared>) -> Result<(), strm::Error> {
    while let Some(number) = from.recv().await? {
        to.send(number + 1).await?;
    }
    Ok(())
}

/// Sends a number round the ring, again and again.
async fn begin(
    mut to: Sender<u64, Shared>,
    mut from: Receiver<u64, Shared>,
    last: Rc<Cell<u64>>,
) -> Result<(), strm::Error> {
    for _ in 0..ROUNDS {
        to.send(last.get()).await?;
        last.set(from.recv().await?.expect("it comes back"));
    }
    Ok(())
}

fn main() -> Result<(), Box<dyn Error>> {
    let store = Rc::new(RefCell::new(Store::new(0, Limits::default())?));
    let host = store.with(|store| store.add_host(1 << 16))?;
    let mut executor = Executor::default();

    let (first, mut from) = strm::stream(&store, host, host, 1)?;
    for _ in 1..TASKS {
        let (to, next) = strm::stream(&store, host, host, 1)?;
        executor.spawn(pass(from, to));
        from = next;
    }
    let last = Rc::new(Cell::new(0));
    executor.spawn(begin(first, from, last.clone()));

    let polls = executor.run();
    println!(
        "{TASKS} tasks, {} unfinished",
        executor.tasks.iter().flatten().count()
    );
    println!("a number went round {ROUNDS} times, and is {}", last.get());
    println!(
        "{polls} polls, {} ends left",
        store.with(|store| store.handle_count(host))?
    );
    Ok(())
}
