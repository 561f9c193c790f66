//! Threads that share a store: four write words to one that adds them up, each by its own stream, and each gets the
//! sum by a future. A thread sleeps until its end is woken.

use std::error::Error;
use std::future::Future;
use std::pin::pin;
use std::sync::{Arc, Mutex};
use std::task::{Context, Poll, Wake, Waker};
use std::thread::{self, Thread};
use strm::{Limits, Receiver, Sender, Share, Store, ValueReceiver, ValueSender};

const WRITERS: u64 = 4;
const ITEMS: u64 = 10_000;

type Shared = Arc<Mutex<Store>>;

struct Unpark(Thread);

impl Wake for Unpark {
    fn wake(self: Arc<Self>) {
        self.0.unpark();
    }
}

/// Runs a future on this thread.
fn block_on<R>(future: impl Future<Output = R>) -> R {
    let waker = Waker::from(Arc::new(Unpark(thread::current())));
    let mut future = pin!(future);
    loop {
        match future.as_mut().poll(&mut Context::from_waker(&waker)) {
            Poll::Ready(result) => return result,
            Poll::Pending => thread::park(),
        }
    }
}

async fn write(
    mut numbers: Sender<u64, Shared>,
    mut sum: ValueReceiver<u64, Shared>,
    from: u64,
) -> Result<u64, strm::Error> {
    for number in (from..WRITERS * ITEMS).step_by(WRITERS as usize) {
        numbers.send(number).await?;
    }
    drop(numbers);
    sum.recv().await
}

async fn add(
    mut numbers: Vec<Receiver<u64, Shared>>,
    sums: Vec<ValueSender<u64, Shared>>,
) -> Result<u64, strm::Error> {
    let mut sum = 0;
    for numbers in &mut numbers {
        let mut all = Vec::new();
        while numbers.recv_many(&mut all, usize::MAX).await? > 0 {}
        sum += all.into_iter().sum::<u64>();
    }
    for mut to in sums {
        to.send(sum).await?;
    }
    Ok(sum)
}

fn main() -> Result<(), Box<dyn Error>> {
    let store: Shared = Arc::new(Mutex::new(Store::new(0, Limits::default())?));
    let (a, b) = store.with(|store| Ok::<_, strm::Error>((store.add_host(4096)?, store.add_host(4096)?)))?;
    let (mut numbers, mut sums, mut writers) = (Vec::new(), Vec::new(), Vec::new());
    for from in 0..WRITERS {
        let (to, number) = strm::stream(&store, a, b, 16)?;
        let (sum, told) = strm::future(&store, b, a, 0)?;
        numbers.push(number);
        sums.push(sum);
        writers.push(thread::spawn(move || block_on(write(to, told, from))));
    }
    let sum = block_on(add(numbers, sums))?;
    println!("{} numbers, their sum is {sum}", WRITERS * ITEMS);
    for writer in writers {
        let told = writer.join().map_err(|_| "a thread panicked")??;
        println!("a writer was told {told}");
    }
    let left = store.with(|store| Ok::<_, strm::Error>(store.handle_count(a)? + store.handle_count(b)?))?;
    println!("{left} ends left");
    Ok(())
}
