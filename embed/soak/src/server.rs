//! A server with many open connections: each has a stream of requests and one of responses, and after some of
//! them its client closes it and another is opened. The server waits by one waitable set, answers each request
//! with its bytes in reverse, and is asked as fast as it can answer.

use crate::process::resident;
use crate::Course;
use std::time::{Duration, Instant};
use strm::{Code, Error, Guest, Handle, Limits, Pair, Payload, Store, Type, WaitableSet};

const CLIENTS: usize = 63;
const CONNECTIONS: usize = 500;

/// The most bytes of a request, and of each connection's buffer with its client and with the server.
const BUFFER: u32 = 4096;

/// What a connection takes of the store: two handles and three places of each of its streams.
const LIMITS: Limits = Limits { handles: CONNECTIONS * 4 + 1, places: CONNECTIONS as u32 * 6 + 1 };

const BYTES: Payload = Payload::U8;

struct Connection {
    client: Guest,
    // Where its buffer lies with its client, and with the server.
    place: u32,
    served: u32,
    requests: Pair,
    responses: Pair,
}

struct Server {
    store: Store,
    server: Guest,
    set: WaitableSet,
    connections: Vec<Connection>,
    // The connection of each of the server's handles.
    by_handle: Vec<usize>,
    seed: u64,
    opened: u64,
    answered: u64,
    bytes: u64,
}

// Where the buffer of this number lies.
fn place_of(number: usize) -> u32 {
    number as u32 * BUFFER
}

impl Server {
    fn new() -> Result<Server, Error> {
        let mut store = Store::new(0, LIMITS)?;
        let server = store.add_guest(place_of(CONNECTIONS))?;
        for _ in 0..CLIENTS {
            store.add_guest(place_of(CONNECTIONS.div_ceil(CLIENTS)))?;
        }
        let set = store.set_new(server)?;
        let by_handle = vec![0; LIMITS.handles + 1];
        let connections = Vec::with_capacity(CONNECTIONS);
        let (seed, opened, answered, bytes) = (1, 0, 0, 0);
        let mut made = Server { store, server, set, connections, by_handle, seed, opened, answered, bytes };
        for number in 0..CONNECTIONS {
            let connection = made.open(number)?;
            made.connections.push(connection);
        }
        Ok(made)
    }

    fn below(&mut self, limit: u32) -> u32 {
        self.seed ^= self.seed << 13;
        self.seed ^= self.seed >> 7;
        self.seed ^= self.seed << 17;
        (self.seed >> 32) as u32 % limit
    }

    // A connection, whose first request the server waits for.
    fn open(&mut self, number: usize) -> Result<Connection, Error> {
        let client = Guest(1 + (number % CLIENTS) as u32);
        let requests = self.store.new_between(client, self.server, Type::Stream(BYTES))?;
        let responses = self.store.new_between(self.server, client, Type::Stream(BYTES))?;
        self.store.set_join(self.server, self.set, requests.read)?;
        self.by_handle[requests.read.0 as usize] = number;
        self.opened += 1;
        self.await_request(number, requests.read)?;
        Ok(Connection { client, place: place_of(number / CLIENTS), served: 0, requests, responses })
    }

    fn await_request(&mut self, number: usize, handle: Handle) -> Result<(), Error> {
        let code = self.store.stream_read(self.server, BYTES, handle, place_of(number), BUFFER)?;
        assert_eq!(code, Code::Blocked);
        Ok(())
    }

    // A client waits for a response, asks, is answered, and looks at what came.
    fn request(&mut self, number: usize) -> Result<(), Error> {
        let (len, mark) = (1 + self.below(BUFFER / 2), self.below(256) as u8);
        let Connection { client, place, requests, responses, .. } = self.connections[number];
        let buffer = &mut self.store.memory_mut(client)?[place as usize..][..len as usize];
        buffer.fill(mark);
        buffer[0] = !mark;
        let there = place + BUFFER / 2;
        let waits = self.store.stream_read(client, BYTES, responses.read, there, BUFFER / 2)?;
        let asked = self.store.stream_write(client, BYTES, requests.write, place, len)?;
        assert_eq!((waits, asked), (Code::Blocked, Code::Completed(len)));
        self.serve()?;
        let told = self.store.take_event(client, responses.read)?;
        assert_eq!(told, Some(Code::Completed(len)));
        let response = &self.store.memory(client)?[there as usize..][..len as usize];
        assert!(
            response[len as usize - 1] == !mark
                && response[..len as usize - 1].iter().all(|byte| *byte == mark)
        );
        self.connections[number].served += 1;
        Ok(())
    }

    fn close(&mut self, number: usize) -> Result<(), Error> {
        let Connection { client, requests, responses, .. } = self.connections[number];
        self.store.stream_drop_writable(client, BYTES, requests.write)?;
        self.store.stream_drop_readable(client, BYTES, responses.read)?;
        self.serve()
    }

    // The server does what its set tells.
    fn serve(&mut self) -> Result<(), Error> {
        while let Some(member) = self.store.set_poll(self.server, self.set)? {
            let number = self.by_handle[member.handle.0 as usize];
            match member.code {
                Code::Completed(len) => self.respond(number, len)?,
                _ => self.replace(number)?,
            }
        }
        Ok(())
    }

    fn respond(&mut self, number: usize, len: u32) -> Result<(), Error> {
        let Connection { requests, responses, .. } = self.connections[number];
        let place = place_of(number);
        self.store.memory_mut(self.server)?[place as usize..][..len as usize].reverse();
        let code = self.store.stream_write(self.server, BYTES, responses.write, place, len)?;
        assert_eq!(code, Code::Completed(len));
        self.answered += 1;
        self.bytes += 2 * u64::from(len);
        self.await_request(number, requests.read)
    }

    // The client is gone: another connection in the place of this one.
    fn replace(&mut self, number: usize) -> Result<(), Error> {
        let Connection { requests, responses, .. } = self.connections[number];
        self.store.stream_drop_readable(self.server, BYTES, requests.read)?;
        self.store.stream_drop_writable(self.server, BYTES, responses.write)?;
        self.connections[number] = self.open(number)?;
        Ok(())
    }

    // So many requests and closes, of connections in any order.
    fn turns(&mut self, count: u32) -> Result<(), Error> {
        for _ in 0..count {
            let number = self.below(CONNECTIONS as u32) as usize;
            if self.connections[number].served > 0 && self.below(2) == 0 {
                self.close(number)?;
            } else {
                self.request(number)?;
            }
        }
        Ok(())
    }
}

/// Runs it for so long: by how many kB the process grew behind the first tenth of the time.
pub fn run(length: Duration) -> Result<Course, Error> {
    let mut server = Server::new()?;
    let (begun, mut figures) = (Instant::now(), Vec::new());
    println!("{CONNECTIONS} connections open, {} kB resident", resident());
    for tenth in 1..=10 {
        while begun.elapsed() < length * tenth / 10 {
            server.turns(1000)?;
        }
        figures.push(resident());
        let seconds = begun.elapsed().as_secs_f64();
        println!("{seconds:.1} s: {} connections made, {} kB resident", server.opened, resident());
    }
    let Server { opened, answered, bytes, .. } = server;
    println!("{opened} connections made, {answered} requests answered, {bytes} bytes passed");
    Ok(Course { grown: figures[figures.len() - 1].saturating_sub(figures[0]), slower: 1.0 })
}
