//! Which replies scripts had: so that it shows what they never came to.

use crate::programs::Output;
use std::collections::BTreeMap;

/// The refusals of each command, as the page of formats lists them, but for those that no script comes to.
const REFUSALS: [(&str, &str); 30] = [
    ("guest", "MemoryTooBig"),
    ("new", "UnknownGuest"),
    ("pair", "UnknownGuest"),
    ("set-new", "UnknownGuest"),
    ("poke", "UnknownGuest OutOfBounds"),
    ("dump", "UnknownGuest OutOfBounds"),
    ("event", "UnknownGuest UnknownHandle WrongKind"),
    ("drop-write", "UnknownGuest UnknownHandle WrongKind WrongType WrongEnd Busy FutureWithoutValue"),
    ("drop-read", "UnknownGuest UnknownHandle WrongKind WrongType WrongEnd Busy"),
    ("cancel-write", "UnknownGuest UnknownHandle WrongKind WrongType WrongEnd NoPending CancelUnderWay"),
    ("cancel-read", "UnknownGuest UnknownHandle WrongKind WrongType WrongEnd NoPending CancelUnderWay"),
    ("move", "UnknownGuest UnknownHandle WrongKind WrongType Busy LiftDropped LiftInSet"),
    ("lift", "UnknownGuest UnknownHandle WrongKind WrongType WrongEnd Busy LiftDropped LiftInSet"),
    ("lower", "UnknownGuest UnknownReader WrongKind WrongType"),
    ("pipe", "UnknownHost HostUsed UnknownReader WrongKind WrongType"),
    ("close", "UnknownReader"),
    ("host", "UnknownHost HostUsed"),
    ("feed", "UnknownHost"),
    ("grant", "UnknownHost"),
    ("set-join", "UnknownGuest UnknownHandle WrongKind"),
    ("set-poll", "UnknownGuest UnknownHandle WrongKind"),
    ("set-drop", "UnknownGuest UnknownHandle WrongKind SetNotEmpty"),
    ("err-new", "UnknownGuest MessageTooLong OutOfBounds BadText"),
    ("err-text", "UnknownGuest UnknownHandle WrongKind OutOfBounds"),
    ("err-move", "UnknownGuest UnknownHandle WrongKind"),
    ("err-drop", "UnknownGuest UnknownHandle WrongKind"),
    ("write", "UnknownGuest StreamOpTooBig OutOfBounds NotAligned UnknownHandle WrongKind WrongType"),
    ("write", "ConcurrentFutureStreamOp WriteToDroppedStream WriteToDroppedFuture IntraComponent"),
    ("read", "UnknownGuest StreamOpTooBig OutOfBounds NotAligned UnknownHandle WrongKind WrongType"),
    ("read", "ConcurrentFutureStreamOp ReadFromDroppedStream FutureAlreadyRead IntraComponent"),
];

/// The codes of each command.
const CODES: [(&str, &str); 5] = [
    ("write", "Blocked Completed Dropped"),
    ("read", "Blocked Completed Dropped"),
    ("event", "none Completed Dropped Cancelled"),
    ("cancel-write", "Blocked Completed Dropped Cancelled"),
    ("cancel-read", "Blocked Completed Dropped Cancelled"),
];

/// How often a command had a reply.
#[derive(Clone, Debug, Default)]
pub struct Tally {
    seen: BTreeMap<(String, String), u64>,
    statuses: BTreeMap<u8, u64>,
}

impl Tally {
    /// Counts the replies of a script.
    pub fn count(&mut self, input: &[u8], output: &Output) {
        *self.statuses.entry(output.status).or_default() += 1;
        let (lines, replies) = (String::from_utf8_lossy(input), String::from_utf8_lossy(&output.text));
        for (line, reply) in lines.lines().zip(replies.lines()) {
            let command = line.split(' ').next().unwrap_or_default();
            *self.seen.entry((command.to_owned(), class_of(reply))).or_default() += 1;
        }
    }

    /// Adds what another one counted.
    pub fn add(&mut self, other: Tally) {
        for (seen, count) in other.seen {
            *self.seen.entry(seen).or_default() += count;
        }
        for (status, count) in other.statuses {
            *self.statuses.entry(status).or_default() += count;
        }
    }

    /// The replies that a command may have and never had, in words, and how many it had.
    pub fn missing(&self) -> (usize, Vec<String>) {
        let mut missing = Vec::new();
        let mut found = 0;
        for (command, names) in REFUSALS.iter().chain(&CODES) {
            for name in names.split(' ') {
                if self.seen.contains_key(&((*command).to_owned(), name.to_owned())) {
                    found += 1;
                } else {
                    missing.push(format!("{command}: {name}"));
                }
            }
        }
        (found, missing)
    }

    /// How often each status came.
    pub fn statuses(&self) -> String {
        self.statuses.iter().map(|(status, count)| format!(" {status}: {count}")).collect()
    }
}

fn class_of(reply: &str) -> String {
    if let Some(name) = reply.strip_prefix("refused ") {
        return name.to_owned();
    }
    let is_code = reply.len() == 8 && reply.bytes().all(|byte| byte.is_ascii_hexdigit());
    match reply {
        "ffffffff" => "Blocked",
        "ok" | "none" => reply,
        _ if is_code => match reply.as_bytes()[7] {
            b'0' => "Completed",
            b'1' => "Dropped",
            _ => "Cancelled",
        },
        _ => "other",
    }
    .to_owned()
}
