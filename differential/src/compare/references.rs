//! Which step made what a step names: so that a script keeps its sense where steps are left out of it.

use crate::hosts::Hosts;
use crate::steps::{Script, Step};
use crate::store::{Reply, Store};
use std::collections::HashMap;

/// What a number of a step names.
#[derive(Clone, Copy, Debug, PartialEq, Eq, Hash)]
enum Role {
    Guest,
    /// A handle of the guest of this number.
    HandleOf(u32),
    Stream,
}

/// What a step made: a guest, a stream, or the first or the second handle.
#[derive(Clone, Copy, Debug, PartialEq, Eq, Hash)]
enum Made {
    Guest,
    Stream,
    First,
    Second,
}

/// The step that made a thing, and which of the things that it made.
type Origin = (usize, Made);

// The numbers of a step that name what other steps made.
fn names_of(step: &mut Step) -> Vec<(Role, &mut u32)> {
    match step {
        Step::New { guest, .. } | Step::SetNew { guest } | Step::ErrNew { guest, .. } => {
            vec![(Role::Guest, guest)]
        }
        Step::Poke { guest, .. } | Step::Dump { guest, .. } => vec![(Role::Guest, guest)],
        Step::Pair { writer, reader, .. } => vec![(Role::Guest, writer), (Role::Guest, reader)],
        Step::Write { guest, handle, .. }
        | Step::Read { guest, handle, .. }
        | Step::CancelWrite { guest, handle, .. }
        | Step::CancelRead { guest, handle, .. }
        | Step::DropWrite { guest, handle, .. }
        | Step::DropRead { guest, handle, .. }
        | Step::Event { guest, handle }
        | Step::Lift { guest, handle, .. }
        | Step::SetPoll { guest, set: handle }
        | Step::SetDrop { guest, set: handle }
        | Step::ErrText { guest, handle, .. }
        | Step::ErrDrop { guest, handle } => vec![(Role::HandleOf(*guest), handle), (Role::Guest, guest)],
        Step::Move { guest, handle, to, .. } | Step::ErrMove { guest, handle, to } => {
            vec![(Role::HandleOf(*guest), handle), (Role::Guest, guest), (Role::Guest, to)]
        }
        Step::SetJoin { guest, set, handle } => {
            vec![(Role::HandleOf(*guest), set), (Role::HandleOf(*guest), handle), (Role::Guest, guest)]
        }
        Step::Lower { reader, guest, .. } => vec![(Role::Stream, reader), (Role::Guest, guest)],
        Step::Pipe { reader, .. } | Step::Close { reader } => vec![(Role::Stream, reader)],
        Step::Guest { .. } | Step::Host { .. } | Step::Drive | Step::Feed { .. } | Step::Grant { .. } => {
            Vec::new()
        }
    }
}

// What a step that was answered so made: each with the number of its guest, or 0, and its own.
fn made_by(step: &Step, reply: &Reply) -> Vec<(Made, u32, u32)> {
    match (*step, *reply) {
        (Step::Guest { .. }, Reply::Number(guest)) => vec![(Made::Guest, 0, guest)],
        (Step::Host { .. }, Reply::Number(stream)) => vec![(Made::Stream, 0, stream)],
        (Step::New { guest, .. }, Reply::Pair { read, write, stream }) => {
            vec![(Made::Stream, 0, stream), (Made::First, guest, read), (Made::Second, guest, write)]
        }
        (Step::Pair { writer, reader, .. }, Reply::Pair { read, write, stream }) => {
            vec![(Made::Stream, 0, stream), (Made::First, reader, read), (Made::Second, writer, write)]
        }
        (Step::Move { to: guest, .. }, Reply::Number(handle))
        | (Step::ErrMove { to: guest, .. }, Reply::Number(handle))
        | (Step::Lower { guest, .. }, Reply::Number(handle))
        | (Step::SetNew { guest }, Reply::Number(handle))
        | (Step::ErrNew { guest, .. }, Reply::Number(handle)) => vec![(Made::First, guest, handle)],
        _ => Vec::new(),
    }
}

/// A script, and of each number of its steps by what step that was made which it names.
#[derive(Clone, Debug)]
pub struct Traced {
    script: Script,
    origins: Vec<Vec<Option<Origin>>>,
}

impl Traced {
    /// The steps of a script among the program's host ends, as the second implementation answers them.
    pub fn new(script: Script) -> Traced {
        let mut store = Store::new(Hosts::of_program());
        let mut latest: HashMap<(Role, u32), Origin> = HashMap::new();
        let mut origins = Vec::with_capacity(script.steps.len());
        for (at, step) in script.steps.iter().enumerate() {
            let mut named = *step;
            let named = names_of(&mut named);
            origins
                .push(named.iter().map(|(role, number)| latest.get(&(*role, **number)).copied()).collect());
            let Ok(reply) = store.apply(&script, step) else { continue };
            for (made, guest, number) in made_by(step, &reply) {
                let role = match made {
                    Made::Guest => Role::Guest,
                    Made::Stream => Role::Stream,
                    Made::First | Made::Second => Role::HandleOf(guest),
                };
                latest.insert((role, number), (at, made));
            }
        }
        Traced { script, origins }
    }

    pub fn len(&self) -> usize {
        self.script.steps.len()
    }

    pub fn is_empty(&self) -> bool {
        self.script.steps.is_empty()
    }

    /// The script of the steps that are kept, each naming what it named, as far as that is still made.
    pub fn kept(&self, is_kept: &[bool]) -> Script {
        let mut store = Store::new(Hosts::of_program());
        let mut numbers: HashMap<Origin, u32> = HashMap::new();
        let mut script = Script { steps: Vec::new(), bytes: self.script.bytes.clone() };
        for (at, step) in self.script.steps.iter().enumerate().filter(|(at, _)| is_kept[*at]) {
            let mut step = *step;
            for ((_, number), origin) in names_of(&mut step).into_iter().zip(&self.origins[at]) {
                if let Some(found) = origin.and_then(|origin| numbers.get(&origin)) {
                    *number = *found;
                }
            }
            if let Ok(reply) = store.apply(&script, &step) {
                numbers
                    .extend(made_by(&step, &reply).into_iter().map(|(made, _, number)| ((at, made), number)));
            }
            script.steps.push(step);
        }
        script
    }
}
