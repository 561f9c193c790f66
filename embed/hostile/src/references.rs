//! Which call made what a call names: so that a history keeps its sense where calls are left out of it.

use crate::archive::Answer;
use crate::calls::Call;
use crate::history::{Difference, History, Run, Step};
use std::collections::HashMap;

/// What a number names.
#[derive(Clone, Copy, Debug, PartialEq, Eq, Hash)]
enum Role {
    Guest,
    /// A handle of the guest of this number.
    HandleOf(u32),
    Stream,
    Context,
}

/// The call that made a thing, and which of the words that it answered the thing is.
type Origin = (usize, usize);

// The numbers by which a call names what other calls made.
#[rustfmt::skip]
fn names_of(call: &mut Call) -> Vec<(Role, &mut u32)> {
    match call {
        Call::Free | Call::Tag | Call::Streams | Call::TypeOf { .. } | Call::AddGuest { .. } | Call::AddGuestAt { .. } => Vec::new(),
        Call::NextReadyGuest { from } => vec![(Role::Guest, from)],
        Call::Moved { stream } | Call::TransmitIndex { stream } => vec![(Role::Stream, stream)],
        Call::MemoryWrite { guest, .. } | Call::MemoryRead { guest, .. } | Call::MemoryAt { guest } | Call::MemoryGrown { guest, .. } | Call::MemoryMoved { guest, .. } | Call::EndGuest { guest } | Call::BeginGuest { guest, .. } | Call::BeginGuestAt { guest, .. } | Call::NextHandle { guest, .. } | Call::HandleCount { guest } | Call::SetGuestLimits { guest, .. } | Call::GuestLimits { guest }
        | Call::New { guest, .. } | Call::SetNew { guest } | Call::ContextNew { guest, .. } => vec![(Role::Guest, guest)],
        Call::Operate { guest, handle, .. } | Call::FindBadItem { guest, handle, .. } | Call::Cancel { guest, handle, .. } | Call::Drop { guest, handle, .. }
        | Call::TakeEvent { guest, handle } | Call::HandleInfo { guest, handle } | Call::Lift { guest, handle, .. } | Call::SetPoll { guest, set: handle }
        | Call::SetDrop { guest, set: handle } | Call::ContextMessage { guest, handle, .. }
        | Call::ContextRep { guest, handle } | Call::ContextDrop { guest, handle } => {
            vec![(Role::HandleOf(*guest), handle), (Role::Guest, guest)]
        }
        Call::NewBetween { writer, reader, .. } => vec![(Role::Guest, writer), (Role::Guest, reader)],
        Call::Transfer { guest, handle, to, .. } | Call::ContextTransfer { guest, handle, to } => {
            vec![(Role::HandleOf(*guest), handle), (Role::Guest, guest), (Role::Guest, to)]
        }
        Call::SetJoin { guest, set, handle } => {
            vec![(Role::HandleOf(*guest), set), (Role::HandleOf(*guest), handle), (Role::Guest, guest)]
        }
        Call::Lower { reader, guest, .. } => vec![(Role::Stream, reader), (Role::Guest, guest)],
        Call::Close { reader } => vec![(Role::Stream, reader)],
        Call::ContextLower { rep, guest } => vec![(Role::Context, rep), (Role::Guest, guest)],
    }
}

// What a call that was done made, by the places of its words.
fn made_by(call: &Call, answer: &Answer) -> Vec<(usize, Role)> {
    if answer.status != 0 {
        return Vec::new();
    }
    match *call {
        Call::AddGuest { .. } | Call::AddGuestAt { .. } => vec![(0, Role::Guest)],
        Call::New { guest, .. } => {
            vec![(0, Role::HandleOf(guest)), (1, Role::HandleOf(guest)), (2, Role::Stream)]
        }
        Call::NewBetween { writer, reader, .. } => {
            vec![(0, Role::HandleOf(reader)), (1, Role::HandleOf(writer)), (2, Role::Stream)]
        }
        Call::Transfer { to: guest, .. }
        | Call::ContextTransfer { to: guest, .. }
        | Call::Lower { guest, .. }
        | Call::SetNew { guest }
        | Call::ContextNew { guest, .. }
        | Call::ContextLower { guest, .. } => vec![(0, Role::HandleOf(guest))],
        Call::ContextRep { .. } => vec![(0, Role::Context)],
        _ => Vec::new(),
    }
}

/// A history, and for each number of its calls by what call that was made which it names.
pub struct Traced {
    history: History,
    origins: Vec<Vec<Option<Origin>>>,
    /// Whether it was done, or is the last.
    pub was_done: Vec<bool>,
}

impl Traced {
    /// A history as the archive answers it.
    pub fn new(history: History) -> Traced {
        let mut latest: HashMap<(Role, u32), Origin> = HashMap::new();
        let mut origins = Vec::with_capacity(history.steps.len());
        let mut was_done = vec![true; history.steps.len()];
        let mut run = Run::begin(history.beginning, false).ok();
        for (at, step) in history.steps.iter().enumerate() {
            let mut named = step.call;
            let named = names_of(&mut named);
            origins
                .push(named.iter().map(|(role, number)| latest.get(&(*role, **number)).copied()).collect());
            let Some(Ok(answer)) = run.as_mut().map(|run| run.step(step)) else { continue };
            was_done[at] = answer.status == 0;
            for (place, role) in made_by(&step.call, &answer) {
                latest.insert((role, answer.words[place] as u32), (at, place));
            }
        }
        Traced { history, origins, was_done }
    }

    pub fn steps(&self) -> &[Step] {
        &self.history.steps
    }

    /// The calls that are kept, each naming what it named as far as that is still made, up to the first that
    /// differs; none where all are answered as they should be.
    pub fn kept(&self, is_kept: &[bool]) -> Option<(History, Difference)> {
        let mut kept = History { beginning: self.history.beginning, steps: Vec::new() };
        let mut numbers: HashMap<Origin, u32> = HashMap::new();
        let mut run = match Run::begin(kept.beginning, false) {
            Ok(run) => run,
            Err(difference) => return Some((kept, difference)),
        };
        for (at, step) in self.history.steps.iter().enumerate().filter(|(at, _)| is_kept[*at]) {
            let mut step = *step;
            for ((_, number), origin) in names_of(&mut step.call).into_iter().zip(&self.origins[at]) {
                if let Some(found) = origin.and_then(|origin| numbers.get(&origin)) {
                    *number = *found;
                }
            }
            kept.steps.push(step);
            match run.step(&step) {
                Ok(answer) => {
                    let made = made_by(&step.call, &answer).into_iter();
                    numbers.extend(made.map(|(place, _)| ((at, place), answer.words[place] as u32)));
                }
                Err(difference) => return Some((kept, difference)),
            }
        }
        None
    }
}
