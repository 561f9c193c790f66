//! Histories that differ, made short.

use crate::calls::Call;
use crate::history::{Beginning, Difference, History};
use crate::references::Traced;
use std::time::{Duration, Instant};

/// How long a history is looked for that is shorter still.
const MOST_TIME: Duration = Duration::from_secs(60);

/// The shortest history that was found to differ still, and in what it does.
pub fn shortest(history: History, difference: Difference) -> (History, Difference) {
    let mut search = Search { best: (history, difference), until: Instant::now() + MOST_TIME };
    search.leave_out_refused();
    search.raise_limits();
    loop {
        let before = search.best.0.steps.len();
        let mut length = before.div_ceil(2);
        while length > 0 {
            search.leave_out(length);
            length /= 2;
        }
        search.lessen_numbers();
        if search.best.0.steps.len() == before || search.is_late() {
            return search.best;
        }
    }
}

struct Search {
    best: (History, Difference),
    until: Instant,
}

impl Search {
    fn is_late(&self) -> bool {
        Instant::now() > self.until
    }

    // Takes what is kept in place of the best one, where that differs too.
    fn takes(&mut self, traced: &Traced, is_kept: &[bool]) -> bool {
        let found = traced.kept(is_kept);
        let differs = found.is_some();
        self.best = found.unwrap_or_else(|| self.best.clone());
        differs
    }

    // What was refused changed nothing.
    fn leave_out_refused(&mut self) {
        let traced = Traced::new(self.best.0.clone());
        self.takes(&traced, &traced.was_done);
    }

    // With room enough, a call that gives something up can be left out.
    fn raise_limits(&mut self) {
        let mut history = self.best.0.clone();
        history.beginning = Beginning { tag: 0, handles: 1_000_000, places: 1_000_000 };
        let traced = Traced::new(history);
        let all = vec![true; traced.steps().len()];
        self.takes(&traced, &all);
    }

    // Leaves out runs of so many calls.
    fn leave_out(&mut self, length: usize) {
        let traced = Traced::new(self.best.0.clone());
        let mut is_kept = vec![true; traced.steps().len()];
        for start in (0..is_kept.len()).step_by(length) {
            let mut fewer = is_kept.clone();
            let end = (start + length).min(fewer.len());
            fewer[start..end].fill(false);
            if self.is_late() {
                return;
            }
            if self.takes(&traced, &fewer) {
                is_kept = fewer;
            }
        }
    }

    // Gives each call smaller sizes, addresses and counts.
    fn lessen_numbers(&mut self) {
        for at in 0..self.best.0.steps.len() {
            for place in 0..2 {
                self.lessen_number(at, place);
            }
        }
    }

    fn lessen_number(&mut self, at: usize, place: usize) {
        for way in 0..7 {
            let mut history = self.best.0.clone();
            let Some(step) = history.steps.get_mut(at) else { return };
            let Some(number) = amounts_of(&mut step.call).into_iter().nth(place) else { return };
            let less = [0, 1, 2, 4, 8, *number / 2, number.saturating_sub(1)][way];
            if less >= *number || self.is_late() {
                continue;
            }
            *number = less;
            let traced = Traced::new(history);
            let all = vec![true; traced.steps().len()];
            self.takes(&traced, &all);
        }
    }
}

// The sizes, addresses and counts of a call.
fn amounts_of(call: &mut Call) -> Vec<&mut u32> {
    match call {
        Call::AddGuest { size } | Call::BeginGuest { size, .. } | Call::MemoryGrown { more: size, .. } => {
            vec![size]
        }
        Call::MemoryWrite { address, bytes, .. } => vec![address, &mut bytes.len],
        Call::MemoryRead { address, len, .. } | Call::ContextNew { address, len, .. } => vec![address, len],
        Call::Operate { address, count, .. } => vec![address, count],
        Call::ContextMessage { address, .. } => vec![address],
        _ => Vec::new(),
    }
}
