//! Random calls of every export of the archive, sensible ones and hostile ones, beside a model: each call's
//! status, each word at its `out`, those too that it leaves, and all memories after each call. Each store is
//! drawn to have other guests, types and limits, and at its end it is freed and called once more.
//!
//! `hostile [--scarce] [--trace] [--fault K] N SEED` makes N calls or some more. With `--scarce` allocations are
//! refused in half of the stores. `--trace` tells each call before it is made, for a call that does not come
//! back. A fault of `differential` is planted in the model where the crate is built with them. The status is 1
//! where a call differs.

mod allocations;
mod archive;
mod calls;
mod draws;
mod history;
mod lent;
mod limits;
mod lives;
mod model;
mod profiles;
mod queries;
mod ready;
mod references;
mod shrinking;
mod tally;
mod words;

use archive::Answer;
use calls::Call;
use draws::Draws;
use history::{Beginning, Difference, History, Run, Step};
use plain::compare::random::Random;
use profiles::Profile;
use std::process::ExitCode;
use std::time::Instant;
use strm_sys as sys;
use tally::Tally;

/// Fewer calls than these need not come to every export.
const FEW_CALLS: u64 = 100_000;

/// What the words ask for.
#[derive(Default)]
struct Wanted {
    calls: u64,
    seed: u64,
    is_scarce: bool,
    is_traced: bool,
}

impl Wanted {
    fn of(mut words: impl Iterator<Item = String>) -> Option<Wanted> {
        let mut wanted = Wanted::default();
        let mut numbers = Vec::new();
        while let Some(word) = words.next() {
            match word.as_str() {
                "--scarce" => wanted.is_scarce = true,
                "--trace" => wanted.is_traced = true,
                "--fault" => plant(words.next()?.parse().ok()?)?,
                number => numbers.push(number.parse().ok()?),
            }
        }
        [wanted.calls, wanted.seed] = numbers.try_into().ok()?;
        Some(wanted)
    }
}

#[cfg(feature = "faults")]
fn plant(number: usize) -> Option<()> {
    plain::faults::plant(*plain::faults::Fault::ALL.get(number.checked_sub(1)?)?);
    Some(())
}

#[cfg(not(feature = "faults"))]
fn plant(_: usize) -> Option<()> {
    None
}

/// One store's calls as they are drawn.
struct Drawing<'a> {
    wanted: &'a Wanted,
    random: Random,
    profile: Profile,
    run: Run,
    history: History,
    tally: &'a mut Tally,
}

impl Drawing<'_> {
    fn step(&mut self, call: Call) -> Result<Answer, Difference> {
        let is_refused = self.profile.is_scarce && self.random.chance(50);
        let granted = is_refused.then(|| self.random.pick(&[0, 0, 1, 2]));
        let step = Step { call, granted };
        if self.wanted.is_traced {
            eprintln!("    {step}");
        }
        self.history.steps.push(step);
        let answer = self.run.step(&step)?;
        self.tally.count(call.export(), answer.status);
        Ok(answer)
    }

    fn draw(&mut self, draw: impl FnOnce(&mut Draws) -> Call) -> Result<(), Difference> {
        let Drawing { random, profile, run, .. } = self;
        let Some(store) = run.model.store() else { return Ok(()) };
        let call = draw(&mut Draws::new(random, profile, store));
        let answer = self.step(call)?;
        // Whoever is told of a bad item asks whose it is.
        match call.find_bad_item() {
            Some(question) if answer.status == sys::BAD_ITEM => self.step(question).map(|_| ()),
            _ => Ok(()),
        }
    }

    // All calls of the store.
    fn make(&mut self) -> Result<(), Difference> {
        for guest in 0..self.profile.guests {
            self.draw(|draws| draws.add_guest())?;
            self.draw(|draws| draws.fill(guest))?;
        }
        let mut left = self.profile.calls;
        while left > 0 {
            self.draw(|draws| draws.call())?;
            left -= 1;
        }
        self.finish()
    }

    // Every guest's handles, from the first on.
    fn walk(&mut self) -> Result<(), Difference> {
        let tables = |run: &Run| run.model.store().map_or(0, |store| store.guests.len() as u32);
        for guest in 0..tables(&self.run) {
            self.step(Call::NextReadyGuest { from: guest })?;
            self.step(Call::HandleCount { guest })?;
            self.step(Call::GuestLimits { guest })?;
            let mut after = 0;
            loop {
                let next = self.step(Call::NextHandle { guest, after })?;
                after = next.words[1] as u32;
                if next.status != 0 || after == 0 {
                    break;
                }
            }
        }
        Ok(())
    }

    // All handles, what the last streams came to, and calls of no store.
    fn finish(&mut self) -> Result<(), Difference> {
        self.walk()?;
        let streams = self.run.model.store().map_or(0, |store| store.streams.len() as u32);
        for stream in streams.saturating_sub(50)..streams + 1 {
            self.step(Call::Moved { stream })?;
            self.step(Call::TransmitIndex { stream })?;
        }
        let mut call = Call::Tag;
        self.draw(|draws| {
            call = draws.call();
            Call::Free
        })?;
        self.step(call)?;
        self.step(Call::Free).map(|_| ())
    }
}

// Draws one store, and makes its calls.
fn one_store(wanted: &Wanted, seed: u64, tally: &mut Tally) -> Result<bool, (History, Difference)> {
    let mut random = Random::new(seed);
    let is_scarce = wanted.is_scarce && random.chance(50);
    let profile = Profile::draw(&mut random, is_scarce);
    let Profile { tag, handles, places, .. } = profile;
    let beginning = Beginning { tag, handles, places };
    let history = History { beginning, steps: Vec::new() };
    if wanted.is_traced {
        eprint!("{history}");
    }
    let run = match Run::begin(beginning, is_scarce) {
        Ok(run) => run,
        Err(difference) => return Err((history, difference)),
    };
    tally.count("store_new", 0);
    if is_scarce {
        tally.count("store_new", sys::OUT_OF_MEMORY);
    }
    let mut drawing = Drawing { wanted, random, profile, run, history, tally };
    let made = drawing.make();
    let met_bad_item = drawing.run.model.met_bad_item();
    made.map(|()| met_bad_item).map_err(|difference| (drawing.history, difference))
}

fn tell(wanted: &Wanted, tally: &Tally, (stores, bad): (u64, u64), begun: Instant) {
    let (calls, seconds) = (tally.calls(), begun.elapsed().as_secs_f64());
    println!(
        "{calls} calls of {stores} stores, {bad} of them with a bad item: {seconds:.1} s, {:.0} calls a second",
        calls as f64 / seconds
    );
    for (status, count) in tally.statuses() {
        println!("{count:>12} {}", words::name_of(status));
    }
    for missing in tally.missing(wanted.is_scarce) {
        println!("never came: {missing}");
    }
}

// Whether the header has what came, and all exports of the header were called in a run that is not short.
fn fits_header(tally: &Tally) -> bool {
    let unlisted = tally.unlisted();
    for status in &unlisted {
        println!("strm.h does not list it: {status}");
    }
    let uncalled = if tally.calls() < FEW_CALLS { Vec::new() } else { tally.uncalled() };
    for export in &uncalled {
        println!("never called: strm_{export}");
    }
    unlisted.is_empty() && uncalled.is_empty()
}

fn main() -> ExitCode {
    let Some(wanted) = Wanted::of(std::env::args().skip(1)) else {
        eprintln!("usage: hostile [--scarce] [--trace] [--fault K] N SEED");
        return ExitCode::from(2);
    };
    let begun = Instant::now();
    let mut tally = Tally::default();
    // SAFETY: it takes nothing.
    if unsafe { sys::strm_version() } != tally::version() {
        println!("the archive is of another version than strm.h");
        return ExitCode::FAILURE;
    }
    tally.count("version", 0);
    let (mut stores, mut bad) = (0, 0);
    while tally.calls() < wanted.calls {
        let seed = wanted.seed.wrapping_mul(1 << 32).wrapping_add(stores);
        match one_store(&wanted, seed, &mut tally) {
            Ok(met_bad_item) => bad += u64::from(met_bad_item),
            Err((history, difference)) => {
                let made = history.steps.len();
                let (history, Difference(what)) = shrinking::shortest(history, difference);
                println!("store {stores} differs at call {made}. The last of these {what}:\n{history}");
                return ExitCode::FAILURE;
            }
        }
        stores += 1;
    }
    tell(&wanted, &tally, (stores, bad), begun);
    if fits_header(&tally) { ExitCode::SUCCESS } else { ExitCode::FAILURE }
}
