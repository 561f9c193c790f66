//! Compares the programs with their second implementation, on cases that are drawn from a seed.
//!
//! `differential [--jobs J] [--fault K] [--only PROFILE] [--program NAME WORD..;]... N SEED`; the script `run` gives it the programs.

use plain::compare::cases::{Case, Subject};
use plain::compare::running::{Runner, Start};
use plain::compare::shrinking::shrunk;
use plain::compare::tally::Tally;
use plain::programs::{Output, Program};
use std::path::{Path, PathBuf};
use std::process::ExitCode;
use std::sync::Mutex;
use std::sync::atomic::{AtomicBool, AtomicUsize, Ordering};
use std::time::Instant;

/// How many differing cases of a subject are made small and shown.
const MOST_SHOWN: usize = 3;

struct Wanted {
    starts: Vec<Start>,
    jobs: usize,
    fault: Option<usize>,
    only: Option<String>,
    scripts: usize,
    seed: u64,
}

impl Wanted {
    fn of(mut words: impl Iterator<Item = String>) -> Option<Wanted> {
        let mut wanted = Wanted { starts: Vec::new(), jobs: 2, fault: None, only: None, scripts: 0, seed: 0 };
        loop {
            let word = words.next()?;
            match word.as_str() {
                "--jobs" => wanted.jobs = words.next()?.parse().ok().filter(|jobs| *jobs > 0)?,
                "--fault" => wanted.fault = Some(words.next()?.parse().ok()?),
                "--only" => wanted.only = Some(words.next()?),
                "--program" => {
                    let name = words.next()?;
                    let program = Program::ALL.into_iter().find(|program| program.to_string() == name)?;
                    let command = words.by_ref().take_while(|word| word != ";").collect();
                    wanted.starts.push(Start { program, command });
                }
                _ => {
                    wanted.scripts = word.parse().ok()?;
                    wanted.seed = words.next()?.parse().ok()?;
                    return words.next().is_none().then_some(wanted);
                }
            }
        }
    }
}

// What became of the cases of a subject.
#[derive(Default)]
struct Found {
    differing: Vec<Case>,
    tally: Tally,
    runs: usize,
    lines: usize,
}

struct Comparison<'a> {
    wanted: &'a Wanted,
    folder: PathBuf,
    // With a fault planted the first difference is enough.
    is_over: AtomicBool,
}

impl Comparison<'_> {
    fn runner(&self, name: &str) -> Runner {
        Runner::new(&self.wanted.starts, self.folder.join(name))
    }

    fn compare(&self, subject: Subject, count: usize) -> std::io::Result<Found> {
        let next = AtomicUsize::new(0);
        let found = Mutex::new(Found::default());
        std::thread::scope(|scope| {
            let work = |job| {
                let (next, found) = (&next, &found);
                scope.spawn(move || self.work(subject, count, job, next, found))
            };
            let jobs: Vec<_> = (0..self.wanted.jobs).map(work).collect();
            jobs.into_iter().try_for_each(|job| job.join().expect("a worker does not panic"))
        })?;
        Ok(found.into_inner().expect("no worker panicked"))
    }

    fn work(
        &self,
        subject: Subject,
        count: usize,
        job: usize,
        next: &AtomicUsize,
        found: &Mutex<Found>,
    ) -> std::io::Result<()> {
        let runner = self.runner(&format!("input-{job}"));
        let mut own = Found::default();
        while !self.is_over.load(Ordering::Relaxed) {
            let number = next.fetch_add(1, Ordering::Relaxed);
            if number >= count {
                break;
            }
            let case = subject.case(self.wanted.seed, number);
            let output = case.output();
            own.runs += 1;
            if let Subject::Scripts(_) = subject {
                own.lines += case.input.iter().filter(|byte| **byte == b'\n').count();
                own.tally.count(&case.input, &output);
            }
            if runner.output(&case)? != output {
                own.differing.push(case);
                self.is_over.fetch_or(self.wanted.fault.is_some(), Ordering::Relaxed);
            }
        }
        let mut found = found.lock().expect("no worker panicked");
        found.differing.append(&mut own.differing);
        found.tally.add(own.tally);
        found.runs += own.runs;
        found.lines += own.lines;
        Ok(())
    }

    fn show(&self, subject: Subject, case: &Case) -> std::io::Result<()> {
        let runner = self.runner("shrinking");
        let small = shrunk(&runner, case)?;
        let words: Vec<_> = small.words.iter().map(|word| String::from_utf8_lossy(word)).collect();
        println!("\n{subject} differs, as small as it was made: {} {}", small.program, words.join(" "));
        show_text(&small, &small.input);
        for (who, Output { status, text }) in
            [("program", runner.output(&small)?), ("second", small.output())]
        {
            println!("the {who}'s status is {status}, and it writes");
            show_text(&small, &text);
        }
        Ok(())
    }
}

fn show_text(case: &Case, bytes: &[u8]) {
    let is_text = case.has_lines() || bytes.iter().all(|byte| matches!(byte, b' '..=b'~' | b'\n'));
    match std::str::from_utf8(bytes) {
        Ok(text) if is_text => text.lines().take(60).for_each(|line| println!("    {line}")),
        _ => println!("    {}", bytes.iter().take(600).map(|byte| format!("{byte:02x}")).collect::<String>()),
    }
}

fn compare_all(wanted: &Wanted, folder: &Path) -> std::io::Result<bool> {
    let comparison = Comparison { wanted, folder: folder.to_path_buf(), is_over: AtomicBool::new(false) };
    let (mut tally, mut runs, mut differing) = (Tally::default(), 0, 0);
    for (subject, count) in Subject::shares(wanted.scripts) {
        if wanted.only.as_ref().is_some_and(|only| *only != subject.to_string()) {
            continue;
        }
        if comparison.is_over.load(Ordering::Relaxed) {
            break;
        }
        let begun = Instant::now();
        let found = comparison.compare(subject, count)?;
        let took = begun.elapsed().as_secs_f64();
        let lines = if found.lines > 0 { format!(", {} lines", found.lines) } else { String::new() };
        println!("{subject:18}{} runs{lines}: {} differ ({took:.1} s)", found.runs, found.differing.len());
        for case in found.differing.iter().take(MOST_SHOWN) {
            comparison.show(subject, case)?;
        }
        runs += found.runs;
        differing += found.differing.len();
        tally.add(found.tally);
    }
    let (seen, missing) = tally.missing();
    println!("{runs} runs, {differing} differ; statuses of scripts{}", tally.statuses());
    if wanted.fault.is_none() {
        println!("{seen} kinds of replies came, {} did not: {}", missing.len(), missing.join(", "));
    }
    Ok(differing == 0)
}

#[cfg(feature = "faults")]
fn plant(number: Option<usize>) -> bool {
    let Some(number) = number else { return true };
    let fault = plain::faults::Fault::ALL.get(number.wrapping_sub(1));
    if let Some(fault) = fault {
        println!("planted: {fault:?}");
        plain::faults::plant(*fault);
    }
    fault.is_some()
}

#[cfg(not(feature = "faults"))]
fn plant(number: Option<usize>) -> bool {
    number.is_none()
}

fn main() -> ExitCode {
    let Some(wanted) = Wanted::of(std::env::args().skip(1)).filter(|wanted| plant(wanted.fault)) else {
        eprintln!(
            "usage: differential [--jobs J] [--fault K] [--only PROFILE] [--program NAME WORD.. ;].. N SEED"
        );
        return ExitCode::from(2);
    };
    let folder = std::env::temp_dir().join(format!("differential-{}", std::process::id()));
    let compared = std::fs::create_dir_all(&folder).and_then(|()| compare_all(&wanted, &folder));
    drop(std::fs::remove_dir_all(&folder));
    match compared {
        Ok(true) => ExitCode::SUCCESS,
        Ok(false) => ExitCode::FAILURE,
        Err(error) => {
            eprintln!("differential: {error}");
            ExitCode::from(2)
        }
    }
}
