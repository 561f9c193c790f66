//! Cases that are drawn: a program, its words, and its input.

use super::actions::fill;
use super::malformed::spoil;
use super::profiles::Profile;
use super::random::Random;
use super::scenes::Scene;
use super::tapes;
use crate::grammar::{MOST_BYTES, MOST_LINES};
use crate::hosts::Hosts;
use crate::programs::{Output, Program};
use crate::tape;
use std::fmt;

/// A run of a program.
#[derive(Clone, Debug)]
pub struct Case {
    pub program: Program,
    pub words: Vec<Vec<u8>>,
    pub input: Vec<u8>,
}

impl Case {
    fn new(program: Program, words: &[&str], input: Vec<u8>) -> Case {
        Case { program, words: words.iter().map(|word| word.as_bytes().to_vec()).collect(), input }
    }

    /// What the second implementation writes.
    pub fn output(&self) -> Output {
        let words: Vec<&[u8]> = self.words.iter().map(Vec::as_slice).collect();
        self.program.output(&words, &self.input)
    }

    /// Whether its input is a script or lines of lanes.
    pub fn has_lines(&self) -> bool {
        self.program == Program::Mux
            || self.words.first().is_some_and(|word| word == b"run" || word == b"take")
    }
}

/// What cases are of.
#[derive(Clone, Copy, Debug, PartialEq, Eq)]
pub enum Subject {
    Scripts(Profile),
    Malformed,
    Generated,
    Words,
    Tapes,
    Chain,
    Mux,
}

impl Subject {
    /// All of them, each with how many cases there are where so many scripts are asked for.
    pub fn shares(scripts: usize) -> Vec<(Subject, usize)> {
        let profiles = Profile::ALL.len();
        let of_profile = |(place, profile)| {
            (Subject::Scripts(profile), scripts / profiles + usize::from(place < scripts % profiles))
        };
        let mut shares: Vec<_> = Profile::ALL.into_iter().enumerate().map(of_profile).collect();
        shares.extend([
            (Subject::Malformed, scripts / 10),
            (Subject::Tapes, scripts / 50),
            (Subject::Generated, scripts / 100),
            (Subject::Words, scripts / 100),
            (Subject::Chain, scripts / 100),
            (Subject::Mux, scripts / 100),
        ]);
        shares
    }

    /// The case of this number, of those of a seed.
    pub fn case(self, seed: u64, number: usize) -> Case {
        let mut random = Random::new(seed);
        let place = match self {
            Subject::Scripts(profile) => profile as u64,
            Subject::Malformed => 20,
            Subject::Generated => 21,
            Subject::Words => 22,
            Subject::Tapes => 23,
            Subject::Chain => 24,
            Subject::Mux => 25,
        };
        let mut random = Random::new(random.draw() ^ (place << 48) ^ number as u64);
        match self {
            Subject::Scripts(profile) => {
                let steps = random.within(20, 180) as usize;
                Case::new(Program::Strm, &["run"], script(profile, &mut random, steps))
            }
            Subject::Malformed => malformed(&mut random),
            Subject::Generated => generated(&mut random),
            Subject::Words => words(&mut random),
            Subject::Tapes => tape_case(&mut random),
            Subject::Chain => chain(&mut random),
            Subject::Mux => mux(&mut random),
        }
    }
}

impl fmt::Display for Subject {
    fn fmt(&self, f: &mut fmt::Formatter<'_>) -> fmt::Result {
        match self {
            Subject::Scripts(profile) => profile.fmt(f),
            Subject::Malformed => f.pad("malformed"),
            Subject::Generated => f.pad("gen"),
            Subject::Words => f.pad("words"),
            Subject::Tapes => f.pad("tapes"),
            Subject::Chain => f.pad("chain"),
            Subject::Mux => f.pad("mux"),
        }
    }
}

fn script(profile: Profile, random: &mut Random, steps: usize) -> Vec<u8> {
    let mut scene = Scene::new(profile, Random::new(random.draw()), Hosts::of_program());
    fill(&mut scene, steps);
    scene.script.text()
}

fn malformed(random: &mut Random) -> Case {
    if random.below(150) == 0 {
        return Case::new(Program::Strm, &["run"], at_limit(random));
    }
    let (profile, steps) = (random.pick(&Profile::ALL), random.within(0, 20) as usize);
    let mut input = script(profile, random, steps);
    spoil(random, &mut input);
    Case::new(Program::Strm, &["run"], input)
}

// About as many lines, or bytes, as a script may have. At least one of the lines is bad.
fn at_limit(random: &mut Random) -> Vec<u8> {
    if random.chance(20) {
        return vec![b'\n'; random.pick(&[MOST_BYTES, MOST_BYTES + 1])];
    }
    let mut input = random.pick(&["\n", "drive\n"]).repeat(MOST_LINES - 3 + random.below(5)).into_bytes();
    let place = random.below(input.len());
    input[place] = b'\n';
    input.extend_from_slice(random.pick(&[&b"drive"[..], b"drive\n", b"\n", b" "]));
    input
}

fn generated(random: &mut Random) -> Case {
    let count = match random.below(10) {
        0 => random.pick(&[0, 1, 2, 262_140, 262_141, u32::MAX]),
        _ => random.within(0, 3000),
    };
    let seed = if random.chance(80) { random.draw() as u32 } else { random.pick(&[0, 1, 1 << 31, u32::MAX]) };
    Case::new(Program::Strm, &["gen", &count.to_string(), &seed.to_string()], Vec::new())
}

// Words of any program, with an input that is one of `strm`.
fn words(random: &mut Random) -> Case {
    const WORDS: [&str; 34] = [
        "run",
        "gen",
        "take",
        "play",
        "0",
        "1",
        "15",
        "16",
        "64",
        "65",
        "00",
        "+1",
        "-1",
        " 16",
        "4294967295",
        "4294967296",
        "copy",
        "twice",
        "sum",
        "add:1",
        "add:255",
        "add:256",
        "add:",
        "add:01",
        "without:0",
        "without:256",
        "first:0",
        "first:4294967295",
        "first:4294967296",
        "Copy",
        "",
        "run ",
        "add:+1",
        "first",
    ];
    let program = random.pick(&Program::ALL);
    let mut words: Vec<&str> = (0..random.below(6)).map(|_| random.pick(&WORDS)).collect();
    match program {
        Program::Chain if random.chance(70) => words.insert(0, random.pick(&["16", "64", "33", "15", "016"])),
        Program::Mux if random.chance(70) => {
            words = (0..2).map(|_| random.pick(&["16", "64", "33", "15", "65", "064"])).collect();
        }
        Program::Strm if random.chance(40) => words.insert(0, "gen"),
        Program::Strm | Program::Tape if random.chance(40) => words.truncate(1),
        _ => {}
    }
    Case::new(program, &words, b"guest 16\n".to_vec())
}

fn tape_case(random: &mut Random) -> Case {
    let profile =
        random.pick(&[Profile::Hosts, Profile::Pipes, Profile::Chars, Profile::Sets, Profile::Edges]);
    let steps = random.within(5, 80) as usize;
    match random.below(8) {
        0 => Case::new(Program::Tape, &["take"], script(profile, random, steps)),
        1 => {
            let mut input = script(profile, random, 10);
            spoil(random, &mut input);
            Case::new(Program::Tape, &["take"], input)
        }
        2 => {
            Case::new(Program::Tape, &["play"], tape::tape(&[b"take"], &script(profile, random, steps)).text)
        }
        3 => {
            let mut tape = tapes::invented(random);
            tapes::alter(random, &mut tape);
            Case::new(Program::Tape, &["play"], tape.bytes())
        }
        4 | 5 => {
            let mut bytes = tapes::invented(random).bytes();
            spoil_tape(random, &mut bytes);
            Case::new(Program::Tape, &["play"], bytes)
        }
        _ => Case::new(Program::Tape, &["play"], tapes::invented(random).bytes()),
    }
}

fn spoil_tape(random: &mut Random, bytes: &mut Vec<u8>) {
    let place = random.below(bytes.len());
    match random.below(6) {
        0 => bytes.truncate(place),
        1 => bytes.push(random.draw() as u8),
        2 => drop(bytes.remove(place)),
        3 => bytes[place] = random.pick(&[0, 1, 2, 9, 10, 64, 65, 255]),
        4 => bytes[place] ^= 1 << random.below(8),
        _ => bytes.insert(place, random.draw() as u8),
    }
}

fn chain(random: &mut Random) -> Case {
    let mut words = vec![random.within(16, 64).to_string()];
    let mut twice = 0;
    for _ in 0..random.below(9) {
        let number = if random.chance(50) { random.within(0, 255) } else { random.within(0, 3) };
        words.push(match random.below(6) {
            0 => "copy".into(),
            1 => format!("add:{number}"),
            2 => format!("without:{number}"),
            3 if twice < 2 => {
                twice += 1;
                "twice".into()
            }
            4 => "sum".into(),
            _ => format!("first:{}", random.pick(&[0, 1, 5, 16, 64, 100, 1000, u32::MAX])),
        });
    }
    let bytes = match random.below(50) {
        0 => random.pick(&[65_535, 65_536, 65_537]),
        _ => random.pick(&[0, 1, 15, 16, 17, 64, 100, 300, 1000]),
    };
    let mut input = random.bytes(bytes);
    if random.chance(50) {
        input.iter_mut().for_each(|byte| *byte %= 4);
    }
    let words: Vec<&str> = words.iter().map(String::as_str).collect();
    Case::new(Program::Chain, &words, input)
}

fn mux(random: &mut Random) -> Case {
    let words = [random.within(16, 64).to_string(), random.within(16, 64).to_string()];
    if random.below(60) == 0 {
        let input = vec![b'\n'; random.pick(&[262_144, 262_145])];
        return Case::new(Program::Mux, &[&words[0], &words[1]], input);
    }
    let lanes = random.pick(&[1, 2, 4, 16, 256]);
    let mut input = String::new();
    let mut ended = [false; 256];
    for _ in 0..random.below(120) {
        let lane = random.below(lanes);
        if ended[lane] && !random.chance(1) {
            continue;
        }
        if random.chance(4) {
            ended[lane] = true;
            input += &format!("end {lane}\n");
        } else {
            let count = random.within(1, 64) as usize;
            let hex: String = random.bytes(count).iter().map(|byte| format!("{byte:02x}")).collect();
            input += &format!("lane {lane} {hex}\n");
        }
    }
    let mut input = input.into_bytes();
    if random.chance(25) {
        spoil(random, &mut input);
    }
    Case::new(Program::Mux, &[&words[0], &words[1]], input)
}
