//! The program of pipelines: what its stages make of a list of bytes.

use crate::grammar::number_in;
use crate::programs::Output;

/// The most bytes of its input.
const MOST_BYTES: usize = 65_536;

enum Stage {
    Copy,
    Add(u8),
    Without(u8),
    Twice,
    Sum,
    First(u32),
}

impl Stage {
    fn named(word: &[u8]) -> Option<Stage> {
        let byte = |number| number_in(number).and_then(|number| u8::try_from(number).ok());
        Some(match word {
            b"copy" => Stage::Copy,
            b"twice" => Stage::Twice,
            b"sum" => Stage::Sum,
            _ => {
                if let Some(number) = word.strip_prefix(b"add:") {
                    Stage::Add(byte(number)?)
                } else if let Some(number) = word.strip_prefix(b"without:") {
                    Stage::Without(byte(number)?)
                } else {
                    Stage::First(number_in(word.strip_prefix(b"first:")?)?)
                }
            }
        })
    }

    fn of(&self, bytes: Vec<u8>) -> Vec<u8> {
        let bytes = bytes.into_iter();
        match *self {
            Stage::Copy => bytes.collect(),
            Stage::Add(number) => bytes.map(|byte| byte.wrapping_add(number)).collect(),
            Stage::Without(without) => bytes.filter(|byte| *byte != without).collect(),
            Stage::Twice => bytes.flat_map(|byte| [byte, byte]).collect(),
            Stage::Sum => bytes
                .scan(0_u8, |sum, byte| {
                    *sum = sum.wrapping_add(byte);
                    Some(*sum)
                })
                .collect(),
            Stage::First(count) => bytes.take(count as usize).collect(),
        }
    }
}

fn stages_of(words: &[&[u8]]) -> Option<Vec<Stage>> {
    let (chunk, words) = words.split_first()?;
    let stages: Vec<Stage> = words.iter().map(|word| Stage::named(word)).collect::<Option<_>>()?;
    let twice = stages.iter().filter(|stage| matches!(stage, Stage::Twice)).count();
    let is_asked = (16..=64).contains(&number_in(chunk)?) && stages.len() <= 8 && twice <= 2;
    is_asked.then_some(stages)
}

/// What `chain` writes, given these words and this input.
pub fn chain(words: &[&[u8]], input: &[u8]) -> Output {
    let Some(stages) = stages_of(words) else {
        return Output::line(1, "usage: chain CHUNK STAGE..");
    };
    if input.len() > MOST_BYTES {
        return Output::line(3, "too long");
    }
    Output { status: 0, text: stages.iter().fold(input.to_vec(), |bytes, stage| stage.of(bytes)) }
}
