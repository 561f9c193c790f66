//! One of the programs, by the first word: `plain strm run`.

use plain::programs::Program;
use std::io::{Read, Write};
use std::os::unix::ffi::OsStrExt;
use std::process::ExitCode;

fn main() -> ExitCode {
    let words: Vec<_> = std::env::args_os().skip(1).collect();
    let words: Vec<&[u8]> = words.iter().map(|word| word.as_bytes()).collect();
    let named = |program: &Program| words.first() == Some(&program.to_string().as_bytes());
    let Some(program) = Program::ALL.into_iter().find(named) else {
        eprintln!("usage: plain PROGRAM WORD..");
        return ExitCode::from(70);
    };
    let words = &words[1..];
    let mut input = Vec::new();
    let reads = words.first() != Some(&&b"gen"[..]);
    if reads && std::io::stdin().lock().take(program.most_read()).read_to_end(&mut input).is_err() {
        println!("read fault");
        return ExitCode::from(4);
    }
    let output = program.output(words, &input);
    match std::io::stdout().write_all(&output.text) {
        Ok(()) => ExitCode::from(output.status),
        Err(_) => ExitCode::from(5),
    }
}
