//! Folds a graph and writes the answer's bytes to standard output.
//!
//!     cargo run --example fold -- [--swept] [FILE]        standard input if no file is given
//!
//! With `--swept` the answer is that without the nodes that feed nothing. A refusal, or a stream that fails, is a line on standard error, and the exit status is 1.
use std::error::Error;
use std::ffi::OsString;
use std::io::{self, Read, Write};
use std::process::ExitCode;
use std::{env, fs};

fn read_input(file: Option<OsString>) -> io::Result<Vec<u8>> {
    match file {
        Some(file) => fs::read(file),
        None => {
            let mut input = Vec::new();
            io::stdin().read_to_end(&mut input)?;
            Ok(input)
        }
    }
}

fn run() -> Result<(), Box<dyn Error>> {
    let mut arguments = env::args_os().skip(1).peekable();
    let swept = arguments.next_if(|argument| argument == "--swept");
    let input = read_input(arguments.next())?;
    let (answer, _pops) = match swept {
        Some(_) => mezburiko::fold_swept_to_vec(&input)?,
        None => mezburiko::fold_to_vec(&input)?,
    };
    let mut out = io::stdout().lock();
    out.write_all(&answer)?;
    out.flush()?;
    Ok(())
}

fn main() -> ExitCode {
    match run() {
        Ok(()) => ExitCode::SUCCESS,
        Err(error) => {
            eprintln!("fold: {error}");
            ExitCode::FAILURE
        }
    }
}
