//! The second program: makes the stored questions and scripts or more of them, answers the questions
//! it reads, or compares a day book with a venue's log. README.md has the format.

use second::{ask, holds, questions, scripts};
use std::env;
use std::fs;
use std::io::{self, BufWriter, Read, Write};
use std::process::ExitCode;

fn main() -> ExitCode {
    let arguments: Vec<String> = env::args_os()
        .skip(1)
        .map(|argument| argument.to_string_lossy().into_owned())
        .collect();
    let words: Vec<&str> = arguments.iter().map(String::as_str).collect();
    let done = match words.as_slice() {
        ["questions"] => write_questions(),
        ["answers"] => write_answers(),
        ["more", seed, count] => match (seed.parse(), count.parse()) {
            (Ok(seed), Ok(count)) => write_more(seed, count),
            _ => return usage(),
        },
        ["scripts"] => write_out(scripts::stored().as_bytes()),
        ["more-scripts", seed, count] => match (seed.parse(), count.parse()) {
            (Ok(seed), Ok(count)) => write_more_scripts(seed, count),
            _ => return usage(),
        },
        ["holds", date, book, log] => match holds::read_date(date) {
            Some(date) => return ended(write_holds(date, book, log)),
            None => return usage(),
        },
        _ => return usage(),
    };
    ended(done.map(|()| ExitCode::SUCCESS))
}

/// The exit status of what was done; what could not be read or written is told.
fn ended(done: io::Result<ExitCode>) -> ExitCode {
    match done {
        Ok(status) => status,
        Err(error) => {
            eprintln!("second: {}", error);
            ExitCode::FAILURE
        }
    }
}

fn usage() -> ExitCode {
    eprintln!(
        "usage: second questions | second scripts | second answers < QUESTIONS | \
         second more SEED COUNT | second more-scripts SEED COUNT | \
         second holds DATE BOOK LOG"
    );
    ExitCode::from(2)
}

fn write_questions() -> io::Result<()> {
    write_out(questions::all().as_bytes())
}

/// Standard input is read as bytes, since a question may hold any.
fn write_answers() -> io::Result<()> {
    let mut input = Vec::new();
    io::stdin().lock().read_to_end(&mut input)?;
    write_out(ask::answers(&input).as_bytes())
}

fn write_more(seed: u64, count: usize) -> io::Result<()> {
    let mut output = BufWriter::new(io::stdout().lock());
    for line in questions::more::More::new(seed).take(count) {
        writeln!(output, "{}", line)?;
    }
    output.flush()
}

fn write_more_scripts(seed: u64, count: usize) -> io::Result<()> {
    let mut output = BufWriter::new(io::stdout().lock());
    for script in scripts::more(seed, count) {
        output.write_all(script.as_bytes())?;
    }
    output.flush()
}

/// The exit status is that of the answer.
fn write_holds(date: u32, book: &str, log: &str) -> io::Result<ExitCode> {
    let answer = holds::answer(date, &read_file(book)?, &read_file(log)?);
    write_out((answer.lines.join("\n") + "\n").as_bytes())?;
    Ok(ExitCode::from(answer.status))
}

/// An error names the file.
fn read_file(path: &str) -> io::Result<Vec<u8>> {
    fs::read(path).map_err(|error| io::Error::new(error.kind(), format!("{}: {}", path, error)))
}

fn write_out(bytes: &[u8]) -> io::Result<()> {
    let mut output = io::stdout().lock();
    output.write_all(bytes)?;
    output.flush()
}
