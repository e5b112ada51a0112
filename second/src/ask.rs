//! Answers lines of questions, in the format of README.md.

#[cfg(test)]
mod tests;

use crate::bench::Bench;
use crate::calls;

/// The most characters of a question, its LF not counted.
const LONGEST: usize = 8_000;

/// One answer line for each line ended by LF; what follows the last LF is no question. The bench is
/// kept from line to line.
pub fn answers(input: &[u8]) -> String {
    let mut pieces: Vec<&[u8]> = input.split(|byte| *byte == b'\n').collect();
    pieces.pop();
    let mut bench = Bench::new();
    let mut output = String::new();
    for line in pieces {
        output.push_str(&answer_on(&mut bench, line));
        output.push('\n');
    }
    output
}

/// The answer to one line, without its LF, on a bench as at the start.
#[cfg(test)]
pub fn answer(line: &[u8]) -> String {
    answer_on(&mut Bench::new(), line)
}

/// The number of a refusal in an answer, without its place.
#[cfg(test)]
pub fn number_of(word: &str) -> &str {
    word.split('@').next().unwrap_or_default()
}

/// The answer to one line, without its LF. Of the bench only script questions see or change
/// anything.
pub fn answer_on(bench: &mut Bench, line: &[u8]) -> String {
    understood(bench, line).unwrap_or_else(|| "?".to_string())
}

/// None for a line outside the format.
fn understood(bench: &mut Bench, line: &[u8]) -> Option<String> {
    if line.len() > LONGEST || !line.is_ascii() {
        return None;
    }
    let line = std::str::from_utf8(line).ok()?;
    let words: Vec<&str> = line.split(' ').collect();
    calls::answer(&words).or_else(|| bench.answer(&words))
}
