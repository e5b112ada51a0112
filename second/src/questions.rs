//! Makes the stored questions. Each section has its own seed, so that a new section leaves the
//! others as they were.

pub mod bitfields;
pub mod book;
mod clock;
mod desk;
mod frame;
#[cfg(test)]
mod judged;
mod last;
mod listing;
pub mod made;
mod modify;
pub mod more;
mod number;
mod options;
mod order;
mod outside;
pub mod parts;
mod places;
mod purge;
mod reading;
pub mod session;
mod sizes;
mod strokes;
mod table;
mod text;
mod values;
mod writing;

use std::collections::BTreeSet;

/// All questions, each ended by LF.
pub fn all() -> String {
    let mut lines = Vec::new();
    frame::ask(&mut lines);
    number::ask(&mut lines);
    text::ask(&mut lines);
    table::ask(&mut lines);
    clock::ask(&mut lines);
    outside::ask(&mut lines);
    bitfields::ask(&mut lines);
    session::ask(&mut lines);
    sizes::ask(&mut lines);
    book::ask(&mut lines);
    listing::ask(&mut lines);
    places::ask(&mut lines);
    desk::ask(&mut lines);
    modify::ask(&mut lines);
    purge::ask(&mut lines);
    options::ask(&mut lines);
    last::ask(&mut lines);
    let mut output = String::new();
    for line in lines {
        output.push_str(&line);
        output.push('\n');
    }
    output
}

/// Each line once, where it comes first.
fn without_repeats(mut lines: Vec<String>) -> Vec<String> {
    let mut seen = BTreeSet::new();
    lines.retain(|line| seen.insert(line.clone()));
    lines
}

#[cfg(test)]
mod tests {
    use super::*;
    use crate::ask;

    #[test]
    fn the_same_at_each_making() {
        assert_eq!(all(), all());
    }

    #[test]
    fn plain_text_of_a_fair_size() {
        let questions = all();
        assert!(questions.len() < 17_000_000);
        for byte in questions.bytes() {
            assert!(byte == b'\n' || byte == b'\t' || (32..=126).contains(&byte));
        }
    }

    #[test]
    fn one_answer_line_for_each_question() {
        let questions = all();
        let answers = ask::answers(questions.as_bytes());
        assert!(questions.ends_with('\n') && answers.ends_with('\n'));
        assert_eq!(
            questions.matches('\n').count(),
            answers.matches('\n').count()
        );
        for (question, answer) in questions.lines().zip(answers.lines()) {
            assert!(!answer.is_empty());
            assert_eq!(ask::answer(question.as_bytes()), answer);
        }
    }

    /// The questions would show little if some answers never came.
    #[test]
    fn each_call_gets_each_of_its_answers() {
        let questions = all();
        let answers = ask::answers(questions.as_bytes());
        let mut seen = BTreeSet::new();
        for (question, answer) in questions.lines().zip(answers.lines()) {
            let call = question.split(' ').next().unwrap();
            let first = ask::number_of(answer.split(' ').next().unwrap());
            seen.insert(format!("{} {}", call, first));
        }
        for (call, expected) in [
            ("frame", "0 1 2 3 ?"),
            ("get", "0 1 18446744073709551615 ?"),
            ("put", "0 13 ?"),
            ("price", "0.0000 -0.0001 12.3400 ?"),
            ("kind", "0 1 ?"),
            ("filled", "0 1 ?"),
            ("step", "0 5 13 14 15 ?"),
            ("day", "0 19 ?"),
            ("year", "?"),
            ("due", "0 1 ?"),
            ("silent", "0 1 ?"),
            ("read", "0 1 2 3 4 5 6 7 8 9 10 11 23 ?"),
            ("read-into", "0 1 2 3 4 5 6 7 8 9 10 11 13 23 ?"),
            ("write", "0 4 5 7 8 9 10 11 12 13 23 ?"),
            ("told", "0 1 2 ?"),
            ("open", "0 13 19 ?"),
            ("restart", "0 17 18 19 22 ?"),
            ("append", "0 17 18 19 22 ?"),
            ("close", "0 17 18 19 22 ?"),
            ("list", "mark 18 22 ?"),
            ("last", "0 17 18 19 22 ?"),
            ("last-state", "0 5 13 18 26 ?"),
            ("last-line", "25 2C 5 18 22 26 ?"),
        ] {
            for first in expected.split(' ') {
                let pair = format!("{} {}", call, first);
                assert!(seen.contains(&pair), "{}", pair);
            }
        }
    }

    /// What is appended to a good book gets each number that it can get. It has no required fields,
    /// so it gets no 9.
    #[test]
    fn appends_get_each_refusal() {
        let questions = all();
        let mut seen = BTreeSet::new();
        for question in questions.lines().filter(|line| line.starts_with("append ")) {
            let answer = ask::answer(question.as_bytes());
            if let Some(number) = answer.split(' ').nth(1) {
                seen.insert(ask::number_of(number).parse::<u8>().unwrap());
            }
        }
        let expected = [0, 1, 2, 3, 4, 5, 6, 7, 8, 10, 13, 14, 15];
        assert_eq!(seen, BTreeSet::from(expected));
    }

    /// Both sides of the longest line are asked, and only the longer is refused.
    #[test]
    fn longest_lines() {
        let questions = all();
        let lengths = |refused: bool| -> BTreeSet<usize> {
            questions
                .lines()
                .filter(|line| {
                    line.len() > 7_998 && (ask::answer(line.as_bytes()) == "?") == refused
                })
                .map(str::len)
                .collect()
        };
        assert_eq!(lengths(false), BTreeSet::from([7_999, 8_000]));
        assert_eq!(lengths(true), BTreeSet::from([8_001, 8_002]));
    }
}
