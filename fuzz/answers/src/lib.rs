//! The second program's answers, for a program in C.

use std::slice;

/// Writes the answers to `len` bytes of questions, a line each, into the first of `room` bytes, and
/// returns how many bytes they are: more than `room` where they do not fit, and then none is written.
///
/// # Safety
/// `questions` points to `len` bytes and `out` to `room` bytes.
#[no_mangle]
pub unsafe extern "C" fn second_answers(
    questions: *const u8,
    len: usize,
    out: *mut u8,
    room: usize,
) -> usize {
    let answers = second::ask::answers(slice::from_raw_parts(questions, len));
    if answers.len() <= room {
        slice::from_raw_parts_mut(out, answers.len()).copy_from_slice(answers.as_bytes());
    }
    answers.len()
}
