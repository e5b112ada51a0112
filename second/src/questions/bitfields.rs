//! Questions about the messages with bitfields.

mod damage;
mod faults;
pub mod late;
pub mod places;
mod read;
pub mod sample;
mod texts;
mod write;

pub fn ask(lines: &mut Vec<String>) {
    read::ask(lines);
    write::ask(lines);
}
