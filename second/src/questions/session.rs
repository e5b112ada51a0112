//! Questions about the session messages.

mod damage;
pub mod faults;
pub mod places;
mod read;
pub mod sample;
mod write;

pub fn ask(lines: &mut Vec<String>) {
    read::ask(lines);
    write::ask(lines);
}
