//! The commands: what they take, where their input is, and what they write. Reading and drawing stand apart; both know the protocol's requests.

pub mod angles;
pub mod cut;
pub mod draw;
#[cfg(test)]
mod drawing_tests;
pub mod each;
pub mod failure;
pub mod help;
pub mod input;
pub mod items;
pub mod lines;
pub mod options;
pub mod origin;
pub mod out_file;
pub mod read;
pub mod spelling;
pub mod streams;
pub mod warnings;
pub mod written;
