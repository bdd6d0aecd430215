//! The line protocol: a line as a request, a request as calls of the library, and what they give as an answer line. It knows nothing of the commands.

pub mod answer;
pub mod batches;
pub mod conversions;
pub mod given;
pub mod hatch_form;
pub mod lists;
pub mod move_form;
pub mod payload;
pub mod request;

/// What is said where the library gives what its contract rules out: no answer is better than a wrong one.
pub const OUTSIDE: &str = "the library gave a value outside its contract: the tool and the library are not of the same build";
