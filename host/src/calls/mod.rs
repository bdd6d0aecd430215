//! Safe calls over the boundary. They know nothing of the tool.

pub(crate) mod code_pages;
pub(crate) mod codes;
pub(crate) mod given;
mod hatch_record;
pub(crate) mod hatches;
mod kept;
mod moves;
mod outline_lists;
pub(crate) mod outlines;
pub(crate) mod prefixes;
pub(crate) mod refusal;
pub(crate) mod release;
pub(crate) mod texts;
pub(crate) mod typed;
