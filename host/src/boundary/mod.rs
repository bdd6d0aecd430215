//! The C boundary: the exported functions of the proved library, and how their structs lie.

pub(crate) mod ffi;
