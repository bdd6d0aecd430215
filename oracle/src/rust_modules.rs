// The modules of the Rust, which oracle/build copies byte for byte (hatch.rs with one wrapper appended), and the stand-in for its error module. The roots of
// the oracle, of bench and of host/fuzz include this list, since the Rust's own paths begin at the root; each leaves much of it unused.

#[allow(dead_code)]
mod bitcursor;
#[allow(dead_code)]
mod code_page;
#[allow(dead_code)]
mod common_entity;
#[allow(dead_code, unused_imports)]
mod entities;
#[allow(dead_code)]
mod error;
#[allow(dead_code)]
mod string_stream;
#[allow(dead_code)]
mod tables;
#[allow(dead_code)]
mod version;
