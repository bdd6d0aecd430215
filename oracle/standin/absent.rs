//! Stand-in: this module is declared by a mod.rs of the Rust and was not sent along; nothing here uses it.
