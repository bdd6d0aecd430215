//! Stand-in: entities/mod.rs re-exports these four names from a module that was not sent along; nothing here uses them.

pub struct DecodedEntity;
pub struct DispatchSummary;
pub fn decode_from_raw() {}
pub fn decode_from_raw_with_class_map() {}
