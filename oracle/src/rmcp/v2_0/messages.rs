// The file messages/mod.rs of ipmi-rs as it is, and a door to what it keeps private.
include!("messages/seed_mod.rs");
pub mod probe;
