// The file crypto/mod.rs of ipmi-rs as it is, and a door to what it keeps private.
include!("crypto/seed_mod.rs");
pub mod probe;
