// The file v2_0/mod.rs of ipmi-rs as it is, and a door to what it keeps private.
include!("v2_0/seed_mod.rs");
pub mod alone;
pub mod cost;
pub mod frame;
pub mod steps;
