//! Stand-in: the error that `rmcp/mod.rs` names.
#[derive(Debug)]
pub struct RmcpHeaderError;
