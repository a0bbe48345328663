//! ntp-proto's `packet/v5/extension_fields.rs`, unchanged, and a probe inside it.

include!("../../original/packet/v5/extension_fields.rs");

#[warn(dead_code)]
pub mod probe;
