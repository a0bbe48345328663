//! ntp-proto's `packet/extension_fields.rs`, unchanged, and a probe inside it.

include!("../original/packet/extension_fields.rs");

#[warn(dead_code)]
pub(super) mod probe;
