//! ntp-proto's `packet/mac.rs`, unchanged, and a probe inside it.

include!("../original/packet/mac.rs");

#[warn(dead_code)]
pub(super) mod probe;
