//! Where ntp-proto's files look for the keys that a server cookie holds. The stand-in stands beside the
//! cipher that it holds.

pub use crate::packet::crypto::DecodedServerCookie;
