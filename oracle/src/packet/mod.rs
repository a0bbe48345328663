//! The packet code of ntp-proto, with our own modules beside and inside it.
//!
//! `error`, `v5` and `v5::error` are the crate's files as they stand;
//! `extension_fields`, `mac` and `v5::extension_fields` are files of our own
//! that include the crate's text and add a module `probe`, which as a child
//! reaches the private items. Warnings about the crate's text (much of it is
//! not called here) are silenced, warnings about ours are not.
//!
//! Of the crate's own `packet/mod.rs` this file includes what reads and writes
//! the header of NTPv3 and NTPv4: `oracle/build` cuts it out. It stands where it
//! stands in the crate, so that every module here reaches its private items.

use crate::io::NonBlockingWrite;
use crate::keyset::DecodedServerCookie;
use crate::stand_ins::{NtpDuration, NtpTimestamp, PollInterval, ReferenceId};
use error::{PacketParsingError, ParsingError};
use extension_fields::{ExtensionFieldData, ExtensionHeaderVersion};
use std::io::Cursor;

pub mod answer;
#[cfg(feature = "bench")]
pub mod bench;
#[cfg(feature = "binding")]
pub mod contexts;
pub mod crypto;
#[cfg(test)]
mod differences;

#[allow(dead_code)]
pub mod error;
#[allow(dead_code, unexpected_cfgs)]
pub mod extension_fields;
#[allow(dead_code)]
pub mod mac;
#[allow(dead_code)]
pub mod v5;

pub use crypto::{Cipher, CipherProvider};
pub use extension_fields::ExtensionField;
use mac::Mac;

include!("../original/packet/mod.rs");

/// Stand-in for the log, to which `NtpPacket::deserialize` says why it refuses a
/// draft of NTPv5.
mod tracing {
    macro_rules! debug {
        ($name:ident = $value:expr, $other:expr, $text:literal) => {
            let _ = ($value, $other);
        };
    }

    pub(super) use debug;
}

/// Stand-in for what a client remembers of its request: `poll_message` alone
/// makes one, and it is left out of the port, so that nobody looks into it.
#[allow(dead_code)]
pub struct RequestIdentifier {
    pub expected_origin_timestamp: NtpTimestamp,
    pub uid: Option<[u8; 32]>,
}
