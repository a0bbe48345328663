//! The functions and structs of include/lobzhinar.h whose names begin with `ntp_raw_`: that file says what each takes
//! and returns. A reply of more than two numbers is stored through the first pointer.
//!
//! The feature `raw` makes this module public, for programs that measure the library or compare it with another.
//! Every function here trusts its caller:
//!
//! - a pointer is not null, and comes with the length of what it points to;
//! - what is written overlaps no other argument;
//! - counts and starts are those of the call that filled a table.

#![allow(
    missing_docs,
    clippy::missing_safety_doc,
    reason = "include/lobzhinar.h documents them"
)]

use crate::cut::Cut;
use crate::header::TimeReading;
use crate::units::{
    NtpClientCookie, NtpServerCookie, NtpShort, NtpTimestamp, PollInterval, ReferenceId, Time32,
};
use core::mem::MaybeUninit;

/// How many entries a table has. The functions that take a table have this number in their names, so that a
/// library with tables of another size does not link.
pub const TABLE: usize = 128;

/// What a survey found. Aligned, as are the other two, so that the library clears it fastest.
#[derive(Clone, Debug)]
#[repr(C, align(64))]
pub struct SealTable {
    pub entries: [u64; TABLE],
}

/// The outer items of a packet.
#[derive(Clone, Debug)]
#[repr(C, align(64))]
pub struct OuterTable {
    pub entries: [u64; TABLE],
}

/// The inner fields of a packet.
#[derive(Clone, Debug)]
#[repr(C, align(64))]
pub struct InnerTable {
    pub entries: [u64; TABLE],
}

impl SealTable {
    pub const BLANK: Self = Self {
        entries: [0; TABLE],
    };
}

impl OuterTable {
    pub const BLANK: Self = Self {
        entries: [0; TABLE],
    };
}

impl InnerTable {
    pub const BLANK: Self = Self {
        entries: [0; TABLE],
    };
}

#[derive(Clone, Copy, Debug)]
#[repr(C)]
pub struct NtpRawSurvey {
    pub number: usize,
    pub field_offset: usize,
    pub seal_count: usize,
}

#[derive(Clone, Copy, Debug)]
#[repr(C)]
pub struct NtpRawSeal {
    pub number: usize,
    pub nonce_offset: usize,
    pub nonce_len: usize,
    pub ciphertext_offset: usize,
    pub ciphertext_len: usize,
    pub associated_data_len: usize,
}

#[derive(Clone, Copy, Debug)]
#[repr(C)]
pub struct NtpRawRead {
    pub number: usize,
    pub field_offset: usize,
    pub authenticated_count: usize,
    pub untrusted_count: usize,
    pub encrypted_count: usize,
    pub remainder_len: usize,
    pub has_cookie: usize,
    pub cookie_seal: usize,
}

impl NtpRawRead {
    /// What stands in tables that nothing was read into.
    pub const NOTHING: Self = Self {
        number: 0,
        field_offset: 0,
        authenticated_count: 0,
        untrusted_count: 0,
        encrypted_count: 0,
        remainder_len: 0,
        has_cookie: 0,
        cookie_seal: 0,
    };
}

#[derive(Clone, Copy, Debug)]
#[repr(C)]
pub struct NtpRawField {
    pub number: usize,
    pub kind: usize,
    pub type_id: usize,
    pub field_offset: usize,
    pub wire_length: usize,
    pub message_offset: usize,
    pub message_len: usize,
}

#[derive(Clone, Copy, Debug)]
#[repr(C)]
pub struct NtpRawAuthenticatedField {
    pub field: NtpRawField,
}

#[derive(Clone, Copy, Debug)]
#[repr(C)]
pub struct NtpRawUntrustedField {
    pub field: NtpRawField,
}

#[derive(Clone, Copy, Debug)]
#[repr(C)]
pub struct NtpRawEncryptedField {
    pub field: NtpRawField,
}

#[derive(Clone, Copy, Debug)]
#[repr(C)]
pub struct NtpRawStageOne {
    pub number: usize,
    pub output_len: usize,
    pub plaintext_len: usize,
    pub associated_data_len: usize,
    pub owes_seal: usize,
}

#[derive(Clone, Copy, Debug)]
#[repr(C)]
pub struct NtpRawLength {
    pub number: usize,
    pub len: usize,
}

#[derive(Clone, Copy, Debug)]
#[repr(C)]
pub struct NtpRawMac {
    pub number: usize,
    pub keyid: usize,
    pub body_len: usize,
}

#[derive(Clone, Copy, Debug)]
#[repr(C)]
pub struct NtpRawRequest {
    pub number: usize,
    pub payload_len: usize,
    pub filter_offset: usize,
}

#[derive(Clone, Copy, Debug)]
#[repr(C)]
pub struct NtpHeader {
    pub leap: u8,
    pub mode: u8,
    pub stratum: u8,
    pub poll: PollInterval,
    pub precision_log2_seconds: i8,
    pub timescale: u8,
    pub era: u8,
    pub flags: u8,
    pub root_delay: Time32,
    pub root_dispersion: Time32,
    pub server_cookie: NtpServerCookie,
    pub client_cookie: NtpClientCookie,
    pub receive_timestamp: NtpTimestamp,
    pub transmit_timestamp: NtpTimestamp,
}

#[derive(Clone, Copy, Debug)]
#[repr(C)]
pub struct NtpHeaderRead {
    pub number: usize,
    pub version_seen: usize,
    pub header: NtpHeader,
}

#[derive(Clone, Copy, Debug)]
#[repr(C)]
pub struct NtpLeapBits {
    pub bits: u8,
}

#[derive(Clone, Copy, Debug)]
#[repr(C)]
pub struct NtpHeaderV3V4 {
    pub leap: NtpLeapBits,
    pub version: u8,
    pub mode: u8,
    pub stratum: u8,
    pub poll: PollInterval,
    pub precision_log2_seconds: i8,
    pub root_delay: NtpShort,
    pub root_dispersion: NtpShort,
    pub reference_id: ReferenceId,
    pub reference_timestamp: NtpTimestamp,
    pub origin_timestamp: NtpTimestamp,
    pub receive_timestamp: NtpTimestamp,
    pub transmit_timestamp: NtpTimestamp,
}

#[derive(Clone, Copy, Debug)]
#[repr(C)]
pub struct NtpHeaderV3V4Read {
    pub number: usize,
    pub version_seen: usize,
    pub header: NtpHeaderV3V4,
}

#[derive(Clone, Copy, Debug)]
#[repr(C)]
pub struct NtpRawJournalFound {
    pub number: usize,
    pub entry_count: usize,
    pub next_offset: usize,
    pub torn_len: usize,
}

#[derive(Clone, Copy, Debug)]
#[repr(C)]
pub struct NtpRawJournalStart {
    pub number: usize,
    pub entry_offset: usize,
    pub store_count: usize,
}

#[derive(Clone, Copy, Debug)]
#[repr(C)]
pub struct NtpRawJournalStore {
    pub number: usize,
    pub offset: usize,
    pub byte: usize,
}

#[derive(Clone, Copy, Debug)]
#[repr(C)]
pub struct NtpRawJournalEntry {
    pub number: usize,
    pub kind: usize,
    pub entry_offset: usize,
    pub body_offset: usize,
    pub body_len: usize,
}

/// Calls a function that stores its reply through a first pointer.
///
/// # Safety
///
/// The call stores the whole reply.
#[inline]
pub unsafe fn stored<T>(call: impl FnOnce(*mut T)) -> T {
    let mut reply = MaybeUninit::uninit();
    call(reply.as_mut_ptr());
    // SAFETY: the caller says that it is stored whole.
    unsafe { reply.assume_init() }
}

unsafe extern "C" {
    pub fn ntp_interface_2() -> u32;

    pub fn ntp_raw_survey_128(
        reply: *mut NtpRawSurvey,
        packet: *const u8,
        packet_len: usize,
        header_size: usize,
        version: u8,
        seals: *mut SealTable,
    );

    pub fn ntp_raw_seal_128(
        reply: *mut NtpRawSeal,
        packet_len: usize,
        seals: *const SealTable,
        seal_count: usize,
        index: usize,
    );

    pub fn ntp_raw_read_128(
        reply: *mut NtpRawRead,
        packet: *const u8,
        packet_len: usize,
        header_size: usize,
        version: u8,
        verdicts: *const u8,
        verdicts_len: usize,
        plaintext_starts: *const usize,
        plaintext_starts_len: usize,
        plaintext_lens: *const usize,
        plaintext_lens_len: usize,
        plaintexts: *const u8,
        plaintexts_len: usize,
        outer: *mut OuterTable,
        used_outer: usize,
        inner: *mut InnerTable,
        used_inner: usize,
    );

    pub fn ntp_raw_authenticated_field_128(
        reply: *mut NtpRawAuthenticatedField,
        packet_len: usize,
        version: u8,
        outer: *const OuterTable,
        authenticated_count: usize,
        index: usize,
    );

    pub fn ntp_raw_untrusted_field_128(
        reply: *mut NtpRawUntrustedField,
        packet_len: usize,
        version: u8,
        outer: *const OuterTable,
        authenticated_count: usize,
        untrusted_count: usize,
        index: usize,
    );

    pub fn ntp_raw_encrypted_field_128(
        reply: *mut NtpRawEncryptedField,
        plaintexts_len: usize,
        plaintext_starts: *const usize,
        plaintext_starts_len: usize,
        version: u8,
        inner: *const InnerTable,
        encrypted_count: usize,
        index: usize,
    );

    pub fn ntp_raw_is_cut(
        packet: *const u8,
        packet_len: usize,
        header_size: usize,
        version: u8,
        field_offsets: *const usize,
        field_offsets_len: usize,
        wire_lengths: *const usize,
        wire_lengths_len: usize,
    ) -> bool;

    pub fn ntp_raw_is_cut_table(
        packet: *const u8,
        packet_len: usize,
        header_size: usize,
        version: u8,
        cuts: *const Cut,
        cuts_len: usize,
    ) -> bool;

    pub fn ntp_raw_stage_one(
        reply: *mut NtpRawStageOne,
        out: *mut u8,
        out_len: usize,
        at: usize,
        plaintext: *mut u8,
        plaintext_len: usize,
        kinds: *const u8,
        kinds_len: usize,
        numbers: *const u16,
        numbers_len: usize,
        starts: *const usize,
        starts_len: usize,
        lens: *const usize,
        lens_len: usize,
        data: *const u8,
        data_len: usize,
        version: u8,
        has_cipher: u8,
        authenticated_count: usize,
        encrypted_count: usize,
    );

    pub fn ntp_raw_stage_two(
        out: *mut u8,
        out_len: usize,
        at: usize,
        owes_seal: usize,
        nonce: *const u8,
        nonce_len: usize,
        ciphertext: *const u8,
        ciphertext_len: usize,
        kinds: *const u8,
        kinds_len: usize,
        numbers: *const u16,
        numbers_len: usize,
        starts: *const usize,
        starts_len: usize,
        lens: *const usize,
        lens_len: usize,
        data: *const u8,
        data_len: usize,
        version: u8,
        untrusted_count: usize,
    ) -> NtpRawLength;

    pub fn ntp_raw_mac_read(reply: *mut NtpRawMac, data: *const u8, data_len: usize);

    pub fn ntp_raw_mac_write(
        keyid: u32,
        body: *const u8,
        body_len: usize,
        out: *mut u8,
        out_len: usize,
        at: usize,
    ) -> NtpRawLength;

    pub fn ntp_raw_header_read(reply: *mut NtpHeaderRead, data: *const u8, data_len: usize);

    pub fn ntp_raw_header_write(
        leap: u8,
        mode: u8,
        stratum: u8,
        poll: PollInterval,
        precision_log2_seconds: i8,
        timescale: u8,
        era: u8,
        flags: u8,
        root_delay: Time32,
        root_dispersion: Time32,
        server_cookie: NtpServerCookie,
        client_cookie: NtpClientCookie,
        receive_timestamp: NtpTimestamp,
        transmit_timestamp: NtpTimestamp,
        out: *mut u8,
        out_len: usize,
        at: usize,
    ) -> NtpRawLength;

    pub fn ntp_poll_log2_seconds(poll: PollInterval) -> i8;

    pub fn ntp_raw_reading(reply: *mut TimeReading, root_delay: Time32, root_dispersion: Time32);

    pub fn ntp_raw_header_v3v4_read(
        reply: *mut NtpHeaderV3V4Read,
        data: *const u8,
        data_len: usize,
    );

    pub fn ntp_raw_header_v3v4_write(
        leap: NtpLeapBits,
        version: u8,
        mode: u8,
        poll: PollInterval,
        root_delay: NtpShort,
        root_dispersion: NtpShort,
        stratum: u8,
        precision_log2_seconds: i8,
        reference_id: ReferenceId,
        reference_timestamp: NtpTimestamp,
        origin_timestamp: NtpTimestamp,
        receive_timestamp: NtpTimestamp,
        transmit_timestamp: NtpTimestamp,
        out: *mut u8,
        out_len: usize,
        at: usize,
    ) -> NtpRawLength;

    pub fn ntp_raw_reading_v3v4(
        reply: *mut TimeReading,
        root_delay: NtpShort,
        root_dispersion: NtpShort,
    );

    pub fn ntp_raw_request_new(reply: *mut NtpRawRequest, payload_len: u16, filter_offset: u16);

    pub fn ntp_raw_request_read(reply: *mut NtpRawRequest, message: *const u8, message_len: usize);

    pub fn ntp_raw_request_write(
        payload_len: u16,
        filter_offset: u16,
        out: *mut u8,
        out_len: usize,
        at: usize,
    ) -> NtpRawLength;

    pub fn ntp_raw_response_new(bytes: *const u8, bytes_len: usize) -> NtpRawLength;

    pub fn ntp_raw_response_cut(
        payload_len: u16,
        filter_offset: u16,
        filter: *const u8,
        filter_len: usize,
    ) -> NtpRawLength;

    pub fn ntp_raw_response_write(
        bytes: *const u8,
        bytes_len: usize,
        out: *mut u8,
        out_len: usize,
        at: usize,
    ) -> NtpRawLength;

    pub fn ntp_raw_journal_find(reply: *mut NtpRawJournalFound, image: *const u8, image_len: usize);

    pub fn ntp_raw_journal_recovery_store(
        reply: *mut NtpRawJournalStore,
        next_offset: usize,
        torn_len: usize,
        index: usize,
    );

    #[cfg_attr(
        not(any(test, feature = "raw")),
        expect(
            dead_code,
            reason = "a `Flash` stores byte by byte; tests compare it with this"
        )
    )]
    pub fn ntp_raw_journal_recover(
        reply: *mut NtpRawJournalFound,
        image: *mut u8,
        image_len: usize,
    );

    pub fn ntp_raw_journal_start(
        reply: *mut NtpRawJournalStart,
        image: *const u8,
        image_len: usize,
        kind: u16,
        body: *const u8,
        body_len: usize,
    );

    pub fn ntp_raw_journal_append_store(
        reply: *mut NtpRawJournalStore,
        entry_offset: usize,
        kind: u16,
        body: *const u8,
        body_len: usize,
        index: usize,
    );

    #[cfg_attr(
        not(any(test, feature = "raw")),
        expect(
            dead_code,
            reason = "a `Flash` stores byte by byte; tests compare it with this"
        )
    )]
    pub fn ntp_raw_journal_append(
        reply: *mut NtpRawJournalStart,
        image: *mut u8,
        image_len: usize,
        kind: u16,
        body: *const u8,
        body_len: usize,
    );

    pub fn ntp_raw_journal_store(image: *mut u8, image_len: usize, offset: usize, byte: u8);

    pub fn ntp_raw_journal_entry(
        reply: *mut NtpRawJournalEntry,
        image: *const u8,
        image_len: usize,
        index: usize,
    );

    pub fn ntp_raw_journal_read_body(
        number: usize,
        authenticated_count: usize,
        untrusted_count: usize,
        encrypted_count: usize,
        out: *mut u8,
        out_len: usize,
        at: usize,
    ) -> NtpRawLength;
}
