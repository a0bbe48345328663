/* The library for a host in C: ntp-proto's packet code, proved. Link libpump.a, and compile with -Wall.
 *
 * No function keeps state, allocates, or reads a file, a clock or a key. The library needs C's memset, and
 * nothing else. Start with ntp_deserialize and ntp_serialize, at the end of their sections: they call your
 * cipher. The functions before them do the same step by step.
 *
 * Numbers and units
 *   .._len is a number of bytes, .._count a number of fields, .._offset a place counted in bytes from the start
 *   of the buffer that its name says. .._seconds are seconds; .._log2_seconds is an exponent of two.
 *   A function that can refuse returns an NtpNumber: 0, or why it refused (docs/RULES.md, 2.1). The compiler
 *   warns if a program does not look at it. 5 means that a sealed field was not opened: the lists are there, and
 *   their untrusted fields are not to be relied on.
 *
 * Trust
 *   Authenticated, untrusted and encrypted fields are three types, and so are the tables behind them. A
 *   function of yours that takes an NtpAuthenticatedField can't be given an untrusted one.
 *
 * Buffers
 *   A pointer may be NULL if its length is 0. A buffer that a function writes overlaps no other argument. The
 *   structs keep pointers to what they were made of: packet, survey, results and tables have to stay where they
 *   are, unchanged, as long as the read fields are used.
 *
 * What this library can't see
 *   Whether a sealed field was opened with the right key, over the associated data that ntp_seal gives. A
 *   program that says "opened" where nothing was opened makes a packet authentic.
 *
 * Functions named ntp_raw_.. are the library's own, proved; all others here are short and call them. Programs
 * need only the others. */
#ifndef LOBZHINAR_H
#define LOBZHINAR_H

#include <stddef.h>
#include <stdint.h>
#ifndef __cplusplus
#include <stdbool.h>
#endif

/* The version of this header and of the library that it belongs to. */
#define LOBZHINAR_VERSION "0.8.0"

/* The number of the interface. The comment at ntp_interface_2 says what keeps a program from being linked with a
 * library of another one. */
#define NTP_INTERFACE 2

#if defined(__cplusplus)
static_assert(sizeof(size_t) == 8, "the library has numbers of 64 bits");
#elif defined(__STDC_VERSION__) && __STDC_VERSION__ >= 201112L
_Static_assert(sizeof(size_t) == 8, "the library has numbers of 64 bits");
#else
typedef char ntp_numbers_of_64_bits[sizeof(size_t) == 8 ? 1 : -1];
#endif

#if defined(__GNUC__)
#define NTP_MUST_USE __attribute__((warn_unused_result))
#define NTP_NONNULL(...) __attribute__((nonnull(__VA_ARGS__)))
#else
#define NTP_MUST_USE
#define NTP_NONNULL(...)
#endif

/* A struct whose initializer has to name its members, so that the unit is written down: GCC warns otherwise. */
#if defined(__GNUC__) && !defined(__clang__) && !defined(__cplusplus)
#define NTP_NAMED __attribute__((designated_init))
#else
#define NTP_NAMED
#endif

#ifdef __cplusplus
extern "C" {
#endif

/* ---- Numbers that come back ---- */

typedef enum NtpNumber {
    NTP_ACCEPTED = 0,
    NTP_INCORRECT_LENGTH = 1,
    NTP_MALFORMED_COOKIE_PLACEHOLDER = 2,
    NTP_MALFORMED_NTS_EXTENSION_FIELDS = 3,
    NTP_INVALID_DRAFT_IDENTIFICATION = 4,
    NTP_DECRYPT_ERROR = 5,
    NTP_HEADER_PAST_END = 6,
    NTP_PACKET_TOO_LONG = 7,
    NTP_TOO_MANY_FIELDS = 8,
    NTP_NO_RESULT = 9,
    NTP_MALFORMED_RESULT = 10,
    NTP_INVALID_VERSION = 11,
    NTP_MALFORMED_MODE = 12,
    NTP_MALFORMED_TIMESCALE = 13,
    NTP_INVALID_FLAGS = 14,
    NTP_FIELD_TOO_LONG = 15,
    NTP_NO_ROOM = 16,
    NTP_NO_CIPHER = 17,
    NTP_CANNOT_BE_MADE = 18
} NtpNumber;

/* A text for a log. */
static inline const char *ntp_text(NtpNumber number) {
    switch (number) {
    case NTP_ACCEPTED: return "accepted";
    case NTP_INCORRECT_LENGTH: return "a length is wrong";
    case NTP_MALFORMED_COOKIE_PLACEHOLDER: return "a cookie placeholder is not zero";
    case NTP_MALFORMED_NTS_EXTENSION_FIELDS: return "a sealed field lies inside a sealed field";
    case NTP_INVALID_DRAFT_IDENTIFICATION: return "a draft identification is not ASCII";
    case NTP_DECRYPT_ERROR: return "a sealed field was not opened";
    case NTP_HEADER_PAST_END: return "the header ends past the packet";
    case NTP_PACKET_TOO_LONG: return "the packet has more than 65,535 bytes, or the journal's image more than 32,768";
    case NTP_TOO_MANY_FIELDS: return "a table has no room for a further field";
    case NTP_NO_RESULT: return "a sealed field has no opening result";
    case NTP_MALFORMED_RESULT: return "an opening result is not well formed";
    case NTP_INVALID_VERSION: return "the version is not read";
    case NTP_MALFORMED_MODE: return "the mode is neither request nor response";
    case NTP_MALFORMED_TIMESCALE: return "the timescale is none of the four";
    case NTP_INVALID_FLAGS: return "a flag has no meaning";
    case NTP_FIELD_TOO_LONG: return "a field is too long to be written";
    case NTP_NO_ROOM: return "there is no room";
    case NTP_NO_CIPHER: return "fields need a cipher, and there is none";
    case NTP_CANNOT_BE_MADE: return "there is no such thing, or it can't be made";
    }
    return "no number of this library";
}

/* ---- Buffers, kinds, tables ---- */

/* Bytes that a program may read, and room in which it may write. */
typedef struct NtpBytes {
    const uint8_t *bytes;
    size_t len;
} NtpBytes;

typedef struct NtpRoom {
    uint8_t *bytes;
    size_t len;
} NtpRoom;

/* Kinds of fields, read and to write. Padding is only written (it is read as Unknown); a marker stands for a
 * sealed field that was not opened, and can't be written; a sealed field is in no list. */
typedef enum NtpKind {
    NTP_UNKNOWN = 0,
    NTP_UNIQUE_IDENTIFIER = 1,
    NTP_NTS_COOKIE = 2,
    NTP_NTS_COOKIE_PLACEHOLDER = 3,
    NTP_DRAFT_IDENTIFICATION = 4,
    NTP_PADDING = 5,
    NTP_REFERENCE_ID_REQUEST = 6,
    NTP_REFERENCE_ID_RESPONSE = 7,
    NTP_INVALID_NTS_ENCRYPTED_FIELD = 8,
    NTP_NTS_ENCRYPTED_FIELD = 9
} NtpKind;

typedef enum NtpVersion { NTP_V4 = 4, NTP_V5 = 5 } NtpVersion;

/* How many bytes the header has, in all versions. */
#define NTP_HEADER_SIZE ((size_t)48)

/* How many entries a table has. Tables aligned to 64 bytes are cleared faster. */
#define NTP_TABLE 128

/* What a survey found, and the outer items and inner fields of a packet: three types of table. Their entries
 * are the library's own. */
typedef struct NtpSealTable {
    uint64_t entries[NTP_TABLE];
} NtpSealTable;

typedef struct NtpOuterTable {
    uint64_t entries[NTP_TABLE];
} NtpOuterTable;

typedef struct NtpInnerTable {
    uint64_t entries[NTP_TABLE];
} NtpInnerTable;

/* ---- The library's own functions ----
 *
 * A slice is a pointer, which is not NULL, and a length. A reply of more than two numbers is stored, whole,
 * through the first pointer: that is how C returns it by value on x86-64, and the library for Arm does the same.
 * Values that do not come with a number are 0. */

/* Returns NTP_INTERFACE. The number is in the name too: a library of another interface does not have this function,
 * and the guard below needs it. Only compilers that define __GNUC__ compile the guard. If they do not know the attribute
 * `retain`, a linker that drops unused sections (--gc-sections) drops it. So the functions that take a table do not
 * rely on it. */
uint32_t ntp_interface_2(void);

#if defined(__GNUC__)
#if defined(__has_attribute)
#if __has_attribute(retain)
#define NTP_RETAINED __attribute__((retain))
#endif
#endif
#ifndef NTP_RETAINED
#define NTP_RETAINED
#endif
NTP_RETAINED static uint32_t (*const ntp_interface_guard)(void) __attribute__((used, unused)) = ntp_interface_2;
#endif

typedef struct NtpRawSurvey {
    size_t number;
    size_t field_offset;
    size_t seal_count;
} NtpRawSurvey;

typedef struct NtpRawSeal {
    size_t number;
    size_t nonce_offset;
    size_t nonce_len;
    size_t ciphertext_offset;
    size_t ciphertext_len;
    size_t associated_data_len;
} NtpRawSeal;

typedef struct NtpRawRead {
    size_t number;
    size_t field_offset;
    size_t authenticated_count;
    size_t untrusted_count;
    size_t encrypted_count;
    size_t remainder_len;
    size_t has_cookie;
    size_t cookie_seal;
} NtpRawRead;

typedef struct NtpRawField {
    size_t number;
    size_t kind;
    size_t type_id;
    size_t field_offset;
    size_t wire_length;
    size_t message_offset;
    size_t message_len;
} NtpRawField;

typedef struct NtpRawAuthenticatedField {
    NtpRawField field;
} NtpRawAuthenticatedField;

typedef struct NtpRawUntrustedField {
    NtpRawField field;
} NtpRawUntrustedField;

typedef struct NtpRawEncryptedField {
    NtpRawField field;
} NtpRawEncryptedField;

typedef struct NtpRawStageOne {
    size_t number;
    size_t output_len;
    size_t plaintext_len;
    size_t associated_data_len;
    size_t owes_seal;
} NtpRawStageOne;

typedef struct NtpRawLength {
    size_t number;
    size_t len;
} NtpRawLength;

typedef struct NtpRawMac {
    size_t number;
    size_t keyid;
    size_t body_len;
} NtpRawMac;

typedef struct NtpRawJournalFound {
    size_t number;
    size_t entry_count;
    size_t next_offset;
    size_t torn_len;
} NtpRawJournalFound;

typedef struct NtpRawJournalStart {
    size_t number;
    size_t entry_offset;
    size_t store_count;
} NtpRawJournalStart;

typedef struct NtpRawJournalStore {
    size_t number;
    size_t offset;
    size_t byte;
} NtpRawJournalStore;

typedef struct NtpRawJournalEntry {
    size_t number;
    size_t kind;
    size_t entry_offset;
    size_t body_offset;
    size_t body_len;
} NtpRawJournalEntry;

typedef struct NtpRawRequest {
    size_t number;
    size_t payload_len;
    size_t filter_offset;
} NtpRawRequest;

/* The six functions that take a table have NTP_TABLE in their names. What was compiled for tables of another size
 * and calls one of them does not link, whatever its compiler and its linker leave out. Otherwise the library would write
 * past the end of its tables, or look up entries of another table. A part of a program that only holds tables, results
 * or lists, and hands them to other parts, is stopped by the guard alone: compile all parts with one header. */
void ntp_raw_survey_128(NtpRawSurvey *reply, const uint8_t *packet, size_t packet_len, size_t header_size,
                        uint8_t version, NtpSealTable *seals);
void ntp_raw_seal_128(NtpRawSeal *reply, size_t packet_len, const NtpSealTable *seals, size_t seal_count,
                      size_t index);
void ntp_raw_read_128(NtpRawRead *reply, const uint8_t *packet, size_t packet_len, size_t header_size,
                      uint8_t version, const uint8_t *verdicts, size_t verdicts_len,
                      const size_t *plaintext_starts, size_t plaintext_starts_len, const size_t *plaintext_lens,
                      size_t plaintext_lens_len, const uint8_t *plaintexts, size_t plaintexts_len,
                      NtpOuterTable *outer, size_t used_outer, NtpInnerTable *inner, size_t used_inner);
void ntp_raw_authenticated_field_128(NtpRawAuthenticatedField *reply, size_t packet_len, uint8_t version,
                                     const NtpOuterTable *outer, size_t authenticated_count, size_t index);
void ntp_raw_untrusted_field_128(NtpRawUntrustedField *reply, size_t packet_len, uint8_t version,
                                 const NtpOuterTable *outer, size_t authenticated_count, size_t untrusted_count,
                                 size_t index);
void ntp_raw_encrypted_field_128(NtpRawEncryptedField *reply, size_t plaintexts_len,
                                 const size_t *plaintext_starts, size_t plaintext_starts_len, uint8_t version,
                                 const NtpInnerTable *inner, size_t encrypted_count, size_t index);
void ntp_raw_stage_one(NtpRawStageOne *reply, uint8_t *out, size_t out_len, size_t at, uint8_t *plaintext,
                       size_t plaintext_len, const uint8_t *kinds, size_t kinds_len, const uint16_t *numbers,
                       size_t numbers_len, const size_t *starts, size_t starts_len, const size_t *lens,
                       size_t lens_len, const uint8_t *data, size_t data_len, uint8_t version,
                       uint8_t has_cipher, size_t authenticated_count, size_t encrypted_count);
NtpRawLength ntp_raw_stage_two(uint8_t *out, size_t out_len, size_t at, size_t owes_seal, const uint8_t *nonce,
                               size_t nonce_len, const uint8_t *ciphertext, size_t ciphertext_len,
                               const uint8_t *kinds, size_t kinds_len, const uint16_t *numbers,
                               size_t numbers_len, const size_t *starts, size_t starts_len, const size_t *lens,
                               size_t lens_len, const uint8_t *data, size_t data_len, uint8_t version,
                               size_t untrusted_count);
void ntp_raw_mac_read(NtpRawMac *reply, const uint8_t *data, size_t data_len);
NtpRawLength ntp_raw_mac_write(uint32_t keyid, const uint8_t *body, size_t body_len, uint8_t *out,
                               size_t out_len, size_t at);
void ntp_raw_journal_find(NtpRawJournalFound *reply, const uint8_t *image, size_t image_len);
void ntp_raw_journal_recovery_store(NtpRawJournalStore *reply, size_t next_offset, size_t torn_len, size_t index);
void ntp_raw_journal_recover(NtpRawJournalFound *reply, uint8_t *image, size_t image_len);
void ntp_raw_journal_start(NtpRawJournalStart *reply, const uint8_t *image, size_t image_len, uint16_t kind,
                           const uint8_t *body, size_t body_len);
void ntp_raw_journal_append_store(NtpRawJournalStore *reply, size_t entry_offset, uint16_t kind,
                                  const uint8_t *body, size_t body_len, size_t index);
void ntp_raw_journal_append(NtpRawJournalStart *reply, uint8_t *image, size_t image_len, uint16_t kind,
                            const uint8_t *body, size_t body_len);
void ntp_raw_journal_store(uint8_t *image, size_t image_len, size_t offset, uint8_t byte);
void ntp_raw_journal_entry(NtpRawJournalEntry *reply, const uint8_t *image, size_t image_len, size_t index);
NtpRawLength ntp_raw_journal_read_body(size_t number, size_t authenticated_count, size_t untrusted_count,
                                       size_t encrypted_count, uint8_t *out, size_t out_len, size_t at);
void ntp_raw_request_new(NtpRawRequest *reply, uint16_t payload_len, uint16_t filter_offset);
void ntp_raw_request_read(NtpRawRequest *reply, const uint8_t *message, size_t message_len);
NtpRawLength ntp_raw_request_write(uint16_t payload_len, uint16_t filter_offset, uint8_t *out, size_t out_len,
                                   size_t at);
NtpRawLength ntp_raw_response_new(const uint8_t *bytes, size_t bytes_len);
NtpRawLength ntp_raw_response_cut(uint16_t payload_len, uint16_t filter_offset, const uint8_t *filter,
                                  size_t filter_len);
NtpRawLength ntp_raw_response_write(const uint8_t *bytes, size_t bytes_len, uint8_t *out, size_t out_len,
                                    size_t at);

/* NULL stands for no bytes; the library wants a pointer all the same. */
static inline const uint8_t *ntp_some(const uint8_t *bytes) {
    static const uint8_t none = 0;
    return bytes != NULL ? bytes : &none;
}

static inline uint8_t *ntp_some_room(uint8_t *bytes) {
    static uint8_t none = 0;
    return bytes != NULL ? bytes : &none;
}

static inline NtpBytes ntp_bytes(const uint8_t *bytes, size_t len) {
    NtpBytes part;
    part.bytes = bytes;
    part.len = len;
    return part;
}

static inline NtpRoom ntp_room(uint8_t *bytes, size_t len) {
    NtpRoom room;
    room.bytes = bytes;
    room.len = len;
    return room;
}

/* ---- Reading: the packet, and the sealed fields that it has ---- */

/* A packet to read. The version is that of its header; the header is not judged here. */
typedef struct NtpPacket {
    const uint8_t *bytes;
    size_t len;
    size_t header_size;
    size_t version;
} NtpPacket;

static inline NtpPacket ntp_packet_with_header(NtpVersion version, size_t header_size, const uint8_t *bytes,
                                               size_t len) {
    NtpPacket packet;
    packet.bytes = ntp_some(bytes);
    packet.len = len;
    packet.header_size = header_size;
    packet.version = (size_t)version;
    return packet;
}

static inline NtpPacket ntp_packet_v4(const uint8_t *bytes, size_t len) {
    return ntp_packet_with_header(NTP_V4, NTP_HEADER_SIZE, bytes, len);
}

static inline NtpPacket ntp_packet_v5(const uint8_t *bytes, size_t len) {
    return ntp_packet_with_header(NTP_V5, NTP_HEADER_SIZE, bytes, len);
}

/* Any other number than 4 and 5 is refused with 11 wherever a version is used; a proposed cut then gets a no. */
static inline uint8_t ntp_version_number(size_t version) {
    return version <= 255 ? (uint8_t)version : 0;
}

/* What a survey says: a fault with the packet offset of the field at fault, or 0, and how many sealed fields
 * stand before it. */
typedef struct NtpSurvey {
    NtpPacket packet;
    size_t field_offset;
    size_t seal_count;
    NtpSealTable seals;
} NtpSurvey;

/* Lists the sealed fields of a packet. After a fault the fields before it are listed; reading tells the fault,
 * or an earlier one, again. */
NTP_MUST_USE NTP_NONNULL(1) static inline NtpNumber ntp_survey(NtpSurvey *survey, NtpPacket packet) {
    NtpRawSurvey raw;
    ntp_raw_survey_128(&raw, packet.bytes, packet.len, packet.header_size, ntp_version_number(packet.version),
                       &survey->seals);
    survey->packet = packet;
    survey->field_offset = raw.field_offset;
    survey->seal_count = raw.seal_count;
    return (NtpNumber)raw.number;
}

/* A sealed field: what is to be opened, and over which bytes. */
typedef struct NtpSeal {
    NtpBytes associated_data;
    NtpBytes nonce;
    NtpBytes ciphertext;
    /* Its number among the sealed fields, from 0 on. */
    size_t index;
    /* Where its header starts in the packet. */
    size_t packet_offset;
} NtpSeal;

/* Sealed field number `index` of a survey; 18 past the count. */
NTP_MUST_USE NTP_NONNULL(1, 2) static inline NtpNumber ntp_seal(NtpSeal *seal, const NtpSurvey *survey,
                                                                size_t index) {
    NtpRawSeal raw;
    const uint8_t *packet = survey->packet.bytes;
    ntp_raw_seal_128(&raw, survey->packet.len, &survey->seals, survey->seal_count, index);
    seal->associated_data = ntp_bytes(packet, raw.associated_data_len);
    seal->nonce = ntp_bytes(packet + raw.nonce_offset, raw.nonce_len);
    seal->ciphertext = ntp_bytes(packet + raw.ciphertext_offset, raw.ciphertext_len);
    seal->index = index;
    seal->packet_offset = raw.associated_data_len;
    return (NtpNumber)raw.number;
}

/* ---- Reading: opening results ---- */

/* One result for each sealed field of a survey, in order; the plaintexts stand one after the other in a buffer
 * of the host's. */
typedef struct NtpResults {
    const NtpSurvey *survey;
    NtpRoom plaintexts;
    size_t used_len;
    size_t count;
    size_t plaintext_starts[NTP_TABLE];
    size_t plaintext_lens[NTP_TABLE];
    uint8_t verdicts[NTP_TABLE];
} NtpResults;

NTP_NONNULL(1, 2) static inline void ntp_results_of(NtpResults *results, const NtpSurvey *survey,
                                                   NtpRoom plaintexts) {
    results->survey = survey;
    results->plaintexts = ntp_room(ntp_some_room(plaintexts.bytes), plaintexts.len);
    results->used_len = 0;
    results->count = 0;
}

/* Where the plaintext of the next sealed field goes. */
NTP_NONNULL(1) static inline NtpRoom ntp_plaintext_room(const NtpResults *results) {
    return ntp_room(results->plaintexts.bytes + results->used_len, results->plaintexts.len - results->used_len);
}

/* Adds a result; 18 if it is not the turn of that sealed field, or if the field is one of another packet. Callers
 * use the four functions below. */
NTP_NONNULL(1, 2) static inline NtpNumber ntp_add_result(NtpResults *results, const NtpSeal *seal, uint8_t verdict,
                                                        size_t plaintext_len) {
    if (results->count >= NTP_TABLE || seal->index != results->count) return NTP_CANNOT_BE_MADE;
    if (seal->associated_data.bytes != results->survey->packet.bytes) return NTP_CANNOT_BE_MADE;
    results->verdicts[results->count] = verdict;
    results->plaintext_starts[results->count] = results->used_len;
    results->plaintext_lens[results->count] = plaintext_len;
    results->count += 1;
    /* A plaintext longer than its room is refused by reading, with 10. */
    if (plaintext_len <= results->plaintexts.len - results->used_len) results->used_len += plaintext_len;
    return NTP_ACCEPTED;
}

/* There is no key for this sealed field. */
NTP_MUST_USE NTP_NONNULL(1, 2) static inline NtpNumber ntp_add_no_key(NtpResults *results, const NtpSeal *seal) {
    return ntp_add_result(results, seal, 0, 0);
}

/* It did not open: the key is another one, or the packet was changed. */
NTP_MUST_USE NTP_NONNULL(1, 2) static inline NtpNumber ntp_add_failed(NtpResults *results, const NtpSeal *seal) {
    return ntp_add_result(results, seal, 1, 0);
}

/* It opened over its associated data, and the plaintext is in its room. */
NTP_MUST_USE NTP_NONNULL(1, 2) static inline NtpNumber ntp_add_opened(NtpResults *results, const NtpSeal *seal,
                                                                      size_t plaintext_len) {
    return ntp_add_result(results, seal, 2, plaintext_len);
}

/* The same, by the key of a server's cookie. */
NTP_MUST_USE NTP_NONNULL(1, 2) static inline NtpNumber ntp_add_opened_by_cookie(NtpResults *results,
                                                                                const NtpSeal *seal,
                                                                                size_t plaintext_len) {
    return ntp_add_result(results, seal, 3, plaintext_len);
}

/* ---- Reading: the fields ---- */

/* The tables that reading fills. */
typedef struct NtpTables {
    NtpOuterTable outer;
    NtpInnerTable inner;
    size_t used_outer;
    size_t used_inner;
} NtpTables;

/* What was read. With 0 and 5 there are counts and the remainder, with 0 a cookie if the last opening came by
 * one; with any other number there is only that number, and the packet offset of the outer field at fault. */
typedef struct NtpRead {
    /* The number that reading returned. A journal keeps it: ntp_journal_read_body. */
    size_t number;
    size_t field_offset;
    size_t authenticated_count;
    size_t untrusted_count;
    size_t encrypted_count;
    /* What follows the fields: in NTPv4 at most 24 bytes, of which ntp_mac_read says whether they are a MAC; in
     * NTPv5 none. The bytes are here either way. */
    NtpBytes remainder;
    size_t has_cookie;
    /* The number of the sealed field that was opened by a server's cookie. */
    size_t cookie_seal;
    const NtpResults *results;
    const NtpTables *tables;
} NtpRead;

NTP_NONNULL(1, 2, 3) static inline NtpNumber ntp_read_over(NtpRead *read, const NtpResults *results,
                                                          NtpTables *tables, size_t used_outer,
                                                          size_t used_inner) {
    NtpRawRead raw;
    NtpPacket packet = results->survey->packet;
    ntp_raw_read_128(&raw, packet.bytes, packet.len, packet.header_size, ntp_version_number(packet.version),
                     results->verdicts, results->count, results->plaintext_starts, results->count,
                     results->plaintext_lens, results->count, results->plaintexts.bytes, results->plaintexts.len,
                     &tables->outer, used_outer, &tables->inner, used_inner);
    read->number = raw.number;
    read->field_offset = raw.field_offset;
    read->authenticated_count = raw.authenticated_count;
    read->untrusted_count = raw.untrusted_count;
    read->encrypted_count = raw.encrypted_count;
    read->remainder = ntp_bytes(packet.bytes + (packet.len - raw.remainder_len), raw.remainder_len);
    read->has_cookie = raw.has_cookie;
    read->cookie_seal = raw.cookie_seal;
    read->results = results;
    read->tables = tables;
    tables->used_outer = raw.authenticated_count + raw.untrusted_count;
    tables->used_inner = raw.encrypted_count;
    return (NtpNumber)raw.number;
}

/* Reads the packet of the survey that the results are for. Whatever the tables held, what is not in use is blank
 * afterwards. */
NTP_MUST_USE NTP_NONNULL(1, 2, 3) static inline NtpNumber ntp_read(NtpRead *read, const NtpResults *results,
                                                                   NtpTables *tables) {
    return ntp_read_over(read, results, tables, NTP_TABLE, NTP_TABLE);
}

/* The same into tables that ntp_read has filled before and that nothing else has written: it clears only what was
 * in use, which is faster. Tables that ntp_read has not filled give entries of no packet. */
NTP_MUST_USE NTP_NONNULL(1, 2, 3) static inline NtpNumber ntp_read_into_used_tables(NtpRead *read,
                                                                                   const NtpResults *results,
                                                                                   NtpTables *tables) {
    return ntp_read_over(read, results, tables, tables->used_outer, tables->used_inner);
}

/* A field before the last sealed field that was opened: its bytes are as the sender sealed them. */
typedef struct NtpAuthenticatedField {
    NtpKind kind;
    uint32_t type_id;
    size_t packet_offset;
    size_t wire_length;
    NtpBytes message;
} NtpAuthenticatedField;

/* A field that nothing vouches for. */
typedef struct NtpUntrustedField {
    NtpKind kind;
    uint32_t type_id;
    size_t packet_offset;
    size_t wire_length;
    NtpBytes message;
} NtpUntrustedField;

/* A field of an opened plaintext; its offset is one of the buffer of all plaintexts. */
typedef struct NtpEncryptedField {
    NtpKind kind;
    uint32_t type_id;
    size_t plaintexts_offset;
    size_t wire_length;
    NtpBytes message;
} NtpEncryptedField;

/* Field number `index` of each list, from 0 on; 18 past the count of that list. */
NTP_MUST_USE NTP_NONNULL(1, 2) static inline NtpNumber ntp_authenticated_field(NtpAuthenticatedField *field,
                                                                               const NtpRead *read,
                                                                               size_t index) {
    NtpRawAuthenticatedField raw;
    NtpPacket packet = read->results->survey->packet;
    ntp_raw_authenticated_field_128(&raw, packet.len, ntp_version_number(packet.version), &read->tables->outer,
                                    read->authenticated_count, index);
    field->kind = (NtpKind)raw.field.kind;
    field->type_id = (uint32_t)raw.field.type_id;
    field->packet_offset = raw.field.field_offset;
    field->wire_length = raw.field.wire_length;
    field->message = ntp_bytes(packet.bytes + raw.field.message_offset, raw.field.message_len);
    return (NtpNumber)raw.field.number;
}

NTP_MUST_USE NTP_NONNULL(1, 2) static inline NtpNumber ntp_untrusted_field(NtpUntrustedField *field,
                                                                           const NtpRead *read, size_t index) {
    NtpRawUntrustedField raw;
    NtpPacket packet = read->results->survey->packet;
    ntp_raw_untrusted_field_128(&raw, packet.len, ntp_version_number(packet.version), &read->tables->outer,
                                read->authenticated_count, read->untrusted_count, index);
    field->kind = (NtpKind)raw.field.kind;
    field->type_id = (uint32_t)raw.field.type_id;
    field->packet_offset = raw.field.field_offset;
    field->wire_length = raw.field.wire_length;
    field->message = ntp_bytes(packet.bytes + raw.field.message_offset, raw.field.message_len);
    return (NtpNumber)raw.field.number;
}

NTP_MUST_USE NTP_NONNULL(1, 2) static inline NtpNumber ntp_encrypted_field(NtpEncryptedField *field,
                                                                           const NtpRead *read, size_t index) {
    NtpRawEncryptedField raw;
    const NtpResults *results = read->results;
    ntp_raw_encrypted_field_128(&raw, results->plaintexts.len, results->plaintext_starts, results->count,
                                ntp_version_number(results->survey->packet.version), &read->tables->inner,
                                read->encrypted_count, index);
    field->kind = (NtpKind)raw.field.kind;
    field->type_id = (uint32_t)raw.field.type_id;
    field->plaintexts_offset = raw.field.field_offset;
    field->wire_length = raw.field.wire_length;
    field->message = ntp_bytes(results->plaintexts.bytes + raw.field.message_offset, raw.field.message_len);
    return (NtpNumber)raw.field.number;
}

/* ---- Reading in one call ---- */

/* What a cipher says of a sealed field. */
typedef enum NtpVerdict {
    NTP_NO_KEY = 0,
    NTP_FAILED = 1,
    NTP_OPENED = 2,
    NTP_OPENED_BY_COOKIE = 3
} NtpVerdict;

struct NtpWorkspace;

/* The items before a sealed field that no seal opened so far vouches for: a server finds its cookie among them.
 * They are read when they are first asked for. There are none if the packet has a fault elsewhere, for which it is
 * refused, or more items and sealed fields than a table has entries. */
typedef struct NtpContext {
    struct NtpWorkspace *work;
    /* The items start from this packet offset on, and before that one. */
    size_t from_offset;
    size_t end_offset;
} NtpContext;

/* A host's cipher: opens a sealed field over its associated data, writes the plaintext to the room and its
 * length through the last pointer. It returns NTP_OPENED only if the field is authentic. */
typedef struct NtpOpener {
    NtpVerdict (*open)(void *key, const NtpSeal *seal, const NtpContext *context, NtpRoom room,
                       size_t *plaintext_len);
    void *key;
} NtpOpener;

/* What reading in one call works with; it has to stay as long as the fields are used. */
typedef struct NtpWorkspace {
    NtpSurvey survey;
    NtpResults results;
    NtpTables tables;
    /* The packet read as if there were no key, for the contexts. */
    size_t has_items;
    NtpResults item_results;
    NtpTables item_tables;
    NtpRead items;
} NtpWorkspace;

/* Reads the items, all of them untrusted; after a refusal there are none. */
NTP_NONNULL(1) static inline void ntp_read_items(NtpWorkspace *work) {
    NtpSeal seal;
    NtpNumber number;
    size_t i;
    ntp_results_of(&work->item_results, &work->survey, ntp_room(NULL, 0));
    for (i = 0; i < work->survey.seal_count; i++) {
        number = ntp_seal(&seal, &work->survey, i);
        if (number == NTP_ACCEPTED) number = ntp_add_no_key(&work->item_results, &seal);
        if (number != NTP_ACCEPTED) break;
    }
    number = ntp_read(&work->items, &work->item_results, &work->item_tables);
    (void)number;
    work->has_items = 1;
}

/* Item number `index` of a context, from 0 on; 18 if it has no more. */
NTP_MUST_USE NTP_NONNULL(1, 2) static inline NtpNumber ntp_context_field(NtpUntrustedField *field,
                                                                         const NtpContext *context,
                                                                         size_t index) {
    size_t i;
    if (!context->work->has_items) ntp_read_items(context->work);
    for (i = 0;; i++) {
        NtpNumber number = ntp_untrusted_field(field, &context->work->items, i);
        if (number != NTP_ACCEPTED) return number;
        if (field->packet_offset >= context->end_offset) return NTP_CANNOT_BE_MADE;
        if (field->packet_offset >= context->from_offset && index-- == 0) return NTP_ACCEPTED;
    }
}

/* Reads a packet and opens its sealed fields by the host's cipher (ntp-proto's ExtensionFieldData::deserialize).
 * 0: all is opened. 5: a sealed field was not. Any other number: the packet is refused, at read->field_offset. */
NTP_MUST_USE NTP_NONNULL(1, 2) static inline NtpNumber ntp_deserialize(NtpRead *read, NtpWorkspace *work,
                                                                       NtpPacket packet, NtpOpener opener,
                                                                       NtpRoom plaintexts) {
    size_t i;
    NtpContext context;
    /* Reading tells a fault of the survey again, or an earlier one. */
    NtpNumber number = ntp_survey(&work->survey, packet);
    (void)number;
    work->has_items = 0;
    context.work = work;
    context.from_offset = 0;
    ntp_results_of(&work->results, &work->survey, plaintexts);
    for (i = 0; i < work->survey.seal_count; i++) {
        NtpSeal seal;
        NtpVerdict verdict;
        size_t plaintext_len = 0;
        number = ntp_seal(&seal, &work->survey, i);
        /* Neither this nor a result can be refused here; reading would say 9 then. */
        if (number != NTP_ACCEPTED) break;
        context.end_offset = seal.packet_offset;
        verdict = opener.open(opener.key, &seal, &context, ntp_plaintext_room(&work->results), &plaintext_len);
        /* Reading refuses any other verdict with 10. */
        number = ntp_add_result(&work->results, &seal, (unsigned)verdict <= 3 ? (uint8_t)verdict : 4, plaintext_len);
        if (number != NTP_ACCEPTED) break;
        /* An opened seal vouches for all items before it. */
        if (verdict == NTP_OPENED || verdict == NTP_OPENED_BY_COOKIE) context.from_offset = seal.packet_offset + 1;
    }
    return ntp_read(read, &work->results, &work->tables);
}

/* ---- A cut that a gateway proposes ---- */

/* A gateway that parses packets itself can send its cut of a packet along: for each field, in the order of the packet,
 * where the field begins and how many bytes it takes. The functions below say whether this list is the cut of the
 * packet by the layout rules (docs/RULES.md, 4.1 to 4.7; section 25). A packet has at most one cut.
 *
 *   Offsets count from the packet's first byte, header included: the first field begins at `header_size`.
 *   A wire length counts all bytes of a field: type, length, message and, in NTPv5, padding.
 *   A sealed field is one entry, whether or not it can be opened. The fields inside it are not listed. So the lists
 *   that reading returns are no cut where a sealed field was opened.
 *   The remainder of NTPv4, at most 24 bytes, is not listed. So the list is empty if at most 24 bytes follow the header
 *   in NTPv4, or none in NTPv5.
 *
 * What a yes does not say
 *   It says nothing of trust: no key was used, and a forged packet has a cut too.
 *   It says nothing of contents: a survey or a read may still refuse the packet, for the bytes of a field, for the
 *   lengths inside a sealed field, or for more fields than a table has entries. The header's bytes are not looked at;
 *   the version is that of the NtpPacket.
 *   So read the packet after a yes, and take fields from the read, which says which are authenticated. Never take them
 *   from the proposed table.
 *
 * What gets a no
 *   Every other list, and any list of a packet that has a version other than 4 and 5, more than 65,535 bytes, or a
 *   header past its end.
 *
 * The list may hold any numbers; no sum of them wraps. Nothing is written. The first entry that is wrong ends the call,
 * so it looks at no more than (len - header_size) / 4 + 1 entries, however long the list is; at one, if the header is
 * past the end. */

/* A field as a gateway cuts it. Both are numbers of bytes. */
typedef struct NTP_NAMED NtpCut {
    size_t field_offset;
    size_t wire_length;
} NtpCut;

/* The verdict on a proposed cut. It is no NtpNumber, in which 0 stands for accepted: so it is a struct, and a no can't
 * be compared with NTP_ACCEPTED or stored as a number. */
typedef struct NtpCutVerdict {
    bool is_cut;
} NtpCutVerdict;

bool ntp_raw_is_cut(const uint8_t *packet, size_t packet_len, size_t header_size, uint8_t version,
                    const size_t *field_offsets, size_t field_offsets_len, const size_t *wire_lengths,
                    size_t wire_lengths_len);
bool ntp_raw_is_cut_table(const uint8_t *packet, size_t packet_len, size_t header_size, uint8_t version,
                          const NtpCut *cuts, size_t cuts_len);

/* Judges a gateway's table, one entry for each field. NULL goes with a count of 0; the library wants a pointer all the
 * same. */
NTP_MUST_USE static inline NtpCutVerdict ntp_judge_cut(NtpPacket packet, const NtpCut *cuts, size_t cut_count) {
    static NtpCut none;
    NtpCutVerdict verdict;
    verdict.is_cut = ntp_raw_is_cut_table(packet.bytes, packet.len, packet.header_size,
                                          ntp_version_number(packet.version), cuts != NULL ? cuts : &none, cut_count);
    return verdict;
}

/* The same of two lists, one of offsets and one of wire lengths. Lists of unequal length get a no. */
NTP_MUST_USE static inline NtpCutVerdict ntp_judge_cut_lists(NtpPacket packet, const size_t *field_offsets,
                                                             size_t field_offset_count, const size_t *wire_lengths,
                                                             size_t wire_length_count) {
    static const size_t none = 0;
    NtpCutVerdict verdict;
    verdict.is_cut = ntp_raw_is_cut(packet.bytes, packet.len, packet.header_size, ntp_version_number(packet.version),
                                    field_offsets != NULL ? field_offsets : &none, field_offset_count,
                                    wire_lengths != NULL ? wire_lengths : &none, wire_length_count);
    return verdict;
}

/* ---- Writing: the fields ----
 *
 * An output counts as no longer than 65,535 bytes: nothing is written past that, and a start past it is refused
 * with NTP_NO_ROOM. A refused call changes no byte of its outputs; a refusal by stage two leaves what stage one
 * wrote. */

/* Fields of one packet, described one after the other. */
typedef struct NtpDescribed {
    size_t starts[NTP_TABLE];
    size_t lens[NTP_TABLE];
    uint16_t numbers[NTP_TABLE];
    uint8_t kinds[NTP_TABLE];
} NtpDescribed;

/* The three lists of fields to write (ntp-proto's ExtensionFieldData). Their bytes are copied to a buffer of the
 * host's, so they need not stay. */
typedef struct NtpFields {
    /* The authenticated fields, and the encrypted ones after them. */
    NtpDescribed sealed;
    NtpDescribed untrusted;
    size_t authenticated_count;
    size_t encrypted_count;
    size_t untrusted_count;
    NtpRoom data;
    size_t used_len;
} NtpFields;

/* Empties the lists. */
NTP_NONNULL(1) static inline void ntp_fields_with(NtpFields *fields, NtpRoom data) {
    fields->authenticated_count = 0;
    fields->encrypted_count = 0;
    fields->untrusted_count = 0;
    fields->data = ntp_room(ntp_some_room(data.bytes), data.len);
    fields->used_len = 0;
}

/* One of the three lists, to which a field is added. */
typedef struct NtpList {
    NtpFields *fields;
    NtpDescribed *described;
    size_t *count;
    /* Where the list ends among the described fields. */
    size_t end;
    size_t described_count;
} NtpList;

static inline NtpList ntp_list_of(NtpFields *fields, NtpDescribed *described, size_t *count, size_t end,
                                  size_t described_count) {
    NtpList list;
    list.fields = fields;
    list.described = described;
    list.count = count;
    list.end = end;
    list.described_count = described_count;
    return list;
}

/* Sealed over, and sent as they are. */
NTP_NONNULL(1) static inline NtpList ntp_authenticated_list(NtpFields *fields) {
    return ntp_list_of(fields, &fields->sealed, &fields->authenticated_count, fields->authenticated_count,
                       fields->authenticated_count + fields->encrypted_count);
}

/* Sealed, so that nobody else can read them. */
NTP_NONNULL(1) static inline NtpList ntp_encrypted_list(NtpFields *fields) {
    size_t count = fields->authenticated_count + fields->encrypted_count;
    return ntp_list_of(fields, &fields->sealed, &fields->encrypted_count, count, count);
}

/* After the seal, with nothing to vouch for them. */
NTP_NONNULL(1) static inline NtpList ntp_untrusted_list(NtpFields *fields) {
    return ntp_list_of(fields, &fields->untrusted, &fields->untrusted_count, fields->untrusted_count,
                       fields->untrusted_count);
}

/* Adds a field to a list; 16 if there is no place for it or for its bytes. Callers use the functions below. */
static inline NtpNumber ntp_add_field(NtpList list, NtpKind kind, uint16_t number, const uint8_t *bytes,
                                      size_t bytes_len, size_t len) {
    NtpFields *fields = list.fields;
    NtpDescribed *all = list.described;
    size_t i;
    if (list.described_count >= NTP_TABLE || fields->data.len - fields->used_len < bytes_len) return NTP_NO_ROOM;
    /* The encrypted fields stand behind the authenticated ones, and make room. */
    for (i = list.described_count; i > list.end; i--) {
        all->kinds[i] = all->kinds[i - 1];
        all->numbers[i] = all->numbers[i - 1];
        all->starts[i] = all->starts[i - 1];
        all->lens[i] = all->lens[i - 1];
    }
    all->kinds[list.end] = (uint8_t)kind;
    all->numbers[list.end] = number;
    all->starts[list.end] = fields->used_len;
    all->lens[list.end] = len;
    for (i = 0; i < bytes_len; i++) fields->data.bytes[fields->used_len + i] = bytes[i];
    fields->used_len += bytes_len;
    *list.count += 1;
    return NTP_ACCEPTED;
}

/* A field of any type. */
NTP_MUST_USE static inline NtpNumber ntp_add_unknown(NtpList list, uint16_t type_id, NtpBytes message) {
    return ntp_add_field(list, NTP_UNKNOWN, type_id, message.bytes, message.len, message.len);
}

NTP_MUST_USE static inline NtpNumber ntp_add_unique_identifier(NtpList list, NtpBytes identifier) {
    return ntp_add_field(list, NTP_UNIQUE_IDENTIFIER, 0, identifier.bytes, identifier.len, identifier.len);
}

NTP_MUST_USE static inline NtpNumber ntp_add_nts_cookie(NtpList list, NtpBytes cookie) {
    return ntp_add_field(list, NTP_NTS_COOKIE, 0, cookie.bytes, cookie.len, cookie.len);
}

/* Room for a cookie of `cookie_len` bytes in the server's response. */
NTP_MUST_USE static inline NtpNumber ntp_add_nts_cookie_placeholder(NtpList list, uint16_t cookie_len) {
    return ntp_add_field(list, NTP_NTS_COOKIE_PLACEHOLDER, 0, NULL, 0, cookie_len);
}

/* The draft's name: bytes below 128. */
NTP_MUST_USE static inline NtpNumber ntp_add_draft_identification(NtpList list, NtpBytes text) {
    return ntp_add_field(list, NTP_DRAFT_IDENTIFICATION, 0, text.bytes, text.len, text.len);
}

/* A Padding field of `whole_field_len` bytes: unlike all other lengths here, this one counts type and length. */
NTP_MUST_USE static inline NtpNumber ntp_add_padding(NtpList list, size_t whole_field_len) {
    return ntp_add_field(list, NTP_PADDING, 0, NULL, 0, whole_field_len);
}

/* A request for `payload_len` bytes of the server's filter from `filter_offset` on. */
typedef struct NTP_NAMED NtpRequest {
    uint16_t payload_len;
    uint16_t filter_offset;
} NtpRequest;

NTP_MUST_USE static inline NtpNumber ntp_add_reference_id_request(NtpList list, NtpRequest request) {
    return ntp_add_field(list, NTP_REFERENCE_ID_REQUEST, request.filter_offset, NULL, 0, request.payload_len);
}

/* A part of the server's filter. */
NTP_MUST_USE static inline NtpNumber ntp_add_reference_id_response(NtpList list, NtpBytes filter_part) {
    return ntp_add_field(list, NTP_REFERENCE_ID_RESPONSE, 0, filter_part.bytes, filter_part.len,
                         filter_part.len);
}

/* ---- Writing: two stages ---- */

/* What the host's cipher made. Two types, so that one is not taken for the other. */
typedef struct NtpNonce {
    NtpBytes nonce;
} NtpNonce;

typedef struct NtpCiphertext {
    NtpBytes ciphertext;
} NtpCiphertext;

static inline NtpNonce ntp_nonce(const uint8_t *bytes, size_t len) {
    NtpNonce nonce;
    nonce.nonce = ntp_bytes(bytes, len);
    return nonce;
}

static inline NtpCiphertext ntp_ciphertext(const uint8_t *bytes, size_t len) {
    NtpCiphertext ciphertext;
    ciphertext.ciphertext = ntp_bytes(bytes, len);
    return ciphertext;
}

/* Where a packet is written: from `fields_offset` on, after the header that the host has written. */
typedef struct NtpOutput {
    NtpRoom packet;
    size_t fields_offset;
    size_t version;
} NtpOutput;

static inline NtpOutput ntp_output_with_header(NtpVersion version, size_t header_size, NtpRoom packet) {
    NtpOutput output;
    output.packet = ntp_room(ntp_some_room(packet.bytes), packet.len);
    output.fields_offset = header_size;
    output.version = (size_t)version;
    return output;
}

static inline NtpOutput ntp_output_v4(NtpRoom packet) {
    return ntp_output_with_header(NTP_V4, NTP_HEADER_SIZE, packet);
}

static inline NtpOutput ntp_output_v5(NtpRoom packet) {
    return ntp_output_with_header(NTP_V5, NTP_HEADER_SIZE, packet);
}

/* What stage one leaves to be done. */
typedef struct NtpStageOne {
    /* 0, or why stage one refused; stage two then refuses with it too. */
    size_t number;
    /* 1 if the host has to seal `plaintext`, which may be empty, over `associated_data`. */
    size_t owes_seal;
    NtpBytes plaintext;
    NtpBytes associated_data;
    NtpOutput output;
    const NtpFields *fields;
} NtpStageOne;

NTP_NONNULL(1, 2) static inline NtpNumber ntp_stage_one_by(NtpStageOne *stage, const NtpFields *fields,
                                                          NtpOutput output, NtpRoom plaintext,
                                                          uint8_t has_cipher) {
    NtpRawStageOne raw;
    const NtpDescribed *sealed = &fields->sealed;
    size_t count = fields->authenticated_count + fields->encrypted_count;
    uint8_t *room = ntp_some_room(plaintext.bytes);
    ntp_raw_stage_one(&raw, output.packet.bytes, output.packet.len, output.fields_offset, room, plaintext.len,
                      sealed->kinds, count, sealed->numbers, count, sealed->starts, count, sealed->lens, count,
                      fields->data.bytes, fields->used_len, ntp_version_number(output.version), has_cipher,
                      fields->authenticated_count, fields->encrypted_count);
    stage->number = raw.number;
    stage->owes_seal = raw.owes_seal;
    stage->plaintext = ntp_bytes(room, raw.plaintext_len);
    stage->associated_data = ntp_bytes(output.packet.bytes, raw.associated_data_len);
    stage->output = output;
    stage->fields = fields;
    return (NtpNumber)raw.number;
}

/* Writes the authenticated fields to the output, and the encrypted ones to `plaintext`, where the host seals
 * them. */
NTP_MUST_USE NTP_NONNULL(1, 2) static inline NtpNumber ntp_stage_one(NtpStageOne *stage, const NtpFields *fields,
                                                                     NtpOutput output, NtpRoom plaintext) {
    return ntp_stage_one_by(stage, fields, output, plaintext, 1);
}

/* For a host without a cipher: 17 if a field is to be authenticated or encrypted. */
NTP_MUST_USE NTP_NONNULL(1, 2) static inline NtpNumber ntp_stage_one_without_cipher(NtpStageOne *stage,
                                                                                    const NtpFields *fields,
                                                                                    NtpOutput output) {
    return ntp_stage_one_by(stage, fields, output, ntp_room(NULL, 0), 0);
}

/* Writes the sealed field, if one is owed, and the untrusted fields after it. The packet is then the first
 * `packet_len` bytes of the output. Nonce and ciphertext are not read if no seal is owed. */
NTP_MUST_USE NTP_NONNULL(1, 2) static inline NtpNumber ntp_stage_two(size_t *packet_len, const NtpStageOne *stage,
                                                                     NtpNonce nonce, NtpCiphertext ciphertext) {
    NtpRawLength raw;
    const NtpFields *fields = stage->fields;
    const NtpDescribed *untrusted = &fields->untrusted;
    size_t count = fields->untrusted_count, at = stage->associated_data.len;
    *packet_len = 0;
    if (stage->number != 0) return (NtpNumber)stage->number;
    raw = ntp_raw_stage_two(stage->output.packet.bytes, stage->output.packet.len, at, stage->owes_seal,
                            ntp_some(nonce.nonce.bytes), nonce.nonce.len, ntp_some(ciphertext.ciphertext.bytes),
                            ciphertext.ciphertext.len, untrusted->kinds, count, untrusted->numbers, count,
                            untrusted->starts, count, untrusted->lens, count, fields->data.bytes,
                            fields->used_len, ntp_version_number(stage->output.version), count);
    if (raw.number == 0) *packet_len = at + raw.len;
    return (NtpNumber)raw.number;
}

/* A host's cipher: seals a plaintext over associated data, writes nonce and ciphertext to their room and their
 * lengths through the pointers. It returns 1 if it sealed, and 0 if it could not. */
typedef struct NtpSealer {
    int (*seal)(void *key, NtpBytes associated_data, NtpBytes plaintext, NtpRoom nonce, size_t *nonce_len,
                NtpRoom ciphertext, size_t *ciphertext_len);
    void *key;
} NtpSealer;

/* Room for what stands between the two stages. */
typedef struct NtpBetween {
    NtpRoom plaintext;
    NtpRoom nonce;
    NtpRoom ciphertext;
} NtpBetween;

/* Writes all fields of a packet, and seals by the host's cipher (ntp-proto's ExtensionFieldData::serialize). 17 if
 * the cipher could not seal: the authenticated fields are then in the output, and there is no packet. */
NTP_MUST_USE NTP_NONNULL(1, 2) static inline NtpNumber ntp_serialize(size_t *packet_len, const NtpFields *fields,
                                                                     NtpOutput output, NtpSealer sealer,
                                                                     NtpBetween between) {
    NtpStageOne stage;
    size_t nonce_len = 0, ciphertext_len = 0;
    NtpNumber number = ntp_stage_one(&stage, fields, output, between.plaintext);
    *packet_len = 0;
    if (number != NTP_ACCEPTED) return number;
    if (stage.owes_seal) {
        if (!sealer.seal(sealer.key, stage.associated_data, stage.plaintext, between.nonce, &nonce_len,
                         between.ciphertext, &ciphertext_len))
            return NTP_NO_CIPHER;
        if (nonce_len > between.nonce.len || ciphertext_len > between.ciphertext.len) return NTP_NO_ROOM;
    }
    return ntp_stage_two(packet_len, &stage, ntp_nonce(between.nonce.bytes, nonce_len),
                         ntp_ciphertext(between.ciphertext.bytes, ciphertext_len));
}

/* ---- MAC ---- */

/* A MAC has 4, 20 or 24 bytes: a key id alone, which is a crypto-NAK, or one with a body of 16 or 20 bytes. */
typedef struct NtpMac {
    size_t keyid;
    NtpBytes body;
} NtpMac;

/* Reads a MAC. Any other length, no bytes included, is refused with 1, with key id 0 and no body. A host that was
 * sent such a trailer still has its bytes where they came from:
 *
 *     if (ntp_mac_read(&mac, read.remainder) != NTP_ACCEPTED && read.remainder.len != 0)
 *         log_bytes("no MAC", read.remainder.bytes, read.remainder.len);
 */
NTP_MUST_USE NTP_NONNULL(1) static inline NtpNumber ntp_mac_read(NtpMac *mac, NtpBytes data) {
    NtpRawMac raw;
    const uint8_t *bytes = ntp_some(data.bytes);
    ntp_raw_mac_read(&raw, bytes, data.len);
    mac->keyid = raw.keyid;
    mac->body = ntp_bytes(bytes + (data.len - raw.body_len), raw.body_len);
    return (NtpNumber)raw.number;
}

/* Writes a MAC from `offset` on; its length goes through the first pointer. The body has 0, 16 or 20 bytes: any
 * other is refused with 18, and then a lack of room with 16. A refused write changes no byte. */
NTP_MUST_USE NTP_NONNULL(1) static inline NtpNumber ntp_mac_write(size_t *mac_len, uint32_t keyid, NtpBytes body,
                                                                  NtpRoom out, size_t offset) {
    NtpRawLength raw = ntp_raw_mac_write(keyid, ntp_some(body.bytes), body.len, ntp_some_room(out.bytes), out.len,
                                         offset);
    *mac_len = raw.len;
    return (NtpNumber)raw.number;
}

/* ---- The journal ---- */

/* A record that survives power loss, in an image: flash, or other memory that keeps its bytes, of at most 32,768
 * bytes. A blank byte is 0xFF. An entry is
 *
 *     the length of the whole entry, 2 bytes   low byte first; 9 for a read, 53 for a header
 *     its kind, 2 bytes                        low byte first
 *     its body                                 4 bytes for a read, 48 for a header
 *     0xA5
 *
 * Entries stand one after the other from offset 0 on. The first place where none stands ends them: an entry counts
 * only if its length is that of its kind and its last byte is 0xA5. What follows them and is not blank is a torn
 * tail: an append that a power loss cut.
 *
 * One byte at a time
 *   The library says which byte goes where; the host stores it with its own flash write, and begins a store only
 *   when the one before it stands in the memory. The memory has to take single bytes, each as a whole or not at all,
 *   and 0xFF again for a byte that was stored.
 *   An append stores the kind, the body and the end byte, in the order of their places, then the high byte of the
 *   length, then the low byte. The last store makes the entry: before it, the entry is not found.
 *   A recovery stores 0xFF from the last byte of the torn tail back to its first.
 *   Power may be lost after any store. No entry that stands is lost, by a cut append or by a cut recovery, and the
 *   entry of a cut append is found whole or not at all.
 *
 * After each start of the device
 *   A recovery runs to its end before the first append. So it does after a store that failed. An append does not
 *   look at a torn tail: it would store over bytes that are not blank, and nothing is promised of that image. A
 *   recovery of an image without torn tail has no stores.
 *   Nothing is promised either of an image that was not blank before its first append, or that anything else wrote.
 *
 *     NtpJournalFound found;
 *     NtpJournalPlan plan;
 *     NtpStore store;
 *     NtpNumber number = ntp_journal_find(&found, image);
 *     for (i = 0; ntp_journal_recovery_store(&store, &found, i) == NTP_ACCEPTED; i++)
 *         write_flash(store.offset, store.byte);
 *     ..
 *     number = ntp_journal_start(&plan, image, NTP_JOURNAL_HEADER, ntp_bytes(packet, NTP_HEADER_SIZE));
 *     for (i = 0; ntp_journal_append_store(&store, &plan, i) == NTP_ACCEPTED; i++)
 *         write_flash(store.offset, store.byte);
 *
 * What is refused has no stores, so each loop ends at once then. examples/journal.c is a whole host.
 *
 *   ntp_journal_recover and ntp_journal_append perform all stores at once, in memory such as a host's copy. They are
 *   not for memory that loses power between two stores: a processor may join its stores, and change their order.
 *
 * Refusals, in this order; they change nothing
 *   7   the image has more than 32,768 bytes
 *   18  the kind is none of the two, or the body has not its length
 *   16  the entry has no room after the last entry found */

/* A read is the verdict on a packet, a header the 48 bytes of one as they came. */
typedef enum NtpJournalKind { NTP_JOURNAL_READ = 1, NTP_JOURNAL_HEADER = 2 } NtpJournalKind;

/* How many bytes an image may have, and how many the body of a read has. That of a header has NTP_HEADER_SIZE. */
#define NTP_JOURNAL_LONGEST_IMAGE ((size_t)32768)
#define NTP_JOURNAL_READ_BODY ((size_t)4)

/* What an image holds. The next append starts at `next_offset`, where the last entry ends; `torn_len` bytes from
 * there on are the torn tail, up to the last byte that is not blank. Offsets are offsets in the image. */
typedef struct NtpJournalFound {
    size_t entry_count;
    size_t next_offset;
    size_t torn_len;
} NtpJournalFound;

/* What an append will store, and where its entry starts. The body has to stay where it is, unchanged, until the
 * last store is performed. */
typedef struct NtpJournalPlan {
    size_t entry_offset;
    size_t store_count;
    size_t kind;
    NtpBytes body;
} NtpJournalPlan;

/* These two end in a gap or have one; the library does not store them. */
#if defined(__GNUC__)
#pragma GCC diagnostic push
#pragma GCC diagnostic ignored "-Wpadded"
#endif
/* One byte, and the offset in the image that it goes to. */
typedef struct NTP_NAMED NtpStore {
    size_t offset;
    uint8_t byte;
} NtpStore;

/* An entry: its body is a part of the image that it was found in. */
typedef struct NtpJournalEntry {
    NtpJournalKind kind;
    size_t entry_offset;
    NtpBytes body;
} NtpJournalEntry;
#if defined(__GNUC__)
#pragma GCC diagnostic pop
#endif

/* A kind of more than 16 bits is no kind, and never the one that its low bits are. */
static inline uint16_t ntp_journal_kind_number(size_t kind) {
    return kind <= 65535 ? (uint16_t)kind : 0;
}

/* Finds the entries and the torn tail of an image: 0, or 7 for a longer image. */
NTP_MUST_USE NTP_NONNULL(1) static inline NtpNumber ntp_journal_find(NtpJournalFound *found, NtpBytes image) {
    NtpRawJournalFound raw;
    ntp_raw_journal_find(&raw, ntp_some(image.bytes), image.len);
    found->entry_count = raw.entry_count;
    found->next_offset = raw.next_offset;
    found->torn_len = raw.torn_len;
    return (NtpNumber)raw.number;
}

NTP_NONNULL(1, 2) static inline NtpNumber ntp_store_row(NtpStore *store, const NtpRawJournalStore *raw) {
    store->offset = raw->offset;
    store->byte = (uint8_t)raw->byte;
    return (NtpNumber)raw->number;
}

/* Store number `index` of a recovery, from 0 on, for what ntp_journal_find found before the first of them; 18 past
 * the last. There are `torn_len` stores. After a power loss the image is searched anew, and the stores counted from 0
 * again. */
NTP_MUST_USE NTP_NONNULL(1, 2) static inline NtpNumber ntp_journal_recovery_store(NtpStore *store,
                                                                                  const NtpJournalFound *found,
                                                                                  size_t index) {
    NtpRawJournalStore raw;
    ntp_raw_journal_recovery_store(&raw, found->next_offset, found->torn_len, index);
    return ntp_store_row(store, &raw);
}

/* Performs all stores of a recovery in memory, and tells what was found before: `torn_len` bytes are erased. 0, or
 * 7 for a longer image, in which it changes nothing. Running it again changes nothing more. */
NTP_MUST_USE NTP_NONNULL(1) static inline NtpNumber ntp_journal_recover(NtpJournalFound *found, NtpRoom image) {
    NtpRawJournalFound raw;
    ntp_raw_journal_recover(&raw, ntp_some_room(image.bytes), image.len);
    found->entry_count = raw.entry_count;
    found->next_offset = raw.next_offset;
    found->torn_len = raw.torn_len;
    return (NtpNumber)raw.number;
}

/* Plans an append after the last entry found: 0, 7, 18 or 16. It stores nothing. A plan that is refused is empty: it
 * has no stores. */
NTP_MUST_USE NTP_NONNULL(1) static inline NtpNumber ntp_journal_start(NtpJournalPlan *plan, NtpBytes image,
                                                                      NtpJournalKind kind, NtpBytes body) {
    NtpRawJournalStart raw;
    const uint16_t number = ntp_journal_kind_number((size_t)kind);
    const uint8_t *bytes = ntp_some(body.bytes);
    ntp_raw_journal_start(&raw, ntp_some(image.bytes), image.len, number, bytes, body.len);
    plan->entry_offset = raw.entry_offset;
    plan->store_count = raw.store_count;
    plan->kind = raw.number == 0 ? number : 0;
    plan->body = ntp_bytes(bytes, raw.number == 0 ? body.len : 0);
    return (NtpNumber)raw.number;
}

/* Store number `index` of a plan, from 0 on; 18 past the last. There are `store_count` stores. The entry stands once
 * the last of them is performed. */
NTP_MUST_USE NTP_NONNULL(1, 2) static inline NtpNumber ntp_journal_append_store(NtpStore *store,
                                                                                const NtpJournalPlan *plan,
                                                                                size_t index) {
    NtpRawJournalStore raw;
    ntp_raw_journal_append_store(&raw, plan->entry_offset, ntp_journal_kind_number(plan->kind),
                                 ntp_some(plan->body.bytes), plan->body.len, index);
    return ntp_store_row(store, &raw);
}

/* Performs all stores of an append in memory: 0, 7, 18 or 16. Where the entry starts goes through the first
 * pointer; 0 with a refusal. */
NTP_MUST_USE NTP_NONNULL(1) static inline NtpNumber ntp_journal_append(size_t *entry_offset, NtpRoom image,
                                                                       NtpJournalKind kind, NtpBytes body) {
    NtpRawJournalStart raw;
    ntp_raw_journal_append(&raw, ntp_some_room(image.bytes), image.len, ntp_journal_kind_number((size_t)kind),
                           ntp_some(body.bytes), body.len);
    *entry_offset = raw.entry_offset;
    return (NtpNumber)raw.number;
}

/* Performs one store in memory, such as a host's copy of its flash. One that lies outside changes nothing. */
static inline void ntp_journal_store(NtpRoom image, NtpStore store) {
    ntp_raw_journal_store(ntp_some_room(image.bytes), image.len, store.offset, store.byte);
}

/* Entry number `index` of an image, from 0 on; 18 if there is none. The length of the image is not judged here. */
NTP_MUST_USE NTP_NONNULL(1) static inline NtpNumber ntp_journal_entry(NtpJournalEntry *entry, NtpBytes image,
                                                                      size_t index) {
    NtpRawJournalEntry raw;
    const uint8_t *bytes = ntp_some(image.bytes);
    ntp_raw_journal_entry(&raw, bytes, image.len, index);
    entry->kind = (NtpJournalKind)raw.kind;
    entry->entry_offset = raw.entry_offset;
    entry->body = ntp_bytes(bytes + raw.body_offset, raw.body_len);
    return (NtpNumber)raw.number;
}

/* Writes the body of a read: the number that reading returned, and the counts of authenticated, untrusted and
 * encrypted fields, one byte each. `out` is where the 4 bytes go. 18 if one of them is above 255, which no read has
 * that ntp_read or ntp_deserialize filled, then 16. A refused write changes no byte. */
NTP_MUST_USE NTP_NONNULL(2) static inline NtpNumber ntp_journal_read_body(NtpRoom out, const NtpRead *read) {
    return (NtpNumber)ntp_raw_journal_read_body(read->number, read->authenticated_count, read->untrusted_count,
                                                read->encrypted_count, ntp_some_room(out.bytes), out.len, 0)
        .number;
}

/* ---- The NTPv5 header and the time reading ---- */

/* Times and cookies have types of their own, so that none is taken for another. */

/* A length of time: a count of 2^-28 s. The older header counts 2^-16 s: NtpShort is another type on purpose. */
typedef struct NTP_NAMED NtpTime32 {
    uint32_t units_of_2pow_minus_28_s;
} NtpTime32;

static inline NtpTime32 ntp_time32_from_units_of_2pow_minus_28_s(uint32_t units) {
    NtpTime32 time;
    time.units_of_2pow_minus_28_s = units;
    return time;
}

/* A point in time: a count of 2^-32 s since an era began. Era 0 began with the year 1900, and an era has 2^32 s.
 * The `era` of an NTPv5 header says which one, and its `timescale` what a second is. The header of NTPv3 and NTPv4
 * has neither: the host has to know the era. */
typedef struct NTP_NAMED NtpTimestamp {
    uint64_t units_of_2pow_minus_32_s_in_era;
} NtpTimestamp;

/* The time between two requests: log2 of seconds, signed, as the byte of the header. */
typedef struct NTP_NAMED NtpPollInterval {
    uint8_t byte;
} NtpPollInterval;

/* Its signed meaning: 6 stands for 64 s, -1 for half a second. */
int8_t ntp_poll_log2_seconds(NtpPollInterval poll);

typedef struct NtpServerCookie {
    uint64_t value;
} NtpServerCookie;

typedef struct NtpClientCookie {
    uint64_t value;
} NtpClientCookie;

/* Leaps. The header has one number for the last two: its flag for synchronized tells them apart. */
enum {
    NTP_LEAP_NO_WARNING = 0,
    NTP_LEAP_61 = 1,
    NTP_LEAP_59 = 2,
    NTP_LEAP_UNKNOWN = 3,
    NTP_LEAP_UNSYNCHRONIZED = 4
};

enum { NTP_MODE_REQUEST = 3, NTP_MODE_RESPONSE = 4 };

enum {
    NTP_TIMESCALE_UTC = 0,
    NTP_TIMESCALE_TAI = 1,
    NTP_TIMESCALE_UT1 = 2,
    NTP_TIMESCALE_LEAP_SMEARED_UTC = 3
};

/* Flags, to be added up. */
enum { NTP_FLAG_SYNCHRONIZED = 1, NTP_FLAG_INTERLEAVED_MODE = 2, NTP_FLAG_AUTHNAK = 4 };

typedef struct NtpHeader {
    uint8_t leap;
    uint8_t mode;
    uint8_t stratum;
    NtpPollInterval poll;
    int8_t precision_log2_seconds;
    uint8_t timescale;
    uint8_t era;
    uint8_t flags;
    NtpTime32 root_delay;
    NtpTime32 root_dispersion;
    NtpServerCookie server_cookie;
    NtpClientCookie client_cookie;
    /* When the request came to the server, and when the response left it. */
    NtpTimestamp receive_timestamp;
    NtpTimestamp transmit_timestamp;
} NtpHeader;

/* The version seen comes with 11, the header with 0. */
typedef struct NtpHeaderRead {
    size_t number;
    size_t version_seen;
    NtpHeader header;
} NtpHeaderRead;

void ntp_raw_header_read(NtpHeaderRead *reply, const uint8_t *data, size_t data_len);
NtpRawLength ntp_raw_header_write(uint8_t leap, uint8_t mode, uint8_t stratum, NtpPollInterval poll,
                                  int8_t precision_log2_seconds, uint8_t timescale, uint8_t era, uint8_t flags,
                                  NtpTime32 root_delay, NtpTime32 root_dispersion,
                                  NtpServerCookie server_cookie, NtpClientCookie client_cookie,
                                  NtpTimestamp receive_timestamp, NtpTimestamp transmit_timestamp, uint8_t *out,
                                  size_t out_len, size_t at);

/* Reads the header in the first 48 bytes; what follows them is not looked at. */
NTP_MUST_USE NTP_NONNULL(1) static inline NtpNumber ntp_header_read(NtpHeaderRead *read, NtpBytes data) {
    ntp_raw_header_read(read, ntp_some(data.bytes), data.len);
    return (NtpNumber)read->number;
}

/* Writes a header from `offset` on: 48 bytes. 18 if leap, mode, timescale or flags are none of the numbers
 * above, then 16. */
NTP_MUST_USE NTP_NONNULL(1) static inline NtpNumber ntp_header_write(const NtpHeader *h, NtpRoom out,
                                                                     size_t offset) {
    return (NtpNumber)ntp_raw_header_write(h->leap, h->mode, h->stratum, h->poll, h->precision_log2_seconds,
                                           h->timescale, h->era, h->flags, h->root_delay, h->root_dispersion,
                                           h->server_cookie, h->client_cookie, h->receive_timestamp,
                                           h->transmit_timestamp, ntp_some_room(out.bytes), out.len, offset)
        .number;
}

/* Each of them exact. The distance is half of the delay plus the dispersion, as RFC 5905 counts them. It is the
 * header's part alone: half of the delay of the host's own exchange with the server, its dispersion and jitter, and
 * a share for the time since, are the host's to add. Before 0.4.0 the whole delay was counted: look again at a limit
 * that was set for that figure. */
typedef struct NtpReading {
    double delay_seconds;
    double dispersion_seconds;
    double distance_seconds;
} NtpReading;

void ntp_raw_reading(NtpReading *reply, NtpTime32 root_delay, NtpTime32 root_dispersion);

/* What a header's root delay and root dispersion are in seconds. */
NTP_NONNULL(1) static inline NtpReading ntp_reading(const NtpHeader *header) {
    NtpReading reading;
    ntp_raw_reading(&reading, header->root_delay, header->root_dispersion);
    return reading;
}

/* ---- The header of NTPv3 and NTPv4 ---- */

/* That of RFC 5905. Its lengths of time and its leap have other numbers than those of NTPv5, so they have types of
 * their own. */

/* A length of time: a count of 2^-16 s. An NtpTime32 of the same count is 4,096 times shorter. */
typedef struct NTP_NAMED NtpShort {
    uint32_t units_of_2pow_minus_16_s;
} NtpShort;

static inline NtpShort ntp_short_from_units_of_2pow_minus_16_s(uint32_t units) {
    NtpShort time;
    time.units_of_2pow_minus_16_s = units;
    return time;
}

/* The two bits of a leap, as they stand in the header. */
typedef struct NTP_NAMED NtpLeapBits {
    uint8_t bits;
} NtpLeapBits;

/* What the bits stand for. A clock that is not synchronized has 3 here; NTP_LEAP_UNSYNCHRONIZED, of NTPv5, is 4. */
enum {
    NTP_LEAP_BITS_NO_WARNING = 0,
    NTP_LEAP_BITS_61 = 1,
    NTP_LEAP_BITS_59 = 2,
    NTP_LEAP_BITS_UNSYNCHRONIZED = 3
};

enum {
    NTP_ASSOCIATION_MODE_RESERVED = 0,
    NTP_ASSOCIATION_MODE_SYMMETRIC_ACTIVE = 1,
    NTP_ASSOCIATION_MODE_SYMMETRIC_PASSIVE = 2,
    NTP_ASSOCIATION_MODE_CLIENT = 3,
    NTP_ASSOCIATION_MODE_SERVER = 4,
    NTP_ASSOCIATION_MODE_BROADCAST = 5,
    NTP_ASSOCIATION_MODE_CONTROL = 6,
    NTP_ASSOCIATION_MODE_PRIVATE = 7
};

/* Four bytes, of which the first is the highest: a kiss code if the stratum is 0 (0x44454E59 is "DENY"), the name of
 * a clock if it is 1, else what stands for a server. */
typedef struct NtpReferenceId {
    uint32_t value;
} NtpReferenceId;

/* It has two gaps, of 2 and of 4 bytes: one before the lengths of time, one before the timestamps. */
#if defined(__GNUC__)
#pragma GCC diagnostic push
#pragma GCC diagnostic ignored "-Wpadded"
#endif
typedef struct NtpHeaderV3V4 {
    NtpLeapBits leap;
    /* 3 or 4. */
    uint8_t version;
    uint8_t mode;
    uint8_t stratum;
    NtpPollInterval poll;
    int8_t precision_log2_seconds;
    NtpShort root_delay;
    NtpShort root_dispersion;
    NtpReferenceId reference_id;
    /* When the server's clock was last set. */
    NtpTimestamp reference_timestamp;
    /* When the request left the client and came to the server, and when the response left it. */
    NtpTimestamp origin_timestamp;
    NtpTimestamp receive_timestamp;
    NtpTimestamp transmit_timestamp;
} NtpHeaderV3V4;
#if defined(__GNUC__)
#pragma GCC diagnostic pop
#endif

/* The version seen comes with 11, the header with 0. */
typedef struct NtpHeaderV3V4Read {
    size_t number;
    size_t version_seen;
    NtpHeaderV3V4 header;
} NtpHeaderV3V4Read;

void ntp_raw_header_v3v4_read(NtpHeaderV3V4Read *reply, const uint8_t *data, size_t data_len);
NtpRawLength ntp_raw_header_v3v4_write(NtpLeapBits leap, uint8_t version, uint8_t mode, NtpPollInterval poll,
                                       NtpShort root_delay, NtpShort root_dispersion, uint8_t stratum,
                                       int8_t precision_log2_seconds, NtpReferenceId reference_id,
                                       NtpTimestamp reference_timestamp, NtpTimestamp origin_timestamp,
                                       NtpTimestamp receive_timestamp, NtpTimestamp transmit_timestamp,
                                       uint8_t *out, size_t out_len, size_t at);
void ntp_raw_reading_v3v4(NtpReading *reply, NtpShort root_delay, NtpShort root_dispersion);

/* Reads the header in the first 48 bytes; what follows them is not looked at. All modes are read. */
NTP_MUST_USE NTP_NONNULL(1) static inline NtpNumber ntp_header_v3v4_read(NtpHeaderV3V4Read *read, NtpBytes data) {
    ntp_raw_header_v3v4_read(read, ntp_some(data.bytes), data.len);
    return (NtpNumber)read->number;
}

/* Writes a header from `offset` on: 48 bytes. 18 if the leap is above 3, the version neither 3 nor 4, or the mode
 * above 7, then 16. A refused write changes no byte. */
NTP_MUST_USE NTP_NONNULL(1) static inline NtpNumber ntp_header_v3v4_write(const NtpHeaderV3V4 *h, NtpRoom out,
                                                                          size_t offset) {
    return (NtpNumber)ntp_raw_header_v3v4_write(h->leap, h->version, h->mode, h->poll, h->root_delay,
                                                h->root_dispersion, h->stratum, h->precision_log2_seconds,
                                                h->reference_id, h->reference_timestamp, h->origin_timestamp,
                                                h->receive_timestamp, h->transmit_timestamp,
                                                ntp_some_room(out.bytes), out.len, offset)
        .number;
}

/* What a header's root delay and root dispersion are in seconds. */
NTP_NONNULL(1) static inline NtpReading ntp_reading_v3v4(const NtpHeaderV3V4 *header) {
    NtpReading reading;
    ntp_raw_reading_v3v4(&reading, header->root_delay, header->root_dispersion);
    return reading;
}

/* ---- Reference ids ---- */

NTP_NONNULL(1, 2) static inline NtpNumber ntp_request_row(NtpRequest *request, const NtpRawRequest *raw) {
    request->payload_len = (uint16_t)raw->payload_len;
    request->filter_offset = (uint16_t)raw->filter_offset;
    return (NtpNumber)raw->number;
}

/* Makes a request that may be sent: whole words of a filter of 512 bytes. */
NTP_MUST_USE NTP_NONNULL(1) static inline NtpNumber ntp_request_new(NtpRequest *request, uint16_t payload_len,
                                                                    uint16_t filter_offset) {
    NtpRawRequest raw;
    ntp_raw_request_new(&raw, payload_len, filter_offset);
    return ntp_request_row(request, &raw);
}

/* The request that the message of a field of kind NTP_REFERENCE_ID_REQUEST is. */
NTP_MUST_USE NTP_NONNULL(1) static inline NtpNumber ntp_request_read(NtpRequest *request, NtpBytes message) {
    NtpRawRequest raw;
    ntp_raw_request_read(&raw, ntp_some(message.bytes), message.len);
    return ntp_request_row(request, &raw);
}

/* Writes a request as a field from `offset` on. */
NTP_MUST_USE NTP_NONNULL(1) static inline NtpNumber ntp_request_write(size_t *field_len, NtpRequest request,
                                                                      NtpRoom out, size_t offset) {
    NtpRawLength raw = ntp_raw_request_write(request.payload_len, request.filter_offset, ntp_some_room(out.bytes),
                                             out.len, offset);
    *field_len = raw.len;
    return (NtpNumber)raw.number;
}

/* Whether bytes may be sent as a response: whole words, at most 512 bytes. */
NTP_MUST_USE static inline NtpNumber ntp_response_new(NtpBytes filter_part) {
    return (NtpNumber)ntp_raw_response_new(ntp_some(filter_part.bytes), filter_part.len).number;
}

/* The part of a filter that a request asks for. */
NTP_MUST_USE NTP_NONNULL(1) static inline NtpNumber ntp_response_cut(NtpBytes *filter_part, NtpRequest request,
                                                                     NtpBytes filter) {
    const uint8_t *bytes = ntp_some(filter.bytes);
    NtpRawLength raw = ntp_raw_response_cut(request.payload_len, request.filter_offset, bytes, filter.len);
    *filter_part = raw.number == 0 ? ntp_bytes(bytes + request.filter_offset, raw.len) : ntp_bytes(bytes, 0);
    return (NtpNumber)raw.number;
}

/* Writes a response as a field from `offset` on. */
NTP_MUST_USE NTP_NONNULL(1) static inline NtpNumber ntp_response_write(size_t *field_len, NtpBytes filter_part,
                                                                       NtpRoom out, size_t offset) {
    NtpRawLength raw = ntp_raw_response_write(ntp_some(filter_part.bytes), filter_part.len,
                                              ntp_some_room(out.bytes), out.len, offset);
    *field_len = raw.len;
    return (NtpNumber)raw.number;
}

#ifdef __cplusplus
}
#endif

#endif
