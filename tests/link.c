/* Links the library by its header and holds both to each other: every reply's fields and size, every
 * number, and the samples of the rules that a host would try first. It is compiled with -Wpadded, so
 * nothing is left empty between the fields of a reply; the one header that has gaps has its offsets checked. */
#define _DEFAULT_SOURCE /* for MAP_ANONYMOUS */
#include "lobzhinar.h"

#include <stdio.h>
#include <string.h>
#include <sys/mman.h>

static int checks, failures;

static void same(const char *what, size_t got, size_t wanted) {
    checks++;
    if (got != wanted) {
        failures++;
        printf("link: %s is %zu, not %zu\n", what, got, wanted);
    }
}

static void same_bytes(const char *what, const uint8_t *got, const uint8_t *wanted, size_t n) {
    same(what, memcmp(got, wanted, n) == 0, 1);
}

#define SAME(got, wanted) same(#got, (size_t)(got), (size_t)(wanted))
#define LEN(list) (sizeof(list) / sizeof(*(list)))
#define BYTES(list) ntp_bytes(list, sizeof(list))
#define ROOM(list) ntp_room(list, sizeof(list))

/* What nobody stored. */
#define UNTOUCHED 0xA5A5A5A5A5A5A5A5

/* A reply of the library before a wall. Where the struct is too short here, the library stores over the wall;
 * where it is too long, a word of it stays untouched. */
#define REPLY(type) \
    struct { \
        type reply; \
        uint64_t wall; \
    } type##_walled; \
    memset(&type##_walled, 0xA5, sizeof type##_walled); \
    type *r = &type##_walled.reply
#define WHOLE(type) \
    do { \
        SAME(type##_walled.wall, UNTOUCHED); \
        SAME(untouched(r, sizeof(type)), 0); \
    } while (0)

static size_t untouched(const void *reply, size_t size) {
    size_t n = 0;
    for (size_t i = 0; i < size; i += 8) {
        uint64_t word;
        memcpy(&word, (const uint8_t *)reply + i, 8);
        n += word == UNTOUCHED;
    }
    return n;
}

/* A packet without header of its own, as the samples have it. */
static NtpPacket sample(NtpVersion version, const uint8_t *bytes, size_t len) {
    return ntp_packet_with_header(version, 0, bytes, len);
}

/* A read with a verdict for each sealed field. The tables have walls behind them, so that a library that writes past
 * their end changes no count of failures, and is seen. */
static struct {
    NtpSurvey survey;
    uint64_t wall_of_survey[NTP_TABLE];
    NtpTables tables;
    uint64_t wall_of_tables[NTP_TABLE];
} walled;
static NtpResults results;
static NtpRead read;
static uint8_t plaintexts[64];

typedef struct Verdicts {
    size_t count;
    uint8_t first, second, third;
    uint8_t rest[5];
} Verdicts;

static const Verdicts none = {0, 0, 0, 0, {0}};

static NtpNumber read_by(NtpPacket packet, Verdicts verdicts, size_t plaintext_len) {
    memset(&walled, 0xA5, sizeof walled);
    NtpNumber fault = ntp_survey(&walled.survey, packet);
    (void)fault;
    ntp_results_of(&results, &walled.survey, ROOM(plaintexts));
    const uint8_t all[] = {verdicts.first, verdicts.second, verdicts.third};
    for (size_t i = 0; i < verdicts.count; i++) {
        NtpSeal seal;
        SAME(ntp_seal(&seal, &walled.survey, i), NTP_ACCEPTED);
        SAME(ntp_add_result(&results, &seal, all[i], i + 1 == verdicts.count ? plaintext_len : 0), NTP_ACCEPTED);
    }
    return ntp_read(&read, &results, &walled.tables);
}

static const uint8_t sample_1[] = {0x01, 0x04, 0x00, 0x05, 0xAA, 0x11, 0x22, 0x33};
static const uint8_t sample_5[] = {0x01, 0x04, 0x00, 0x04, 0x04, 0x04, 0x00, 0x08, 0x00, 0x00,
                                   0x00, 0x00, 0x04, 0x04, 0x00, 0x08, 0x00, 0x00, 0x00, 0x00};

static void reading(void) {
    SAME(read_by(sample(NTP_V5, sample_1, sizeof sample_1), none, 0), NTP_ACCEPTED);
    SAME(read.untrusted_count, 1);
    SAME(read.authenticated_count + read.encrypted_count + read.remainder.len + read.field_offset, 0);
    SAME(read.has_cookie + read.cookie_seal, 0);
    SAME(walled.tables.outer.entries[0], 0x0000000001040001);
    SAME(walled.tables.outer.entries[1] | walled.tables.outer.entries[NTP_TABLE - 1], 0);
    SAME(walled.tables.inner.entries[0] | walled.tables.inner.entries[NTP_TABLE - 1], 0);
    SAME(untouched(walled.wall_of_survey, sizeof walled.wall_of_survey), NTP_TABLE);
    SAME(untouched(walled.wall_of_tables, sizeof walled.wall_of_tables), NTP_TABLE);

    SAME(read_by(sample(NTP_V5, sample_5, sizeof sample_5), (Verdicts){2, 1, 2, 0, {0}}, 0), NTP_DECRYPT_ERROR);
    SAME(read.authenticated_count, 2);
    SAME(read.untrusted_count, 0);
    SAME(read_by(sample(NTP_V5, sample_5, sizeof sample_5), none, 0), NTP_NO_RESULT);
    SAME(read.field_offset, 4);
    SAME(walled.tables.outer.entries[0], 0);
}

/* Every field of a read with a value of its own: a V4 packet of four items, three sealed fields that were
 * opened by cookies, the last with three inner fields, five items more, and a remainder. */
static void every_field_of_a_read(void) {
    static const uint8_t inside[] = {0x02, 0x04, 0x00, 0x04, 0x02, 0x04, 0x00, 0x04, 0x20, 0x01, 0x00, 0x04};
    uint8_t packet[81] = {0};
    for (size_t at = 0; at < 60; at += at < 16 || at >= 40 ? 4 : 8)
        memcpy(packet + at, at < 16 || at >= 40 ? "\x20\x01\x00\x04" : "\x04\x04\x00\x08", 4);
    memcpy(plaintexts, inside, sizeof inside);
    SAME(read_by(sample(NTP_V4, packet, sizeof packet), (Verdicts){3, 3, 3, 3, {0}}, sizeof inside), NTP_ACCEPTED);
    SAME(read.authenticated_count, 4);
    SAME(read.untrusted_count, 5);
    SAME(read.encrypted_count, 3);
    SAME(read.remainder.len, 21);
    SAME(read.remainder.bytes == packet + 60, 1);
    SAME(read.has_cookie, 1);
    SAME(read.cookie_seal, 2);
    REPLY(NtpRawRead);
    ntp_raw_read_128(r, packet, sizeof packet, 0, 4, results.verdicts, 3, results.plaintext_starts, 3,
                     results.plaintext_lens, 3, plaintexts, sizeof plaintexts, &walled.tables.outer, NTP_TABLE,
                     &walled.tables.inner, NTP_TABLE);
    SAME(r->number + r->field_offset, 0);
    SAME(r->authenticated_count, 4);
    SAME(r->untrusted_count, 5);
    SAME(r->encrypted_count, 3);
    SAME(r->remainder_len, 21);
    SAME(r->has_cookie, 1);
    SAME(r->cookie_seal, 2);
    WHOLE(NtpRawRead);
}

/* A refusal of each kind that reading has, by the smallest packet. */
static void refusals_of_reading(void) {
    static const uint8_t fouled[] = {0x03, 0x04, 0x00, 0x05, 0x01, 0x00, 0x00, 0x00};
    static const uint8_t high[] = {0xF5, 0xFF, 0x00, 0x05, 0x80, 0x00, 0x00, 0x00};
    static uint8_t many[(NTP_TABLE + 1) * 4], large[65536];
    const NtpPacket one_seal = sample(NTP_V5, sample_5, 12);
    for (size_t i = 0; i <= NTP_TABLE; i++)
        memcpy(many + 4 * i, "\x20\x01\x00\x04", 4);
    SAME(read_by(sample(NTP_V5, sample_1, 3), none, 0), NTP_INCORRECT_LENGTH);
    SAME(read_by(sample(NTP_V5, fouled, sizeof fouled), none, 0), NTP_MALFORMED_COOKIE_PLACEHOLDER);
    SAME(read_by(sample(NTP_V5, high, sizeof high), none, 0), NTP_INVALID_DRAFT_IDENTIFICATION);
    SAME(read_by(ntp_packet_v5(sample_1, sizeof sample_1), none, 0), NTP_HEADER_PAST_END);
    SAME(read_by(sample(NTP_V5, large, sizeof large), none, 0), NTP_PACKET_TOO_LONG);
    SAME(read_by(sample(NTP_V5, many, sizeof many), none, 0), NTP_TOO_MANY_FIELDS);
    SAME(read_by(sample((NtpVersion)3, sample_1, sizeof sample_1), none, 0), NTP_INVALID_VERSION);
    SAME(walled.tables.outer.entries[0] | walled.tables.inner.entries[NTP_TABLE - 1], 0);
    SAME(read_by(one_seal, (Verdicts){1, 4, 0, 0, {0}}, 0), NTP_MALFORMED_RESULT);
    SAME(read_by(one_seal, (Verdicts){1, 2, 0, 0, {0}}, sizeof plaintexts + 1), NTP_MALFORMED_RESULT);
    SAME(read_by(one_seal, (Verdicts){1, 0, 0, 0, {0}}, 0), NTP_DECRYPT_ERROR);
    SAME(read_by(one_seal, (Verdicts){1, 2, 0, 0, {0}}, 0), NTP_ACCEPTED);
    memcpy(plaintexts, sample_5 + 4, 8);
    SAME(read_by(one_seal, (Verdicts){1, 2, 0, 0, {0}}, 8), NTP_MALFORMED_NTS_EXTENSION_FIELDS);
    /* No packet at all. */
    SAME(read_by(sample(NTP_V5, NULL, 0), none, 0), NTP_ACCEPTED);
}

/* A field of each length from 0 to 136, which is past two blocks of 64: as it should be, and then with a byte that is
 * refused at each place. The library takes many bytes at a time, and looks at all of them. The padding may hold
 * anything. */
static void scanned(uint16_t type_id, uint8_t good, uint8_t bad, NtpNumber refusal) {
    static uint8_t packet[4 + 136];
    for (size_t len = 0; len <= 136; len++) {
        const size_t whole = (4 + len + 3) / 4 * 4;
        memset(packet, bad, sizeof packet);
        packet[0] = (uint8_t)(type_id >> 8);
        packet[1] = (uint8_t)type_id;
        packet[2] = (uint8_t)((4 + len) >> 8);
        packet[3] = (uint8_t)(4 + len);
        memset(packet + 4, good, len);
        SAME(read_by(sample(NTP_V5, packet, whole), none, 0), NTP_ACCEPTED);
        size_t refused = 0;
        for (size_t at = 4; at < 4 + len; at++) {
            packet[at] = bad;
            refused += read_by(sample(NTP_V5, packet, whole), none, 0) == refusal;
            packet[at] = good;
        }
        SAME(refused, len);
    }
}

static void every_byte_is_looked_at(void) {
    for (unsigned bit = 0; bit < 8; bit++)
        scanned(0x0304, 0, (uint8_t)(1U << bit), NTP_MALFORMED_COOKIE_PLACEHOLDER);
    scanned(0xF5FF, 'd', 0x80, NTP_INVALID_DRAFT_IDENTIFICATION);
}

/* A sealed field with a nonce of 3 bytes and a ciphertext of 2, after 4 bytes; then a fault. */
static void surveys(void) {
    static const uint8_t packet[] = {0x01, 0x04, 0x00, 0x04, 0x04, 0x04, 0x00, 0x0E, 0x00, 0x03, 0x00,
                                     0x02, 1,    2,    3,    0,    4,    5,    0,    0,    0xFF};
    NtpSeal seal;
    SAME(ntp_survey(&walled.survey, sample(NTP_V5, packet, sizeof packet)), NTP_INCORRECT_LENGTH);
    SAME(walled.survey.field_offset, 20);
    SAME(walled.survey.seal_count, 1);
    SAME(ntp_seal(&seal, &walled.survey, 0), NTP_ACCEPTED);
    SAME(seal.associated_data.bytes == packet, 1);
    SAME(seal.associated_data.len, 4);
    SAME(seal.nonce.bytes == packet + 12, 1);
    SAME(seal.nonce.len, 3);
    SAME(seal.ciphertext.bytes == packet + 16, 1);
    SAME(seal.ciphertext.len, 2);
    SAME(seal.index, 0);
    SAME(seal.packet_offset, 4);
    SAME(ntp_seal(&seal, &walled.survey, 1), NTP_CANNOT_BE_MADE);
    SAME(seal.nonce.len + seal.ciphertext.len + seal.associated_data.len, 0);
    {
        REPLY(NtpRawSeal);
        ntp_raw_seal_128(r, sizeof packet, &walled.survey.seals, 1, 0);
        SAME(r->number, NTP_ACCEPTED);
        SAME(r->nonce_offset, 12);
        SAME(r->nonce_len, 3);
        SAME(r->ciphertext_offset, 16);
        SAME(r->ciphertext_len, 2);
        SAME(r->associated_data_len, 4);
        WHOLE(NtpRawSeal);
        /* A table that is not of this packet. */
        ntp_raw_seal_128(r, 17, &walled.survey.seals, 1, 0);
        SAME(r->number, NTP_CANNOT_BE_MADE);
    }
    {
        struct {
            NtpSealTable seals;
            uint64_t wall;
        } table;
        memset(&table, 0xA5, sizeof table);
        REPLY(NtpRawSurvey);
        ntp_raw_survey_128(r, packet, sizeof packet, 0, 5, &table.seals);
        SAME(r->number, NTP_INCORRECT_LENGTH);
        SAME(r->field_offset, 20);
        SAME(r->seal_count, 1);
        SAME(table.seals.entries[1] | table.seals.entries[NTP_TABLE - 1], 0);
        SAME(table.wall, UNTOUCHED);
        ntp_raw_survey_128(r, packet, sizeof packet, 0, 6, &table.seals);
        SAME(r->number, NTP_INVALID_VERSION);
        SAME(r->field_offset + r->seal_count + table.seals.entries[0], 0);
        WHOLE(NtpRawSurvey);
    }
}

/* Results come in the order of their sealed fields, and no more than a table holds. */
static void results_in_order(void) {
    NtpSeal first, second;
    SAME(ntp_survey(&walled.survey, sample(NTP_V5, sample_5, sizeof sample_5)), NTP_ACCEPTED);
    ntp_results_of(&results, &walled.survey, ntp_room(NULL, 0));
    SAME(ntp_seal(&first, &walled.survey, 0) + ntp_seal(&second, &walled.survey, 1), NTP_ACCEPTED);
    SAME(ntp_add_opened(&results, &second, 0), NTP_CANNOT_BE_MADE);
    /* The first sealed field of the same bytes at another place. */
    uint8_t copy[sizeof sample_5];
    memcpy(copy, sample_5, sizeof copy);
    NtpSurvey other;
    NtpSeal foreign;
    SAME(ntp_survey(&other, sample(NTP_V5, copy, sizeof copy)), NTP_ACCEPTED);
    SAME(ntp_seal(&foreign, &other, 0), NTP_ACCEPTED);
    SAME(ntp_add_opened(&results, &foreign, 0), NTP_CANNOT_BE_MADE);
    SAME(ntp_add_failed(&results, &first), NTP_ACCEPTED);
    SAME(ntp_add_no_key(&results, &first), NTP_CANNOT_BE_MADE);
    SAME(ntp_add_opened_by_cookie(&results, &second, 0), NTP_ACCEPTED);
    SAME(results.verdicts[0], 1);
    SAME(results.verdicts[1], 3);
    for (size_t i = 2; i < NTP_TABLE; i++) {
        second.index = i;
        SAME(ntp_add_no_key(&results, &second), NTP_ACCEPTED);
    }
    second.index = NTP_TABLE;
    SAME(ntp_add_no_key(&results, &second), NTP_CANNOT_BE_MADE);
}

/* A field of each kind, V5; the sealed one has no key. */
static const uint8_t each_kind[] = {
    0x20, 0x01, 0x00, 0x04, 0x01, 0x04, 0x00, 0x05, 0xAA, 0x00, 0x00, 0x00, 0x02, 0x04, 0x00, 0x04,
    0x03, 0x04, 0x00, 0x04, 0xF5, 0xFF, 0x00, 0x04, 0xF5, 0x03, 0x00, 0x06, 0x01, 0x02, 0x00, 0x00,
    0xF5, 0x04, 0x00, 0x04, 0x04, 0x04, 0x00, 0x08, 0x00, 0x00, 0x00, 0x00};

static void untrusted_fields(void) {
    static const NtpKind kinds[] = {NTP_UNKNOWN,
                                    NTP_UNIQUE_IDENTIFIER,
                                    NTP_NTS_COOKIE,
                                    NTP_NTS_COOKIE_PLACEHOLDER,
                                    NTP_DRAFT_IDENTIFICATION,
                                    NTP_REFERENCE_ID_REQUEST,
                                    NTP_REFERENCE_ID_RESPONSE,
                                    NTP_INVALID_NTS_ENCRYPTED_FIELD};
    NtpUntrustedField field;
    NtpAuthenticatedField other;
    NtpEncryptedField inner;
    NtpRequest request;
    SAME(read_by(sample(NTP_V5, each_kind, sizeof each_kind), (Verdicts){1, 0, 0, 0, {0}}, 0), NTP_DECRYPT_ERROR);
    for (size_t i = 0; i < LEN(kinds); i++) {
        SAME(ntp_untrusted_field(&field, &read, i), NTP_ACCEPTED);
        SAME(field.kind, kinds[i]);
    }
    SAME(ntp_untrusted_field(&field, &read, LEN(kinds)), NTP_CANNOT_BE_MADE);
    SAME(ntp_authenticated_field(&other, &read, 0), NTP_CANNOT_BE_MADE);
    SAME(ntp_encrypted_field(&inner, &read, 0), NTP_CANNOT_BE_MADE);
    SAME(ntp_untrusted_field(&field, &read, 1), NTP_ACCEPTED);
    SAME(field.type_id, 0x0104);
    SAME(field.packet_offset, 4);
    SAME(field.wire_length, 8);
    SAME(field.message.len, 1);
    SAME(field.message.bytes == each_kind + 8, 1);
    SAME(ntp_untrusted_field(&field, &read, 5), NTP_ACCEPTED);
    SAME(ntp_request_read(&request, field.message), NTP_ACCEPTED);
    SAME(request.payload_len, 2);
    SAME(request.filter_offset, 0x0102);
}

/* A cookie, a sealed field that holds another, and a cookie after it: three trust classes. */
static void each_trust(void) {
    static const uint8_t packet[] = {0x02, 0x04, 0x00, 0x05, 0xAA, 0, 0,    0,    0x04, 0x04, 0x00, 0x08,
                                     0,    0,    0,    0,    0x02, 0x04, 0x00, 0x05, 0xCC, 0,    0,    0};
    static const uint8_t inside[] = {0x02, 0x04, 0x00, 0x05, 0xBB, 0, 0, 0};
    NtpAuthenticatedField first;
    NtpEncryptedField second;
    NtpUntrustedField third;
    memcpy(plaintexts, inside, sizeof inside);
    SAME(read_by(sample(NTP_V5, packet, sizeof packet), (Verdicts){1, 2, 0, 0, {0}}, sizeof inside), NTP_ACCEPTED);
    SAME(ntp_authenticated_field(&first, &read, 0), NTP_ACCEPTED);
    SAME(ntp_encrypted_field(&second, &read, 0), NTP_ACCEPTED);
    SAME(ntp_untrusted_field(&third, &read, 0), NTP_ACCEPTED);
    SAME(first.message.bytes[0], 0xAA);
    SAME(second.message.bytes[0], 0xBB);
    SAME(third.message.bytes[0], 0xCC);
    SAME(first.kind, NTP_NTS_COOKIE);
    SAME(second.kind, NTP_NTS_COOKIE);
    SAME(third.kind, NTP_NTS_COOKIE);
    SAME(first.type_id + second.type_id + third.type_id, 3 * 0x0204);
    SAME(first.wire_length + second.wire_length + third.wire_length, 24);
    SAME(first.packet_offset, 0);
    SAME(second.plaintexts_offset, 0);
    SAME(third.packet_offset, 16);
    SAME(ntp_authenticated_field(&first, &read, 1), NTP_CANNOT_BE_MADE);
    SAME(ntp_encrypted_field(&second, &read, 1), NTP_CANNOT_BE_MADE);
    SAME(ntp_untrusted_field(&third, &read, SIZE_MAX), NTP_CANNOT_BE_MADE);
    {
        REPLY(NtpRawUntrustedField);
        ntp_raw_untrusted_field_128(r, sizeof packet, 5, &walled.tables.outer, 1, 1, 0);
        SAME(r->field.number, NTP_ACCEPTED);
        SAME(r->field.kind, NTP_NTS_COOKIE);
        SAME(r->field.type_id, 0x0204);
        SAME(r->field.field_offset, 16);
        SAME(r->field.wire_length, 8);
        SAME(r->field.message_offset, 20);
        SAME(r->field.message_len, 1);
        WHOLE(NtpRawUntrustedField);
        /* Lies about the counts, the version and the packet. */
        ntp_raw_untrusted_field_128(r, sizeof packet, 5, &walled.tables.outer, SIZE_MAX, SIZE_MAX, SIZE_MAX - 1);
        SAME(r->field.number, NTP_CANNOT_BE_MADE);
        ntp_raw_untrusted_field_128(r, sizeof packet, 6, &walled.tables.outer, 1, 1, 0);
        SAME(r->field.number, NTP_INVALID_VERSION);
        ntp_raw_untrusted_field_128(r, 20, 5, &walled.tables.outer, 1, 1, 0);
        SAME(r->field.number, NTP_CANNOT_BE_MADE);
        SAME(r->field.message_offset + r->field.message_len + r->field.kind + r->field.type_id, 0);
    }
    {
        REPLY(NtpRawAuthenticatedField);
        ntp_raw_authenticated_field_128(r, sizeof packet, 5, &walled.tables.outer, 1, 0);
        SAME(r->field.message_offset, 4);
        WHOLE(NtpRawAuthenticatedField);
    }
    {
        REPLY(NtpRawEncryptedField);
        size_t start = 3;
        ntp_raw_encrypted_field_128(r, 11, &start, 1, 5, &walled.tables.inner, 1, 0);
        SAME(r->field.number, NTP_ACCEPTED);
        SAME(r->field.field_offset, 3);
        SAME(r->field.message_offset, 7);
        WHOLE(NtpRawEncryptedField);
    }
}

/* A form that clears only what was in use: the tables are those of the last read. */
static void used_tables(void) {
    SAME(read_by(sample(NTP_V5, each_kind, sizeof each_kind), (Verdicts){1, 0, 0, 0, {0}}, 0), NTP_DECRYPT_ERROR);
    NtpTables tables = walled.tables;
    SAME(ntp_survey(&walled.survey, sample(NTP_V5, sample_1, sizeof sample_1)), NTP_ACCEPTED);
    ntp_results_of(&results, &walled.survey, ntp_room(NULL, 0));
    SAME(ntp_read_into_used_tables(&read, &results, &tables), NTP_ACCEPTED);
    SAME(tables.outer.entries[1] | tables.outer.entries[7] | tables.outer.entries[8], 0);
    SAME(tables.used_outer, 1);
}

/* ---- Tables at their limits ---- */

/* The three tables, with words directly behind each that no call may write. */
static struct {
    NtpSealTable seals;
    uint64_t behind_seals[NTP_TABLE];
    NtpOuterTable outer;
    uint64_t behind_outer[NTP_TABLE];
    NtpInnerTable inner;
    uint64_t behind_inner[NTP_TABLE];
} lent;

/* Results, also for more sealed fields than a table has entries. */
static struct {
    size_t count;
    size_t starts[2 * NTP_TABLE];
    size_t lens[2 * NTP_TABLE];
    uint8_t verdicts[2 * NTP_TABLE];
    uint8_t plaintexts[2 * NTP_TABLE * 4];
} lent_results;

/* A packet made of fields that are repeated. */
static uint8_t run[4096];
static size_t run_len;

static const uint8_t item[4] = {0x20, 0x01, 0x00, 0x04};
/* Its nonce is the verdict of the toy cipher. */
static const uint8_t seal_field[12] = {0x04, 0x04, 0x00, 0x0C, 0x00, 0x01, 0x00, 0x00, NTP_OPENED};

/* Numbers of fields around the limit, and around that of interface 1, which was 64. */
static const size_t limits[] = {0, 1, 64, 65, NTP_TABLE - 1, NTP_TABLE, NTP_TABLE + 1, 2 * NTP_TABLE};

static void repeat(const uint8_t *field, size_t field_len, size_t times) {
    for (size_t i = 0; i < times; i++, run_len += field_len) memcpy(run + run_len, field, field_len);
}

static void run_of(const uint8_t *field, size_t field_len, size_t times) {
    run_len = 0;
    repeat(field, field_len, times);
}

/* In NTPv4 the last 24 bytes are the remainder: the fields before them are all read. */
static NtpPacket run_as(int version) {
    memset(run + run_len, 0, 24);
    return sample((NtpVersion)version, run, run_len + (version == NTP_V4 ? 24 : 0));
}

/* So many results, all of them with this verdict and a plaintext of `each_len` bytes, one after the other. */
static void lend_results(size_t count, uint8_t verdict, size_t each_len) {
    lent_results.count = count;
    for (size_t i = 0; i < count; i++) {
        lent_results.verdicts[i] = verdict;
        lent_results.starts[i] = i * each_len;
        lent_results.lens[i] = each_len;
    }
}

static void lend_junk(void) { memset(&lent, 0xA5, sizeof lent); }

static NtpRawSurvey survey_lent(NtpPacket packet) {
    NtpRawSurvey raw;
    ntp_raw_survey_128(&raw, packet.bytes, packet.len, 0, (uint8_t)packet.version, &lent.seals);
    return raw;
}

static NtpRawRead read_lent(NtpPacket packet, size_t used_outer, size_t used_inner) {
    NtpRawRead raw;
    const size_t count = lent_results.count;
    ntp_raw_read_128(&raw, packet.bytes, packet.len, 0, (uint8_t)packet.version, lent_results.verdicts, count,
                     lent_results.starts, count, lent_results.lens, count, lent_results.plaintexts,
                     sizeof lent_results.plaintexts, &lent.outer, used_outer, &lent.inner, used_inner);
    return raw;
}

/* A table holds so many entries, and blank ones after them; what is behind it is as it was. */
static void table_holds(const uint64_t *entries, const uint64_t *behind, size_t count) {
    size_t in_use = 0, blank = 0;
    for (size_t i = 0; i < count; i++) in_use += entries[i] != 0 && entries[i] != UNTOUCHED;
    for (size_t i = count; i < NTP_TABLE; i++) blank += entries[i] == 0;
    SAME(in_use, count);
    SAME(blank, NTP_TABLE - count);
    SAME(untouched(behind, NTP_TABLE * sizeof *behind), NTP_TABLE);
}

static void tables_hold(size_t outer_count, size_t inner_count) {
    table_holds(lent.outer.entries, lent.behind_outer, outer_count);
    table_holds(lent.inner.entries, lent.behind_inner, inner_count);
}

/* A refusal is a number and a packet offset, and leaves both tables blank. */
static void refused_at(NtpRawRead raw, NtpNumber number, size_t field_offset) {
    SAME(raw.number, number);
    SAME(raw.field_offset, field_offset);
    SAME(raw.authenticated_count + raw.untrusted_count + raw.encrypted_count + raw.remainder_len, 0);
    tables_hold(0, 0);
}

static void survey_at_its_limit(int version, size_t count) {
    const size_t found = count < NTP_TABLE ? count : NTP_TABLE;
    NtpRawSeal raw;
    run_of(seal_field, sizeof seal_field, count);
    const NtpPacket packet = run_as(version);
    lend_junk();
    const NtpRawSurvey surveyed = survey_lent(packet);
    SAME(surveyed.number, count > NTP_TABLE ? NTP_TOO_MANY_FIELDS : NTP_ACCEPTED);
    SAME(surveyed.field_offset, count > NTP_TABLE ? NTP_TABLE * sizeof seal_field : 0);
    SAME(surveyed.seal_count, found);
    table_holds(lent.seals.entries, lent.behind_seals, found);
    for (size_t i = 0; i < found; i++) {
        ntp_raw_seal_128(&raw, packet.len, &lent.seals, found, i);
        SAME(raw.number, NTP_ACCEPTED);
        SAME(raw.associated_data_len, i * sizeof seal_field);
    }
    /* A word behind the table is no entry, whatever the count. */
    lent.behind_seals[0] = lent.seals.entries[0];
    ntp_raw_seal_128(&raw, packet.len, &lent.seals, found, found);
    SAME(raw.number, NTP_CANNOT_BE_MADE);
    ntp_raw_seal_128(&raw, packet.len, &lent.seals, SIZE_MAX, NTP_TABLE);
    SAME(raw.number, NTP_CANNOT_BE_MADE);
}

/* Plain fields; then sealed fields that were not opened, which are items too. */
static void outer_table_at_its_limit(int version, size_t count) {
    const size_t remainder_len = version == NTP_V4 ? 24 : 0;
    for (int is_sealed = 0; is_sealed <= 1; is_sealed++) {
        const size_t field_len = is_sealed ? sizeof seal_field : sizeof item;
        NtpRawUntrustedField raw;
        run_of(is_sealed ? seal_field : item, field_len, count);
        lend_results(is_sealed ? count : 0, 1, 0);
        const NtpPacket packet = run_as(version);
        lend_junk();
        const NtpRawRead told = read_lent(packet, NTP_TABLE, NTP_TABLE);
        if (count > NTP_TABLE) {
            refused_at(told, NTP_TOO_MANY_FIELDS, NTP_TABLE * field_len);
            continue;
        }
        SAME(told.number, is_sealed && count != 0 ? NTP_DECRYPT_ERROR : NTP_ACCEPTED);
        SAME(told.untrusted_count, count);
        SAME(told.authenticated_count + told.encrypted_count + told.field_offset, 0);
        SAME(told.remainder_len, remainder_len);
        tables_hold(count, 0);
        for (size_t i = 0; i < count; i++) {
            ntp_raw_untrusted_field_128(&raw, packet.len, (uint8_t)version, &lent.outer, 0, count, i);
            SAME(raw.field.number, NTP_ACCEPTED);
            SAME(raw.field.field_offset, i * field_len);
        }
        lent.behind_outer[0] = lent.outer.entries[0];
        ntp_raw_untrusted_field_128(&raw, packet.len, (uint8_t)version, &lent.outer, 0, count, count);
        SAME(raw.field.number, NTP_CANNOT_BE_MADE);
        ntp_raw_untrusted_field_128(&raw, packet.len, (uint8_t)version, &lent.outer, 0, SIZE_MAX, NTP_TABLE);
        SAME(raw.field.number, NTP_CANNOT_BE_MADE);
    }
}

/* The inner fields of a sealed field after an item; a refusal names that sealed field. */
static void inner_table_at_its_limit(int version, size_t count) {
    NtpRawEncryptedField raw;
    run_of(item, sizeof item, count);
    memcpy(lent_results.plaintexts, run, run_len);
    lend_results(1, 2, run_len);
    run_of(item, sizeof item, 1);
    repeat(seal_field, sizeof seal_field, 1);
    lend_junk();
    const NtpRawRead told = read_lent(run_as(version), NTP_TABLE, NTP_TABLE);
    if (count > NTP_TABLE) {
        refused_at(told, NTP_TOO_MANY_FIELDS, sizeof item);
        return;
    }
    SAME(told.number + told.untrusted_count, NTP_ACCEPTED);
    SAME(told.authenticated_count, 1);
    SAME(told.encrypted_count, count);
    tables_hold(1, count);
    const size_t len = sizeof lent_results.plaintexts, *starts = lent_results.starts;
    for (size_t i = 0; i < count; i++) {
        ntp_raw_encrypted_field_128(&raw, len, starts, 1, (uint8_t)version, &lent.inner, count, i);
        SAME(raw.field.number, NTP_ACCEPTED);
        SAME(raw.field.field_offset, i * sizeof item);
    }
    lent.behind_inner[0] = lent.inner.entries[0];
    ntp_raw_encrypted_field_128(&raw, len, starts, 1, (uint8_t)version, &lent.inner, count, count);
    SAME(raw.field.number, NTP_CANNOT_BE_MADE);
    ntp_raw_encrypted_field_128(&raw, len, starts, 1, (uint8_t)version, &lent.inner, SIZE_MAX, NTP_TABLE);
    SAME(raw.field.number, NTP_CANNOT_BE_MADE);
}

static void tables_at_their_limits(void) {
    for (int version = NTP_V4; version <= NTP_V5; version++)
        for (size_t i = 0; i < LEN(limits); i++) {
            survey_at_its_limit(version, limits[i]);
            outer_table_at_its_limit(version, limits[i]);
            inner_table_at_its_limit(version, limits[i]);
        }
}

/* A field for which a table has no room, and its refusal: any other fault of the field comes before 8. */
typedef struct Surplus {
    uint8_t field[12];
    uint8_t field_len;
    uint8_t result_count;
    uint8_t verdict;
    uint8_t number;
} Surplus;

static void surplus_items(void) {
    static const Surplus all[] = {
        {{0x20, 0x01, 0x00, 0x04}, 4, 0, 0, NTP_TOO_MANY_FIELDS},
        {{0x20, 0x01, 0x00, 0x03}, 4, 0, 0, NTP_INCORRECT_LENGTH},
        {{0x03, 0x04, 0x00, 0x08, 0, 0, 0, 1}, 8, 0, 0, NTP_MALFORMED_COOKIE_PLACEHOLDER},
        {{0x04, 0x04, 0x00, 0x08, 0, 1, 0, 0}, 8, 1, 2, NTP_INCORRECT_LENGTH},
        {{0x04, 0x04, 0x00, 0x08}, 8, 0, 0, NTP_NO_RESULT},
        {{0x04, 0x04, 0x00, 0x08}, 8, 1, 4, NTP_MALFORMED_RESULT},
        {{0x04, 0x04, 0x00, 0x08}, 8, 1, 0, NTP_TOO_MANY_FIELDS},
        {{0x04, 0x04, 0x00, 0x08}, 8, 1, 1, NTP_TOO_MANY_FIELDS}};
    for (int version = NTP_V4; version <= NTP_V5; version++) {
        for (size_t i = 0; i < LEN(all); i++) {
            run_of(item, sizeof item, NTP_TABLE);
            repeat(all[i].field, all[i].field_len, 1);
            lend_results(all[i].result_count, all[i].verdict, 0);
            lend_junk();
            refused_at(read_lent(run_as(version), NTP_TABLE, NTP_TABLE), (NtpNumber)all[i].number,
                       NTP_TABLE * sizeof item);
        }
        /* A sealed field that was opened is no item. */
        run_of(item, sizeof item, NTP_TABLE);
        repeat(seal_field, sizeof seal_field, 1);
        lend_results(1, 2, 0);
        lend_junk();
        const NtpRawRead told = read_lent(run_as(version), NTP_TABLE, NTP_TABLE);
        SAME(told.number, NTP_ACCEPTED);
        SAME(told.authenticated_count, NTP_TABLE);
        tables_hold(NTP_TABLE, 0);
    }
}

static void surplus_inner_fields_and_seals(void) {
    static const Surplus all[] = {{{0x20, 0x01, 0x00, 0x04}, 4, 0, 0, NTP_TOO_MANY_FIELDS},
                                  {{0x20, 0x01, 0x00, 0x08}, 4, 0, 0, NTP_INCORRECT_LENGTH},
                                  {{0x03, 0x04, 0x00, 0x08, 1}, 8, 0, 0, NTP_MALFORMED_COOKIE_PLACEHOLDER},
                                  {{0x04, 0x04, 0x00, 0x08}, 8, 0, 0, NTP_MALFORMED_NTS_EXTENSION_FIELDS}};
    for (int version = NTP_V4; version <= NTP_V5; version++) {
        for (size_t i = 0; i < LEN(all); i++) {
            run_of(item, sizeof item, NTP_TABLE);
            repeat(all[i].field, all[i].field_len, 1);
            memcpy(lent_results.plaintexts, run, run_len);
            lend_results(1, 2, run_len);
            run_of(seal_field, sizeof seal_field, 1);
            lend_junk();
            refused_at(read_lent(run_as(version), NTP_TABLE, NTP_TABLE), (NtpNumber)all[i].number, 0);
        }
        /* The survey looks at lengths before it looks for room. */
        run_of(seal_field, sizeof seal_field, NTP_TABLE + 1);
        run[run_len - sizeof seal_field + 5] = 5;
        lend_junk();
        const NtpRawSurvey surveyed = survey_lent(run_as(version));
        SAME(surveyed.number, NTP_INCORRECT_LENGTH);
        SAME(surveyed.field_offset, NTP_TABLE * sizeof seal_field);
        table_holds(lent.seals.entries, lent.behind_seals, NTP_TABLE);
    }
}

/* An item and a sealed field with one inner field, NTP_TABLE times: no table has room for more. */
static NtpPacket full_packet(int version) {
    run_of(item, sizeof item, NTP_TABLE);
    memcpy(lent_results.plaintexts, run, run_len);
    lend_results(NTP_TABLE, 2, sizeof item);
    run_len = 0;
    for (size_t i = 0; i < NTP_TABLE; i++) {
        repeat(item, sizeof item, 1);
        repeat(seal_field, sizeof seal_field, 1);
    }
    return run_as(version);
}

static void all_tables_full(void) {
    for (int version = NTP_V4; version <= NTP_V5; version++) {
        const NtpPacket packet = full_packet(version);
        lend_junk();
        SAME(survey_lent(packet).number, NTP_ACCEPTED);
        table_holds(lent.seals.entries, lent.behind_seals, NTP_TABLE);
        NtpRawRead told = read_lent(packet, NTP_TABLE, NTP_TABLE);
        SAME(told.number + told.untrusted_count, NTP_ACCEPTED);
        SAME(told.authenticated_count, NTP_TABLE);
        SAME(told.encrypted_count, NTP_TABLE);
        tables_hold(NTP_TABLE, NTP_TABLE);
        /* One sealed field more is read if its plaintext is empty, although the survey does not name it. */
        repeat(seal_field, sizeof seal_field, 1);
        const NtpPacket more = run_as(version);
        SAME(survey_lent(more).number, NTP_TOO_MANY_FIELDS);
        lent_results.count = NTP_TABLE + 1;
        lent_results.verdicts[NTP_TABLE] = 2;
        lent_results.lens[NTP_TABLE] = 0;
        SAME(read_lent(more, NTP_TABLE, NTP_TABLE).number, NTP_ACCEPTED);
        tables_hold(NTP_TABLE, NTP_TABLE);
        /* With one inner field there is no room for that. */
        lent_results.lens[NTP_TABLE] = sizeof item;
        memcpy(lent_results.plaintexts, item, sizeof item);
        lent_results.starts[NTP_TABLE] = 0;
        refused_at(read_lent(more, NTP_TABLE, NTP_TABLE), NTP_TOO_MANY_FIELDS, run_len - sizeof seal_field);
    }
}

/* Full tables, used again for each number of items: what the read before left is blank. A number in use past the end
 * of the tables stands for all of their entries. */
static void full_tables_used_again(void) {
    static const size_t in_use[] = {NTP_TABLE, NTP_TABLE + 1, 2 * NTP_TABLE, SIZE_MAX};
    for (size_t i = 0; i < LEN(limits); i++)
        for (size_t k = 0; k < LEN(in_use); k++) {
            const size_t count = limits[i];
            lend_junk();
            SAME(read_lent(full_packet(NTP_V5), in_use[k], in_use[k]).number, NTP_ACCEPTED);
            tables_hold(NTP_TABLE, NTP_TABLE);
            run_of(item, sizeof item, count);
            const NtpRawRead told = read_lent(run_as(NTP_V5), in_use[k], in_use[k]);
            SAME(told.number, count <= NTP_TABLE ? NTP_ACCEPTED : NTP_TOO_MANY_FIELDS);
            SAME(told.untrusted_count, count <= NTP_TABLE ? count : 0);
            tables_hold(told.untrusted_count, 0);
            /* Only what this read left is in use now. */
            run_of(item, sizeof item, 1);
            SAME(read_lent(run_as(NTP_V5), told.untrusted_count, 0).number, NTP_ACCEPTED);
            tables_hold(1, 0);
        }
}

/* ---- Reading in one call ---- */

/* A toy cipher for the one call: the ciphertext is the plaintext, and the last byte of the nonce is the verdict.
 * It looks for the cookie before the sealed field. */
typedef struct Toy {
    size_t calls, cookies, seen;
} Toy;

static NtpVerdict open_toy(void *key, const NtpSeal *seal, const NtpContext *context, NtpRoom room,
                           size_t *plaintext_len) {
    Toy *toy = key;
    NtpUntrustedField item;
    toy->calls++;
    for (size_t i = 0; ntp_context_field(&item, context, i) == NTP_ACCEPTED; i++) {
        toy->seen++;
        toy->cookies += item.kind == NTP_NTS_COOKIE;
    }
    if (seal->ciphertext.len > room.len) return NTP_FAILED;
    memcpy(room.bytes, seal->ciphertext.bytes, seal->ciphertext.len);
    *plaintext_len = seal->ciphertext.len;
    return (NtpVerdict)seal->nonce.bytes[seal->nonce.len - 1];
}

static void one_call(void) {
    /* A cookie; a sealed field with a verdict; a cookie; a sealed field that is opened, with an identifier. */
    uint8_t packet[] = {0x02, 0x04, 0x00, 0x05, 0xAA, 0, 0, 0, 0x04, 0x04, 0x00, 0x0C, 0, 1, 0, 0, 1, 0, 0, 0,
                        0x02, 0x04, 0x00, 0x05, 0xBB, 0, 0, 0, 0x04, 0x04, 0x00, 0x14, 0, 1, 0, 8, 2, 0, 0, 0,
                        0x01, 0x04, 0x00, 0x05, 0xCC, 0, 0, 0};
    NtpWorkspace work;
    NtpEncryptedField inner;
    Toy toy = {0, 0, 0};
    const NtpOpener opener = {open_toy, &toy};
    const NtpPacket all = sample(NTP_V5, packet, sizeof packet);
    SAME(ntp_deserialize(&read, &work, all, opener, ROOM(plaintexts)), NTP_DECRYPT_ERROR);
    SAME(toy.calls, 2);
    /* One cookie before the first; the second has that one, the marker and a second cookie before it. */
    SAME(toy.seen, 1 + 3);
    SAME(toy.cookies, 1 + 2);
    SAME(read.authenticated_count, 3);
    SAME(read.encrypted_count, 1);
    SAME(ntp_encrypted_field(&inner, &read, 0), NTP_ACCEPTED);
    SAME(inner.message.bytes[0], 0xCC);
    packet[16] = NTP_OPENED;
    toy = (Toy){0, 0, 0};
    SAME(ntp_deserialize(&read, &work, all, opener, ROOM(plaintexts)), NTP_ACCEPTED);
    SAME(toy.seen, 1 + 1);
    SAME(toy.cookies, 1 + 1);
    SAME(read.authenticated_count, 2);
    packet[16] = 4;
    SAME(ntp_deserialize(&read, &work, all, opener, ROOM(plaintexts)), NTP_MALFORMED_RESULT);
    SAME(read.field_offset, 8);
    packet[16] = NTP_OPENED;
    SAME(ntp_deserialize(&read, &work, all, opener, ntp_room(NULL, 0)), NTP_DECRYPT_ERROR);
    /* A fault after a sealed field: no context, and the fault is the answer. */
    packet[23] = 0x03;
    toy = (Toy){0, 0, 0};
    SAME(ntp_deserialize(&read, &work, all, opener, ROOM(plaintexts)), NTP_INCORRECT_LENGTH);
    SAME(read.field_offset, 20);
    SAME(toy.calls, 1);
    SAME(toy.seen, 0);
}

/* Reads the run in one call: the number, and what its cipher was asked for and saw. */
static NtpNumber run_in_one_call(Toy *toy) {
    static NtpWorkspace work;
    *toy = (Toy){0, 0, 0};
    return ntp_deserialize(&read, &work, run_as(NTP_V5), (NtpOpener){open_toy, toy}, ROOM(plaintexts));
}

static void one_call_at_its_limits(void) {
    Toy toy;
    /* A sealed field after items: a table holds them, and an entry for the sealed field. */
    for (size_t count = NTP_TABLE - 2; count < NTP_TABLE; count++) {
        run_of(item, sizeof item, count);
        repeat(seal_field, sizeof seal_field, 1);
        SAME(run_in_one_call(&toy), NTP_ACCEPTED);
        SAME(toy.calls, 1);
        SAME(toy.seen, count);
        SAME(read.authenticated_count, count);
    }
    /* One item more: there is no context, and the packet is read. */
    run_of(item, sizeof item, NTP_TABLE);
    repeat(seal_field, sizeof seal_field, 1);
    SAME(run_in_one_call(&toy), NTP_ACCEPTED);
    SAME(toy.calls, 1);
    SAME(toy.seen, 0);
    SAME(read.authenticated_count, NTP_TABLE);
    run_of(item, sizeof item, NTP_TABLE + 1);
    SAME(run_in_one_call(&toy), NTP_TOO_MANY_FIELDS);
    SAME(read.field_offset, NTP_TABLE * sizeof item);
    /* As many sealed fields as a survey lists; one more has no result. */
    run_of(seal_field, sizeof seal_field, NTP_TABLE);
    SAME(run_in_one_call(&toy), NTP_ACCEPTED);
    SAME(toy.calls, NTP_TABLE);
    run_of(seal_field, sizeof seal_field, NTP_TABLE + 1);
    SAME(run_in_one_call(&toy), NTP_NO_RESULT);
    SAME(toy.calls, NTP_TABLE);
    SAME(read.field_offset, NTP_TABLE * sizeof seal_field);
}

/* ---- A cut that a gateway proposes ---- */

/* What is asked: a packet and a list, as the gateway's table and as two lists; and copies of them. */
#define MOST_CUTS ((size_t)16400)
static uint8_t cut_bytes[65536], asked_bytes[65536];
static NtpCut cuts[MOST_CUTS], asked_cuts[MOST_CUTS];
static size_t field_offsets[MOST_CUTS], wire_lengths[MOST_CUTS];
static size_t cut_count;

static void propose(size_t field_offset, size_t wire_length) {
    cuts[cut_count++] = (NtpCut){.field_offset = field_offset, .wire_length = wire_length};
}

/* The fields of a packet by the layout rules, in words of this test, up to the end or a fault; whether there is none. */
static bool own_cut(NtpPacket packet, NtpCut *own, size_t *count) {
    const size_t cutoff = packet.version == 4 ? 24 : 0;
    size_t at = packet.header_size;
    *count = 0;
    if ((packet.version != 4 && packet.version != 5) || packet.len > 65535 || at > packet.len) return false;
    while (packet.len - at > cutoff) {
        if (packet.len - at < 4) return false;
        const size_t said = (size_t)packet.bytes[at + 2] * 256 + packet.bytes[at + 3];
        const size_t taken = (said + 3) / 4 * 4;
        if (said < 4 || taken > packet.len - at || (packet.version == 4 && said % 4 != 0)) return false;
        own[*count].field_offset = at;
        own[*count].wire_length = taken;
        ++*count;
        at += taken;
    }
    return true;
}

static int is_own_cut(NtpPacket packet) {
    static NtpCut own[MOST_CUTS];
    size_t count;
    return own_cut(packet, own, &count) && count == cut_count && memcmp(own, cuts, count * sizeof *own) == 0;
}

/* What the library says of the proposed list: the same in both forms, and it writes nothing. */
static bool is_yes(NtpPacket packet) {
    memcpy(asked_bytes, packet.bytes, packet.len);
    memcpy(asked_cuts, cuts, cut_count * sizeof *cuts);
    for (size_t i = 0; i < cut_count; i++) {
        field_offsets[i] = cuts[i].field_offset;
        wire_lengths[i] = cuts[i].wire_length;
    }
    const bool by_table = ntp_judge_cut(packet, cuts, cut_count).is_cut;
    SAME(ntp_judge_cut_lists(packet, field_offsets, cut_count, wire_lengths, cut_count).is_cut, by_table);
    size_t changed = 0;
    for (size_t i = 0; i < cut_count; i++)
        changed += field_offsets[i] != asked_cuts[i].field_offset || wire_lengths[i] != asked_cuts[i].wire_length;
    SAME(changed, 0);
    SAME(memcmp(packet.bytes, asked_bytes, packet.len), 0);
    SAME(memcmp(cuts, asked_cuts, cut_count * sizeof *cuts), 0);
    return by_table;
}

static void judged(NtpPacket packet, int yes) {
    SAME(is_own_cut(packet), yes);
    SAME(is_yes(packet), yes);
}

/* A header, so many fields of one length, and bytes that are no field. Its cut is proposed. */
static NtpPacket packet_of(int version, size_t header_size, size_t field_len, size_t count, size_t rest_len) {
    size_t at = header_size;
    memset(cut_bytes, 0xFF, sizeof cut_bytes);
    cut_count = 0;
    for (size_t i = 0; i < count; i++, at += field_len) {
        const uint8_t start[] = {0x20, 0x01, (uint8_t)(field_len >> 8), (uint8_t)field_len};
        memcpy(cut_bytes + at, start, sizeof start);
        propose(at, field_len);
    }
    return ntp_packet_with_header((NtpVersion)version, header_size, cut_bytes, at + rest_len);
}

/* The library looks up both numbers of an entry where this struct has them. */
static void layout_of_a_cut(void) {
    SAME(sizeof(NtpCut), 16);
    SAME(_Alignof(NtpCut), 8);
    SAME(offsetof(NtpCut, field_offset), 0);
    SAME(offsetof(NtpCut, wire_length), 8);
}

/* A number that is otherwise, also by more than its low bits: unsigned sums wrap, so the last is one less. */
static void with_another_number(NtpPacket packet, size_t *number) {
    static const size_t added[] = {1, 4, 0x10000, (size_t)1 << 32, (size_t)1 << 63, SIZE_MAX - 3, SIZE_MAX};
    for (size_t i = 0; i < LEN(added); i++) {
        *number += added[i];
        judged(packet, 0);
        *number -= added[i];
    }
}

/* Numbers of every `step`th pair, from the first on and from the last back. */
static void with_other_numbers(NtpPacket packet, size_t step) {
    for (size_t i = 0; i < cut_count; i += step) {
        with_another_number(packet, &cuts[i].field_offset);
        with_another_number(packet, &cuts[i].wire_length);
        with_another_number(packet, &cuts[cut_count - 1 - i].field_offset);
        with_another_number(packet, &cuts[cut_count - 1 - i].wire_length);
    }
}

/* Pairs too many, after all that fit. */
static void with_more_pairs(NtpPacket packet) {
    const size_t count = cut_count;
    const NtpCut last = cuts[count == 0 ? 0 : count - 1];
    const size_t end = count == 0 ? packet.header_size : last.field_offset + last.wire_length;
    const size_t lengths[] = {0, 4, packet.len - end, SIZE_MAX};
    for (size_t i = 0; i < LEN(lengths); i++, cut_count = count) {
        propose(end, lengths[i]);
        judged(packet, 0);
    }
    for (size_t at = end; at < end + 12; at += 4) propose(at, 4);
    judged(packet, 0);
    cut_count = count;
}

/* The last pair missing, the first, and all of them. */
static void with_fewer_pairs(NtpPacket packet) {
    const size_t count = cut_count;
    const NtpCut first = cuts[0];
    if (count == 0) return;
    cut_count = count - 1;
    judged(packet, 0);
    memmove(cuts, cuts + 1, cut_count * sizeof *cuts);
    judged(packet, 0);
    memmove(cuts + 1, cuts, cut_count * sizeof *cuts);
    cuts[0] = first;
    cut_count = 0;
    judged(packet, 0);
    cut_count = count;
}

/* Of two lists, one that is longer. What both have is the cut. */
static void with_unequal_lists(NtpPacket packet) {
    const size_t count = cut_count;
    propose(packet.len, 4);
    SAME(is_yes(packet), 0);
    cut_count = count;
    for (size_t less = 0; less < count + 1; less += count / 3 + 1) {
        SAME(ntp_judge_cut_lists(packet, field_offsets, count + 1, wire_lengths, less).is_cut, 0);
        SAME(ntp_judge_cut_lists(packet, field_offsets, less, wire_lengths, count + 1).is_cut, 0);
    }
    SAME(ntp_judge_cut_lists(packet, field_offsets, count + 1, wire_lengths, count).is_cut, 0);
    SAME(ntp_judge_cut_lists(packet, field_offsets, count, wire_lengths, count + 1).is_cut, 0);
    SAME(ntp_judge_cut_lists(packet, field_offsets, count, wire_lengths, count).is_cut, 1);
}

/* A packet whose cut is proposed, and lists that differ from it. */
static void one_list_alone(NtpPacket packet, size_t step) {
    judged(packet, 1);
    with_other_numbers(packet, step);
    with_more_pairs(packet);
    with_fewer_pairs(packet);
    with_unequal_lists(packet);
    judged(packet, 1);
}

/* Numbers of fields up to the most that a packet has, which is 16,383 in NTPv5 and 16,378 in NTPv4. */
static void cuts_of_each_count(void) {
    static const size_t counts[] = {0, 1, 2, NTP_TABLE - 1, NTP_TABLE, NTP_TABLE + 1};
    static const size_t header_sizes[] = {0, 1, 2, 3, 47, 48};
    for (size_t i = 0; i < LEN(counts); i++)
        for (size_t k = 0; k < LEN(header_sizes); k++) {
            one_list_alone(packet_of(NTP_V4, header_sizes[k], 4, counts[i], 24), 1);
            one_list_alone(packet_of(NTP_V5, header_sizes[k], 4, counts[i], 0), 1);
        }
    one_list_alone(packet_of(NTP_V4, 0, 4, 16378, 23), 1024);
    one_list_alone(packet_of(NTP_V5, 0, 4, 16383, 0), 1024);
    one_list_alone(packet_of(NTP_V5, 0, 65532, 1, 0), 1);
}

/* In NTPv4 up to 24 bytes are the remainder, after fields and without any; in NTPv5 none. */
static void cuts_before_a_remainder(void) {
    for (size_t rest_len = 0; rest_len <= 24; rest_len++)
        for (size_t header_size = 0; header_size <= 48; header_size += 48) {
            judged(packet_of(NTP_V4, header_size, 4, 0, rest_len), 1);
            judged(packet_of(NTP_V5, header_size, 4, 0, rest_len), rest_len == 0);
            judged(packet_of(NTP_V5, header_size, 28, 1, rest_len), rest_len == 0);
            const NtpPacket packet = packet_of(NTP_V4, header_size, 28, 1, rest_len);
            judged(packet, 1);
            propose(header_size + 28, rest_len);
            judged(packet, 0);
        }
}

/* A remainder of NTPv4 that looks like fields is not cut. */
static void cuts_into_a_remainder(void) {
    for (size_t in_remainder = 0; in_remainder <= 6; in_remainder++) {
        const NtpPacket packet = packet_of(NTP_V4, 48, 4, 1 + in_remainder, 24 - 4 * in_remainder);
        judged(packet, in_remainder == 0);
        cut_count = 1;
        judged(packet, 1);
    }
}

/* From 25 bytes on a field begins there: one of 4 bytes, one that takes all, or none that fits. */
static void cuts_of_more_than_a_remainder(void) {
    for (size_t len = 25; len <= 28; len++)
        for (size_t header_size = 0; header_size <= 48; header_size += 48) {
            NtpPacket packet = packet_of(NTP_V4, header_size, 4, 1, len - 4);
            judged(packet, 1);
            cut_count = 0;
            judged(packet, 0);
            propose(header_size, len);
            judged(packet, 0);
            packet = packet_of(NTP_V4, header_size, 28, 1, 0);
            packet.len = header_size + len;
            judged(packet, len == 28);
            cut_count = 0;
            judged(packet, 0);
            judged(packet_of(NTP_V4, header_size, 4, 0, len), 0);
        }
}

/* Every length that a field may state, of one or two bytes, in a packet that has room for it; and in one that is a byte
 * shorter. A length that is no multiple of four is one of NTPv5 alone. */
static void cuts_of_each_length(void) {
    for (size_t said = 0; said <= 65535; said = said < 600 ? said + 1 : said + 499)
        for (int version = NTP_V4; version <= NTP_V5; version++) {
            const size_t taken = (said + 3) / 4 * 4, rest_len = version == NTP_V4 ? 24 : 0;
            if (taken + rest_len > 65535) continue;
            NtpPacket packet = packet_of(version, 0, said, 1, 0);
            packet.len = taken + rest_len;
            cuts[0].wire_length = taken;
            judged(packet, said >= 4 && (version == NTP_V5 || said % 4 == 0));
            packet.len = taken == 0 ? 0 : taken - 1;
            judged(packet, 0);
        }
}

/* A field whose padding is any bytes, and one more. Its wire length counts the padding, its length does not. */
static void cuts_with_padding(void) {
    static const uint8_t padded[] = {0x20, 0x01, 0x00, 0x05, 1, 0xFF, 0xFF, 0xFF, 0x20, 0x01, 0x00, 0x04};
    const NtpPacket packet = sample(NTP_V5, padded, sizeof padded);
    cut_count = 0;
    propose(0, 8);
    propose(8, 4);
    judged(packet, 1);
    cuts[0].wire_length = 5;
    judged(packet, 0);
    cuts[1].field_offset = 5;
    judged(packet, 0);
}

/* Numbers whose sums would wrap: each pair ends where the next begins, and the last at the packet's end. */
static void cuts_that_wrap(void) {
    const NtpPacket packet = packet_of(NTP_V5, 0, 4, 2, 0);
    judged(packet, 1);
    cut_count = 0;
    propose(0, SIZE_MAX - 3);
    propose(SIZE_MAX - 3, 8);
    propose(4, 4);
    judged(packet, 0);
    cut_count = 0;
    propose(0, 4);
    propose(4, (size_t)1 << 63);
    propose(((size_t)1 << 63) + 4, ((size_t)1 << 63) + 4);
    judged(packet, 0);
}

/* Refusals 6 and 7 are a no, whatever the list. A header as long as the packet leaves nothing to cut. */
static void cuts_past_the_limits(void) {
    for (int version = NTP_V4; version <= NTP_V5; version++) {
        NtpPacket packet = packet_of(version, 0, 28, 2, 0);
        for (size_t count = 0; count <= 2; count++) {
            cut_count = count;
            packet.header_size = packet.len;
            judged(packet, count == 0);
            packet.header_size = packet.len + 1;
            judged(packet, 0);
            packet.header_size = SIZE_MAX;
            judged(packet, 0);
        }
        /* The list fits, but the packet is a byte too long. */
        packet = version == NTP_V4 ? packet_of(version, 0, 4, 16378, 24) : packet_of(version, 0, 4, 16384, 0);
        SAME(packet.len, 65536);
        judged(packet, 0);
        packet.header_size = packet.len;
        cut_count = 0;
        judged(packet, 0);
    }
}

/* No list is the cut by another version, also of one that has 4 or 5 in its low byte. */
static void cuts_of_other_versions(void) {
    static const size_t others[] = {0, 3, 6, 255, 0x104, 0x105, ((size_t)1 << 32) + 4, SIZE_MAX};
    NtpPacket packet = packet_of(NTP_V5, 0, 28, 1, 0);
    for (size_t i = 0; i < LEN(others); i++) {
        packet.version = others[i];
        cut_count = 1;
        judged(packet, 0);
        cut_count = 0;
        judged(packet, 0);
    }
    for (int version = 0; version <= 255; version++) {
        const int is_read = version == 4 || version == 5;
        const size_t start = 0, taken = 28;
        SAME(ntp_raw_is_cut(cut_bytes, 28, 0, (uint8_t)version, &start, 1, &taken, 1), is_read);
        SAME(ntp_raw_is_cut_table(cut_bytes, 28, 0, (uint8_t)version, cuts, 1), is_read);
    }
}

/* NULL is an empty list. */
static void cuts_of_nothing(void) {
    const size_t none = 0;
    for (int version = NTP_V4; version <= NTP_V5; version++) {
        const NtpPacket nothing = sample((NtpVersion)version, NULL, 0);
        SAME(ntp_judge_cut(nothing, NULL, 0).is_cut, 1);
        SAME(ntp_judge_cut_lists(nothing, NULL, 0, NULL, 0).is_cut, 1);
        SAME(ntp_judge_cut_lists(nothing, &none, 1, NULL, 0).is_cut, 0);
        SAME(ntp_judge_cut_lists(nothing, NULL, 0, &none, 1).is_cut, 0);
        SAME(ntp_judge_cut_lists(nothing, &none, 1, &none, 1).is_cut, 0);
        const NtpPacket one_field = packet_of(version, 48, 28, 1, 0);
        SAME(ntp_judge_cut(one_field, NULL, 0).is_cut, 0);
        SAME(ntp_judge_cut_lists(one_field, NULL, 0, NULL, 0).is_cut, 0);
        const NtpPacket header_alone = packet_of(version, 48, 4, 0, 0);
        SAME(ntp_judge_cut(header_alone, NULL, 0).is_cut, 1);
        SAME(ntp_judge_cut_lists(header_alone, NULL, 0, NULL, 0).is_cut, 1);
    }
}

/* Packets that the survey or reading refuses for another reason than the layout have a cut. */
static void cut_although_refused(const uint8_t *field, size_t field_len, size_t times, NtpNumber surveyed,
                                 NtpNumber was_read) {
    for (int version = NTP_V4; version <= NTP_V5; version++) {
        run_of(field, field_len, times);
        const NtpPacket packet = run_as(version);
        lend_results(0, 0, 0);
        SAME(survey_lent(packet).number, surveyed);
        SAME(read_lent(packet, NTP_TABLE, NTP_TABLE).number, was_read);
        cut_count = 0;
        for (size_t i = 0; i < times; i++) propose(i * field_len, field_len);
        judged(packet, 1);
        cuts[times - 1].wire_length += 4;
        judged(packet, 0);
    }
}

static void cuts_of_refused_packets(void) {
    static const uint8_t sealed[] = {0x04, 0x04, 0x00, 0x08, 0x00, 0x05, 0x00, 0x05};
    static const uint8_t placeholder[] = {0x03, 0x04, 0x00, 0x08, 0, 0, 0, 1};
    cut_although_refused(sealed, sizeof sealed, 1, NTP_INCORRECT_LENGTH, NTP_INCORRECT_LENGTH);
    cut_although_refused(seal_field, sizeof seal_field, NTP_TABLE, NTP_ACCEPTED, NTP_NO_RESULT);
    cut_although_refused(seal_field, sizeof seal_field, NTP_TABLE + 1, NTP_TOO_MANY_FIELDS, NTP_NO_RESULT);
    cut_although_refused(item, sizeof item, NTP_TABLE + 1, NTP_ACCEPTED, NTP_TOO_MANY_FIELDS);
    cut_although_refused(placeholder, sizeof placeholder, 1, NTP_ACCEPTED, NTP_MALFORMED_COOKIE_PLACEHOLDER);
}

/* Frames alone decide: a field of any type is a field. */
static void cuts_of_each_type(void) {
    NtpPacket packet = packet_of(NTP_V5, 0, 4, 1, 0);
    for (unsigned type = 0; type <= 0xFFFF; type++) {
        cut_bytes[0] = (uint8_t)(type >> 8);
        cut_bytes[1] = (uint8_t)type;
        SAME(ntp_judge_cut(packet, cuts, 1).is_cut, 1);
    }
}

/* Lists whose lengths are 2 in 16 bits, and whose first two pairs are the cut. */
#define MORE_PAIRS ((size_t)65536 + 2)
static void cuts_past_16_bits(void) {
    static NtpCut table[MORE_PAIRS];
    static size_t offsets[MORE_PAIRS], lengths[MORE_PAIRS];
    const NtpPacket packet = packet_of(NTP_V5, 48, 28, 2, 0);
    for (size_t i = 0; i < MORE_PAIRS; i++) {
        offsets[i] = table[i].field_offset = 48 + 28 * i;
        lengths[i] = table[i].wire_length = 28;
    }
    SAME(ntp_judge_cut(packet, table, 2).is_cut, 1);
    SAME(ntp_judge_cut(packet, table, MORE_PAIRS).is_cut, 0);
    SAME(ntp_judge_cut_lists(packet, offsets, MORE_PAIRS, lengths, MORE_PAIRS).is_cut, 0);
    SAME(ntp_judge_cut_lists(packet, offsets, 2, lengths, MORE_PAIRS).is_cut, 0);
    SAME(ntp_judge_cut_lists(packet, offsets, MORE_PAIRS, lengths, 2).is_cut, 0);
}

/* So many bytes that end where the next ones can't be read. Pages have at most 65,536 bytes. */
static void *before_a_wall(size_t len) {
    const size_t page = 65536;
    uint8_t *two = mmap(NULL, 2 * page, PROT_READ | PROT_WRITE, MAP_PRIVATE | MAP_ANONYMOUS, -1, 0);
    SAME((void *)two != MAP_FAILED && mprotect(two + page, page, PROT_NONE) == 0, 1);
    return two + page - len;
}

/* No pair past the first wrong one is looked at, however many there are said to be: the test would end there. */
static void cuts_before_a_wall(void) {
    const NtpPacket packet = packet_of(NTP_V5, 48, 28, 2, 0);
    for (size_t there = 1; there <= 3; there++) {
        NtpCut *table = before_a_wall(there * sizeof *table);
        size_t *offsets = before_a_wall(there * sizeof *offsets), *lengths = before_a_wall(there * sizeof *lengths);
        for (size_t i = 0; i < there; i++) {
            offsets[i] = table[i].field_offset = 48 + 28 * i;
            lengths[i] = table[i].wire_length = i + 1 == there ? 24 : 28;
        }
        SAME(ntp_judge_cut(packet, table, (size_t)1 << 40).is_cut, 0);
        SAME(ntp_judge_cut_lists(packet, offsets, (size_t)1 << 40, lengths, (size_t)1 << 40).is_cut, 0);
    }
}

/* Numbers that look random, and are the same in each run. */
static size_t draw(size_t below) {
    static uint64_t state = 7;
    state = state * 6364136223846793005 + 1442695040888963407;
    return (size_t)(state >> 33) % below;
}

/* Fields of drawn lengths, and drawn bytes after them. */
static NtpPacket drawn_packet(void) {
    const int version = NTP_V4 + (int)draw(2);
    const size_t header_size = draw(50), rest_len = draw(version == NTP_V4 ? 27 : 2);
    size_t at = header_size;
    for (size_t i = 0; i < sizeof cut_bytes / 64; i++) cut_bytes[i] = (uint8_t)draw(256);
    for (size_t count = draw(6); count > 0; count--) {
        const size_t said = draw(8) == 0 ? draw(40) : version == NTP_V4 ? 4 * (1 + draw(12)) : 4 + draw(40);
        cut_bytes[at + 2] = 0;
        cut_bytes[at + 3] = (uint8_t)said;
        at += (said + 3) / 4 * 4;
    }
    return ntp_packet_with_header((NtpVersion)version, header_size, cut_bytes, at + rest_len);
}

/* The cut of a packet, or the fields before its fault, with nothing or something changed. */
static void draw_cuts(NtpPacket packet) {
    (void)own_cut(packet, cuts, &cut_count);
    const size_t i = draw(cut_count + 1), added[] = {1, SIZE_MAX, 4, SIZE_MAX - 3, (size_t)1 << 32, draw(100)};
    switch (draw(6)) {
    case 0: propose(draw(packet.len + 1), draw(40)); break;
    case 1: cut_count = i; break;
    case 2: cuts[i].field_offset += added[draw(LEN(added))]; break;
    case 3: cuts[i].wire_length += added[draw(LEN(added))]; break;
    default: break;
    }
}

/* Drawn packets and lists: the library says yes of those that are the test's own cut, and of no others. */
static void drawn_cuts(void) {
    size_t yes_count = 0;
    for (size_t i = 0; i < 20000; i++) {
        const NtpPacket packet = drawn_packet();
        draw_cuts(packet);
        const int yes = is_own_cut(packet);
        judged(packet, yes);
        yes_count += (size_t)yes;
        const size_t counts[] = {draw(cut_count + 1), draw(cut_count + 1)};
        const bool by_lists = ntp_judge_cut_lists(packet, field_offsets, counts[0], wire_lengths, counts[1]).is_cut;
        cut_count = counts[0];
        SAME(by_lists, counts[0] == counts[1] && is_own_cut(packet));
    }
    SAME(yes_count > 5000 && yes_count < 15000, 1);
}

/* ---- Writing ---- */

/* Fields to write, all of them with the data "\xAA" if they have any. */
static const uint8_t data[] = {0xAA};
static NtpFields fields;
static uint8_t copied[64], out[256], inside[64];
static NtpStageOne stage;
static size_t packet_len;

static NtpList fresh(NtpList (*list)(NtpFields *)) {
    ntp_fields_with(&fields, ROOM(copied));
    return list(&fields);
}

static NtpOutput at_start(NtpVersion version) { return ntp_output_with_header(version, 0, ROOM(out)); }

static NtpNumber first_stage(NtpVersion version) {
    memset(out, 0xEE, sizeof out);
    memset(inside, 0xEE, sizeof inside);
    return ntp_stage_one(&stage, &fields, at_start(version), ROOM(inside));
}

static const uint8_t sample_7[16] = {0x01, 0x04, 0x00, 0x10, 0xAA};

static void stages(void) {
    static const uint8_t sealed[] = {0x04, 0x04, 0x00, 0x10, 0x00, 0x01, 0x00, 0x02,
                                     0x77, 0x00, 0x00, 0x00, 0x88, 0x99, 0x00, 0x00};
    const NtpNonce nonce = ntp_nonce((const uint8_t *)"\x77", 1);
    const NtpCiphertext ciphertext = ntp_ciphertext((const uint8_t *)"\x88\x99", 2);
    /* The encrypted field is added first, and makes room for the authenticated one. */
    SAME(ntp_add_nts_cookie(fresh(ntp_encrypted_list), BYTES(data)), NTP_ACCEPTED);
    SAME(ntp_add_unique_identifier(ntp_authenticated_list(&fields), BYTES(data)), NTP_ACCEPTED);
    SAME(ntp_add_unknown(ntp_untrusted_list(&fields), 0x2001, BYTES(data)), NTP_ACCEPTED);
    SAME(first_stage(NTP_V4), NTP_ACCEPTED);
    SAME(stage.owes_seal, 1);
    SAME(stage.associated_data.bytes == out, 1);
    SAME(stage.associated_data.len, 16);
    SAME(stage.plaintext.bytes == inside, 1);
    SAME(stage.plaintext.len, 8);
    same_bytes("sample 7", out, sample_7, 16);
    same_bytes("the plaintext", inside, (const uint8_t *)"\x02\x04\x00\x08\xAA\0\0\0\xEE", 9);
    SAME(out[16], 0xEE);
    SAME(first_stage(NTP_V5), NTP_ACCEPTED);
    SAME(ntp_stage_two(&packet_len, &stage, nonce, ciphertext), NTP_ACCEPTED);
    SAME(packet_len, 16 + 16 + 8);
    same_bytes("the sealed field", out + 16, sealed, sizeof sealed);
    same_bytes("the untrusted field", out + 32, (const uint8_t *)"\x20\x01\x00\x05\xAA\0\0\0\xEE", 9);
    SAME(ntp_stage_one_without_cipher(&stage, &fields, at_start(NTP_V5)), NTP_NO_CIPHER);
    SAME(stage.plaintext.len + stage.associated_data.len + stage.owes_seal, 0);
    /* Stage two can't go on after a refusal. */
    SAME(ntp_stage_two(&packet_len, &stage, nonce, ciphertext), NTP_NO_CIPHER);
    SAME(packet_len, 0);
    SAME(first_stage((NtpVersion)6), NTP_INVALID_VERSION);
    SAME(out[0], 0xEE);
    /* With untrusted fields alone no seal is owed, and nonce and ciphertext are not read. */
    SAME(ntp_add_unknown(fresh(ntp_untrusted_list), 0x2001, BYTES(data)), NTP_ACCEPTED);
    SAME(ntp_stage_one_without_cipher(&stage, &fields, at_start(NTP_V5)), NTP_ACCEPTED);
    SAME(stage.owes_seal, 0);
    SAME(ntp_stage_two(&packet_len, &stage, nonce, ciphertext), NTP_ACCEPTED);
    SAME(packet_len, 8);
    {
        uint8_t kind = NTP_UNIQUE_IDENTIFIER;
        uint16_t number = 0;
        size_t start = 0, len = 1;
        REPLY(NtpRawStageOne);
        ntp_raw_stage_one(r, out, sizeof out, 3, inside, sizeof inside, &kind, 1, &number, 1, &start, 1, &len, 1, data,
                          1, 4, 1, 1, 0);
        SAME(r->number, NTP_ACCEPTED);
        SAME(r->output_len, 16);
        SAME(r->plaintext_len, 0);
        SAME(r->associated_data_len, 19);
        SAME(r->owes_seal, 1);
        WHOLE(NtpRawStageOne);
    }
}

/* The toy cipher the other way: the ciphertext is the plaintext, the nonce the verdict "opened". */
static int seal_toy(void *key, NtpBytes associated_data, NtpBytes plaintext, NtpRoom nonce, size_t *nonce_len,
                    NtpRoom ciphertext, size_t *ciphertext_len) {
    *(size_t *)key = associated_data.len;
    if (ciphertext.len < plaintext.len || nonce.len < 1) return 0;
    nonce.bytes[0] = NTP_OPENED;
    *nonce_len = 1;
    memcpy(ciphertext.bytes, plaintext.bytes, plaintext.len);
    *ciphertext_len = plaintext.len;
    return 1;
}

static void one_call_of_writing(void) {
    uint8_t nonce[4], ciphertext[32];
    size_t sealed_over = 0;
    const NtpSealer sealer = {seal_toy, &sealed_over};
    const NtpBetween between = {ROOM(inside), ROOM(nonce), ROOM(ciphertext)};
    const NtpBetween narrow = {ROOM(inside), ROOM(nonce), {ciphertext, 1}};
    NtpWorkspace work;
    Toy toy = {0, 0, 0};
    SAME(ntp_add_unique_identifier(fresh(ntp_authenticated_list), BYTES(data)), NTP_ACCEPTED);
    SAME(ntp_add_nts_cookie(ntp_encrypted_list(&fields), BYTES(data)), NTP_ACCEPTED);
    memset(out, 0, sizeof out);
    SAME(ntp_serialize(&packet_len, &fields, ntp_output_v5(ROOM(out)), sealer, between), NTP_ACCEPTED);
    SAME(sealed_over, 48 + 16);
    SAME(packet_len, 48 + 16 + 8 + 4 + 8);
    SAME(ntp_deserialize(&read, &work, ntp_packet_v5(out, packet_len), (NtpOpener){open_toy, &toy}, ROOM(plaintexts)),
         NTP_ACCEPTED);
    SAME(read.authenticated_count + read.encrypted_count, 2);
    SAME(ntp_serialize(&packet_len, &fields, ntp_output_v5(ROOM(out)), sealer, narrow), NTP_NO_CIPHER);
    SAME(packet_len, 0);
}

/* An output counts as no longer than 65,535 bytes, for its end too: 16, after 17 and before any field. */
static void past_the_end(void) {
    static uint8_t large[70000];
    const NtpOutput output = ntp_output_with_header(NTP_V5, 66000, ROOM(large));
    ntp_fields_with(&fields, ROOM(copied));
    SAME(ntp_stage_one(&stage, &fields, output, ROOM(inside)), NTP_NO_ROOM);
    /* A marker would be 18. */
    SAME(ntp_add_field(ntp_authenticated_list(&fields), NTP_INVALID_NTS_ENCRYPTED_FIELD, 0, NULL, 0, 0), NTP_ACCEPTED);
    SAME(ntp_stage_one(&stage, &fields, output, ROOM(inside)), NTP_NO_ROOM);
    SAME(ntp_stage_one_without_cipher(&stage, &fields, output), NTP_NO_CIPHER);
    ntp_fields_with(&fields, ROOM(copied));
    SAME(ntp_stage_one(&stage, &fields, ntp_output_with_header(NTP_V5, 65535, ROOM(large)), ROOM(inside)),
         NTP_ACCEPTED);
    stage.associated_data.len = 66000;
    SAME(ntp_stage_two(&packet_len, &stage, ntp_nonce(NULL, 0), ntp_ciphertext(NULL, 0)), NTP_NO_ROOM);
    SAME(packet_len, 0);
}

/* The type that each kind is written with, and that a marker and a sealed field can't be. */
static size_t written_type(NtpNumber added) {
    SAME(added, NTP_ACCEPTED);
    SAME(first_stage(NTP_V5), NTP_ACCEPTED);
    return (size_t)(out[0] << 8 | out[1]);
}

static void kinds_to_write(void) {
    const NtpRequest request = {.payload_len = 4, .filter_offset = 0};
    SAME(written_type(ntp_add_unknown(fresh(ntp_authenticated_list), 0x2001, BYTES(data))), 0x2001);
    SAME(written_type(ntp_add_unique_identifier(fresh(ntp_authenticated_list), BYTES(data))), 0x0104);
    SAME(written_type(ntp_add_nts_cookie(fresh(ntp_authenticated_list), BYTES(data))), 0x0204);
    SAME(written_type(ntp_add_nts_cookie_placeholder(fresh(ntp_authenticated_list), 8)), 0x0304);
    SAME(written_type(ntp_add_draft_identification(fresh(ntp_authenticated_list), ntp_bytes(NULL, 0))), 0xF5FF);
    SAME(written_type(ntp_add_padding(fresh(ntp_authenticated_list), 4)), 0xF501);
    SAME(written_type(ntp_add_reference_id_request(fresh(ntp_authenticated_list), request)), 0xF503);
    SAME(written_type(ntp_add_reference_id_response(fresh(ntp_authenticated_list), BYTES(data))), 0xF504);
    SAME(ntp_add_draft_identification(fresh(ntp_authenticated_list), BYTES(data)), NTP_ACCEPTED);
    SAME(first_stage(NTP_V5), NTP_CANNOT_BE_MADE);
    for (int kind = NTP_INVALID_NTS_ENCRYPTED_FIELD; kind <= NTP_NTS_ENCRYPTED_FIELD; kind++) {
        SAME(ntp_add_field(fresh(ntp_authenticated_list), (NtpKind)kind, 0, NULL, 0, 0), NTP_ACCEPTED);
        SAME(first_stage(NTP_V5), NTP_CANNOT_BE_MADE);
    }
    SAME(ntp_add_padding(fresh(ntp_authenticated_list), 70000), NTP_ACCEPTED);
    SAME(first_stage(NTP_V5), NTP_FIELD_TOO_LONG);
}

/* A list holds as many fields as a table, and as many bytes as its buffer. */
static void full_lists(void) {
    static uint8_t more[sizeof copied + 1];
    const size_t half = NTP_TABLE / 2;
    NtpList list = fresh(ntp_encrypted_list);
    SAME(ntp_add_nts_cookie(list, BYTES(more)), NTP_NO_ROOM);
    SAME(ntp_add_nts_cookie(list, ntp_bytes(more, sizeof copied)), NTP_ACCEPTED);
    SAME(ntp_add_nts_cookie(ntp_encrypted_list(&fields), BYTES(data)), NTP_NO_ROOM);
    for (size_t i = 1; i < NTP_TABLE; i++)
        SAME(ntp_add_padding(i % 2 ? ntp_encrypted_list(&fields) : ntp_authenticated_list(&fields), 4 + i), NTP_ACCEPTED);
    SAME(ntp_add_padding(ntp_authenticated_list(&fields), 4), NTP_NO_ROOM);
    SAME(ntp_add_padding(ntp_encrypted_list(&fields), 4), NTP_NO_ROOM);
    SAME(fields.authenticated_count, half - 1);
    SAME(fields.encrypted_count, half + 1);
    /* Each list keeps its order. */
    SAME(fields.sealed.lens[0], 4 + 2);
    SAME(fields.sealed.lens[half - 2], 4 + NTP_TABLE - 2);
    SAME(fields.sealed.lens[half - 1], sizeof copied);
    SAME(fields.sealed.lens[half], 4 + 1);
    SAME(fields.sealed.lens[NTP_TABLE - 1], 4 + NTP_TABLE - 1);
}

/* Full lists, written and read back: they fill both tables. */
static void full_lists_written(void) {
    static uint8_t packet[2048], plaintext[4 * NTP_TABLE], ciphertext[4 * NTP_TABLE], opened[4 * NTP_TABLE];
    static NtpWorkspace work;
    uint8_t nonce[4];
    size_t sealed_over = 0;
    Toy toy = {0, 0, 0};
    ntp_fields_with(&fields, ntp_room(NULL, 0));
    for (size_t i = 0; i < NTP_TABLE; i++) {
        SAME(ntp_add_padding(ntp_encrypted_list(&fields), 4), NTP_ACCEPTED);
        SAME(ntp_add_padding(ntp_untrusted_list(&fields), 4), NTP_ACCEPTED);
    }
    SAME(ntp_add_padding(ntp_encrypted_list(&fields), 4), NTP_NO_ROOM);
    SAME(ntp_add_padding(ntp_authenticated_list(&fields), 4), NTP_NO_ROOM);
    SAME(ntp_add_padding(ntp_untrusted_list(&fields), 4), NTP_NO_ROOM);
    const NtpBetween between = {ROOM(plaintext), ROOM(nonce), ROOM(ciphertext)};
    SAME(ntp_serialize(&packet_len, &fields, ntp_output_v5(ROOM(packet)), (NtpSealer){seal_toy, &sealed_over}, between),
         NTP_ACCEPTED);
    SAME(packet_len, 48 + 8 + 4 + 4 * NTP_TABLE + 4 * NTP_TABLE);
    SAME(ntp_deserialize(&read, &work, ntp_packet_v5(packet, packet_len), (NtpOpener){open_toy, &toy}, ROOM(opened)),
         NTP_ACCEPTED);
    SAME(read.encrypted_count, NTP_TABLE);
    SAME(read.untrusted_count, NTP_TABLE);
    SAME(read.authenticated_count, 0);
}

/* The library itself writes longer lists: here of empty fields, which take 16 bytes each. */
static void longer_list_written(void) {
    static const uint8_t kinds[NTP_TABLE + 1];
    static const uint16_t numbers[NTP_TABLE + 1];
    static const size_t zeros[NTP_TABLE + 1];
    static uint8_t packet[16 * (NTP_TABLE + 1)];
    NtpRawStageOne raw;
    ntp_raw_stage_one(&raw, packet, sizeof packet, 0, inside, sizeof inside, kinds, LEN(kinds), numbers, LEN(numbers),
                      zeros, LEN(zeros), zeros, LEN(zeros), data, 0, NTP_V5, 1, LEN(kinds), 0);
    SAME(raw.number, NTP_ACCEPTED);
    SAME(raw.output_len, sizeof packet);
}

static const uint8_t mac_bytes[25] = {0x01, 0x02, 0x03, 0x04, 0xA0, 0xA1, 0xA2, 0xA3, 0xA4, 0xA5, 0xA6, 0xA7, 0xA8,
                                      0xA9, 0xAA, 0xAB, 0xAC, 0xAD, 0xAE, 0xAF, 0xB0, 0xB1, 0xB2, 0xB3, 0xB4};

/* Every length, read: 4, 20 and 24 bytes are a MAC. */
static void macs_read(void) {
    NtpMac mac;
    for (size_t len = 0; len <= sizeof mac_bytes; len++) {
        int is_mac = len == 4 || len == 20 || len == 24;
        SAME(ntp_mac_read(&mac, ntp_bytes(mac_bytes, len)), is_mac ? NTP_ACCEPTED : NTP_INCORRECT_LENGTH);
        SAME(mac.keyid, is_mac ? 0x01020304 : 0);
        SAME(mac.body.len, is_mac ? len - 4 : 0);
        SAME(mac.body.bytes == mac_bytes + (is_mac ? 4 : len), 1);
    }
    SAME(ntp_mac_read(&mac, ntp_bytes(NULL, 0)), NTP_INCORRECT_LENGTH);
    {
        REPLY(NtpRawMac);
        ntp_raw_mac_read(r, mac_bytes, 20);
        SAME(r->number, NTP_ACCEPTED);
        SAME(r->keyid, 0x01020304);
        SAME(r->body_len, 16);
        WHOLE(NtpRawMac);
    }
}

/* Every length of a body, written with room and without: 0, 16 and 20 bytes make a MAC, and only for these is room
 * looked at. */
static void macs_written(void) {
    size_t len;
    for (size_t body_len = 0; body_len <= 21; body_len++) {
        int is_body = body_len == 0 || body_len == 16 || body_len == 20;
        NtpBytes body = ntp_bytes(mac_bytes + 4, body_len);
        memset(out, 0xEE, sizeof out);
        SAME(ntp_mac_write(&len, 0x01020304, body, ntp_room(out, 4 + body_len), 1),
             is_body ? NTP_NO_ROOM : NTP_CANNOT_BE_MADE);
        SAME(len, 0);
        for (size_t at = 0; at < 4 + body_len; at++) SAME(out[at], 0xEE);
        SAME(ntp_mac_write(&len, 0x01020304, body, ntp_room(out, 6 + body_len), 1),
             is_body ? NTP_ACCEPTED : NTP_CANNOT_BE_MADE);
        SAME(len, is_body ? 4 + body_len : 0);
        for (size_t at = 0; at < 6 + body_len; at++)
            SAME(out[at], is_body && at >= 1 && at < 5 + body_len ? mac_bytes[at - 1] : 0xEE);
    }
    SAME(ntp_mac_write(&len, 1, ntp_bytes(NULL, 0), ntp_room(out, 3), 0), NTP_NO_ROOM);
    SAME(ntp_mac_write(&len, 1, ntp_bytes(NULL, 0), ntp_room(out, 4), 0), NTP_ACCEPTED);
}

/* A trailer of seven bytes is no MAC. The host has its bytes in the remainder. */
static void trailer_of_seven_bytes(void) {
    static const uint8_t packet[48 + 7] = {[0] = 0x24, [48] = 0x01, [54] = 0x77};
    NtpMac mac;
    SAME(read_by(ntp_packet_v4(packet, sizeof packet), none, 0), NTP_ACCEPTED);
    SAME(read.remainder.len, 7);
    SAME(read.remainder.bytes == packet + 48, 1);
    SAME(ntp_mac_read(&mac, read.remainder), NTP_INCORRECT_LENGTH);
    SAME(read.remainder.bytes[6], 0x77);
}

/* Every part has bytes of its own. */
static const uint8_t header[48] = {
    0xAC, 0x02, 0x0A, 0xE9, 0x10, 0x00, 0x00, 0x01, 0x08, 0x00, 0x00, 0x02, 0x03, 0x07, 0x00, 0x05,
    0x11, 0x12, 0x13, 0x14, 0x15, 0x16, 0x17, 0x18, 0x21, 0x22, 0x23, 0x24, 0x25, 0x26, 0x27, 0x28,
    0x31, 0x32, 0x33, 0x34, 0x35, 0x36, 0x37, 0x38, 0x41, 0x42, 0x43, 0x44, 0x45, 0x46, 0x47, 0x48};

static void header_read(void) {
    REPLY(NtpHeaderRead);
    SAME(ntp_header_read(r, BYTES(header)), NTP_ACCEPTED);
    SAME(r->number + r->version_seen, 0);
    SAME(r->header.leap, NTP_LEAP_59);
    SAME(r->header.mode, NTP_MODE_RESPONSE);
    SAME(r->header.stratum, 2);
    SAME(r->header.poll.byte, 10);
    SAME(ntp_poll_log2_seconds(r->header.poll), 10);
    SAME(r->header.precision_log2_seconds == -23, 1);
    SAME(r->header.timescale, NTP_TIMESCALE_LEAP_SMEARED_UTC);
    SAME(r->header.era, 7);
    SAME(r->header.flags, NTP_FLAG_SYNCHRONIZED + NTP_FLAG_AUTHNAK);
    SAME(r->header.root_delay.units_of_2pow_minus_28_s, 0x10000001);
    SAME(r->header.root_dispersion.units_of_2pow_minus_28_s, 0x08000002);
    SAME(r->header.server_cookie.value, 0x1112131415161718);
    SAME(r->header.client_cookie.value, 0x2122232425262728);
    SAME(r->header.receive_timestamp.units_of_2pow_minus_32_s_in_era, 0x3132333435363738);
    SAME(r->header.transmit_timestamp.units_of_2pow_minus_32_s_in_era, 0x4142434445464748);
    WHOLE(NtpHeaderRead);
    for (int i = 0; i < 256; i++) {
        const NtpPollInterval poll = {.byte = (uint8_t)i};
        SAME(ntp_poll_log2_seconds(poll) == (i < 128 ? i : i - 256), 1);
    }
}

/* What the header is refused with once the byte at `at` is `byte`. */
static NtpNumber with_byte(size_t at, uint8_t byte) {
    uint8_t bytes[48];
    NtpHeaderRead r;
    memcpy(bytes, header, sizeof bytes);
    bytes[at] = byte;
    return ntp_header_read(&r, BYTES(bytes));
}

static void refusals_of_a_header(void) {
    NtpHeaderRead r;
    uint8_t four[48] = {0x24};
    SAME(ntp_header_read(&r, ntp_bytes(header, 47)), NTP_INCORRECT_LENGTH);
    SAME(ntp_header_read(&r, ntp_bytes((const uint8_t *)"\x24", 1)), NTP_INCORRECT_LENGTH);
    SAME(ntp_header_read(&r, ntp_bytes(NULL, 0)), NTP_INCORRECT_LENGTH);
    SAME(with_byte(0, 0xA4), NTP_INVALID_VERSION);
    SAME(with_byte(0, 0xAD), NTP_MALFORMED_MODE);
    SAME(with_byte(12, 4), NTP_MALFORMED_TIMESCALE);
    SAME(with_byte(14, 1), NTP_INVALID_FLAGS);
    SAME(with_byte(15, 8), NTP_INVALID_FLAGS);
    SAME(ntp_header_read(&r, BYTES(four)), NTP_INVALID_VERSION);
    SAME(r.version_seen, 4);
}

/* A header whose flag is not set is unsynchronized, whatever its bits say; each leap, mode, timescale and
 * flag has its number. */
static void coded_numbers(void) {
    NtpHeaderRead r;
    for (uint8_t leap = NTP_LEAP_NO_WARNING; leap <= NTP_LEAP_UNSYNCHRONIZED; leap++) {
        uint8_t bytes[48] = {0};
        uint8_t bits = leap < NTP_LEAP_UNKNOWN ? leap : 3;
        bytes[0] = (uint8_t)(bits << 6 | 5 << 3 | NTP_MODE_REQUEST);
        bytes[15] = leap == NTP_LEAP_UNSYNCHRONIZED ? 0 : NTP_FLAG_SYNCHRONIZED;
        bytes[12] = leap % 4;
        SAME(ntp_header_read(&r, BYTES(bytes)), NTP_ACCEPTED);
        SAME(r.header.leap, leap);
        SAME(r.header.mode, NTP_MODE_REQUEST);
        SAME(r.header.timescale, leap % 4);
        memset(out, 0xEE, sizeof out);
        SAME(ntp_header_write(&r.header, ntp_room(out, 48), 0), NTP_ACCEPTED);
        same_bytes("a header that was read, written again", out, bytes, sizeof bytes);
    }
}

static NtpNumber written(const NtpHeader *h) { return ntp_header_write(h, ROOM(out), 0); }

static void header_written(void) {
    NtpHeaderRead r;
    SAME(ntp_header_read(&r, BYTES(header)), NTP_ACCEPTED);
    memset(out, 0xEE, sizeof out);
    SAME(ntp_header_write(&r.header, ntp_room(out, 50), 1), NTP_ACCEPTED);
    same_bytes("the header", out + 1, header, sizeof header);
    SAME(out[0], 0xEE);
    SAME(out[49], 0xEE);
    SAME(ntp_header_write(&r.header, ntp_room(out, 50), 3), NTP_NO_ROOM);
    NtpHeader h = r.header;
    h.leap = NTP_LEAP_UNSYNCHRONIZED + 1;
    SAME(written(&h), NTP_CANNOT_BE_MADE);
    h = r.header;
    h.mode = 5;
    SAME(written(&h), NTP_CANNOT_BE_MADE);
    h = r.header;
    h.timescale = NTP_TIMESCALE_LEAP_SMEARED_UTC + 1;
    SAME(written(&h), NTP_CANNOT_BE_MADE);
    h = r.header;
    h.flags = 8;
    SAME(written(&h), NTP_CANNOT_BE_MADE);
}

static void time_reading(void) {
    REPLY(NtpReading);
    const NtpTime32 one = ntp_time32_from_units_of_2pow_minus_28_s(0x10000000);
    const NtpTime32 half = {.units_of_2pow_minus_28_s = 0x08000000};
    const NtpTime32 least = {.units_of_2pow_minus_28_s = 1}, most = {.units_of_2pow_minus_28_s = 0xFFFFFFFF};
    const NtpTime32 none = {.units_of_2pow_minus_28_s = 0};
    NtpHeader h;
    memset(&h, 0, sizeof h);
    h.root_delay = one;
    h.root_dispersion = half;
    *r = ntp_reading(&h);
    SAME(r->delay_seconds == 1.0, 1);
    SAME(r->dispersion_seconds == 0.5, 1);
    SAME(r->distance_seconds == 1.0, 1);
    h.root_delay = half;
    h.root_dispersion = one;
    *r = ntp_reading(&h);
    SAME(r->delay_seconds == 0.5, 1);
    SAME(r->dispersion_seconds == 1.0, 1);
    SAME(r->distance_seconds == 1.25, 1);
    ntp_raw_reading(r, least, none);
    SAME(r->delay_seconds == 1.0 / 268435456, 1);
    SAME(r->dispersion_seconds == 0.0, 1);
    SAME(r->distance_seconds == 1.0 / 536870912, 1);
    ntp_raw_reading(r, least, most);
    SAME(r->delay_seconds == 1.0 / 268435456, 1);
    SAME(r->dispersion_seconds == 4294967295.0 / 268435456, 1);
    SAME(r->distance_seconds == 8589934591.0 / 536870912, 1);
    WHOLE(NtpReading);
}

/* A header of NTPv4 in which every part has bytes of its own, and a byte after it. */
static const uint8_t older[49] = {
    0xA4, 0x02, 0x0A, 0xE9, 0x00, 0x01, 0x00, 0x03, 0x00, 0x00, 0x80, 0x05, 0x47, 0x50, 0x53, 0x01,
    0x11, 0x12, 0x13, 0x14, 0x15, 0x16, 0x17, 0x18, 0x21, 0x22, 0x23, 0x24, 0x25, 0x26, 0x27, 0x28,
    0x31, 0x32, 0x33, 0x34, 0x35, 0x36, 0x37, 0x38, 0x41, 0x42, 0x43, 0x44, 0x45, 0x46, 0x47, 0x48, 0xFF};

static void header_v3v4_read(void) {
    REPLY(NtpHeaderV3V4Read);
    SAME(ntp_header_v3v4_read(r, ntp_bytes(older, 48)), NTP_ACCEPTED);
    SAME(r->number + r->version_seen, 0);
    SAME(r->header.leap.bits, NTP_LEAP_BITS_59);
    SAME(r->header.version, 4);
    SAME(r->header.mode, NTP_ASSOCIATION_MODE_SERVER);
    SAME(r->header.stratum, 2);
    SAME(ntp_poll_log2_seconds(r->header.poll), 10);
    SAME(r->header.precision_log2_seconds == -23, 1);
    SAME(r->header.root_delay.units_of_2pow_minus_16_s, 0x00010003);
    SAME(r->header.root_dispersion.units_of_2pow_minus_16_s, 0x00008005);
    SAME(r->header.reference_id.value, 0x47505301);
    SAME(r->header.reference_timestamp.units_of_2pow_minus_32_s_in_era, 0x1112131415161718);
    SAME(r->header.origin_timestamp.units_of_2pow_minus_32_s_in_era, 0x2122232425262728);
    SAME(r->header.receive_timestamp.units_of_2pow_minus_32_s_in_era, 0x3132333435363738);
    SAME(r->header.transmit_timestamp.units_of_2pow_minus_32_s_in_era, 0x4142434445464748);
    WHOLE(NtpHeaderV3V4Read);
}

/* -Wpadded is silent on this struct, so its gaps are held here. */
static void gaps_of_header_v3v4(void) {
    SAME(offsetof(NtpHeaderV3V4, leap), 0);
    SAME(offsetof(NtpHeaderV3V4, version), 1);
    SAME(offsetof(NtpHeaderV3V4, mode), 2);
    SAME(offsetof(NtpHeaderV3V4, stratum), 3);
    SAME(offsetof(NtpHeaderV3V4, poll), 4);
    SAME(offsetof(NtpHeaderV3V4, precision_log2_seconds), 5);
    SAME(offsetof(NtpHeaderV3V4, root_delay), 6 + 2);
    SAME(offsetof(NtpHeaderV3V4, root_dispersion), 12);
    SAME(offsetof(NtpHeaderV3V4, reference_id), 16);
    SAME(offsetof(NtpHeaderV3V4, reference_timestamp), 20 + 4);
    SAME(offsetof(NtpHeaderV3V4, origin_timestamp), 32);
    SAME(offsetof(NtpHeaderV3V4, receive_timestamp), 40);
    SAME(offsetof(NtpHeaderV3V4, transmit_timestamp), 48);
    SAME(sizeof(NtpHeaderV3V4), 56);
    SAME(sizeof(NtpHeaderV3V4Read), 16 + 56);
}

/* Whether all parts of a header are 0. */
static int is_blank(const NtpHeaderV3V4 *h) {
    return (h->leap.bits | h->version | h->mode | h->stratum | h->poll.byte | h->precision_log2_seconds) == 0 &&
           (h->root_delay.units_of_2pow_minus_16_s | h->root_dispersion.units_of_2pow_minus_16_s |
            h->reference_id.value) == 0 &&
           (h->reference_timestamp.units_of_2pow_minus_32_s_in_era |
            h->origin_timestamp.units_of_2pow_minus_32_s_in_era |
            h->receive_timestamp.units_of_2pow_minus_32_s_in_era |
            h->transmit_timestamp.units_of_2pow_minus_32_s_in_era) == 0;
}

/* Too few bytes are refused before the version is looked at; what follows the 48 is not looked at. */
static void refusals_of_header_v3v4(void) {
    REPLY(NtpHeaderV3V4Read);
    uint8_t bytes[48] = {0};
    for (size_t len = 0; len < 48; len++) {
        memset(r, 0xA5, sizeof *r);
        SAME(ntp_header_v3v4_read(r, ntp_bytes(older, len)), NTP_INCORRECT_LENGTH);
        SAME(r->version_seen, 0);
        SAME(is_blank(&r->header), 1);
    }
    SAME(ntp_header_v3v4_read(r, ntp_bytes(NULL, 0)), NTP_INCORRECT_LENGTH);
    SAME(ntp_header_v3v4_read(r, BYTES(older)), NTP_ACCEPTED);
    SAME(r->header.transmit_timestamp.units_of_2pow_minus_32_s_in_era, 0x4142434445464748);
    for (uint8_t version = 0; version < 8; version++) {
        int is_read = version == 3 || version == 4;
        memcpy(bytes, older, sizeof bytes);
        bytes[0] = (uint8_t)(older[0] ^ 4 << 3 ^ version << 3);
        memset(r, 0xA5, sizeof *r);
        SAME(ntp_header_v3v4_read(r, BYTES(bytes)), is_read ? NTP_ACCEPTED : NTP_INVALID_VERSION);
        SAME(r->version_seen, is_read ? 0 : version);
        SAME(is_blank(&r->header), !is_read);
        SAME(r->header.version, is_read ? version : 0);
        SAME(ntp_header_v3v4_read(r, ntp_bytes(bytes, 47)), NTP_INCORRECT_LENGTH);
    }
    WHOLE(NtpHeaderV3V4Read);
}

/* Every leap, version and mode is read as it stands, has its number, and is written again. */
static void first_byte_of_header_v3v4(void) {
    static const uint8_t leaps[] = {NTP_LEAP_BITS_NO_WARNING, NTP_LEAP_BITS_61, NTP_LEAP_BITS_59,
                                    NTP_LEAP_BITS_UNSYNCHRONIZED};
    static const uint8_t modes[] = {NTP_ASSOCIATION_MODE_RESERVED,          NTP_ASSOCIATION_MODE_SYMMETRIC_ACTIVE,
                                    NTP_ASSOCIATION_MODE_SYMMETRIC_PASSIVE, NTP_ASSOCIATION_MODE_CLIENT,
                                    NTP_ASSOCIATION_MODE_SERVER,            NTP_ASSOCIATION_MODE_BROADCAST,
                                    NTP_ASSOCIATION_MODE_CONTROL,           NTP_ASSOCIATION_MODE_PRIVATE};
    for (uint8_t i = 0; i < 4 * 2 * 8; i++) {
        NtpHeaderV3V4Read r;
        uint8_t bytes[48];
        uint8_t leap = i / 16, version = 3 + i / 8 % 2, mode = i % 8;
        memcpy(bytes, older, sizeof bytes);
        bytes[0] = (uint8_t)(leap << 6 | version << 3 | mode);
        SAME(ntp_header_v3v4_read(&r, BYTES(bytes)), NTP_ACCEPTED);
        SAME(r.header.leap.bits, leaps[leap]);
        SAME(r.header.version, version);
        SAME(r.header.mode, modes[mode]);
        memset(out, 0xEE, sizeof out);
        SAME(ntp_header_v3v4_write(&r.header, ntp_room(out, 48), 0), NTP_ACCEPTED);
        same_bytes("an older header that was read, written again", out, bytes, sizeof bytes);
    }
}

/* A header of NTPv3 made by hand, written and read. */
static void header_v3v4_made(void) {
    static const uint8_t bytes[48] = {0xDB, 0x00, 0xFF, 0x80, 0xFF, 0xFF, 0xFF, 0xFF, 0x00, 0x00, 0x00, 0x01,
                                      0x44, 0x45, 0x4E, 0x59, [23] = 0x01,  [24] = 0x80,  [39] = 0x02, [47] = 0x03};
    const NtpHeaderV3V4 h = {.leap = {.bits = NTP_LEAP_BITS_UNSYNCHRONIZED},
                             .version = 3,
                             .mode = NTP_ASSOCIATION_MODE_CLIENT,
                             .poll = {.byte = 0xFF},
                             .precision_log2_seconds = -128,
                             .root_delay = ntp_short_from_units_of_2pow_minus_16_s(0xFFFFFFFF),
                             .root_dispersion = {.units_of_2pow_minus_16_s = 1},
                             .reference_id = {.value = 0x44454E59},
                             .reference_timestamp = {.units_of_2pow_minus_32_s_in_era = 1},
                             .origin_timestamp = {.units_of_2pow_minus_32_s_in_era = (uint64_t)1 << 63},
                             .receive_timestamp = {.units_of_2pow_minus_32_s_in_era = 2},
                             .transmit_timestamp = {.units_of_2pow_minus_32_s_in_era = 3}};
    NtpHeaderV3V4Read r;
    memset(out, 0xEE, sizeof out);
    SAME(ntp_header_v3v4_write(&h, ntp_room(out, 48), 0), NTP_ACCEPTED);
    same_bytes("the header of NTPv3", out, bytes, sizeof bytes);
    SAME(out[48], 0xEE);
    SAME(ntp_header_v3v4_read(&r, ntp_bytes(out, 48)), NTP_ACCEPTED);
    SAME(r.header.leap.bits, NTP_LEAP_BITS_UNSYNCHRONIZED);
    SAME(r.header.version, 3);
    SAME(r.header.mode, NTP_ASSOCIATION_MODE_CLIENT);
    SAME(ntp_poll_log2_seconds(r.header.poll) == -1, 1);
    SAME(r.header.precision_log2_seconds == -128, 1);
    SAME(r.header.root_delay.units_of_2pow_minus_16_s, 0xFFFFFFFF);
    SAME(r.header.reference_id.value, 0x44454E59);
}

/* What a write is refused with in this much room, from an offset on. It leaves all bytes as they were. */
static NtpNumber refused_write(const NtpHeaderV3V4 *h, size_t room_len, size_t offset) {
    memset(out, 0xEE, sizeof out);
    NtpNumber number = ntp_header_v3v4_write(h, ntp_room(out, room_len), offset);
    size_t changed = 0;
    for (size_t i = 0; i < sizeof out; i++) changed += out[i] != 0xEE;
    SAME(changed, 0);
    return number;
}

static void header_v3v4_written(void) {
    NtpHeaderV3V4Read r;
    SAME(ntp_header_v3v4_read(&r, BYTES(older)), NTP_ACCEPTED);
    memset(out, 0xEE, sizeof out);
    SAME(ntp_header_v3v4_write(&r.header, ntp_room(out, 50), 1), NTP_ACCEPTED);
    same_bytes("the older header", out + 1, older, 48);
    SAME(out[0], 0xEE);
    SAME(out[49], 0xEE);
    SAME(ntp_header_v3v4_write(&r.header, ntp_room(out, 50), 2), NTP_ACCEPTED);
    SAME(refused_write(&r.header, 47, 0), NTP_NO_ROOM);
    SAME(refused_write(&r.header, 50, 3), NTP_NO_ROOM);
    SAME(refused_write(&r.header, 48, SIZE_MAX), NTP_NO_ROOM);
    SAME(ntp_header_v3v4_write(&r.header, ntp_room(NULL, 0), 0), NTP_NO_ROOM);
}

/* A leap, a version and a mode that the header can't hold, without room and with it: 18 before 16. */
static void header_v3v4_not_writable(void) {
    static const uint8_t leaps[] = {4, 255}, versions[] = {0, 2, 5, 11, 255}, modes[] = {8, 255};
    NtpHeaderV3V4Read r;
    SAME(ntp_header_v3v4_read(&r, BYTES(older)), NTP_ACCEPTED);
    for (size_t room_len = 47; room_len <= 48; room_len++) {
        NtpHeaderV3V4 h = r.header;
        for (size_t i = 0; i < LEN(leaps); i++) {
            h.leap.bits = leaps[i];
            SAME(refused_write(&h, room_len, 0), NTP_CANNOT_BE_MADE);
        }
        h = r.header;
        for (size_t i = 0; i < LEN(versions); i++) {
            h.version = versions[i];
            SAME(refused_write(&h, room_len, 0), NTP_CANNOT_BE_MADE);
        }
        h = r.header;
        for (size_t i = 0; i < LEN(modes); i++) {
            h.mode = modes[i];
            SAME(refused_write(&h, room_len, 0), NTP_CANNOT_BE_MADE);
        }
    }
}

/* The counts of the older header are of 2^-16 s. */
static void time_reading_v3v4(void) {
    REPLY(NtpReading);
    const NtpShort one = ntp_short_from_units_of_2pow_minus_16_s(65536);
    const NtpShort half = {.units_of_2pow_minus_16_s = 32768};
    const NtpShort least = {.units_of_2pow_minus_16_s = 1}, most = {.units_of_2pow_minus_16_s = 0xFFFFFFFF};
    NtpHeaderV3V4 h;
    memset(&h, 0, sizeof h);
    h.root_delay = one;
    h.root_dispersion = half;
    *r = ntp_reading_v3v4(&h);
    SAME(r->delay_seconds == 1.0, 1);
    SAME(r->dispersion_seconds == 0.5, 1);
    SAME(r->distance_seconds == 1.0, 1);
    h.root_delay = half;
    h.root_dispersion = one;
    *r = ntp_reading_v3v4(&h);
    SAME(r->delay_seconds == 0.5, 1);
    SAME(r->dispersion_seconds == 1.0, 1);
    SAME(r->distance_seconds == 1.25, 1);
    ntp_raw_reading_v3v4(r, least, most);
    SAME(r->delay_seconds == 1.0 / 65536, 1);
    SAME(r->dispersion_seconds == 4294967295.0 / 65536, 1);
    SAME(r->distance_seconds == 8589934591.0 / 131072, 1);
    ntp_raw_reading_v3v4(r, most, most);
    SAME(r->delay_seconds == 4294967295.0 / 65536, 1);
    SAME(r->distance_seconds == 12884901885.0 / 131072, 1);
    WHOLE(NtpReading);
}

/* ---- The journal ---- */

/* Whole entries as they have to stand, made by hand: nothing of them is taken from the library. */
static const uint8_t a_read[9] = {9, 0, 1, 0, 5, 2, 3, 4, 0xA5};
static const uint8_t read_of_ends[9] = {9, 0, 1, 0, 0xA5, 0xA5, 0xA5, 0xA5, 0xA5};
static const uint8_t read_of_blanks[9] = {9, 0, 1, 0, 0xFF, 0xFF, 0xFF, 0xFF, 0xA5};
static const uint8_t read_of_a_start[9] = {9, 0, 1, 0, 9, 0, 1, 0, 0xA5};
static uint8_t a_header[53], header_of_ends[53], header_of_blanks[53], header_of_entries[53];

typedef struct Whole {
    const uint8_t *bytes;
    size_t len;
} Whole;

static const Whole wholes[] = {{a_read, 9},    {read_of_ends, 9},    {read_of_blanks, 9},    {read_of_a_start, 9},
                               {a_header, 53}, {header_of_ends, 53}, {header_of_blanks, 53}, {header_of_entries, 53}};

static void header_entry(uint8_t entry[53], int filled_by) {
    memset(entry, filled_by, 53);
    memcpy(entry, "\x35\0\2\0", 4);
    entry[52] = 0xA5;
}

/* A body that holds whole entries of reads, and one cut short. */
static void header_entries(void) {
    header_entry(a_header, 0);
    memcpy(a_header + 4, header, 48);
    header_entry(header_of_ends, 0xA5);
    header_entry(header_of_blanks, 0xFF);
    header_entry(header_of_entries, 0);
    for (size_t at = 4; at < 52; at += 9) memcpy(header_of_entries + at, a_read, at + 9 <= 52 ? 9 : 52 - at);
}

static NtpJournalKind kind_of(Whole whole) { return (NtpJournalKind)whole.bytes[2]; }
static NtpBytes body_of(Whole whole) { return ntp_bytes(whole.bytes + 4, whole.len - 5); }

/* The byte of an entry that store number `index` goes to: the two bytes of the length last, the high one first. */
static size_t place_of(size_t index, size_t len) { return index < len - 2 ? index + 2 : len - 1 - index; }

/* An image, and a copy of it to compare with; both have room for a byte too many. */
static uint8_t image[NTP_JOURNAL_LONGEST_IMAGE + 1], copy[NTP_JOURNAL_LONGEST_IMAGE + 1];

/* A blank image with entries in front; where they end. */
static size_t image_with(const Whole *entries, size_t count) {
    size_t at = 0;
    memset(image, 0xFF, sizeof image);
    for (size_t i = 0; i < count; i++) {
        memcpy(image + at, entries[i].bytes, entries[i].len);
        at += entries[i].len;
    }
    return at;
}

static void same_image(const char *what) { same_bytes(what, image, copy, sizeof image); }

static void holds(size_t image_len, size_t entry_count, size_t next_offset, size_t torn_len) {
    NtpJournalFound found;
    SAME(ntp_journal_find(&found, ntp_bytes(image, image_len)), NTP_ACCEPTED);
    SAME(found.entry_count, entry_count);
    SAME(found.next_offset, next_offset);
    SAME(found.torn_len, torn_len);
}

static void journal_found(void) {
    const Whole two[] = {wholes[0], wholes[4]};
    REPLY(NtpRawJournalFound);
    image_with(two, 2);
    image[62 + 2] = 0;
    ntp_raw_journal_find(r, image, 100);
    SAME(r->number, NTP_ACCEPTED);
    SAME(r->entry_count, 2);
    SAME(r->next_offset, 62);
    SAME(r->torn_len, 3);
    WHOLE(NtpRawJournalFound);
    holds(100, 2, 62, 3);
    /* The torn tail ends with the last byte that is not blank, wherever that is. */
    image[NTP_JOURNAL_LONGEST_IMAGE - 1] = 0xFE;
    holds(NTP_JOURNAL_LONGEST_IMAGE - 1, 2, 62, 3);
    holds(NTP_JOURNAL_LONGEST_IMAGE, 2, 62, NTP_JOURNAL_LONGEST_IMAGE - 62);
    holds(62, 2, 62, 0);
    holds(61, 1, 9, 52);
    holds(0, 0, 0, 0);
    image_with(NULL, 0);
    holds(NTP_JOURNAL_LONGEST_IMAGE, 0, 0, 0);
    NtpJournalFound found = {1, 1, 1};
    SAME(ntp_journal_find(&found, ntp_bytes(NULL, 0)), NTP_ACCEPTED);
    SAME(found.entry_count + found.next_offset + found.torn_len, 0);
}

/* An image of a byte too many is refused with 7; nothing is found, and recovery changes nothing. */
static void journal_too_long(void) {
    const size_t len = NTP_JOURNAL_LONGEST_IMAGE + 1;
    NtpJournalFound found = {1, 1, 1};
    NtpStore store;
    REPLY(NtpRawJournalFound);
    image_with(wholes, 1);
    image[20] = 0;
    memcpy(copy, image, sizeof image);
    ntp_raw_journal_find(r, image, len);
    SAME(r->number, NTP_PACKET_TOO_LONG);
    SAME(r->entry_count + r->next_offset + r->torn_len, 0);
    SAME(ntp_journal_find(&found, ntp_bytes(image, len)), NTP_PACKET_TOO_LONG);
    SAME(found.entry_count + found.next_offset + found.torn_len, 0);
    SAME(ntp_journal_recovery_store(&store, &found, 0), NTP_CANNOT_BE_MADE);
    found = (NtpJournalFound){1, 1, 1};
    SAME(ntp_journal_recover(&found, ntp_room(image, len)), NTP_PACKET_TOO_LONG);
    SAME(found.entry_count + found.next_offset + found.torn_len, 0);
    memset(r, 0xA5, sizeof *r);
    ntp_raw_journal_recover(r, image, len);
    SAME(r->number, NTP_PACKET_TOO_LONG);
    SAME(r->entry_count + r->next_offset + r->torn_len, 0);
    WHOLE(NtpRawJournalFound);
    same_image("a longer image after a refused recovery");
}

/* An entry counts as long as its length, kind and end byte are right, whatever its body is: every byte of it is
 * changed to every other value. */
static void which_entries_count(void) {
    for (size_t i = 0; i < LEN(wholes); i++) {
        const size_t len = image_with(wholes + i, 1);
        size_t counted = 0, of_body = 0;
        for (size_t at = 0; at < len; at++)
            for (unsigned change = 1; change < 256; change++) {
                NtpJournalFound found;
                image[at] = (uint8_t)(wholes[i].bytes[at] ^ change);
                SAME(ntp_journal_find(&found, ntp_bytes(image, 64)), NTP_ACCEPTED);
                of_body += found.entry_count == 1 && found.next_offset == len && at >= 4 && at < len - 1;
                counted += found.entry_count;
                image[at] = wholes[i].bytes[at];
            }
        SAME(counted, 255 * (len - 5));
        SAME(of_body, 255 * (len - 5));
        /* One byte short it is a torn tail. */
        for (size_t image_len = 0; image_len < len; image_len++) {
            NtpJournalFound found;
            SAME(ntp_journal_find(&found, ntp_bytes(image, image_len)), NTP_ACCEPTED);
            SAME(found.entry_count + found.next_offset, 0);
        }
        holds(len, 1, len, 0);
    }
    /* The length of one kind with the other, and a third kind. */
    image_with(&wholes[0], 1);
    image[2] = 2;
    holds(64, 0, 0, 9);
    image_with(&wholes[4], 1);
    image[2] = 1;
    holds(64, 0, 0, 53);
    image[2] = 3;
    holds(64, 0, 0, 53);
}

static void journal_entries(void) {
    const Whole three[] = {wholes[0], wholes[4], wholes[1]};
    NtpJournalEntry entry;
    REPLY(NtpRawJournalEntry);
    image_with(three, 3);
    ntp_raw_journal_entry(r, image, 71, 1);
    SAME(r->number, NTP_ACCEPTED);
    SAME(r->kind, NTP_JOURNAL_HEADER);
    SAME(r->entry_offset, 9);
    SAME(r->body_offset, 13);
    SAME(r->body_len, 48);
    WHOLE(NtpRawJournalEntry);
    for (size_t i = 0, at = 0; i < LEN(three); at += three[i].len, i++) {
        SAME(ntp_journal_entry(&entry, ntp_bytes(image, 71), i), NTP_ACCEPTED);
        SAME(entry.kind, i == 1 ? NTP_JOURNAL_HEADER : NTP_JOURNAL_READ);
        SAME(entry.entry_offset, at);
        SAME(entry.body.bytes == image + at + 4, 1);
        SAME(entry.body.len, i == 1 ? NTP_HEADER_SIZE : NTP_JOURNAL_READ_BODY);
    }
    static const size_t past[] = {3, 4, 1000, SIZE_MAX - 1, SIZE_MAX};
    for (size_t i = 0; i < LEN(past); i++) {
        memset(r, 0xA5, sizeof *r);
        ntp_raw_journal_entry(r, image, 71, past[i]);
        SAME(r->number, NTP_CANNOT_BE_MADE);
        SAME(r->kind + r->entry_offset + r->body_offset + r->body_len, 0);
        SAME(ntp_journal_entry(&entry, ntp_bytes(image, 71), past[i]), NTP_CANNOT_BE_MADE);
        SAME(entry.kind + entry.entry_offset + entry.body.len, 0);
    }
    SAME(ntp_journal_entry(&entry, ntp_bytes(image, 70), 2), NTP_CANNOT_BE_MADE);
    SAME(ntp_journal_entry(&entry, ntp_bytes(image, sizeof image), 2), NTP_ACCEPTED);
    SAME(ntp_journal_entry(&entry, ntp_bytes(NULL, 0), 0), NTP_CANNOT_BE_MADE);
}

/* Each store of an append, at several offsets: which byte goes where, and none past the last. */
static void journal_append_stores(void) {
    static const size_t offsets[] = {0, 9, 62, 4096, NTP_JOURNAL_LONGEST_IMAGE - 53};
    static const size_t past[] = {0, 1, 200, SIZE_MAX - 53, SIZE_MAX};
    for (size_t i = 0; i < LEN(wholes); i++) {
        const Whole whole = wholes[i];
        const NtpBytes body = body_of(whole);
        REPLY(NtpRawJournalStore);
        for (size_t j = 0; j < LEN(offsets); j++) {
            const NtpJournalPlan plan = {offsets[j], whole.len, whole.bytes[2], body};
            NtpStore store;
            for (size_t k = 0; k < whole.len; k++) {
                memset(r, 0xA5, sizeof *r);
                ntp_raw_journal_append_store(r, offsets[j], (uint16_t)kind_of(whole), body.bytes, body.len, k);
                SAME(r->number, NTP_ACCEPTED);
                SAME(r->offset, offsets[j] + place_of(k, whole.len));
                SAME(r->byte, whole.bytes[place_of(k, whole.len)]);
                SAME(ntp_journal_append_store(&store, &plan, k), NTP_ACCEPTED);
                SAME(store.offset, r->offset);
                SAME(store.byte, r->byte);
            }
            for (size_t k = 0; k < LEN(past); k++) {
                const size_t index = past[k] > SIZE_MAX - whole.len ? past[k] : past[k] + whole.len;
                memset(r, 0xA5, sizeof *r);
                ntp_raw_journal_append_store(r, offsets[j], (uint16_t)kind_of(whole), body.bytes, body.len, index);
                SAME(r->number, NTP_CANNOT_BE_MADE);
                SAME(r->offset + r->byte, 0);
                SAME(ntp_journal_append_store(&store, &plan, index), NTP_CANNOT_BE_MADE);
                SAME(store.offset + store.byte, 0);
            }
        }
        WHOLE(NtpRawJournalStore);
    }
}

/* A store past the longest image is none, and so is each of a kind or body that is not named. */
static void journal_no_stores(void) {
    static const size_t far[] = {NTP_JOURNAL_LONGEST_IMAGE, (size_t)1 << 32, SIZE_MAX - 8, SIZE_MAX};
    NtpRawJournalStore raw;
    for (size_t k = 0; k < 9; k++) {
        const size_t place = place_of(k, 9);
        for (size_t over = 0; over <= 9; over++) {
            const size_t at = NTP_JOURNAL_LONGEST_IMAGE - 9 + over;
            ntp_raw_journal_append_store(&raw, at, 1, a_read + 4, 4, k);
            SAME(raw.number, place < 9 - over ? NTP_ACCEPTED : NTP_CANNOT_BE_MADE);
            SAME(raw.offset, place < 9 - over ? at + place : 0);
        }
        for (size_t i = 0; i < LEN(far); i++) {
            ntp_raw_journal_append_store(&raw, far[i], 1, a_read + 4, 4, k);
            SAME(raw.number, NTP_CANNOT_BE_MADE);
            SAME(raw.offset + raw.byte, 0);
        }
        for (size_t body_len = 0; body_len <= 49; body_len++) {
            ntp_raw_journal_append_store(&raw, 0, 1, a_header + 4, body_len, k);
            SAME(raw.number, body_len == 4 ? NTP_ACCEPTED : NTP_CANNOT_BE_MADE);
            ntp_raw_journal_append_store(&raw, 0, 2, a_header + 4, body_len, k);
            SAME(raw.number, body_len == 48 ? NTP_ACCEPTED : NTP_CANNOT_BE_MADE);
        }
        for (size_t kind = 0; kind < 65536; kind += kind < 600 ? 1 : 251) {
            ntp_raw_journal_append_store(&raw, 0, (uint16_t)kind, a_read + 4, 4, k);
            SAME(raw.number, kind == 1 ? NTP_ACCEPTED : NTP_CANNOT_BE_MADE);
        }
    }
}

static void journal_recovery_stores(void) {
    const NtpJournalFound found = {2, 62, 53};
    NtpStore store;
    REPLY(NtpRawJournalStore);
    for (size_t k = 0; k < 53; k++) {
        ntp_raw_journal_recovery_store(r, 62, 53, k);
        SAME(r->number, NTP_ACCEPTED);
        SAME(r->offset, 62 + 52 - k);
        SAME(r->byte, 0xFF);
        SAME(ntp_journal_recovery_store(&store, &found, k), NTP_ACCEPTED);
        SAME(store.offset, 62 + 52 - k);
        SAME(store.byte, 0xFF);
    }
    WHOLE(NtpRawJournalStore);
    SAME(ntp_journal_recovery_store(&store, &found, 53), NTP_CANNOT_BE_MADE);
    SAME(store.offset + store.byte, 0);
    SAME(ntp_journal_recovery_store(&store, &found, SIZE_MAX), NTP_CANNOT_BE_MADE);
    /* Offset of the next append, torn bytes, number, and where the store goes, if there is one. */
    static const size_t limits[][4] = {
        {0, 0, 0, SIZE_MAX},           {62, 0, 0, SIZE_MAX},         {0, 1, 0, 0},
        {0, 32768, 0, 32767},          {0, 32768, 32767, 0},         {0, 32768, 32768, SIZE_MAX},
        {0, 32769, 0, SIZE_MAX},       {0, 32769, 1, 32767},         {32767, 1, 0, 32767},
        {32767, 2, 0, SIZE_MAX},       {32767, 2, 1, 32767},         {32768, 1, 0, SIZE_MAX},
        {0, SIZE_MAX, 0, SIZE_MAX},    {0, SIZE_MAX, SIZE_MAX - 1, 0}, {SIZE_MAX, SIZE_MAX, 0, SIZE_MAX},
        {SIZE_MAX, 1, 0, SIZE_MAX},    {SIZE_MAX, 2, 0, SIZE_MAX},   {1, SIZE_MAX, 0, SIZE_MAX},
        {1, SIZE_MAX, SIZE_MAX - 1, 1}, {0, SIZE_MAX, SIZE_MAX, SIZE_MAX}};
    for (size_t i = 0; i < LEN(limits); i++) {
        const size_t *limit = limits[i];
        memset(r, 0xA5, sizeof *r);
        ntp_raw_journal_recovery_store(r, limit[0], limit[1], limit[2]);
        SAME(r->number, limit[3] == SIZE_MAX ? NTP_CANNOT_BE_MADE : NTP_ACCEPTED);
        SAME(r->offset, limit[3] == SIZE_MAX ? 0 : limit[3]);
        SAME(r->byte, limit[3] == SIZE_MAX ? 0 : 0xFF);
    }
}

/* What start and append, of the header and of the library, say to a kind and a body for an image: all the same. They
 * change nothing if they refuse. A refused plan has no stores. */
static NtpNumber refusal_of(size_t image_len, size_t kind, NtpBytes body) {
    NtpJournalPlan plan = {1, 1, 1, {a_read, 4}};
    NtpStore store;
    size_t entry_offset = 1;
    memcpy(copy, image, sizeof image);
    const NtpNumber number = ntp_journal_start(&plan, ntp_bytes(image, image_len), (NtpJournalKind)kind, body);
    same_image("an image after a start");
    if (number == NTP_ACCEPTED) return number;
    SAME(plan.entry_offset + plan.store_count + plan.kind + plan.body.len, 0);
    SAME(ntp_journal_append_store(&store, &plan, 0), NTP_CANNOT_BE_MADE);
    SAME(ntp_journal_append_store(&store, &plan, SIZE_MAX), NTP_CANNOT_BE_MADE);
    SAME(store.offset + store.byte, 0);
    SAME(ntp_journal_append(&entry_offset, ntp_room(image, image_len), (NtpJournalKind)kind, body), number);
    SAME(entry_offset, 0);
    if (kind <= 65535) {
        REPLY(NtpRawJournalStart);
        ntp_raw_journal_start(r, image, image_len, (uint16_t)kind, ntp_some(body.bytes), body.len);
        SAME(r->number, number);
        SAME(r->entry_offset + r->store_count, 0);
        memset(r, 0xA5, sizeof *r);
        ntp_raw_journal_append(r, image, image_len, (uint16_t)kind, ntp_some(body.bytes), body.len);
        SAME(r->number, number);
        SAME(r->entry_offset + r->store_count, 0);
        WHOLE(NtpRawJournalStart);
    }
    same_image("an image after a refused append");
    return number;
}

/* 7, then 18, then 16. */
static void refusals_of_the_journal(void) {
    /* None of them is a kind, and the low bits of some are one. */
    static const size_t kinds[] = {0,     3,          255,        256,        257,        258,       512,
                                   65535, 0x00010001, 0x00010002, 0x80000001, 0x80000002, 0xFFFF0002};
    static const size_t lens[] = {0, 8, 9, 52, 53, NTP_JOURNAL_LONGEST_IMAGE, NTP_JOURNAL_LONGEST_IMAGE + 1};
    const NtpBytes of_read = ntp_bytes(a_read + 4, 4), of_header = ntp_bytes(a_header + 4, 48);
    image_with(NULL, 0);
    for (size_t i = 0; i < LEN(lens); i++) {
        const size_t len = lens[i];
        const int is_long = len > NTP_JOURNAL_LONGEST_IMAGE;
        const NtpNumber no_kind = is_long ? NTP_PACKET_TOO_LONG : NTP_CANNOT_BE_MADE;
        SAME(refusal_of(len, 1, of_read), is_long ? NTP_PACKET_TOO_LONG : len < 9 ? NTP_NO_ROOM : NTP_ACCEPTED);
        SAME(refusal_of(len, 2, of_header), is_long ? NTP_PACKET_TOO_LONG : len < 53 ? NTP_NO_ROOM : NTP_ACCEPTED);
        for (size_t k = 0; k < LEN(kinds); k++) {
            SAME(refusal_of(len, kinds[k], of_read), no_kind);
            SAME(refusal_of(len, kinds[k], of_header), no_kind);
        }
        for (size_t body_len = 0; body_len < 53; body_len++) {
            if (body_len != 4) SAME(refusal_of(len, 1, ntp_bytes(a_header, body_len)), no_kind);
            if (body_len != 48) SAME(refusal_of(len, 2, ntp_bytes(a_header, body_len)), no_kind);
        }
        SAME(refusal_of(len, 1, ntp_bytes(NULL, 0)), no_kind);
    }
    size_t entry_offset = 1;
    SAME(ntp_journal_append(&entry_offset, ntp_room(NULL, 0), NTP_JOURNAL_READ, of_read), NTP_NO_ROOM);
    SAME(entry_offset, 0);
}

/* After entries, with as much room as the entry needs, and with one byte less. */
static void room_in_the_journal(void) {
    const Whole two[] = {wholes[5], wholes[3]};
    for (size_t i = 0; i < LEN(wholes); i++) {
        const Whole whole = wholes[i];
        const size_t next = image_with(two, 2);
        REPLY(NtpRawJournalStart);
        SAME(refusal_of(next, kind_of(whole), body_of(whole)), NTP_NO_ROOM);
        SAME(refusal_of(next + whole.len - 1, kind_of(whole), body_of(whole)), NTP_NO_ROOM);
        const uint16_t kind = (uint16_t)kind_of(whole);
        ntp_raw_journal_start(r, image, next + whole.len, kind, whole.bytes + 4, whole.len - 5);
        SAME(r->number, NTP_ACCEPTED);
        SAME(r->entry_offset, next);
        SAME(r->store_count, whole.len);
        WHOLE(NtpRawJournalStart);
        memcpy(copy, image, sizeof image);
        memcpy(copy + next, whole.bytes, whole.len);
        memset(r, 0xA5, sizeof *r);
        ntp_raw_journal_append(r, image, next + whole.len, kind, whole.bytes + 4, whole.len - 5);
        SAME(r->number, NTP_ACCEPTED);
        SAME(r->entry_offset, next);
        SAME(r->store_count, whole.len);
        WHOLE(NtpRawJournalStart);
        same_image("an image with one more entry");
        holds(next + whole.len, 3, next + whole.len, 0);
        SAME(refusal_of(next + whole.len, kind_of(whole), body_of(whole)), NTP_NO_ROOM);
    }
}

/* A torn tail of bytes that no append leaves. Recovery erases all of it, and what follows it stays blank; an append that
 * comes too early does not look at it. */
static void torn_tail_of_any_bytes(void) {
    const Whole two[] = {wholes[4], wholes[2]};
    for (size_t torn_len = 1; torn_len <= 60; torn_len++) {
        const size_t next = image_with(two, 2), image_len = next + torn_len + torn_len % 3;
        NtpJournalPlan plan;
        REPLY(NtpRawJournalFound);
        memcpy(copy, image, sizeof image);
        for (size_t i = 0; i < torn_len; i++) image[next + i] = (uint8_t)(0xA5 >> torn_len % 2 * i % 8);
        image[image_len] = 0;
        copy[image_len] = 0;
        const NtpNumber number = torn_len < 9 - torn_len % 3 ? NTP_NO_ROOM : NTP_ACCEPTED;
        SAME(ntp_journal_start(&plan, ntp_bytes(image, image_len), NTP_JOURNAL_READ, body_of(wholes[0])), number);
        SAME(plan.entry_offset, number == NTP_ACCEPTED ? next : 0);
        ntp_raw_journal_recover(r, image, image_len);
        SAME(r->number, NTP_ACCEPTED);
        SAME(r->entry_count, 2);
        SAME(r->next_offset, next);
        SAME(r->torn_len, torn_len);
        WHOLE(NtpRawJournalFound);
        same_image("an image after the recovery of any bytes");
    }
}

/* Fills the longest image to its last byte: a header, and reads. */
static void full_journal(void) {
    const size_t most = NTP_JOURNAL_LONGEST_IMAGE;
    size_t count = 0, at = 0, entry_offset;
    image_with(NULL, 0);
    memcpy(copy, image, sizeof image);
    for (Whole next = wholes[4]; at + next.len <= most; at += next.len, next = wholes[count++ % 4]) {
        SAME(ntp_journal_append(&entry_offset, ntp_room(image, most), kind_of(next), body_of(next)), NTP_ACCEPTED);
        SAME(entry_offset, at);
        memcpy(copy + at, next.bytes, next.len);
    }
    SAME(at, most);
    SAME(count, 1 + 3635);
    same_image("a full image");
    holds(most, count, most, 0);
    SAME(refusal_of(most, NTP_JOURNAL_READ, ntp_bytes(a_read + 4, 4)), NTP_NO_ROOM);
    SAME(refusal_of(most, NTP_JOURNAL_HEADER, ntp_bytes(a_header + 4, 48)), NTP_NO_ROOM);
    SAME(refusal_of(most, 3, ntp_bytes(a_read + 4, 4)), NTP_CANNOT_BE_MADE);
    for (size_t i = 0, from = 0; i < count; i++) {
        NtpJournalEntry entry;
        SAME(ntp_journal_entry(&entry, ntp_bytes(image, most), i), NTP_ACCEPTED);
        SAME(entry.entry_offset, from);
        from += entry.body.len + 5;
    }
    NtpJournalFound found;
    SAME(ntp_journal_recover(&found, ntp_room(image, most)), NTP_ACCEPTED);
    SAME(found.torn_len, 0);
    same_image("a full image after a recovery");
}

/* How many bytes of the copy from a place on are torn. */
static size_t torn_in_copy(size_t from, size_t image_len) {
    size_t end = image_len;
    while (end > from && copy[end - 1] == 0xFF) end--;
    return end - from;
}

/* Cuts a recovery after each of its stores; then one runs to its end, and once more. The image is that of the copy,
 * with so many entries up to `next`. */
static void every_cut_of_a_recovery(size_t image_len, size_t entry_count, size_t next) {
    static uint8_t torn_image[sizeof image];
    const size_t torn_len = torn_in_copy(next, image_len);
    memcpy(torn_image, copy, sizeof copy);
    for (size_t cut = 0; cut <= torn_len; cut++) {
        NtpJournalFound found, again;
        NtpStore store;
        memcpy(image, torn_image, sizeof image);
        memcpy(copy, torn_image, sizeof image);
        SAME(ntp_journal_find(&found, ntp_bytes(image, image_len)), NTP_ACCEPTED);
        for (size_t k = 0; k < cut; k++) {
            SAME(ntp_journal_recovery_store(&store, &found, k), NTP_ACCEPTED);
            ntp_journal_store(ntp_room(image, image_len), store);
            copy[next + torn_len - 1 - k] = 0xFF;
        }
        same_image("an image after a cut recovery");
        holds(image_len, entry_count, next, torn_in_copy(next, image_len));
        SAME(ntp_journal_recover(&again, ntp_room(image, image_len)), NTP_ACCEPTED);
        SAME(again.entry_count, entry_count);
        SAME(again.next_offset, next);
        SAME(again.torn_len, torn_in_copy(next, image_len));
        memset(copy + next, 0xFF, torn_len);
        same_image("an image after a recovery");
        SAME(ntp_journal_recover(&again, ntp_room(image, image_len)), NTP_ACCEPTED);
        SAME(again.torn_len, 0);
        same_image("an image after a second recovery");
    }
}

/* Cuts an append after each of its stores. The entries before it are all there; the new one is there after the last
 * store, and not before. */
static void every_cut_of_an_append(const Whole *entries, size_t count, Whole whole, size_t free_len) {
    for (size_t cut = 0; cut <= whole.len; cut++) {
        const size_t at = image_with(entries, count), image_len = at + whole.len + free_len;
        const size_t is_whole = cut == whole.len, next = at + (is_whole ? whole.len : 0);
        NtpJournalPlan plan;
        NtpStore store;
        memcpy(copy, image, sizeof image);
        SAME(ntp_journal_start(&plan, ntp_bytes(image, image_len), kind_of(whole), body_of(whole)), NTP_ACCEPTED);
        SAME(plan.entry_offset, at);
        SAME(plan.store_count, whole.len);
        for (size_t k = 0; k < cut; k++) {
            SAME(ntp_journal_append_store(&store, &plan, k), NTP_ACCEPTED);
            ntp_journal_store(ntp_room(image, image_len), store);
            copy[at + place_of(k, whole.len)] = whole.bytes[place_of(k, whole.len)];
        }
        SAME(ntp_journal_append_store(&store, &plan, cut), is_whole ? NTP_CANNOT_BE_MADE : NTP_ACCEPTED);
        same_image("an image after a cut append");
        holds(image_len, count + is_whole, next, torn_in_copy(next, image_len));
        every_cut_of_a_recovery(image_len, count + is_whole, next);
    }
}

static void every_cut(void) {
    const Whole before[] = {wholes[7], wholes[2], wholes[1], wholes[6]};
    for (size_t count = 0; count <= LEN(before); count++)
        for (size_t i = 0; i < LEN(wholes); i++) {
            every_cut_of_an_append(before, count, wholes[i], 0);
            every_cut_of_an_append(before, count, wholes[i], 20);
        }
}

/* A store outside the image changes nothing; one inside, its byte alone. */
static void stores_in_memory(void) {
    static const size_t outside[] = {60, 61, NTP_JOURNAL_LONGEST_IMAGE, SIZE_MAX};
    image_with(wholes, 4);
    memcpy(copy, image, sizeof image);
    for (size_t i = 0; i < LEN(outside); i++) {
        ntp_journal_store(ntp_room(image, 60), (NtpStore){.offset = outside[i], .byte = 0});
        ntp_raw_journal_store(image, 60, outside[i], 0);
        same_image("an image after a store outside");
    }
    for (size_t offset = 0; offset < 60; offset++) {
        ntp_journal_store(ntp_room(image, 60), (NtpStore){.offset = offset, .byte = (uint8_t)(copy[offset] ^ 0x5A)});
        copy[offset] ^= 0x5A;
        same_image("an image after a store");
    }
    ntp_journal_store(ntp_room(NULL, 0), (NtpStore){.offset = 0, .byte = 0});
}

/* The body of a read: 18 for a number or count of more than a byte, then 16. */
static void body_of_a_read(void) {
    static const size_t limits[] = {0, 1, 254, 255, 256, 257, (size_t)1 << 32, SIZE_MAX};
    uint8_t body[8];
    for (size_t part = 0; part < 4; part++)
        for (size_t i = 0; i < LEN(limits); i++)
            for (size_t room_len = 0; room_len <= 8; room_len++) {
                size_t v[4] = {1, 2, 3, 4};
                v[part] = limits[i];
                memset(body, 0xEE, sizeof body);
                const size_t at = room_len > 4 ? room_len - 4 : 0;
                NtpRawLength raw = ntp_raw_journal_read_body(v[0], v[1], v[2], v[3], body, room_len, at);
                const size_t wanted = limits[i] > 255 ? 18 : room_len < 4 ? 16 : 0;
                SAME(raw.number, wanted);
                SAME(raw.len, wanted == 0 ? 4 : 0);
                for (size_t j = 0; j < 8; j++)
                    SAME(body[j], wanted == 0 && j >= at && j < at + 4 ? v[j - at] : 0xEE);
            }
    static const size_t ats[] = {1, 4, 5, SIZE_MAX - 3, SIZE_MAX};
    for (size_t i = 0; i < LEN(ats); i++) {
        memset(body, 0xEE, sizeof body);
        SAME(ntp_raw_journal_read_body(1, 2, 3, 4, body, 4, ats[i]).number, NTP_NO_ROOM);
        SAME(ntp_raw_journal_read_body(1, 2, 256, 4, body, 4, ats[i]).number, NTP_CANNOT_BE_MADE);
        for (size_t j = 0; j < 8; j++) SAME(body[j], 0xEE);
    }
}

/* What a read packet leaves behind as a body: its number, and its three counts. */
static void body_of_this_read(size_t number, size_t authenticated_count, size_t untrusted_count,
                              size_t encrypted_count) {
    const size_t wanted[] = {number, authenticated_count, untrusted_count, encrypted_count, 0xEE};
    uint8_t body[5];
    memset(body, 0xEE, sizeof body);
    SAME(ntp_journal_read_body(ntp_room(body, 3), &read), NTP_NO_ROOM);
    for (size_t i = 0; i < sizeof body; i++) SAME(body[i], 0xEE);
    SAME(read.number, number);
    SAME(ntp_journal_read_body(ntp_room(body, NTP_JOURNAL_READ_BODY), &read), NTP_ACCEPTED);
    for (size_t i = 0; i < sizeof body; i++) SAME(body[i], wanted[i]);
    SAME(ntp_journal_read_body(ntp_room(NULL, 0), &read), NTP_NO_ROOM);
}

static void verdicts_for_the_journal(void) {
    SAME(read_by(sample(NTP_V5, sample_1, sizeof sample_1), none, 0), NTP_ACCEPTED);
    body_of_this_read(0, 0, 1, 0);
    SAME(read_by(sample(NTP_V5, sample_5, sizeof sample_5), (Verdicts){2, 1, 2, 0, {0}}, 0), NTP_DECRYPT_ERROR);
    body_of_this_read(5, 2, 0, 0);
    memcpy(plaintexts, sample_1, sizeof sample_1);
    SAME(read_by(sample(NTP_V5, sample_5, 12), (Verdicts){1, 2, 0, 0, {0}}, sizeof sample_1), NTP_ACCEPTED);
    body_of_this_read(0, 1, 0, 1);
    SAME(read_by(sample(NTP_V5, sample_5, sizeof sample_5), none, 0), NTP_NO_RESULT);
    body_of_this_read(9, 0, 0, 0);
    SAME(read_by(ntp_packet_v5(sample_1, sizeof sample_1), none, 0), NTP_HEADER_PAST_END);
    body_of_this_read(6, 0, 0, 0);
    /* Counts of a program's own making. */
    uint8_t body[4] = {0xEE, 0xEE, 0xEE, 0xEE};
    read.untrusted_count = 256;
    SAME(ntp_journal_read_body(ROOM(body), &read), NTP_CANNOT_BE_MADE);
    SAME(ntp_journal_read_body(ntp_room(body, 3), &read), NTP_CANNOT_BE_MADE);
    SAME(body[0] & body[1] & body[2] & body[3], 0xEE);
    read.untrusted_count = 255;
    SAME(ntp_journal_read_body(ROOM(body), &read), NTP_ACCEPTED);
    SAME(body[2], 255);
}

static void reference_ids(void) {
    static const uint8_t field[] = {0xF5, 0x03, 0x00, 0x0C, 0x00, 0x04, 0, 0, 0, 0, 0, 0};
    NtpRequest request;
    NtpBytes part;
    size_t len;
    SAME(ntp_request_new(&request, 8, 505), NTP_CANNOT_BE_MADE);
    SAME(request.payload_len + request.filter_offset, 0);
    SAME(ntp_request_new(&request, 8, 4), NTP_ACCEPTED);
    SAME(request.payload_len, 8);
    SAME(request.filter_offset, 4);
    SAME(ntp_request_write(&len, request, ROOM(out), 0), NTP_ACCEPTED);
    SAME(len, 12);
    same_bytes("sample 7's request", out, field, sizeof field);
    SAME(ntp_request_read(&request, ntp_bytes(field + 4, 8)), NTP_ACCEPTED);
    SAME(request.payload_len, 8);
    SAME(request.filter_offset, 4);
    SAME(ntp_response_cut(&part, request, BYTES(field)), NTP_ACCEPTED);
    SAME(part.bytes == field + 4, 1);
    SAME(part.len, 8);
    SAME(ntp_response_cut(&part, request, ntp_bytes(field, 11)), NTP_CANNOT_BE_MADE);
    SAME(part.len, 0);
    request.payload_len = 65532;
    SAME(ntp_request_write(&len, request, ROOM(out), 0), NTP_FIELD_TOO_LONG);
    SAME(ntp_response_new(BYTES(field)), NTP_ACCEPTED);
    SAME(ntp_response_new(ntp_bytes(field, 6)), NTP_CANNOT_BE_MADE);
    SAME(ntp_response_write(&len, ntp_bytes(field + 4, 2), ROOM(out), 0), NTP_ACCEPTED);
    SAME(len, 8);
    same_bytes("a response", out, (const uint8_t *)"\xF5\x04\x00\x06\x00\x04\0\0", 8);
    {
        REPLY(NtpRawRequest);
        ntp_raw_request_new(r, 8, 4);
        SAME(r->payload_len, 8);
        SAME(r->filter_offset, 4);
        WHOLE(NtpRawRequest);
    }
}

/* Each number has a text of its own. */
static void texts(void) {
    const char *other = ntp_text((NtpNumber)(NTP_CANNOT_BE_MADE + 1));
    for (int i = NTP_ACCEPTED; i <= NTP_CANNOT_BE_MADE; i++) {
        SAME(strcmp(ntp_text((NtpNumber)i), other) == 0, 0);
        for (int j = 0; j < i; j++) SAME(strcmp(ntp_text((NtpNumber)i), ntp_text((NtpNumber)j)) == 0, 0);
    }
}

int main(void) {
    SAME(ntp_interface_2(), NTP_INTERFACE);
    reading();
    every_field_of_a_read();
    refusals_of_reading();
    every_byte_is_looked_at();
    surveys();
    results_in_order();
    untrusted_fields();
    each_trust();
    used_tables();
    tables_at_their_limits();
    surplus_items();
    surplus_inner_fields_and_seals();
    all_tables_full();
    full_tables_used_again();
    one_call();
    one_call_at_its_limits();
    layout_of_a_cut();
    cuts_of_each_count();
    cuts_before_a_remainder();
    cuts_into_a_remainder();
    cuts_of_more_than_a_remainder();
    cuts_of_each_length();
    cuts_with_padding();
    cuts_that_wrap();
    cuts_past_the_limits();
    cuts_of_other_versions();
    cuts_of_nothing();
    cuts_of_refused_packets();
    cuts_of_each_type();
    cuts_past_16_bits();
    cuts_before_a_wall();
    drawn_cuts();
    stages();
    one_call_of_writing();
    past_the_end();
    kinds_to_write();
    full_lists();
    full_lists_written();
    longer_list_written();
    macs_read();
    macs_written();
    trailer_of_seven_bytes();
    header_read();
    refusals_of_a_header();
    coded_numbers();
    header_written();
    time_reading();
    header_v3v4_read();
    gaps_of_header_v3v4();
    refusals_of_header_v3v4();
    first_byte_of_header_v3v4();
    header_v3v4_made();
    header_v3v4_written();
    header_v3v4_not_writable();
    time_reading_v3v4();
    header_entries();
    journal_found();
    journal_too_long();
    which_entries_count();
    journal_entries();
    journal_append_stores();
    journal_no_stores();
    journal_recovery_stores();
    refusals_of_the_journal();
    room_in_the_journal();
    torn_tail_of_any_bytes();
    full_journal();
    every_cut();
    stores_in_memory();
    body_of_a_read();
    verdicts_for_the_journal();
    reference_ids();
    texts();
    printf("link: %d checks of the library from C, %d failed\n", checks, failures);
    return failures != 0;
}
