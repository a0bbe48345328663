/* A host with keys: opens and reads a response of chronyd, and writes and seals the next request, by OpenSSL's
 * AES-SIV. It takes a key and a packet, two lines of hex, from standard input (examples/nts.in is a response that
 * chronyd sent on loopback, with the key of that exchange).
 *
 *   cc -Iinclude examples/nts.c target/library/$(uname -m)/libpump.a -lcrypto -o nts && ./nts < examples/nts.in
 */
#include <stdio.h>
#include <stdlib.h>

#include "aes_siv.h"
#include "lobzhinar.h"

static uint8_t key[SIV_KEY_LEN], packet[4096], plaintexts[4096];

/* Reads a line of hex; how many bytes it has. */
static size_t hex_line(uint8_t *bytes, size_t room) {
    size_t n = 0;
    unsigned byte;
    while (n < room && scanf("%2x", &byte) == 1) {
        bytes[n++] = (uint8_t)byte;
        int next = getchar();
        if (next == '\n' || next == EOF) break;
        ungetc(next, stdin);
    }
    return n;
}

/* The library hands each sealed field to this function. A server would find its cookie in the context, and the key
 * in the cookie; a client has one key. */
static NtpVerdict open_sealed(void *our_key, const NtpSeal *seal, const NtpContext *context, NtpRoom room,
                              size_t *plaintext_len) {
    (void)context;
    printf("opening %zu bytes over the first %zu of the packet\n", seal->ciphertext.len, seal->associated_data.len);
    if (seal->ciphertext.len < SIV_IV_LEN || room.len < seal->ciphertext.len) return NTP_FAILED;
    if (!siv_open(our_key, seal->associated_data, seal->nonce, seal->ciphertext, room.bytes)) return NTP_FAILED;
    *plaintext_len = seal->ciphertext.len - SIV_IV_LEN;
    return NTP_OPENED;
}

static int seal_plaintext(void *our_key, NtpBytes associated_data, NtpBytes plaintext, NtpRoom nonce,
                          size_t *nonce_len, NtpRoom ciphertext, size_t *ciphertext_len) {
    /* A host takes random bytes that it never used before. This program prints the same packet each time. */
    memset(nonce.bytes, 0x5A, SIV_IV_LEN);
    *nonce_len = SIV_IV_LEN;
    *ciphertext_len = plaintext.len + SIV_IV_LEN;
    printf("sealing %zu bytes over the first %zu of the packet\n", plaintext.len, associated_data.len);
    if (ciphertext.len < *ciphertext_len) return 0;
    return siv_seal(our_key, associated_data, ntp_bytes(nonce.bytes, *nonce_len), plaintext, ciphertext.bytes);
}

static void stop_unless(NtpNumber number, const char *what) {
    if (number == NTP_ACCEPTED) return;
    printf("%s: %d, %s\n", what, (int)number, ntp_text(number));
    exit(1);
}

/* Only an encrypted cookie is taken: a server sends cookies inside its seal. */
static NtpBytes cookie_of(const NtpEncryptedField *field) { return field->message; }

static NtpBytes read_response(NtpWorkspace *work, NtpRead *read, size_t len) {
    NtpBytes cookie = ntp_bytes(NULL, 0);
    NtpAuthenticatedField identifier;
    NtpEncryptedField field;
    NtpOpener opener = {open_sealed, key};
    stop_unless(ntp_deserialize(read, work, ntp_packet_v4(packet, len), opener,
                                ntp_room(plaintexts, sizeof plaintexts)),
                "reading");
    /* The seal covers the header too: it was opened, so the header is the server's. */
    NtpHeaderV3V4Read header;
    stop_unless(ntp_header_v3v4_read(&header, ntp_bytes(packet, len)), "the header");
    printf("stratum %d, root distance %.9f s\n", header.header.stratum,
           ntp_reading_v3v4(&header.header).distance_seconds);
    stop_unless(ntp_authenticated_field(&identifier, read, 0), "the identifier");
    printf("authenticated: %zu bytes of identifier\n", identifier.message.len);
    for (size_t i = 0; i < read->encrypted_count; i++) {
        stop_unless(ntp_encrypted_field(&field, read, i), "an encrypted field");
        if (field.kind != NTP_NTS_COOKIE) continue;
        cookie = cookie_of(&field);
        printf("encrypted: a cookie of %zu bytes\n", cookie.len);
    }
    return cookie;
}

static size_t write_request(NtpBytes cookie, uint8_t *request, size_t room_len) {
    static uint8_t data[2048], plaintext[64], nonce[SIV_IV_LEN], ciphertext[64];
    /* A host takes 32 random bytes. */
    static const uint8_t identifier[32] = {0x1D};
    static NtpFields fields;
    NtpSealer sealer = {seal_plaintext, key};
    NtpBetween between = {ntp_room(plaintext, sizeof plaintext), ntp_room(nonce, sizeof nonce),
                          ntp_room(ciphertext, sizeof ciphertext)};
    size_t len;
    /* A host takes a random timestamp: the server sends it back as the origin timestamp of its response. */
    NtpHeaderV3V4 header = {.version = 4,
                            .mode = NTP_ASSOCIATION_MODE_CLIENT,
                            .transmit_timestamp = {.units_of_2pow_minus_32_s_in_era = 0x1D}};
    stop_unless(ntp_header_v3v4_write(&header, ntp_room(request, room_len), 0), "writing the header");
    ntp_fields_with(&fields, ntp_room(data, sizeof data));
    stop_unless(ntp_add_unique_identifier(ntp_authenticated_list(&fields), ntp_bytes(identifier, 32)), "adding");
    stop_unless(ntp_add_nts_cookie(ntp_authenticated_list(&fields), cookie), "adding");
    stop_unless(ntp_add_nts_cookie_placeholder(ntp_authenticated_list(&fields), (uint16_t)cookie.len), "adding");
    stop_unless(ntp_serialize(&len, &fields, ntp_output_v4(ntp_room(request, room_len)), sealer, between), "writing");
    return len;
}

int main(void) {
    static NtpWorkspace work;
    static uint8_t request[2048];
    NtpRead read;
    if (hex_line(key, sizeof key) != sizeof key) return 2;
    size_t len = hex_line(packet, sizeof packet);
    NtpBytes cookie = read_response(&work, &read, len);

    size_t request_len = write_request(cookie, request, sizeof request);
    printf("a request of %zu bytes\n", request_len);
    /* Read it as its server would, with the key of this direction. */
    NtpOpener opener = {open_sealed, key};
    stop_unless(ntp_deserialize(&read, &work, ntp_packet_v4(request, request_len), opener,
                                ntp_room(plaintexts, sizeof plaintexts)),
                "reading the request");
    printf("it reads back: %zu authenticated fields\n", read.authenticated_count);
    request[60] ^= 1;
    NtpNumber number = ntp_deserialize(&read, &work, ntp_packet_v4(request, request_len), opener,
                                       ntp_room(plaintexts, sizeof plaintexts));
    printf("with a bit changed: %d, %s; %zu authenticated fields\n", (int)number, ntp_text(number),
           read.authenticated_count);
    return 0;
}
