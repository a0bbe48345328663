/* A first program over the library: reads a packet from standard input, raw, and lists its fields. It has no
 * key, so it says "no key" of each sealed field; examples/nts.c is a host with keys. */
#include "lobzhinar.h"

#include <stdio.h>

static uint8_t bytes[65536];
static NtpWorkspace work;

static void show_header(int version, int stratum, NtpReading reading) {
    printf("NTPv%d, stratum %d, root distance %.9f s\n", version, stratum, reading.distance_seconds);
}

/* The version of the header, which is printed, or 0 with the refusal printed. */
static int version_of(NtpBytes packet) {
    NtpHeaderV3V4Read older;
    if (ntp_header_v3v4_read(&older, packet) == NTP_ACCEPTED) {
        show_header(older.header.version, older.header.stratum, ntp_reading_v3v4(&older.header));
        return older.header.version;
    }
    NtpHeaderRead read;
    NtpNumber number = ntp_header_read(&read, packet);
    if (number == NTP_ACCEPTED) {
        show_header(NTP_V5, read.header.stratum, ntp_reading(&read.header));
        return NTP_V5;
    }
    printf("refused: %d, %s", (int)number, ntp_text(number));
    if (number == NTP_INVALID_VERSION) printf(" (%zu)", read.version_seen);
    printf("\n");
    return 0;
}

static NtpVerdict no_key(void *key, const NtpSeal *seal, const NtpContext *context, NtpRoom room,
                         size_t *plaintext_len) {
    (void)key, (void)context, (void)room, (void)plaintext_len;
    printf("sealed: %zu bytes of ciphertext, over the first %zu bytes\n", seal->ciphertext.len,
           seal->associated_data.len);
    return NTP_NO_KEY;
}

int main(void) {
    size_t len = fread(bytes, 1, sizeof bytes, stdin);
    int version = version_of(ntp_bytes(bytes, len));
    if (version == 0) return 1;
    /* NTPv3 has no fields. */
    if (version == 3) return 0;

    NtpRead read;
    NtpOpener opener = {no_key, NULL};
    NtpPacket packet = ntp_packet_with_header((NtpVersion)version, NTP_HEADER_SIZE, bytes, len);
    NtpNumber number = ntp_deserialize(&read, &work, packet, opener, ntp_room(NULL, 0));
    if (number != NTP_ACCEPTED && number != NTP_DECRYPT_ERROR) {
        printf("refused at %zu: %d, %s\n", read.field_offset, (int)number, ntp_text(number));
        return 1;
    }
    /* Without a key nothing is authenticated, and nothing encrypted can be read. */
    NtpUntrustedField field;
    for (size_t i = 0; ntp_untrusted_field(&field, &read, i) == NTP_ACCEPTED; i++)
        printf("untrusted field of type 0x%04x at %zu, %zu bytes of message\n", (unsigned)field.type_id,
               field.packet_offset, field.message.len);
    printf("%d, %s; %zu bytes are left over\n", (int)number, ntp_text(number), read.remainder.len);
    return 0;
}
