/* A host of interface 1, compiled with tests/interface-1/lobzhinar.h: the header of 0.6.0, by which a table has 64
 * entries. It passes its tables to a survey and to a read of a packet with twice as many items and inner fields, and
 * says how many words behind each table were overwritten. Status 1: there are some.
 *
 * It does not link with this library, which takes tables of 128 entries: tools/link-test. */
#include "lobzhinar.h"

#include <stdio.h>
#include <string.h>

#define UNTOUCHED 0xA5A5A5A5A5A5A5A5

static struct {
    NtpSealTable seals;
    uint64_t behind_seals[NTP_TABLE];
    NtpOuterTable outer;
    uint64_t behind_outer[NTP_TABLE];
    NtpInnerTable inner;
    uint64_t behind_inner[NTP_TABLE];
} lent;

/* A sealed field, which was opened, and items; the plaintext consists of the same items. */
static uint8_t packet[8 + 4 * 2 * NTP_TABLE] = {0x04, 0x04, 0x00, 0x08};

static size_t overwritten(const char *what, const uint64_t *behind) {
    size_t count = 0;
    for (size_t i = 0; i < NTP_TABLE; i++) count += behind[i] != UNTOUCHED;
    printf("old host: %zu words behind the table of %s were overwritten\n", count, what);
    return count;
}

int main(void) {
    const uint8_t *items = packet + 8, verdict = 2;
    const size_t start = 0, items_len = sizeof packet - 8;
    NtpRawSurvey surveyed;
    NtpRawRead read;
    for (size_t at = 8; at < sizeof packet; at += 4) memcpy(packet + at, "\x20\x01\x00\x04", 4);
    memset(&lent, 0xA5, sizeof lent);
    ntp_raw_survey(&surveyed, packet, sizeof packet, 0, NTP_V5, &lent.seals);
    ntp_raw_read(&read, packet, sizeof packet, 0, NTP_V5, &verdict, 1, &start, 1, &items_len, 1, items, items_len,
                 &lent.outer, NTP_TABLE, &lent.inner, NTP_TABLE);
    size_t count = overwritten("sealed fields", lent.behind_seals);
    count += overwritten("outer items", lent.behind_outer);
    count += overwritten("inner fields", lent.behind_inner);
    return count != 0;
}
