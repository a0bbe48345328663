/* A host with a journal: journal FILE [STORES] <PACKET
 *
 * It recovers the journal in FILE, lists its entries, reads a packet from standard input and appends two entries: the
 * verdict on the packet, and its header. With STORES the power is lost after so many stores: the program ends in the
 * middle, and its next run finds what it left. */
#define _XOPEN_SOURCE 700

#include <signal.h>
#include <stdio.h>
#include <stdlib.h>

#include "journal_file.h"

static Flash flash;
static uint8_t packet[65536];
static NtpWorkspace work;

/* How many stores are left until the power is lost. */
static size_t stores_left;

static void lose_power(void) {
    if (stores_left-- == 0) raise(SIGKILL);
}

static void show(const NtpJournalEntry *entry) {
    const uint8_t *body = entry->body.bytes;
    if (entry->kind == NTP_JOURNAL_HEADER) {
        printf("at %zu: a header, NTPv%d, stratum %d\n", entry->entry_offset, body[0] >> 3 & 7, body[1]);
        return;
    }
    printf("at %zu: a read: %d, %s; fields: %d authenticated, %d untrusted, %d encrypted\n", entry->entry_offset, body[0],
           ntp_text((NtpNumber)body[0]), body[1], body[2], body[3]);
}

/* The first thing after each start, before anything is appended. */
static int start_journal(void) {
    NtpJournalFound found;
    NtpJournalEntry entry;
    if (!journal_recover(&flash, &found)) return 0;
    printf("%zu entries, the next at %zu; erased %zu bytes of a torn tail\n", found.entry_count, found.next_offset,
           found.torn_len);
    for (size_t i = 0; ntp_journal_entry(&entry, flash_image(&flash), i) == NTP_ACCEPTED; i++) show(&entry);
    return 1;
}

static NtpVerdict no_key(void *key, const NtpSeal *seal, const NtpContext *context, NtpRoom room,
                         size_t *plaintext_len) {
    (void)key, (void)seal, (void)context, (void)room, (void)plaintext_len;
    return NTP_NO_KEY;
}

/* Every packet has a verdict, one that is refused too. */
static NtpNumber append_verdict(size_t len) {
    NtpRead read;
    uint8_t body[NTP_JOURNAL_READ_BODY];
    NtpOpener opener = {no_key, NULL};
    NtpPacket whole = ntp_packet_with_header((NtpVersion)(packet[0] >> 3 & 7), NTP_HEADER_SIZE, packet, len);
    NtpNumber number = ntp_deserialize(&read, &work, whole, opener, ntp_room(NULL, 0));
    printf("read: %d, %s\n", (int)number, ntp_text(number));
    number = ntp_journal_read_body(ntp_room(body, sizeof body), &read);
    if (number != NTP_ACCEPTED) return number;
    return journal_append(&flash, NTP_JOURNAL_READ, ntp_bytes(body, sizeof body));
}

static int is_appended(const char *what, NtpNumber number) {
    printf("%s %s: %d, %s\n", what, number == NTP_ACCEPTED ? "appended" : "not appended", (int)number,
           flash.state == FLASH_FAILED ? "a store failed" : ntp_text(number));
    return number == NTP_ACCEPTED;
}

int main(int count, char **arguments) {
    /* What was printed is not lost with the power. */
    setvbuf(stdout, NULL, _IONBF, 0);
    if (count < 2 || !flash_open(&flash, arguments[1], NTP_JOURNAL_LONGEST_IMAGE, O_DSYNC)) return 2;
    if (count > 2) {
        stores_left = strtoul(arguments[2], NULL, 10);
        flash.before_store = lose_power;
    }
    if (!start_journal()) return 1;

    size_t len = fread(packet, 1, sizeof packet, stdin);
    if (!is_appended("verdict", append_verdict(len))) return 1;
    if (len < NTP_HEADER_SIZE) return 0;
    const NtpBytes header = ntp_bytes(packet, NTP_HEADER_SIZE);
    return is_appended("header", journal_append(&flash, NTP_JOURNAL_HEADER, header)) ? 0 : 1;
}
