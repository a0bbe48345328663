/* A host that judges the cuts of a gateway: cuts <examples/cuts.in
 *
 * The gateway is tshark. Each line of the input has a packet and the cut that tshark shows of it; the head of the
 * input says how it was made. The cut is judged as a table and as two lists, and then with each of its numbers one
 * higher and one lower: no changed list may pass. The status is 0 if all verdicts are as they have to be.
 *
 * A yes is not trust: a pump reads the packet next, as nts.c does, and takes its fields from there. */
#include <stdio.h>
#include <stdlib.h>
#include <string.h>

#include "lobzhinar.h"

#define MOST_CUTS 32

/* What a line holds. */
typedef struct Proposal {
    NtpPacket packet;
    NtpCut cuts[MOST_CUTS];
    size_t cut_count;
    uint8_t bytes[2048];
    char name[60];
    char verdict[4];
} Proposal;

typedef struct Total {
    size_t yes, no, otherwise, changed, changed_passed;
} Total;

/* How many bytes some hex digits are; 0 if they are none, or too many. */
static size_t read_hex(uint8_t *bytes, size_t most, const char *hex) {
    size_t len = strlen(hex) / 2;
    if (len > most) return 0;
    for (size_t i = 0; i < len; i++)
        if (sscanf(hex + 2 * i, "%2hhx", &bytes[i]) != 1) return 0;
    return len;
}

/* Takes "48:36,84:104" apart; "-" has no pairs. */
static int read_cuts(Proposal *p, const char *text) {
    int used = 0;
    p->cut_count = 0;
    if (strcmp(text, "-") == 0) return 1;
    while (p->cut_count < MOST_CUTS) {
        NtpCut *cut = &p->cuts[p->cut_count++];
        if (sscanf(text, "%zu:%zu%n", &cut->field_offset, &cut->wire_length, &used) != 2) return 0;
        text += used;
        if (*text++ != ',') return text[-1] == '\0';
    }
    return 0;
}

static int read_line(Proposal *p, const char *line) {
    static char hex[4097], cuts[512];
    unsigned version;
    size_t header_size;
    const char *words = "%59s %3s %u %zu %4096s %511s";
    if (sscanf(line, words, p->name, p->verdict, &version, &header_size, hex, cuts) != 6) return 0;
    size_t len = read_hex(p->bytes, sizeof p->bytes, hex);
    p->packet = ntp_packet_with_header((NtpVersion)version, header_size, p->bytes, len);
    return len != 0 && read_cuts(p, cuts);
}

/* The verdict on the table as it stands. A gateway that keeps two lists gets the same one. */
static bool is_cut(const Proposal *p) {
    size_t field_offsets[MOST_CUTS], wire_lengths[MOST_CUTS];
    for (size_t i = 0; i < p->cut_count; i++) {
        field_offsets[i] = p->cuts[i].field_offset;
        wire_lengths[i] = p->cuts[i].wire_length;
    }
    bool yes = ntp_judge_cut(p->packet, p->cuts, p->cut_count).is_cut;
    if (ntp_judge_cut_lists(p->packet, field_offsets, p->cut_count, wire_lengths, p->cut_count).is_cut != yes) {
        printf("%s: the table and the lists get two verdicts\n", p->name);
        exit(1);
    }
    return yes;
}

/* How many lists pass that have this number one higher or one lower. */
static size_t passed_with_another(const Proposal *p, size_t *number) {
    size_t passed = 0;
    *number += 1;
    passed += is_cut(p);
    *number -= 2;
    passed += is_cut(p);
    *number += 1;
    return passed;
}

static void judge(Proposal *p, Total *total) {
    bool yes = is_cut(p);
    size_t passed = 0;
    for (size_t i = 0; i < p->cut_count; i++) {
        passed += passed_with_another(p, &p->cuts[i].field_offset);
        passed += passed_with_another(p, &p->cuts[i].wire_length);
    }
    printf("%s: %s, %zu fields; of %zu changed lists %zu pass\n", p->name, yes ? "yes" : "no", p->cut_count,
           4 * p->cut_count, passed);
    total->yes += yes;
    total->no += !yes;
    total->otherwise += yes != (strcmp(p->verdict, "yes") == 0);
    total->changed += 4 * p->cut_count;
    total->changed_passed += passed;
}

int main(void) {
    static char line[8192];
    static Proposal proposal;
    Total total = {0, 0, 0, 0, 0};
    while (fgets(line, sizeof line, stdin) != NULL) {
        if (line[0] == '#') continue;
        if (!read_line(&proposal, line)) return 2;
        judge(&proposal, &total);
    }
    printf("tshark's cuts: %zu yes, %zu no, %zu not as they have to be; of %zu changed lists %zu pass\n", total.yes,
           total.no, total.otherwise, total.changed, total.changed_passed);
    return total.yes != 0 && total.otherwise == 0 && total.changed_passed == 0 ? 0 : 1;
}
