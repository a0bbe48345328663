/* Ends a host that keeps its journal in a file, by SIGKILL, and looks at what it left: power_loss FILE COUNT SEED
 *
 * - After each store: an append is ended after each of its stores, then the recovery after it after each of its own.
 *   The file has to be, byte for byte, what the order of the stores says. A host that is not ended then recovers and
 *   appends, and the file has to hold all entries.
 * - At random: COUNT hosts append one entry after the other, and each is ended at some moment. All entries that were
 *   completed have to be there, in order, and none that was not appended.
 *
 * The host is that of examples/journal_file.h. What it should have left is worked out here, without the library. */
#define _XOPEN_SOURCE 700

#include <signal.h>
#include <stdio.h>
#include <stdlib.h>
#include <sys/wait.h>
#include <time.h>

#include "../examples/journal_file.h"

enum { LONGEST_ENTRY = 53 };

/* What ends the program: says what is wrong with the file, and leaves it where it is. */
static const char *path;
static uint64_t seed;

static void must(int is_so, const char *what, size_t number) {
    if (is_so) return;
    printf("power-loss: %s (%zu); the file is %s, the seed %llu\n", what, number, path, (unsigned long long)seed);
    exit(1);
}

/* Splitmix64. */
static uint64_t random_state;

static uint64_t random_number(void) {
    uint64_t z = random_state += 0x9E3779B97F4A7C15;
    z = (z ^ z >> 30) * 0xBF58476D1CE4E5B9;
    z = (z ^ z >> 27) * 0x94D049BB133111EB;
    return z ^ z >> 31;
}

static size_t random_below(size_t limit) { return random_number() % limit; }

/* ---- Entries, by hand ---- */

typedef struct Entry {
    size_t len;
    uint8_t bytes[56];
} Entry;

/* Bodies of ordinary bytes, and of bytes that could be taken for the end of an entry, blank flash or entries. */
static Entry entry_of(NtpJournalKind kind, size_t style) {
    static const uint8_t within[9] = {9, 0, 1, 0, 0, 0, 0, 0, 0xA5};
    Entry entry = {kind == NTP_JOURNAL_READ ? 9 : LONGEST_ENTRY, {0}};
    entry.bytes[0] = (uint8_t)entry.len;
    entry.bytes[2] = (uint8_t)kind;
    for (size_t i = 4; i < entry.len - 1; i++) {
        const uint8_t bytes[] = {(uint8_t)random_number(), 0xA5, 0xFF, within[(i - 4) % 9]};
        entry.bytes[i] = bytes[style % 4];
    }
    entry.bytes[entry.len - 1] = 0xA5;
    return entry;
}

/* Entry number `number` of a journal: the same one each time it is asked for. */
static Entry numbered_entry(uint64_t journal, size_t number) {
    const uint64_t kept = random_state;
    random_state = seed ^ journal << 32 ^ number << 8;
    const NtpJournalKind kind = random_below(3) != 0 ? NTP_JOURNAL_READ : NTP_JOURNAL_HEADER;
    const size_t style = random_below(8);
    const Entry entry = entry_of(kind, style < 4 ? style : 0);
    random_state = kept;
    return entry;
}

static NtpNumber append_entry(Flash *flash, const Entry *entry) {
    return journal_append(flash, (NtpJournalKind)entry->bytes[2], ntp_bytes(entry->bytes + 4, entry->len - 5));
}

/* ---- The file, without the library ---- */

static uint8_t left[NTP_JOURNAL_LONGEST_IMAGE];

/* Reads what a host left. The file keeps its length. */
static void read_file(size_t len) {
    FILE *file = fopen(path, "rb");
    must(file != NULL, "the file is not there", 0);
    const size_t n = fread(left, 1, sizeof left, file);
    must(n == len && fgetc(file) == EOF, "the file has another length", n);
    fclose(file);
}

static void write_file(const uint8_t *bytes, size_t len) {
    FILE *file = fopen(path, "wb");
    must(file != NULL && fwrite(bytes, 1, len, file) == len && fclose(file) == 0, "the file can't be written", len);
}

static void is_left(const uint8_t *wanted, size_t len, const char *what, size_t number) {
    read_file(len);
    must(memcmp(left, wanted, len) == 0, what, number);
}

/* How many bytes there are from a place on, up to the last that is not blank. */
static size_t torn_from(const uint8_t *image, size_t at, size_t len) {
    while (len > at && image[len - 1] == 0xFF) len--;
    return len - at;
}

/* ---- After each store ---- */

static size_t cut_appends, cut_recoveries;

/* How many stores are left until the power is lost. */
static size_t stores_left;

static void lose_power(void) {
    if (stores_left-- == 0) raise(SIGKILL);
}

/* A host that starts, recovers and appends an entry, if there is one. It loses its power after so many stores, or at
 * the end. */
static void host_with_stores(size_t image_len, size_t stores, const Entry *entry) {
    static Flash flash;
    NtpJournalFound found;
    int status = 0;
    const pid_t child = fork();
    must(child >= 0, "there is no further process", 0);
    if (child == 0) {
        if (!flash_open(&flash, path, image_len, 0)) _exit(2);
        stores_left = stores;
        flash.before_store = lose_power;
        if (!journal_recover(&flash, &found)) _exit(3);
        if (entry != NULL && append_entry(&flash, entry) != NTP_ACCEPTED) _exit(4);
        raise(SIGKILL);
    }
    must(waitpid(child, &status, 0) == child && WIFSIGNALED(status) && WTERMSIG(status) == SIGKILL,
         "a host ended by itself, with status", (size_t)status);
}

/* Ends the recovery of a torn image after each of its stores. A host that goes on then has to leave `wanted`. */
static void every_cut_of_a_recovery(const uint8_t *torn, size_t next, size_t len, const Entry *entry,
                                    const uint8_t *wanted) {
    const size_t end = next + torn_from(torn, next, len);
    uint8_t image[256];
    memcpy(image, torn, len);
    for (size_t cut = 0; next + cut <= end; cut++) {
        write_file(torn, len);
        host_with_stores(len, cut, NULL);
        is_left(image, len, "a recovery that was cut left other bytes", cut);
        host_with_stores(len, SIZE_MAX, entry);
        is_left(wanted, len, "an entry is not as it was appended, after a cut recovery", cut);
        cut_recoveries++;
        if (next + cut < end) image[end - 1 - cut] = 0xFF;
    }
}

/* Ends an append after each of its stores. The kind, the body and the end come first, then the high byte of the
 * length, then the low one. Then it ends the recovery. */
static void every_cut_of_an_append(const uint8_t *before, size_t next, size_t len, const Entry *entry) {
    uint8_t image[256], wanted[256];
    memcpy(image, before, len);
    memcpy(wanted, before, len);
    memcpy(wanted + next, entry->bytes, entry->len);
    for (size_t cut = 0; cut < entry->len; cut++) {
        write_file(before, len);
        host_with_stores(len, cut, entry);
        is_left(image, len, "an append that was cut left other bytes", cut);
        cut_appends++;
        /* The tails of a header are many: its longest two, and one with half a body. */
        if (entry->len < LONGEST_ENTRY || cut + 2 >= entry->len || cut == entry->len / 2)
            every_cut_of_a_recovery(image, next, len, entry, wanted);
        const size_t place = cut < entry->len - 2 ? cut + 2 : entry->len - 1 - cut;
        image[next + place] = entry->bytes[place];
    }
    write_file(before, len);
    host_with_stores(len, entry->len, entry);
    is_left(wanted, len, "an append that was not cut left other bytes", entry->len);
    /* It stands: a start leaves it there. */
    host_with_stores(len, SIZE_MAX, NULL);
    is_left(wanted, len, "a completed entry is lost by a start", entry->len);
    cut_appends++;
}

/* Into an empty journal that the entry fills, and after entries in one with room to spare. */
static void after_each_store(void) {
    for (size_t style = 0; style < 4; style++)
        for (size_t kind = 1; kind <= 2; kind++)
            for (size_t count = 0; count <= 2; count += 2) {
                const Entry entry = entry_of((NtpJournalKind)kind, style);
                uint8_t before[256];
                size_t next = 0;
                memset(before, 0xFF, sizeof before);
                for (size_t i = 0; i < count; i++) {
                    const Entry other = entry_of(i == 0 ? NTP_JOURNAL_HEADER : NTP_JOURNAL_READ, style + i);
                    memcpy(before + next, other.bytes, other.len);
                    next += other.len;
                }
                every_cut_of_an_append(before, next, next + entry.len + 10 * count, &entry);
            }
}

/* ---- At random ---- */

/* One journal after the other, each with a length of its own; how many entries are known to be in the present one. */
static uint64_t journal;
static size_t image_len, completed, torn_len;
static size_t ended_in_recovery, ended_in_append, ended_between, entries_in_all;

/* What a host reports, a letter each, before it goes on. */
enum { RECOVERS = 'r', RECOVERED = 'R', APPENDS = 'a', APPENDED = 'A', IS_FULL = 'f', IS_WRONG = 'w' };

static void report(int pipe_end, char letter) {
    if (write(pipe_end, &letter, 1) != 1) _exit(5);
}

/* A store in flash takes its time, here up to 40 microseconds. A file would be written before anyone could end the
 * host; a sleep would be too long. */
static void take_time(void) {
    const size_t nanoseconds = random_below(40000);
    struct timespec from, now;
    clock_gettime(CLOCK_MONOTONIC, &from);
    do clock_gettime(CLOCK_MONOTONIC, &now);
    while ((size_t)(now.tv_sec - from.tv_sec) * 1000000000 + (size_t)now.tv_nsec - (size_t)from.tv_nsec < nanoseconds);
}

/* A host that appends until the journal is full. It goes on after the entries that it finds. */
static void host_at_work(int pipe_end) {
    static Flash flash;
    NtpJournalFound found;
    if (!flash_open(&flash, path, image_len, 0)) _exit(2);
    if (random_below(4) != 0) flash.before_store = take_time;
    report(pipe_end, RECOVERS);
    if (!journal_recover(&flash, &found)) {
        report(pipe_end, IS_WRONG);
        _exit(3);
    }
    report(pipe_end, RECOVERED);
    for (size_t number = found.entry_count;; number++) {
        const Entry entry = numbered_entry(journal, number);
        report(pipe_end, APPENDS);
        const NtpNumber answer = append_entry(&flash, &entry);
        if (answer != NTP_ACCEPTED) {
            report(pipe_end, answer == NTP_NO_ROOM ? IS_FULL : IS_WRONG);
            _exit(0);
        }
        report(pipe_end, APPENDED);
    }
}

/* Starts a host and ends it a moment after one of its reports. How many entries it completed is added; its last report
 * is returned. */
static int last_report_of_a_host(void) {
    static const size_t most_reports[] = {1, 1, 10, 100};
    const size_t reports = 1 + random_below(most_reports[random_below(4)]);
    int ends[2], status, last = 0;
    char letter;
    must(pipe(ends) == 0, "there is no pipe", 0);
    const pid_t child = fork();
    must(child >= 0, "there is no further process", 0);
    if (child == 0) {
        close(ends[0]);
        host_at_work(ends[1]);
    }
    close(ends[1]);
    for (size_t i = 0; read(ends[0], &letter, 1) == 1; i++) {
        must(letter != IS_WRONG, "a host could not recover or append", completed);
        completed += letter == APPENDED;
        last = letter;
        if (i + 1 != reports) continue;
        nanosleep(&(struct timespec){0, (long)random_below(500000)}, NULL);
        kill(child, SIGKILL);
    }
    must(waitpid(child, &status, 0) == child && (WIFSIGNALED(status) || last == IS_FULL), "a host ended by itself", 0);
    close(ends[0]);
    return last;
}

/* Where a host ended: an append leaves a torn tail, and a recovery a shorter one than it found. */
static void count_the_end(int last, size_t torn_len_now) {
    if (last == APPENDS && torn_len_now != 0)
        ended_in_append++;
    else if (last == RECOVERS && torn_len_now != 0 && torn_len_now < torn_len)
        ended_in_recovery++;
    else if (last != IS_FULL)
        ended_between++;
    torn_len = torn_len_now;
}

/* All entries that were completed are there, and the one that was on its way is there as a whole or not at all. What
 * follows are bytes of that one, and blank ones. */
static void look_at_the_journal(int last) {
    const size_t most = completed + (last == APPENDS);
    size_t at = 0;
    NtpJournalFound found;
    NtpJournalEntry read;
    read_file(image_len);
    for (size_t number = 0;; number++) {
        const Entry entry = numbered_entry(journal, number);
        const int is_there = at + entry.len <= image_len && memcmp(left + at, entry.bytes, entry.len) == 0;
        must(is_there || number >= completed, "a completed entry is missing", number);
        if (!is_there) {
            for (size_t i = 0; at + i < image_len; i++)
                must(left[at + i] == 0xFF || (i < entry.len && left[at + i] == entry.bytes[i]),
                     "a byte is of no entry", at + i);
            break;
        }
        must(number < most, "an entry is made up", number);
        must(ntp_journal_entry(&read, ntp_bytes(left, image_len), number) == NTP_ACCEPTED && read.entry_offset == at &&
                 read.kind == (NtpJournalKind)entry.bytes[2] && read.body.len == entry.len - 5 &&
                 memcmp(read.body.bytes, entry.bytes + 4, entry.len - 5) == 0,
             "an entry is read otherwise than it stands", number);
        at += entry.len;
        completed += number == completed;
    }
    must(ntp_journal_find(&found, ntp_bytes(left, image_len)) == NTP_ACCEPTED, "the journal is refused", image_len);
    must(found.entry_count == completed && found.next_offset == at, "other entries are found", found.entry_count);
    must(found.torn_len == torn_from(left, at, image_len), "another torn tail is found", found.torn_len);
    count_the_end(last, found.torn_len);
}

static void next_journal(void) {
    static const size_t lens[] = {62, 300, 1000, 5000, 20000, NTP_JOURNAL_LONGEST_IMAGE};
    entries_in_all += completed;
    completed = torn_len = 0;
    journal++;
    image_len = lens[random_below(6)];
    memset(left, 0xFF, sizeof left);
    write_file(left, image_len);
}

static void at_random(size_t count) {
    next_journal();
    while (ended_in_recovery + ended_in_append + ended_between < count) {
        const int last = last_report_of_a_host();
        look_at_the_journal(last);
        if (last == IS_FULL) next_journal();
    }
    entries_in_all += completed;
    /* Most of them end in an append. Ends in a recovery are left to the exact part: few may meet one. */
    must(count < 40 || ended_in_append != 0, "no host ended in an append", count);
}

int main(int count, char **arguments) {
    if (count != 4) return 2;
    path = arguments[1];
    seed = random_state = strtoull(arguments[3], NULL, 10);
    after_each_store();
    printf("power-loss: ended after each store: %zu times in an append, %zu times in a recovery\n", cut_appends,
           cut_recoveries);
    at_random(strtoul(arguments[2], NULL, 10));
    printf("power-loss: ended at random (seed %llu): %zu times in an append, %zu in a recovery, %zu between; all %zu "
           "entries are there\n",
           (unsigned long long)seed, ended_in_append, ended_in_recovery, ended_between, entries_in_all);
    return 0;
}
