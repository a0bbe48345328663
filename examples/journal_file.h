/* A journal in a file, which stands for the flash of a device. A device team replaces flash_open and flash_store,
 * and takes the rest over as it is.
 *
 * The bytes are stored one at a time: power may be lost after any of them. This header keeps a copy of the flash in
 * memory, which the library searches; a device whose flash can be read as memory needs none. */
#ifndef EXAMPLES_JOURNAL_FILE_H
#define EXAMPLES_JOURNAL_FILE_H

#include <fcntl.h>
#include <string.h>
#include <unistd.h>

#include "lobzhinar.h"

/* No append comes before a recovery has run to its end. After a store that failed the copy may differ from the flash:
 * the host opens it again, and recovers. */
typedef enum FlashState { FLASH_OPENED, FLASH_RECOVERED, FLASH_FAILED } FlashState;

typedef struct Flash {
    size_t len;
    int file;
    FlashState state;
    /* For a trial: called before each store, if it is there. */
    void (*before_store)(void);
    uint8_t copy[NTP_JOURNAL_LONGEST_IMAGE];
} Flash;

static NtpBytes flash_image(const Flash *flash) { return ntp_bytes(flash->copy, flash->len); }

/* Reads the file into the copy; 1 if all went well. A file that is shorter, or new, is filled up with blank bytes
 * first: flash is blank when it is new. `flags` are added to those of open: O_DSYNC makes each store wait until it
 * stands on the disk. */
static int flash_open(Flash *flash, const char *path, size_t len, int flags) {
    size_t n = 0;
    ssize_t more;
    flash->state = FLASH_OPENED;
    flash->before_store = NULL;
    flash->len = len;
    flash->file = len <= sizeof flash->copy ? open(path, O_RDWR | O_CREAT | flags, 0600) : -1;
    if (flash->file < 0) return 0;
    memset(flash->copy, 0xFF, sizeof flash->copy);
    /* A read may return fewer bytes than there are; only 0 is the end of the file. */
    while (n < len && (more = pread(flash->file, flash->copy + n, len - n, (off_t)n)) != 0) {
        if (more < 0) return 0;
        n += (size_t)more;
    }
    return n == len || pwrite(flash->file, flash->copy + n, len - n, (off_t)n) == (ssize_t)(len - n);
}

/* Stores one byte; 1 if it stands. All stores of the journal come through here. */
static int flash_store(Flash *flash, NtpStore store) {
    if (flash->before_store != NULL) flash->before_store();
    if (pwrite(flash->file, &store.byte, 1, (off_t)store.offset) != 1) {
        flash->state = FLASH_FAILED;
        return 0;
    }
    ntp_journal_store(ntp_room(flash->copy, flash->len), store);
    return 1;
}

/* Erases what a power loss left half written, and tells what was found; 1 if the recovery ran to its end. */
static int journal_recover(Flash *flash, NtpJournalFound *found) {
    NtpStore store;
    if (flash->state == FLASH_FAILED) return 0;
    flash->state = FLASH_OPENED;
    if (ntp_journal_find(found, flash_image(flash)) != NTP_ACCEPTED) return 0;
    for (size_t i = 0; ntp_journal_recovery_store(&store, found, i) == NTP_ACCEPTED; i++)
        if (!flash_store(flash, store)) return 0;
    flash->state = FLASH_RECOVERED;
    return 1;
}

/* Appends an entry: 0, or why not. 18 also if a recovery has to run first, or if a store failed: the state tells. */
static NtpNumber journal_append(Flash *flash, NtpJournalKind kind, NtpBytes body) {
    NtpJournalPlan plan;
    NtpStore store;
    if (flash->state != FLASH_RECOVERED) return NTP_CANNOT_BE_MADE;
    NtpNumber number = ntp_journal_start(&plan, flash_image(flash), kind, body);
    /* A plan that was refused has no stores. */
    for (size_t i = 0; ntp_journal_append_store(&store, &plan, i) == NTP_ACCEPTED; i++)
        if (!flash_store(flash, store)) return NTP_CANNOT_BE_MADE;
    return number;
}

#endif
