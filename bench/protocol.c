/* What the standard flow asks of the system for its data, file by file, and nothing else: bench/table.py times the flow
   beside it. Run in a folder with the folders `in`, `store` and `out`, it moves each file of `in` to `out`.

   A file is read. Its content, an event and an entry of the log behind a closed gate are written, and each is synced;
   the gate is opened and synced. The file gets another name and is removed. The content is read back. It is written
   aside in `out`, synced, and renamed; the folder is synced. Two events and an entry are written and synced, and the
   gate is opened and synced. All sizes are those of docs/STORE.md. It looks at no file before it uses it, takes no
   digest and keeps no state, and a store of it can't be opened. */

#define _GNU_SOURCE
#include <dirent.h>
#include <errno.h>
#include <fcntl.h>
#include <stdio.h>
#include <stdlib.h>
#include <string.h>
#include <sys/stat.h>
#include <unistd.h>

/* Of a content, and of a claim that takes another one. */
#define CONTENT_MAX 16777216
#define CLAIM_OPEN 1048576
/* After so many files the claims are emptied: two entries each. */
#define RECLAIMED 128

/* Bytes of the events and the entries beside the file's name. */
enum { RECEIVED = 119, SENT = 119, DROPPED = 126, TAKEN = 204, LET_GO = 98, MOST = 1024 };

struct store {
    int folder, log, events, claim;
    off_t log_end, events_end, claim_end;
    unsigned claims, files;
};

static unsigned char content[CONTENT_MAX + 1], again[CONTENT_MAX], record[MOST];

static void need(int holds, const char *what) {
    if (!holds) {
        fprintf(stderr, "%s: %s\n", what, strerror(errno));
        exit(1);
    }
}

static int opened(int folder, const char *name, int flags) {
    int file = openat(folder, name, flags | O_CLOEXEC, 0666);
    need(file >= 0, name);
    return file;
}

static void put(int file, const void *bytes, size_t size, off_t at) {
    need(pwrite(file, bytes, size, at) == (ssize_t)size, "write");
}

static void sync_data(int file) { need(fdatasync(file) == 0, "fdatasync"); }

static void empty_claims(struct store *store) {
    char name[32];
    while (store->claims > 0) {
        snprintf(name, sizeof name, "claim-%u", --store->claims);
        need(unlinkat(store->folder, name, 0) == 0, name);
    }
}

/* A claim that takes another content. Whether it was made for that. */
static int make_claim(struct store *store) {
    char name[32];
    int is_due = store->files % RECLAIMED == 0;
    if (store->claim >= 0 && store->claim_end < CLAIM_OPEN && !is_due) return 0;
    if (store->claim >= 0) close(store->claim);
    if (is_due) empty_claims(store);
    snprintf(name, sizeof name, "claim-%u", store->claims++);
    store->claim = opened(store->folder, name, O_RDWR | O_CREAT | O_TRUNC);
    store->claim_end = 0;
    return 1;
}

/* The gate is the last byte of the log; behind it come the block and the next gate, which is closed. */
static void append_entry(struct store *store, size_t size) {
    record[size - 1] = 0;
    put(store->log, record, size, store->log_end);
    record[size - 1] = 1;
}

static void append_events(struct store *store, size_t size) {
    put(store->events, record, size, store->events_end);
    store->events_end += size;
}

static void open_gate(struct store *store, size_t size) {
    put(store->log, "\x5a", 1, store->log_end - 1);
    sync_data(store->log);
    store->log_end += size;
}

/* Takes a file into the store and out of the inbox. How many bytes it has. */
static size_t take(struct store *store, int inbox, const char *name, size_t length) {
    char aside[300];
    int file = opened(inbox, name, O_RDONLY | O_NOFOLLOW);
    ssize_t size = pread(file, content, sizeof content, 0);
    need(size >= 0 && size <= CONTENT_MAX, name);
    int is_new = make_claim(store);
    if (size > 0) put(store->claim, content, size, store->claim_end);
    append_events(store, RECEIVED + length);
    append_entry(store, TAKEN + length);
    sync_data(store->log);
    if (size > 0) sync_data(store->claim);
    sync_data(store->events);
    if (is_new) need(fsync(store->folder) == 0, "fsync");
    open_gate(store, TAKEN + length);
    snprintf(aside, sizeof aside, ".flow-taken-0-%s", name);
    need(renameat(inbox, name, inbox, aside) == 0, name);
    need(unlinkat(inbox, aside, 0) == 0, aside);
    close(file);
    return size;
}

/* Delivers a file, and lets it go. */
static void deliver(struct store *store, int outbox, int aside, const char *name, size_t length, size_t size) {
    char part[32];
    need(pread(store->claim, again, size, store->claim_end) == (ssize_t)size, "read");
    need(memcmp(again, content, size) == 0, "other bytes");
    store->claim_end += size;
    snprintf(part, sizeof part, "part-%u", store->files);
    int file = opened(aside, part, O_WRONLY | O_CREAT | O_EXCL);
    if (size > 0) put(file, content, size, 0);
    need(fsync(file) == 0, "fsync");
    close(file);
    need(renameat(aside, part, outbox, name) == 0, name);
    need(fsync(outbox) == 0, "fsync");
    append_events(store, SENT + DROPPED + length);
    append_entry(store, LET_GO);
    sync_data(store->log);
    sync_data(store->events);
    open_gate(store, LET_GO);
    store->files++;
}

static int is_file(const struct dirent *entry) { return entry->d_type == DT_REG; }

int main(void) {
    struct dirent **names;
    memset(record, 1, sizeof record);
    int inbox = opened(AT_FDCWD, "in", O_RDONLY | O_DIRECTORY);
    int outbox = opened(AT_FDCWD, "out", O_RDONLY | O_DIRECTORY);
    struct store store = {.folder = opened(AT_FDCWD, "store", O_RDONLY | O_DIRECTORY), .claim = -1, .log_end = 1};
    store.log = opened(store.folder, "log-1", O_RDWR | O_CREAT | O_TRUNC);
    store.events = opened(store.folder, "events-0", O_RDWR | O_CREAT | O_TRUNC);
    put(store.log, "", 1, 0);
    need(mkdirat(outbox, ".flow-aside-0", 0777) == 0, ".flow-aside-0");
    int aside = opened(outbox, ".flow-aside-0", O_RDONLY | O_DIRECTORY);
    int count = scandir("in", &names, is_file, alphasort);
    need(count >= 0, "in");
    for (int place = 0; place < count; place++) {
        const char *name = names[place]->d_name;
        size_t length = strlen(name);
        size_t size = take(&store, inbox, name, length);
        deliver(&store, outbox, aside, name, length, size);
    }
    need(unlinkat(outbox, ".flow-aside-0", AT_REMOVEDIR) == 0, ".flow-aside-0");
    return 0;
}
