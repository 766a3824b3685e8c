/* What sefunjaro_named.h declares. */
#define _GNU_SOURCE
#include "sefunjaro_named.h"
#include <errno.h>
#include <pthread.h>
#include <stdio.h>
#include <stdlib.h>
#include <string.h>

/* The bytes that are asked for first, and those up to which a source is read whole: one that is longer is refused as it is. */
enum { FIRST = 1 << 18, MOST = 1 << 24 };

/* The source is opened below the lock, and never closed or moved, so it is read without one. */
static struct sefunjaro_source machine = SEFUNJARO_CLOSED;
static bool is_read;
static pthread_mutex_t lock = PTHREAD_MUTEX_INITIALIZER;
static pthread_once_t watched = PTHREAD_ONCE_INIT;
static int unwatched;

static void take(void) { pthread_mutex_lock(&lock); }
static void give(void) { pthread_mutex_unlock(&lock); }

/* A fork waits until no thread has the lock, so that in the child it is free. */
static void watch(void) { unwatched = pthread_atfork(take, give, give); }

static uint32_t refused(uint32_t status, uint32_t cause, struct sefunjaro_fault *fault) {
    fault->status = status;
    fault->cause = cause;
    fault->line = 0;
    return status;
}

const char *sefunjaro_named_path(void) {
    const char *named = secure_getenv("SEFUNJARO_TZDATA");
    return named && *named ? named : SEFUNJARO_NAMED_FILE;
}

static uint32_t read_text(FILE *file, struct sefunjaro_fault *fault) {
    char *text = NULL;
    size_t length = 0, room = FIRST / 2;
    do {
        room *= 2;
        char *more = realloc(text, room);
        if (!more) {
            free(text);
            return refused(SEFUNJARO_NO_MEMORY, 0, fault);
        }
        text = more;
        errno = 0;
        length += fread(text + length, 1, room - length, file);
    } while (length == room && room <= MOST);
    uint32_t status = ferror(file) ? refused(SEFUNJARO_NAMED_NO_FILE, (uint32_t)errno, fault)
                                   : sefunjaro_source_open(text, length, &machine, fault);
    free(text);
    return status;
}

static uint32_t read_file(struct sefunjaro_fault *fault) {
    FILE *file = fopen(sefunjaro_named_path(), "rbe");
    if (!file) return refused(SEFUNJARO_NAMED_NO_FILE, (uint32_t)errno, fault);
    uint32_t status = read_text(file, fault);
    fclose(file);
    return status;
}

uint32_t sefunjaro_named_source(const struct sefunjaro_source **source, struct sefunjaro_fault *fault) {
    pthread_once(&watched, watch);
    if (unwatched) return refused(SEFUNJARO_NO_MEMORY, 0, fault);
    take();
    uint32_t status = is_read ? refused(SEFUNJARO_DONE, 0, fault) : read_file(fault);
    is_read = status == SEFUNJARO_DONE;
    give();
    if (status == SEFUNJARO_DONE) *source = &machine;
    return status;
}

uint32_t sefunjaro_named_open(const char *name, size_t length, struct sefunjaro_zone *zone, struct sefunjaro_fault *fault) {
    const struct sefunjaro_source *source = NULL;
    sefunjaro_zone_close(zone);
    if (memchr(name, 0, length)) return refused(SEFUNJARO_NAMED_ZERO_BYTE, 0, fault);
    uint32_t status = sefunjaro_named_source(&source, fault);
    return status ? status : sefunjaro_zone_open(source, name, length, zone, fault);
}
