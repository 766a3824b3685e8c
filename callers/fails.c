/* fails: each request for memory is refused in turn, and all from it on. Each call then answers SEFUNJARO_NO_MEMORY, gives back what it
   took and leaves the handle closed; look-ups take none. It is linked with --wrap=malloc, --wrap=realloc and --wrap=free. */
#include "sefunjaro.h"
#include "small.h"
#include "small_file.h"
#include <stdio.h>
#include <stdlib.h>
#include <string.h>

void *__real_malloc(size_t size);
void *__real_realloc(void *block, size_t size);
void __real_free(void *block);

static long left = -1;  /* how many requests are granted; -1 is all of them */
static bool for_good;   /* whether all are refused from then on */
static long live;       /* blocks that are taken and not given back */
static bool is_refused; /* whether one was refused */

static bool refuses(void) {
    if (left < 0 || left-- > 0) return false;
    left = for_good ? 0 : -1;
    is_refused = true;
    return true;
}

void *__wrap_malloc(size_t size) {
    void *block = refuses() ? NULL : __real_malloc(size);
    live += block != NULL;
    return block;
}

void *__wrap_realloc(void *block, size_t size) {
    void *other = refuses() ? NULL : __real_realloc(block, size);
    live += other && !block;
    return other;
}

void __wrap_free(void *block) {
    live -= block != NULL;
    __real_free(block);
}

static struct sefunjaro_source source = SEFUNJARO_CLOSED;
static struct sefunjaro_zone zone = SEFUNJARO_CLOSED, other = SEFUNJARO_CLOSED;
static struct sefunjaro_fault fault;
static char found[64];
static uint8_t file[64];
static size_t length;
static bool is_posix;

static uint32_t open_plain(void) { return sefunjaro_source_open_plain(small_source, strlen(small_source), &source, &fault); }
static uint32_t open_source(void) { return sefunjaro_source_open("Zone A 1 - A\n", 13, &source, &fault); }
static uint32_t open_zone(void) { return sefunjaro_zone_open(&source, "Europe/Paris", 12, &zone, &fault); }
static uint32_t open_file(void) { return sefunjaro_file_open(small_file, sizeof small_file, &zone, &fault); }
static uint32_t open_posix(void) { return sefunjaro_posix_open("CET-1CEST,M3.5.0,M10.5.0/3", 26, &zone, &fault); }
static uint32_t tail(void) { return sefunjaro_tail(&zone, found, sizeof found, &length, &is_posix, &fault); }
static uint32_t tzif(void) { return sefunjaro_tzif(&zone, file, sizeof file, &length, &fault); }
static uint32_t ever_tail(void) { return sefunjaro_tail_for_ever(&zone, found, sizeof found, &length, &is_posix, &fault); }
static uint32_t ever_file(void) { return sefunjaro_tzif_for_ever(&zone, file, sizeof file, &length, &fault); }
static uint32_t share(void) { return sefunjaro_share(&zone, &other); }

/* How many requests a call makes, which opens a handle, if one is given: each refused in turn; -1 where an answer is wrong or something is
   not given back. Some that a source makes it can do without, and is opened all the same. */
static long tried(uint32_t (*call)(void), struct sefunjaro_handle *made) {
    for (long n = 0;; n++) {
        long before = live;
        int32_t offset;
        left = n;
        is_refused = false;
        uint32_t status = call();
        left = -1;
        if (!is_refused) return status == SEFUNJARO_DONE ? n : -1;
        if (made && status == SEFUNJARO_DONE) sefunjaro_close(made);
        else if (status != SEFUNJARO_NO_MEMORY) return -1;
        if (live != before) return -1;
        if (made && sefunjaro_offset_at((const struct sefunjaro_zone *)made, 0, 0, &offset) != SEFUNJARO_NOT_OPEN) return -1;
    }
}

/* What a source and a text are asked. */
static bool look_aside(void) {
    struct sefunjaro_clock clock;
    struct sefunjaro_instant instant;
    struct sefunjaro_years years;
    char text[40];
    size_t whole;
    left = 0;
    sefunjaro_version(text, 40, &whole, &years);
    bool done = !sefunjaro_name_count(&source, &whole) && !sefunjaro_name(&source, 0, text, 40, &whole);
    done = done && sefunjaro_source_version(&source, text, 40, &whole) == SEFUNJARO_NONE;
    done = done && !sefunjaro_read_local("2024-03-31 02:30:00.000000000", 29, &clock);
    done = done && !sefunjaro_read_zoned("2024-03-31 02:30:00.000000000 +01:00:00", 39, &instant) && left == 0;
    left = -1;
    return done;
}

static bool look(void) {
    struct sefunjaro_clock local = { 2024, 3, 31, 2, 30, 0, 0 }, clock;
    struct sefunjaro_reading reading;
    struct sefunjaro_gap gap;
    struct sefunjaro_in_force in_force;
    char text[40];
    size_t whole;
    int32_t offset;
    left = 0;
    bool done = !sefunjaro_text_at(&other, 0, 0, text, 40, &whole) && !sefunjaro_readings(&other, &local, &reading, 1, &whole, &gap);
    done = done && !sefunjaro_offset_at(&other, 0, 0, &offset) && !sefunjaro_in_force(&other, 0, 0, &in_force, text, 40);
    done = done && !sefunjaro_clock_at(&other, 0, 0, &clock, &offset);
    struct sefunjaro_change change;
    int64_t saving;
    done = done && !sefunjaro_saving_at(&other, 0, 0, &saving) && !sefunjaro_next_change(&other, 0, &change);
    done = done && !sefunjaro_changes(&other, 0, 1 << 30, &change, 1, &whole) && sefunjaro_ring(&other, &local, &reading) == SEFUNJARO_NONE;
    done = done && left == 0;
    left = -1;
    return done;
}

/* A zone of a file is asked without memory, where its footer speaks. */
static bool look_far(void) {
    struct sefunjaro_clock local = { 2400, 3, 26, 2, 30, 0, 0 };
    struct sefunjaro_reading reading;
    struct sefunjaro_gap gap;
    char text[40];
    size_t whole;
    left = 0;
    bool done = !sefunjaro_text_at(&zone, 13576813200, 0, text, 40, &whole) && !sefunjaro_readings(&zone, &local, &reading, 1, &whole, &gap);
    done = done && gap.second == 13576813200 && sefunjaro_ring(&zone, &local, &reading) == SEFUNJARO_NONE && left == 0;
    left = -1;
    return done;
}

int main(void) {
    for (int pass = 0; pass < 2; pass++) {
        for_good = pass;
        long of_source = tried(open_source, &source.handle);
        sefunjaro_source_close(&source);
        long of_plain = tried(open_plain, &source.handle), of_zone = tried(open_zone, &zone.handle), of_share = tried(share, &other.handle);
        if (of_source < 0 || of_plain < 0 || of_zone < 0 || of_share < 0 || !look() || !look_aside()) return 1;
        long of_tail = tried(tail, NULL), of_tzif = tried(tzif, NULL);
        if (of_tail < 0 || of_tzif < 0 || tried(ever_tail, NULL) < 0 || tried(ever_file, NULL) < 0) return 5;
        sefunjaro_source_close(&source);
        sefunjaro_zone_close(&zone);
        sefunjaro_zone_close(&other);
        long of_file = tried(open_file, &zone.handle);
        if (of_file < 0 || !look_far()) return 3;
        sefunjaro_zone_close(&zone);
        long of_posix = tried(open_posix, &zone.handle);
        if (of_posix < 0 || !look_far()) return 4;
        sefunjaro_zone_close(&zone);
        if (live) return 2;
        if (pass) printf("%ld requests of a file and %ld of a string refused in turn\n", of_file, of_posix);
        if (pass) printf("%ld requests for a zone's string and %ld for its file refused in turn\n", of_tail, of_tzif);
        if (pass) printf("%ld requests of a source, %ld of a plain one, %ld of a zone and %ld of a share refused in turn\n", of_source, of_plain, of_zone, of_share);
    }
    return 0;
}
