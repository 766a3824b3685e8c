/* speed ZONES ROUNDS [FILE]: the nanoseconds of processor time of a look-up, the best of nine turns: of an offset, an offset with its
   abbreviation, a whole answer, a local time, all instants of one and the change that skips one; of offsets, local times, texts and
   instants in lists, as they come and rising; and of localtime_r of the C library, which has read the same zone from the file that TZ
   names. The zone is America/New_York, of the source ZONES or of the compiled file FILE. */
#define _DEFAULT_SOURCE
#include "sefunjaro.h"
#include <stdio.h>
#include <stdlib.h>
#include <string.h>
#include <time.h>

static struct sefunjaro_source source = SEFUNJARO_CLOSED;
static struct sefunjaro_zone zone = SEFUNJARO_CLOSED;
static struct sefunjaro_fault fault;
static char text[1 << 24];
static long rounds, sum;

enum { LISTED = 1000 };
static int64_t any[LISTED], rising[LISTED];
static struct sefunjaro_clock any_clocks[LISTED], rising_clocks[LISTED];

/* Seconds all over the years 1970 to 2034, out of order. */
static int64_t second_of(long i) { return (int64_t)i * 7919 * 3600 % 2030000000; }

static void offsets(void) {
    int32_t offset;
    for (long i = 0; i < rounds; i++) sum += sefunjaro_offset_at(&zone, second_of(i), 0, &offset) + (uint32_t)offset;
}

static void in_force(void) {
    struct sefunjaro_in_force found;
    char name[8];
    for (long i = 0; i < rounds; i++) sum += sefunjaro_in_force(&zone, second_of(i), 0, &found, name, 8) + name[0];
}

static void answers(void) {
    struct sefunjaro_answer found;
    char name[8];
    for (long i = 0; i < rounds; i++) sum += sefunjaro_answer_at(&zone, second_of(i), 0, &found, name, 8) + name[0];
}

static void clocks(void) {
    struct sefunjaro_clock clock;
    int32_t offset;
    for (long i = 0; i < rounds; i++) sum += sefunjaro_clock_at(&zone, second_of(i), 0, &clock, &offset) + clock.day;
}

static void readings(const struct sefunjaro_clock *local) {
    struct sefunjaro_reading found[2];
    struct sefunjaro_gap gap;
    size_t count;
    sum += sefunjaro_readings(&zone, local, found, 2, &count, &gap) + count;
}

static void local_times(void) {
    for (long i = 0; i < rounds; i++) {
        struct sefunjaro_clock local = { 1970 + (int)(i % 64), (uint8_t)(1 + i % 12), (uint8_t)(1 + i % 28), (uint8_t)(i % 24), 30, 0, 0 };
        readings(&local);
    }
}

static void gaps(void) {
    const struct sefunjaro_clock local = { 2024, 3, 10, 2, 30, 0, 0 };
    for (long i = 0; i < rounds; i++) readings(&local);
}

static void offset_list(const int64_t *seconds) {
    int32_t found[LISTED];
    size_t place;
    for (long i = 0; i < rounds / LISTED; i++) sum += sefunjaro_offsets_at(&zone, seconds, LISTED, found, LISTED, &place) + (uint32_t)found[i % LISTED];
}

static void clock_list(const int64_t *seconds) {
    struct sefunjaro_clock found[LISTED];
    size_t place;
    for (long i = 0; i < rounds / LISTED; i++) sum += sefunjaro_clocks_at(&zone, seconds, LISTED, found, LISTED, &place) + found[i % LISTED].day;
}

static void text_list(const int64_t *seconds) {
    static char found[41 * LISTED];
    size_t whole, place;
    for (long i = 0; i < rounds / LISTED; i++) sum += sefunjaro_texts_at(&zone, seconds, LISTED, found, sizeof found, &whole, &place) + found[i % LISTED];
}

static void instant_list(const struct sefunjaro_clock *locals) {
    struct sefunjaro_found found[LISTED];
    size_t place;
    for (long i = 0; i < rounds / LISTED; i++)
        sum += sefunjaro_instants_of(&zone, locals, LISTED, SEFUNJARO_FOLD_FIRST, SEFUNJARO_GAP_BEFORE, found, LISTED, &place) + found[i % LISTED].kind;
}

static void offsets_any(void) { offset_list(any); }
static void offsets_rising(void) { offset_list(rising); }
static void clocks_any(void) { clock_list(any); }
static void clocks_rising(void) { clock_list(rising); }
static void texts_any(void) { text_list(any); }
static void texts_rising(void) { text_list(rising); }
static void instants_any(void) { instant_list(any_clocks); }
static void instants_rising(void) { instant_list(rising_clocks); }

static void of_libc(void) {
    struct tm parts;
    for (long i = 0; i < rounds; i++) {
        time_t second = (time_t)second_of(i);
        sum += localtime_r(&second, &parts)->tm_gmtoff;
    }
}

static const struct {
    const char *name;
    void (*run)(void);
} parts[] = {
    { "offset_at", offsets }, { "in_force", in_force }, { "answer_at", answers }, { "clock_at", clocks }, { "readings", local_times },
    { "readings, a gap", gaps }, { "offsets_at", offsets_any }, { "offsets_at, rising", offsets_rising }, { "clocks_at", clocks_any },
    { "clocks_at, rising", clocks_rising }, { "texts_at", texts_any }, { "texts_at, rising", texts_rising },
    { "instants_of", instants_any }, { "instants_of, rising", instants_rising }, { "localtime_r", of_libc },
};
enum { PARTS = sizeof parts / sizeof *parts };

static double taken(void (*part)(void)) {
    struct timespec start, end;
    clock_gettime(CLOCK_PROCESS_CPUTIME_ID, &start);
    part();
    clock_gettime(CLOCK_PROCESS_CPUTIME_ID, &end);
    return ((double)(end.tv_sec - start.tv_sec) * 1e9 + (double)(end.tv_nsec - start.tv_nsec)) / (double)rounds;
}

/* The bytes of a file, in `text`; 0 where there are none. */
static size_t bytes_of(const char *path) {
    FILE *file = fopen(path, "rb");
    if (!file) return 0;
    size_t length = fread(text, 1, sizeof text, file);
    fclose(file);
    return length;
}

static int opens(const char *zones, const char *compiled) {
    if (compiled) return !sefunjaro_file_open((const uint8_t *)text, bytes_of(compiled), &zone, &fault);
    return !sefunjaro_source_open(text, bytes_of(zones), &source, &fault) && !sefunjaro_zone_open(&source, "America/New_York", 16, &zone, &fault);
}

static int fills_lists(void) {
    int32_t offset;
    for (long i = 0; i < LISTED; i++) {
        any[i] = second_of(i);
        rising[i] = i * 2030000;
        if (sefunjaro_clock_at(&zone, any[i], 0, &any_clocks[i], &offset) || sefunjaro_clock_at(&zone, rising[i], 0, &rising_clocks[i], &offset)) return 0;
    }
    return 1;
}

int main(int argc, char **argv) {
    double best[PARTS];
    if (argc != 3 && argc != 4) return 1;
    rounds = atol(argv[2]);
    if (!opens(argv[1], argv[3]) || !fills_lists()) return 1;
    setenv("TZ", "America/New_York", 1);
    tzset();
    for (int turn = 0; turn < 9; turn++)
        for (int i = 0; i < PARTS; i++) {
            double nanos = taken(parts[i].run);
            if (!turn || nanos < best[i]) best[i] = nanos;
        }
    for (int i = 0; i < PARTS; i++) printf("%s %.1f\n", parts[i].name, best[i]);
    sefunjaro_zone_close(&zone);
    sefunjaro_source_close(&source);
    return sum == 1;
}
