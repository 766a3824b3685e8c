/* uses: calls each function for each of its statuses that need no want of memory, and ends with the number of the first check that
   fails, or 0. */
#include "sefunjaro.h"
#include "small.h"
#include "small_file.h"
#include <string.h>

/* A handle that holds the other kind, as no caller passes it who doesn't say so. */
static const struct sefunjaro_zone *as_zone(const struct sefunjaro_source *source) { return (const struct sefunjaro_zone *)source; }
static const struct sefunjaro_source *as_source(const struct sefunjaro_zone *zone) { return (const struct sefunjaro_source *)zone; }

static struct sefunjaro_source source = SEFUNJARO_CLOSED;
static struct sefunjaro_zone zone = SEFUNJARO_CLOSED, other = SEFUNJARO_CLOSED;
static struct sefunjaro_fault fault;

static uint32_t open_text(const char *text, size_t length) { return sefunjaro_source_open_plain(text, length, &source, &fault); }
static uint32_t open_name(const char *name) { return sefunjaro_zone_open(&source, name, strlen(name), &zone, &fault); }
static bool is_fault(uint32_t status, uint32_t cause, size_t line) { return fault.status == status && fault.cause == cause && fault.line == line; }

static int closed_handles(void) {
    struct sefunjaro_clock clock = { 2024, 1, 1, 0, 0, 0, 0 };
    struct sefunjaro_reading reading;
    struct sefunjaro_gap gap;
    struct sefunjaro_in_force found;
    char text[40] = { 7 };
    size_t count = 9;
    int32_t offset = 9;
    if (sefunjaro_name_count(&source, &count) != SEFUNJARO_NOT_OPEN || count != 9) return 1;
    if (sefunjaro_name(&source, 0, text, 40, &count) != SEFUNJARO_NOT_OPEN || text[0] != 7) return 2;
    if (sefunjaro_source_version(&source, text, 40, &count) != SEFUNJARO_NOT_OPEN || text[0] != 7 || count != 9) return 64;
    if (open_name("Europe/Paris") != SEFUNJARO_NOT_OPEN || !is_fault(SEFUNJARO_NOT_OPEN, 0, 0)) return 3;
    if (sefunjaro_offset_at(&zone, 0, 0, &offset) != SEFUNJARO_NOT_OPEN || offset != 9) return 4;
    if (sefunjaro_in_force(&zone, 0, 0, &found, text, 40) != SEFUNJARO_NOT_OPEN) return 5;
    if (sefunjaro_clock_at(&zone, 0, 0, &clock, &offset) != SEFUNJARO_NOT_OPEN) return 6;
    if (sefunjaro_text_at(&zone, 0, 0, text, 40, &count) != SEFUNJARO_NOT_OPEN || text[0] != 7) return 7;
    if (sefunjaro_readings(&zone, &clock, &reading, 1, &count, &gap) != SEFUNJARO_NOT_OPEN) return 8;
    if (sefunjaro_share(&zone, &other) != SEFUNJARO_NOT_OPEN) return 9;
    struct sefunjaro_change change = { 5, 6, 7, 8, true };
    int64_t saving = 9;
    if (sefunjaro_saving_at(&zone, 0, 0, &saving) != SEFUNJARO_NOT_OPEN || saving != 9) return 60;
    if (sefunjaro_next_change(&zone, 0, &change) != SEFUNJARO_NOT_OPEN || change.second != 5) return 61;
    if (sefunjaro_changes(&zone, 0, 1, &change, 1, &count) != SEFUNJARO_NOT_OPEN || change.saving != 7) return 62;
    if (sefunjaro_ring(&zone, &clock, &reading) != SEFUNJARO_NOT_OPEN) return 63;
    int32_t year = 9;
    if (sefunjaro_years(&zone, &year) != SEFUNJARO_NOT_OPEN || year != 9) return 64;
    sefunjaro_zone_close(&zone);
    return 0;
}

/* A source names its release by its first line, and by no other. */
static int releases(void) {
    static const char named[] = "# version 2026b\nZone A 1:00 - A\n", later[] = "Zone A 1:00 - A\n# version 2026b\n";
    char text[8] = "........";
    size_t whole = 9;
    if (open_text(named, sizeof named - 1) || sefunjaro_source_version(&source, text, 3, &whole) || whole != 5 || memcmp(text, "202.....", 8)) return 230;
    if (sefunjaro_source_version(&source, text, 8, &whole) || whole != 5 || memcmp(text, "2026b...", 8)) return 231;
    if (sefunjaro_source_open(named, sizeof named - 1, &source, &fault)) return 232;
    text[0] = '.';
    if (sefunjaro_source_version(&source, text, 8, &whole) || whole != 5 || memcmp(text, "2026b...", 8)) return 233;
    text[0] = '.', whole = 9;
    if (open_text(later, sizeof later - 1) || sefunjaro_source_version(&source, text, 8, &whole) != SEFUNJARO_NONE) return 234;
    if (whole != 9 || text[0] != '.') return 235;
    if (open_name("A") || sefunjaro_source_version(as_source(&zone), text, 8, &whole) != SEFUNJARO_NOT_OPEN || whole != 9) return 236;
    sefunjaro_zone_close(&zone);
    sefunjaro_source_close(&source);
    return 0;
}

static int sources(void) {
    if (open_text("\nZone A 1:00 - \xff\n", 16) != SEFUNJARO_NOT_TEXT || !is_fault(SEFUNJARO_NOT_TEXT, 0, 2)) return 10;
    if (open_text("Nonsense", 8) != SEFUNJARO_BAD_LINE || !is_fault(SEFUNJARO_BAD_LINE, SEFUNJARO_INVALID_LINE_TYPE, 1)) return 11;
    if (open_text("Zone A 1:00 X A\n", 16) != SEFUNJARO_BAD_JOIN || !is_fault(SEFUNJARO_BAD_JOIN, SEFUNJARO_UNKNOWN_RULESET, 1)) return 12;
    static char many[(1 << 24) + 1];
    if (open_text(many, sizeof many) != SEFUNJARO_TOO_LONG || !is_fault(SEFUNJARO_TOO_LONG, 0, 0)) return 13;
    size_t count = 9;
    if (open_text("", 0) != SEFUNJARO_DONE || sefunjaro_name_count(&source, &count) || count != 0) return 14;
    if (open_text(small_source, strlen(small_source)) != SEFUNJARO_DONE || !is_fault(0, 0, 0)) return 15;
    if (sefunjaro_name_count(&source, &count) || count != 5) return 16;
    char name[20];
    memset(name, '.', sizeof name);
    if (sefunjaro_name(&source, 2, name, 4, &count) || count != 13 || memcmp(name, "Euro...", 7)) return 17;
    if (sefunjaro_name(&source, 4, name, 20, &count) || count != 5 || memcmp(name, "Fixed", 5)) return 18;
    if (sefunjaro_name(&source, 5, name, 20, &count) != SEFUNJARO_NONE) return 19;
    return 0;
}

static int statuses(void) {
    for (uint32_t status = 0; status <= SEFUNJARO_NO_PLAIN_FORM; status++)
        if (!*sefunjaro_status_text(status)) return 240;
    if (*sefunjaro_status_text(SEFUNJARO_NO_PLAIN_FORM + 1) || strcmp(sefunjaro_status_text(SEFUNJARO_NO_MEMORY), "memory ran out")) return 241;
#if SEFUNJARO_VERSION_MAJOR != 2 || SEFUNJARO_VERSION_MINOR < 0 || SEFUNJARO_VERSION_PATCH < 0
    return 242;
#endif
    sefunjaro_zone_close(&other);
    sefunjaro_source_close(&source);
    other = sefunjaro_no_zone(), source = sefunjaro_no_source();
    return other.handle.is_open || source.handle.is_open ? 243 : 0;
}

static int zones(void) {
    int32_t offset = 9;
    if (sefunjaro_offset_at(as_zone(&source), 0, 0, &offset) != SEFUNJARO_NOT_OPEN) return 20;
    if (open_name("Europe/Rome") != SEFUNJARO_UNKNOWN_ZONE || !is_fault(SEFUNJARO_UNKNOWN_ZONE, 0, 0)) return 21;
    if (open_name("\xff") != SEFUNJARO_NOT_TEXT) return 22;
    if (open_name("Fixed") != SEFUNJARO_OFFSET_RANGE) return 23;
    if (open_name("Ends") != SEFUNJARO_DONE) return 24;
    if (open_name("Europe/Monaco") != SEFUNJARO_DONE || !is_fault(0, 0, 0)) return 25;
    if (sefunjaro_zone_open(as_source(&zone), "A", 1, &other, &fault) != SEFUNJARO_NOT_OPEN) return 26;
    if (sefunjaro_share(&zone, &other) != SEFUNJARO_DONE) return 27;
    sefunjaro_zone_close(&zone);
    if (sefunjaro_offset_at(&other, 1720000000, 0, &offset) || offset != 7200) return 28;
    if (sefunjaro_share(&other, &zone) != SEFUNJARO_DONE) return 29;
    sefunjaro_source_close(&source);
    sefunjaro_zone_close(&other);
    return 0;
}

/* Offsets of lists, in Paris: as the single call tells them, in any order, as far as there is room, and none where a second is out of range. */
static int lists(void) {
    static const int64_t seconds[] = { 1711846799, 1711846800, 1711846801, 0, 16788297599, 16788297600, 253402300799, -377705116800, 13576813200, 953989200 };
    int64_t far[] = { 0, 253402300800, -377705116801 };
    int32_t offsets[10], offset;
    size_t place = 7;
    for (size_t room = 0; room <= 10; room++) {
        for (size_t i = 0; i < 10; i++) offsets[i] = 9;
        if (sefunjaro_offsets_at(&zone, seconds, 10, offsets, room, &place) || place != 7) return 1;
        for (size_t i = 0; i < 10; i++)
            if (sefunjaro_offset_at(&zone, seconds[i], 0, &offset) || offsets[i] != (i < room ? offset : 9)) return 2;
    }
    if (sefunjaro_offsets_at(&zone, seconds, 0, offsets, 10, &place) || place != 7) return 3;
    offsets[0] = 9;
    if (sefunjaro_offsets_at(&zone, far, 3, offsets, 3, &place) != SEFUNJARO_OUT_OF_RANGE || place != 1 || offsets[0] != 9) return 4;
    far[1] = 0;
    if (sefunjaro_offsets_at(&zone, far, 3, offsets, 0, &place) != SEFUNJARO_OUT_OF_RANGE || place != 2) return 5;
    if (sefunjaro_offsets_at(as_zone(&source), seconds, 1, offsets, 3, &place) != SEFUNJARO_NOT_OPEN || place != 2 || offsets[0] != 9) return 6;
    return 0;
}

static bool is_clock(const struct sefunjaro_clock *a, const struct sefunjaro_clock *b) {
    return a->year == b->year && a->month == b->month && a->day == b->day && a->hour == b->hour && a->minute == b->minute && a->second == b->second &&
           a->nanosecond == b->nanosecond;
}

/* What clocks show, and its texts, of lists in Paris. Paris enters the year 10000 an hour before UTC does. */
static int clock_lists(void) {
    static const int64_t seconds[] = { 1711846799, 1711846800, 0, 253402297199, -377705116800, 13576813200 };
    static const struct sefunjaro_clock due[] = { { 2024, 3, 31, 1, 59, 59, 0 },   { 2024, 3, 31, 3, 0, 0, 0 }, { 1970, 1, 1, 1, 0, 0, 0 },
                                                  { 9999, 12, 31, 23, 59, 59, 0 }, { -9999, 1, 1, 1, 0, 0, 0 }, { 2400, 3, 26, 3, 0, 0, 0 } };
    static const char texts[] = "2024-03-31 01:59:59.000000000 +01:00:00\n2024-03-31 03:00:00.000000000 +02:00:00\n"
                                "1970-01-01 01:00:00.000000000 +01:00:00\n9999-12-31 23:59:59.000000000 +01:00:00\n"
                                "-9999-01-01 01:00:00.000000000 +01:00:00\n2400-03-26 03:00:00.000000000 +02:00:00\n";
    static const int64_t far[][3] = { { 0, 253402300800, 0 }, { 0, 0, -377705116801 }, { 253402297200, 0, 0 }, { 0, INT64_MAX, INT64_MIN } };
    static const size_t places[] = { 1, 2, 0, 1 };
    struct sefunjaro_clock clocks[6], other_clock = { 7, 7, 7, 7, 7, 7, 7 };
    char text[sizeof texts];
    size_t place = 7, whole = 7;
    for (size_t room = 0; room <= 6; room++) {
        for (size_t i = 0; i < 6; i++) clocks[i] = other_clock;
        if (sefunjaro_clocks_at(&zone, seconds, 6, clocks, room, &place) || place != 7) return 1;
        for (size_t i = 0; i < 6; i++)
            if (!is_clock(&clocks[i], i < room ? &due[i] : &other_clock)) return 2;
    }
    for (size_t room = 0; room < sizeof texts; room++) {
        memset(text, '.', sizeof text);
        if (sefunjaro_texts_at(&zone, seconds, 6, text, room, &whole, &place) || whole != sizeof texts - 1 || place != 7) return 3;
        for (size_t i = 0; i < sizeof texts; i++)
            if (text[i] != (i < room ? texts[i] : '.')) return 4;
    }
    for (size_t i = 0; i < 4; i++) {
        clocks[0] = other_clock, text[0] = '.', whole = 7;
        if (sefunjaro_clocks_at(&zone, far[i], 3, clocks, 6, &place) != SEFUNJARO_OUT_OF_RANGE || place != places[i] || !is_clock(clocks, &other_clock)) return 5;
        place = 7;
        if (sefunjaro_texts_at(&zone, far[i], 3, text, 40, &whole, &place) != SEFUNJARO_OUT_OF_RANGE || place != places[i] || whole != 7 || text[0] != '.') return 6;
    }
    place = 7;
    if (sefunjaro_clocks_at(&zone, seconds, 0, clocks, 6, &place) || place != 7 || !is_clock(clocks, &other_clock)) return 7;
    if (sefunjaro_texts_at(&zone, seconds, 0, text, 40, &whole, &place) || place != 7 || whole != 0 || text[0] != '.') return 8;
    if (sefunjaro_clocks_at(as_zone(&source), seconds, 1, clocks, 6, &place) != SEFUNJARO_NOT_OPEN || place != 7 || !is_clock(clocks, &other_clock)) return 9;
    if (sefunjaro_texts_at(as_zone(&source), seconds, 1, text, 40, &whole, &place) != SEFUNJARO_NOT_OPEN || place != 7 || whole != 0 || text[0] != '.') return 10;
    return 0;
}

static bool is_found(const struct sefunjaro_found *found, int64_t second, int32_t offset, uint32_t kind) {
    return found->second == second && found->offset == offset && found->kind == kind;
}

/* New York in 2024: clocks go from 02:00 to 03:00 on 10 March, at 07:00 UTC, and back from 02:00 to 01:00 on 3 November, at 06:00 UTC. */
static int local_lists(void) {
    static const struct sefunjaro_clock clocks[] = { { 2024, 7, 4, 12, 0, 0, 5 }, { 2024, 11, 3, 1, 30, 0, 0 }, { 2024, 3, 10, 2, 30, 0, 0 }, { 2024, 1, 15, 12, 0, 0, 0 } };
    static const struct sefunjaro_clock none[] = { { 2024, 2, 29, 0, 0, 0, 0 }, { 2024, 2, 30, 0, 0, 0, 0 }, { 2024, 1, 1, 24, 0, 0, 0 } };
    static const int64_t folds[] = { 1730611800, 1730615400 }, gaps[] = { 1710055800, 1710052200, 1710054000 };
    static const int32_t fold_offsets[] = { -14400, -18000 }, gap_offsets[] = { -18000, -14400, -18000 };
    struct sefunjaro_found found[5];
    size_t place = 7;
    for (uint32_t fold = 0; fold < 2; fold++)
        for (uint32_t gap = 0; gap < 3; gap++)
            for (size_t room = 0; room <= 5; room++) {
                for (size_t i = 0; i < 5; i++) found[i] = (struct sefunjaro_found){ 7, 7, 7 };
                if (sefunjaro_instants_of(&zone, clocks, 4, fold, gap, found, room, &place) || place != 7) return 1;
                if (room > 0 && !is_found(&found[0], 1720108800, -14400, SEFUNJARO_KIND_ONE)) return 2;
                if (room > 1 && !is_found(&found[1], folds[fold], fold_offsets[fold], SEFUNJARO_KIND_FOLD)) return 3;
                if (room > 2 && !is_found(&found[2], gaps[gap], gap_offsets[gap], SEFUNJARO_KIND_GAP)) return 4;
                if (room > 3 && !is_found(&found[3], 1705338000, -18000, SEFUNJARO_KIND_ONE)) return 5;
                for (size_t i = room < 4 ? room : 4; i < 5; i++)
                    if (!is_found(&found[i], 7, 7, 7)) return 6;
            }
    found[0] = (struct sefunjaro_found){ 7, 7, 7 };
    if (sefunjaro_instants_of(&zone, none, 3, SEFUNJARO_FOLD_FIRST, SEFUNJARO_GAP_BEFORE, found, 5, &place) != SEFUNJARO_OUT_OF_RANGE || place != 1) return 7;
    if (sefunjaro_instants_of(&zone, none + 2, 1, SEFUNJARO_FOLD_SECOND, SEFUNJARO_GAP_NONE, found, 5, &place) != SEFUNJARO_OUT_OF_RANGE || place != 0) return 8;
    place = 7;
    if (sefunjaro_instants_of(&zone, clocks, 4, 2, SEFUNJARO_GAP_AFTER, found, 5, &place) != SEFUNJARO_OUT_OF_RANGE || place != 7) return 9;
    if (sefunjaro_instants_of(&zone, clocks, 4, SEFUNJARO_FOLD_FIRST, 3, found, 5, &place) != SEFUNJARO_OUT_OF_RANGE || place != 7) return 10;
    if (sefunjaro_instants_of(&zone, clocks, 0, SEFUNJARO_FOLD_FIRST, SEFUNJARO_GAP_BEFORE, found, 5, &place) || place != 7) return 11;
    if (sefunjaro_instants_of(as_zone(&source), clocks, 4, SEFUNJARO_FOLD_FIRST, SEFUNJARO_GAP_BEFORE, found, 5, &place) != SEFUNJARO_NOT_OPEN || place != 7) return 12;
    return is_found(found, 7, 7, 7) ? 0 : 13;
}

/* Summer in New York in 2024, from 07:00 UTC on 10 March to 06:00 UTC on 3 November. */
static int answers(void) {
    static const struct sefunjaro_clock noon = { 2024, 7, 4, 12, 0, 0, 5 };
    struct sefunjaro_answer answer, kept;
    char name[5];
    for (size_t room = 0; room <= 5; room++) {
        memset(name, '.', sizeof name);
        if (sefunjaro_answer_at(&zone, 1720108800, 5, &answer, name, room)) return 1;
        if (answer.offset != -14400 || !answer.is_saving || !answer.is_kept || answer.saving != 3600 || !is_clock(&answer.clock, &noon)) return 2;
        if (answer.name_length != 3 || answer.from != 1710054000 || answer.until != 1730613600) return 3;
        for (size_t i = 0; i < 5; i++)
            if (name[i] != (i < room && i < 3 ? "EDT"[i] : '.')) return 4;
    }
    if (sefunjaro_answer_at(&zone, 1710053999, 999999999, &answer, name, 5) || answer.offset != -18000 || answer.is_saving || answer.saving != 0 || answer.until != 1710054000) return 5;
    if (answer.from != 1699164000 || answer.clock.hour != 1 || memcmp(name, "EST", 3)) return 6;
    if (sefunjaro_answer_at(&zone, 0, 0, &answer, name, 5) || answer.from != INT64_MIN || answer.until != 1173596400) return 7;
    memset(&answer, 7, sizeof answer), kept = answer, name[0] = '.';
    if (sefunjaro_answer_at(&zone, 0, 1000000000, &answer, name, 5) != SEFUNJARO_OUT_OF_RANGE || memcmp(&answer, &kept, sizeof answer) || name[0] != '.') return 8;
    if (sefunjaro_answer_at(&zone, -377705116800, 0, &answer, name, 5) != SEFUNJARO_OUT_OF_RANGE || memcmp(&answer, &kept, sizeof answer) || name[0] != '.') return 9;
    if (sefunjaro_answer_at(as_zone(&source), 0, 0, &answer, name, 5) != SEFUNJARO_NOT_OPEN || memcmp(&answer, &kept, sizeof answer) || name[0] != '.') return 10;
    return 0;
}

/* Clocks go back by an hour, and half an hour later by one more: they show 02:15 three times. */
static int three_times(void) {
    static const char text[] = "Zone A 3:00 - A 2000 Jan 1 0:00u\n 2:00 - B 2000 Jan 1 0:30u\n 1:00 - C\n";
    static const struct sefunjaro_clock clock = { 2000, 1, 1, 2, 15, 0, 0 };
    struct sefunjaro_found found;
    size_t place = 7;
    if (open_text(text, sizeof text - 1) || open_name("A")) return 185;
    if (sefunjaro_instants_of(&zone, &clock, 1, SEFUNJARO_FOLD_FIRST, SEFUNJARO_GAP_BEFORE, &found, 1, &place) || !is_found(&found, 946682100, 10800, SEFUNJARO_KIND_MORE)) return 186;
    if (sefunjaro_instants_of(&zone, &clock, 1, SEFUNJARO_FOLD_SECOND, SEFUNJARO_GAP_BEFORE, &found, 1, &place) || !is_found(&found, 946685700, 7200, SEFUNJARO_KIND_MORE)) return 187;
    return 0;
}

static int looks(void) {
    struct sefunjaro_in_force found;
    struct sefunjaro_clock clock, skipped = { 2024, 3, 31, 2, 30, 0, 5 }, twice = { 2024, 10, 27, 2, 30, 0, 0 }, none = { 2023, 2, 29, 0, 0, 0, 0 };
    struct sefunjaro_reading readings[3] = { { 0, 0 }, { 0, 0 }, { 77, 0 } };
    struct sefunjaro_gap gap = { 0, 0, 0 };
    char text[40], name[4] = "....";
    size_t whole;
    int32_t offset;
    if (sefunjaro_offset_at(&zone, 1711846799, 999999999, &offset) || offset != 3600) return 30;
    if (sefunjaro_offset_at(&zone, 1711846800, 0, &offset) || offset != 7200) return 31;
    if (sefunjaro_offset_at(&zone, 0, 1000000000, &offset) != SEFUNJARO_OUT_OF_RANGE) return 32;
    if (sefunjaro_offset_at(&zone, INT64_MAX, 0, &offset) != SEFUNJARO_OUT_OF_RANGE) return 33;
    if (lists()) return 29;
    int failed = clock_lists();
    if (failed) return 160 + failed;
    if (sefunjaro_in_force(&zone, 1711846800, 0, &found, name, 3) || found.offset != 7200 || !found.is_saving) return 34;
    if (found.name_length != 4 || memcmp(name, "CES.", 4)) return 35;
    if (sefunjaro_clock_at(&zone, -1, 1, &clock, &offset) || offset != 3600) return 36;
    if (clock.year != 1970 || clock.month != 1 || clock.day != 1 || clock.hour != 0 || clock.minute != 59 || clock.second != 59 || clock.nanosecond != 1) return 37;
    if (sefunjaro_text_at(&zone, 0, 0, text, 40, &whole) || whole != 39 || memcmp(text, "1970-01-01 01:00:00.000000000 +01:00:00", 39)) return 38;
    if (sefunjaro_text_at(&zone, 0, 0, text, 0, &whole) || whole != 39) return 39;
    if (sefunjaro_text_at(&zone, 253402300799, 0, text, 40, &whole) != SEFUNJARO_OUT_OF_RANGE) return 40;
    if (sefunjaro_readings(&zone, &twice, readings, 3, &whole, &gap) || whole != 2 || gap.second != 0) return 41;
    if (readings[0].second != 1729989000 || readings[0].offset != 7200 || readings[1].second != 1729992600 || readings[1].offset != 3600) return 42;
    if (readings[2].second != 77) return 43;
    if (sefunjaro_readings(&zone, &twice, readings + 1, 1, &whole, &gap) || whole != 2 || readings[1].second != 1729989000 || readings[2].second != 77) return 44;
    if (sefunjaro_readings(&zone, &skipped, readings, 3, &whole, &gap) || whole != 0) return 45;
    if (gap.second != 1711846800 || gap.before != 3600 || gap.after != 7200) return 46;
    if (sefunjaro_readings(&zone, &none, readings, 3, &whole, &gap) != SEFUNJARO_OUT_OF_RANGE) return 47;
    const char *local = "2024-03-31 02:30:00.000000005";
    if (sefunjaro_read_local(local, 29, &clock) || memcmp(&clock.year, &skipped.year, 4) || clock.day != 31 || clock.nanosecond != 5) return 48;
    if (sefunjaro_read_local(local, 28, &clock) != SEFUNJARO_NOT_READ) return 49;
    return 0;
}

/* 2024 has its changes on 31 March and 27 October, both at 01:00 UTC. Each year up to 10501 has two. */
static int changes(void) {
    struct sefunjaro_change change, found[3] = { { 0, 0, 77, 0, false }, { 0, 0, 77, 0, false }, { 0, 0, 77, 0, false } };
    int64_t saving = 9;
    int32_t year = 9;
    size_t count;
    if (sefunjaro_saving_at(&zone, 1711846799, 999999999, &saving) || saving != 0) return 70;
    if (sefunjaro_saving_at(&zone, 1711846800, 0, &saving) || saving != 3600) return 71;
    if (sefunjaro_saving_at(&zone, 0, 1000000000, &saving) != SEFUNJARO_OUT_OF_RANGE || saving != 3600) return 72;
    if (sefunjaro_next_change(&zone, 1711846799, &change) || change.second != 1711846800 || change.offset != 7200 || change.saving != 3600 || change.name_length != 4 || !change.differs) return 73;
    if (sefunjaro_next_change(&zone, 1711846800, &change) || change.second != 1729990800 || change.offset != 3600 || change.saving != 0 || change.name_length != 3 || !change.differs) return 74;
    if (sefunjaro_next_change(&zone, INT64_MIN, &change) || change.second != 354675600) return 75;
    change.second = 5;
    if (sefunjaro_next_change(&zone, INT64_MAX, &change) != SEFUNJARO_NONE || change.second != 5) return 76;
    if (sefunjaro_changes(&zone, 1711846800, 1729990800, found, 3, &count) || count != 1) return 77;
    if (found[0].second != 1711846800 || found[1].saving != 77) return 78;
    if (sefunjaro_changes(&zone, 1711846801, INT64_MAX, found, 2, &count) || count != 16955 || found[1].second != 1743296400 || found[2].saving != 77) return 79;
    if (sefunjaro_changes(&zone, INT64_MAX, INT64_MIN, found, 3, &count) || count != 0 || found[0].second != 1729990800) return 80;
    if (sefunjaro_changes(&zone, INT64_MIN, INT64_MAX, found, 0, &count) || count != 17012) return 81;
    if (sefunjaro_next_change(&zone, 5680281600, &change) || change.second != 5687802000 || change.offset != 7200) return 82;
    if (sefunjaro_years(&zone, &year) || year != 9999) return 83;
    return 0;
}

/* Clocks in New York and in Paris show local times of the years at instants whose date in UTC lies outside them. */
static int edges(void) {
    struct sefunjaro_clock last = { 9999, 12, 31, 23, 30, 0, 7 }, first = { -9999, 1, 1, 0, 30, 0, 0 }, clock;
    struct sefunjaro_reading reading = { 0, 0 };
    struct sefunjaro_gap gap;
    struct sefunjaro_in_force found;
    char text[40];
    int64_t saving = 9;
    int32_t offset = 9;
    size_t count;
    struct sefunjaro_clock begins = { -9999, 1, 1, 0, 0, 0, 0 };
    int64_t seconds[] = { -377705098800, -377705098801 };
    if (open_text(small_source, strlen(small_source)) || open_name("America/New_York")) return 200;
    int failed = local_lists();
    if (failed) return 170 + failed;
    failed = answers();
    if (failed) return 187 + failed;
    if (sefunjaro_clocks_at(&zone, seconds, 1, &clock, 1, &count) || !is_clock(&clock, &begins)) return 212;
    if (sefunjaro_clocks_at(&zone, seconds, 2, &clock, 1, &count) != SEFUNJARO_OUT_OF_RANGE || count != 1) return 213;
    if (sefunjaro_readings(&zone, &last, &reading, 1, &count, &gap) || count != 1 || reading.second != 253402317000 || reading.offset != -18000) return 201;
    if (sefunjaro_offset_at(&zone, reading.second, 7, &offset) || offset != -18000) return 202;
    if (sefunjaro_in_force(&zone, reading.second, 7, &found, text, 40) || found.offset != -18000 || memcmp(text, "EST", 3)) return 203;
    if (sefunjaro_clock_at(&zone, reading.second, 7, &clock, &offset) || clock.year != 9999 || clock.day != 31 || clock.hour != 23 || clock.nanosecond != 7) return 204;
    if (sefunjaro_text_at(&zone, reading.second, 7, text, 40, &count) || memcmp(text, "9999-12-31 23:30:00.000000007 -05:00:00", count)) return 205;
    if (sefunjaro_saving_at(&zone, reading.second, 7, &saving) || saving != 0) return 206;
    if (sefunjaro_text_at(&zone, 253402318800, 0, text, 40, &count) != SEFUNJARO_OUT_OF_RANGE) return 207;
    if (sefunjaro_offset_at(&zone, 253402394398, 999999999, &offset) || sefunjaro_offset_at(&zone, 253402394399, 0, &offset) != SEFUNJARO_OUT_OF_RANGE) return 208;
    if (open_name("Europe/Paris") || sefunjaro_readings(&zone, &first, &reading, 1, &count, &gap) || count != 1 || reading.second != -377705118600) return 209;
    if (sefunjaro_text_at(&zone, reading.second, 0, text, 40, &count) || memcmp(text, "-9999-01-01 00:30:00.000000000 +01:00:00", count)) return 210;
    if (sefunjaro_offset_at(&zone, -377705210399, 0, &offset) || sefunjaro_offset_at(&zone, -377705210400, 999999999, &offset) != SEFUNJARO_OUT_OF_RANGE) return 211;
    sefunjaro_source_close(&source);
    return 0;
}

/* Georgia's clocks stood at +05 from the spring of 1996 on; what its lines say of the autumn and of the spring of 1997 changes nothing.
   At the end the abbreviation alone is another. */
static int changes_of_nothing(void) {
    static const char text[] =
        "Rule E 1981 max - Mar lastSun 0:00 1:00 -\n"
        "Rule E 1984 1995 - Sep lastSun 0:00 0 -\n"
        "Rule E 1996 max - Oct lastSun 0:00 0 -\n"
        "Zone Asia/Tbilisi 4:00 E +04/+05 1996 Oct lastSun\n"
        " 4:00 1:00 +05 1997 Mar lastSun\n"
        " 4:00 E +04/+05 1998 Jan 1\n"
        " 4:00 - GET\n";
    struct sefunjaro_change change;
    if (open_text(text, strlen(text)) || open_name("Asia/Tbilisi")) return 220;
    if (sefunjaro_next_change(&zone, 828216000 - 1, &change) || change.second != 828216000 || change.offset != 18000 || !change.differs) return 221;
    if (sefunjaro_next_change(&zone, 828216000, &change) || change.second != 859662000 || change.offset != 18000 || change.differs) return 222;
    if (sefunjaro_next_change(&zone, 859662000, &change) || change.second != 877806000 || change.offset != 14400 || !change.differs) return 223;
    if (sefunjaro_next_change(&zone, 877806000, &change) || change.offset != 14400 || change.name_length != 3 || !change.differs) return 224;
    if (sefunjaro_next_change(&zone, change.second, &change) != SEFUNJARO_NONE) return 225;
    sefunjaro_source_close(&source);
    return 0;
}

static int rings_and_texts(void) {
    struct sefunjaro_clock twice = { 2024, 10, 27, 2, 30, 0, 0 }, skipped = { 2024, 3, 31, 2, 30, 0, 0 }, none = { 2024, 2, 30, 0, 0, 0, 0 };
    struct sefunjaro_reading ring = { 77, 0 };
    struct sefunjaro_instant instant = { 77, 0, 0 };
    struct sefunjaro_years years;
    char text[9] = "........";
    size_t whole;
    if (sefunjaro_ring(&zone, &twice, &ring) || ring.second != 1729989000 || ring.offset != 7200) return 90;
    if (sefunjaro_ring(&zone, &skipped, &ring) != SEFUNJARO_NONE || ring.second != 1729989000) return 91;
    if (sefunjaro_ring(&zone, &none, &ring) != SEFUNJARO_OUT_OF_RANGE || ring.second != 1729989000) return 92;
    const char *zoned = "1969-12-31 18:59:59.999999999 -05:00:00";
    if (sefunjaro_read_zoned(zoned, 38, &instant) != SEFUNJARO_NOT_READ || instant.second != 77) return 93;
    if (sefunjaro_read_zoned("\xff", 1, &instant) != SEFUNJARO_NOT_READ) return 94;
    if (sefunjaro_read_zoned(zoned, 39, &instant) || instant.second != -1 || instant.nanosecond != 999999999 || instant.offset != -18000) return 95;
    sefunjaro_version(text, 3, &whole, &years);
    if (whole != strlen(SEFUNJARO_VERSION) || memcmp(text, "2.0.....", 8) || years.first != 1800 || years.last != 2099) return 96;
    sefunjaro_version(text, 8, &whole, &years);
    if (memcmp(text, SEFUNJARO_VERSION, whole)) return 97;
    return 0;
}

static uint32_t open_file(const uint8_t *bytes, size_t length) { return sefunjaro_file_open(bytes, length, &zone, &fault); }
static uint32_t open_posix(const char *text) { return sefunjaro_posix_open(text, strlen(text), &zone, &fault); }

/* The file and the string have the same rules. 2400 has its changes on 26 March and 29 October, both at 01:00 UTC. */
static int far_off(void) {
    struct sefunjaro_clock clock, twice = { 2400, 10, 29, 2, 30, 0, 0 }, skipped = { 2400, 3, 26, 2, 30, 0, 0 };
    struct sefunjaro_reading readings[2] = { { 0, 0 }, { 0, 0 } }, ring = { 77, 0 };
    struct sefunjaro_change change = { 77, 0, 0, 0, false };
    struct sefunjaro_in_force found;
    struct sefunjaro_gap gap = { 0, 0, 0 };
    char text[40];
    int64_t saving = 77;
    size_t count = 77;
    int32_t offset, year = 9;
    if (sefunjaro_offset_at(&zone, 13576813199, 999999999, &offset) || offset != 3600) return 1;
    if (sefunjaro_in_force(&zone, 13576813200, 0, &found, text, 40) || found.offset != 7200 || !found.is_saving) return 2;
    if (found.name_length != 4 || memcmp(text, "CEST", 4)) return 3;
    if (sefunjaro_clock_at(&zone, 13576813200, 5, &clock, &offset) || clock.year != 2400 || clock.hour != 3 || clock.nanosecond != 5) return 4;
    if (sefunjaro_text_at(&zone, 13576813200, 0, text, 40, &count) || memcmp(text, "2400-03-26 03:00:00.000000000 +02:00:00", count)) return 5;
    if (sefunjaro_readings(&zone, &twice, readings, 2, &count, &gap) || count != 2 || gap.second != 0) return 6;
    if (readings[0].second != 13595560200 || readings[0].offset != 7200 || readings[1].second != 13595563800 || readings[1].offset != 3600) return 7;
    if (sefunjaro_readings(&zone, &skipped, readings, 2, &count, &gap) || count != 0) return 8;
    if (gap.second != 13576813200 || gap.before != 3600 || gap.after != 7200) return 9;
    if (sefunjaro_ring(&zone, &twice, &ring) || ring.second != 13595560200 || ring.offset != 7200) return 10;
    if (sefunjaro_ring(&zone, &skipped, &ring) != SEFUNJARO_NONE) return 11;
    if (sefunjaro_saving_at(&zone, 0, 0, &saving) != SEFUNJARO_NOT_KEPT || saving != 77) return 12;
    if (sefunjaro_next_change(&zone, 13576813199, &change) || change.second != 13576813200 || change.offset != 7200 || change.saving != 3600) return 13;
    if (sefunjaro_changes(&zone, 13576813200, 13595562000, &change, 1, &count) || count != 1 || change.name_length != 4 || !change.differs) return 14;
    if (sefunjaro_years(&zone, &year) || year != 9999) return 27;
    struct sefunjaro_answer answer;
    if (sefunjaro_answer_at(&zone, 13576813200, 5, &answer, text, 4) || answer.offset != 7200 || !answer.is_saving || answer.is_kept || answer.saving != 0) return 17;
    if (answer.clock.year != 2400 || answer.clock.hour != 3 || answer.clock.nanosecond != 5 || answer.name_length != 4 || memcmp(text, "CEST", 4)) return 18;
    if (answer.from != 13576813200 || answer.until != 13595562000) return 19;
    if (sefunjaro_share(&zone, &other) || sefunjaro_offset_at(&other, 13576813200, 0, &offset) || offset != 7200) return 15;
    if (sefunjaro_name_count(as_source(&zone), &count) != SEFUNJARO_NOT_OPEN) return 16;
    sefunjaro_zone_close(&other);
    return 0;
}

static int files(void) {
    struct sefunjaro_in_force found;
    uint8_t broken[sizeof small_file];
    char name[4] = "....";
    int32_t offset;
    if (open_file(small_file, sizeof small_file - 1) != SEFUNJARO_NOT_READ || !is_fault(SEFUNJARO_NOT_READ, SEFUNJARO_FILE_REFUSED, 0)) return 100;
    if (sefunjaro_offset_at(&zone, 0, 0, &offset) != SEFUNJARO_NOT_OPEN) return 101;
    memcpy(broken, small_file, sizeof broken);
    broken[sizeof broken - 2] = 'X';
    if (open_file(broken, sizeof broken) != SEFUNJARO_NOT_READ || !is_fault(SEFUNJARO_NOT_READ, SEFUNJARO_FILE_FOOTER, 0)) return 102;
    if (open_file(small_file, sizeof small_file) != SEFUNJARO_DONE || !is_fault(0, 0, 0)) return 103;
    if (sefunjaro_in_force(&zone, -1855958962, 0, &found, name, 4) || found.offset != 561 || found.is_saving || memcmp(name, "LMT.", 4)) return 104;
    if (sefunjaro_in_force(&zone, -1855958961, 0, &found, name, 4) || found.offset != 3600 || memcmp(name, "CET.", 4)) return 105;
    int failed = far_off();
    if (failed) return 110 + failed;
    if (open_posix("CET") != SEFUNJARO_NOT_READ || !is_fault(SEFUNJARO_NOT_READ, 0, 0)) return 106;
    if (open_posix("\xff") != SEFUNJARO_NOT_TEXT || !is_fault(SEFUNJARO_NOT_TEXT, 0, 0)) return 107;
    if (open_posix("CET-1CEST,M3.5.0,M10.5.0/3") != SEFUNJARO_DONE || !is_fault(0, 0, 0)) return 108;
    if (sefunjaro_offset_at(&zone, -1855958962, 0, &offset) || offset != 3600) return 109;
    failed = far_off();
    return failed ? 130 + failed : 0;
}

int main(void) {
    int failed = closed_handles();
    if (!failed) failed = releases();
    if (!failed) failed = sources();
    if (!failed) failed = zones();
    if (!failed) failed = looks();
    if (!failed) failed = changes();
    if (!failed) failed = rings_and_texts();
    if (!failed) failed = files();
    if (!failed) failed = edges();
    if (!failed) failed = three_times();
    if (!failed) failed = changes_of_nothing();
    if (!failed) failed = statuses();
    sefunjaro_zone_close(&zone);
    sefunjaro_zone_close(&zone);
    return failed;
}
