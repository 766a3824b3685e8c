/* Sefunjaro for C: the zones of the tz database, asked at instants and at local times.

   Link libsefunjaro.a, or load libsefunjaro.so. Both need nothing but the C library: memory is taken by malloc and realloc and given
   back by free. x86-64 with glibc, processors from 2009 on (x86-64-v2); a call needs at most 64 KiB of stack.

   What a caller owes. Nothing checks it, and every contract of the library rests on it:

   - A handle, which is a struct sefunjaro_source or sefunjaro_zone, begins as SEFUNJARO_CLOSED, that is zeros. Only these functions read or
     write its fields. It is not copied: what it holds is in this one struct, and two copies that are closed are a double free. It may be
     moved, as by memcpy, where the old place is used no more.
   - Any number of threads may read one handle at once: a call that takes it as `const` reads it, and leaves it as it is. A call that
     opens or closes it, and whoever moves it, wants it alone: from the start of a call that reads it to its end none of these happens.
     A lock, a thread's start or its join orders them.
   - A pointer with a length points to that many items, of which nobody else writes any during the call. It is never null, also where
     the length is 0. Every other pointer is valid and aligned. No two arguments of a call overlap where one of them is written, and the
     two handles of a call are not one.
   - No function is called in a signal handler.
   - In the forked child of a process that had threads, a handle may be used that no thread was opening, closing or moving when the process
     forked. What takes memory or gives it back (each call that opens or closes, sefunjaro_tail, sefunjaro_tzif and theirs for ever) needs a
     malloc that may be called there, as that of the GNU C library.

   A handle that holds nothing or was closed answers SEFUNJARO_NOT_OPEN, and so does one that was made to hold the other kind; closing it
   again does nothing. A handle that was never set to SEFUNJARO_CLOSED has no meaning, and no function can tell.

   Every answer is a status. Where it is SEFUNJARO_DONE, what goes out through pointers is written: text and lists as far as there is room,
   and their whole length is told. Where it is another, every place that a pointer leads to stays as it was, but for a fault, which tells
   the status, the cause and the line in either case, the `place` that a call of a list tells, and the handle that a call was to open,
   which is closed. Text is UTF-8 and ends without a zero byte; the bytes of files are uint8_t. Seconds are counted from 1970-01-01 00:00:00
   UTC, offsets in seconds east of UTC (at most 93,599 to either side), and the years of dates are -9999 to 9999. An instant may lie outside
   these years by so much as the greatest offset, so that each local time of them has its instants: clocks in New York show 23:30 on the
   last day of 9999 at an instant of the year 10000 in UTC. `local` lines of the program zone_answers are the same there; its `at` lines
   take instants of those years in UTC alone. */
#ifndef SEFUNJARO_H
#define SEFUNJARO_H

#include <stdbool.h>
#include <stddef.h>
#include <stdint.h>

#ifdef __cplusplus
extern "C" {
#endif

/* Holds a source or a zone, whichever, from a call that opens it until one that closes it. */
struct sefunjaro_handle {
    void *at;
    bool is_open;
};

/* Holds a source. */
struct sefunjaro_source {
    struct sefunjaro_handle handle;
};

/* Holds a zone. */
struct sefunjaro_zone {
    struct sefunjaro_handle handle;
};

/* As each of both begins: `struct sefunjaro_zone zone = SEFUNJARO_CLOSED;`. Where it is assigned in place of a declaration, to a zone that
   is closed, it is sefunjaro_no_zone() or sefunjaro_no_source(). */
#define SEFUNJARO_CLOSED { { 0, false } }

/* The version of the calls that are declared here. A later one of the same first number has all of these, with the same meaning. What was
   called how in version 1 stands in docs/VERSIONS.md: sefunjaro_source_open is what was sefunjaro_source_open_any, and
   sefunjaro_source_open_plain what was sefunjaro_source_open. */
#define SEFUNJARO_VERSION "2.0.0"
#define SEFUNJARO_VERSION_MAJOR 2
#define SEFUNJARO_VERSION_MINOR 0
#define SEFUNJARO_VERSION_PATCH 0

enum sefunjaro_status {
    SEFUNJARO_DONE = 0,
    SEFUNJARO_NOT_OPEN = 1,      /* the handle holds nothing, or nothing of the kind that is asked */
    SEFUNJARO_NO_MEMORY = 2,     /* malloc gave none; what was taken is given back, and the handle that was to be opened is closed */
    SEFUNJARO_TOO_LONG = 3,      /* the source is longer than 16,777,216 bytes */
    SEFUNJARO_NOT_TEXT = 4,      /* a line of the source, the name of a zone, or a POSIX string, is not UTF-8 */
    SEFUNJARO_BAD_LINE = 5,      /* a line of the source can't be read: enum sefunjaro_line_cause */
    SEFUNJARO_BAD_JOIN = 6,      /* a line may not follow those before it: enum sefunjaro_join_cause */
    SEFUNJARO_UNKNOWN_ZONE = 7,  /* the name is that of no zone, and of no link to one */
    SEFUNJARO_NO_SCHEDULE = 8,   /* the zone has no schedule: enum sefunjaro_schedule_cause */
    SEFUNJARO_OFFSET_RANGE = 9,  /* some offset of the zone up to the end of 2099 is 26 hours or more in size */
    SEFUNJARO_OUT_OF_RANGE = 10, /* a date lies outside the years -9999 to 9999, an instant does by more than the greatest offset, or the
                                    parts are no date or no time */
    SEFUNJARO_NONE = 11,         /* there is none of what is asked for */
    SEFUNJARO_NOT_READ = 12,     /* the text is none of those that are read; of a file: enum sefunjaro_file_cause */
    SEFUNJARO_NOT_KEPT = 13,     /* the zone is that of a file or of a POSIX string, of which this is not asked */
    SEFUNJARO_NO_PLAIN_FORM = 14 /* the source, in any form, has no plain form: enum sefunjaro_plain_cause */
};

/* Why a line of a source can't be read. */
enum sefunjaro_line_cause {
    SEFUNJARO_FAILED_YEAR_PARSE = 1,
    SEFUNJARO_FAILED_MONTH_PARSE = 2,
    SEFUNJARO_FAILED_WEEKDAY_PARSE = 3,
    SEFUNJARO_INVALID_LINE_TYPE = 4,
    SEFUNJARO_TYPE_COLUMN_CONTAINED_NON_HYPHEN = 5,
    SEFUNJARO_COULD_NOT_PARSE_SAVING = 6,
    SEFUNJARO_INVALID_DAY_SPEC = 7,
    SEFUNJARO_INVALID_TIME_SPEC_AND_TYPE = 8,
    SEFUNJARO_NON_WALL_CLOCK_IN_TIME_SPEC = 9
};

/* Why a line of a source may not follow those before it. */
enum sefunjaro_join_cause {
    SEFUNJARO_SURPRISE_CONTINUATION_LINE = 1,
    SEFUNJARO_UNKNOWN_RULESET = 2,
    SEFUNJARO_DUPLICATE_LINK = 3,
    SEFUNJARO_DUPLICATE_ZONE = 4
};

/* Why a zone has no schedule. */
enum sefunjaro_schedule_cause {
    SEFUNJARO_SCHEDULE_UNKNOWN_RULESET = 1,
    SEFUNJARO_SCHEDULE_MISSING_UNTIL = 2,
    SEFUNJARO_SCHEDULE_YEAR_RANGE = 3,
    SEFUNJARO_SCHEDULE_RULE_YEARS = 4,
    SEFUNJARO_SCHEDULE_DAY_RANGE = 5,
    SEFUNJARO_SCHEDULE_NO_STANDARD_SPAN = 6
};

/* Why a source in any form has no plain form. Each but the last is that of a line. */
enum sefunjaro_plain_cause {
    SEFUNJARO_PLAIN_NOT_TEXT = 1,         /* the line is not UTF-8 */
    SEFUNJARO_PLAIN_QUOTES = 2,           /* quotes are left open, or nothing stands between two */
    SEFUNJARO_PLAIN_LINE_TYPE = 3,        /* the first word fits neither Rule nor Zone nor Link */
    SEFUNJARO_PLAIN_FIELD_COUNT = 4,      /* there are too few fields, or too many */
    SEFUNJARO_PLAIN_RULESET_NAME = 5,     /* the name of a ruleset begins with a digit, `-`, `+` or white space */
    SEFUNJARO_PLAIN_YEAR = 6,             /* a year is no whole number, and no word that fits */
    SEFUNJARO_PLAIN_YEAR_ORDER = 7,       /* FROM is after TO */
    SEFUNJARO_PLAIN_TYPE = 8,             /* TYPE is not `-` */
    SEFUNJARO_PLAIN_MONTH = 9,            /* no month fits the word, or two do */
    SEFUNJARO_PLAIN_DAY = 10,             /* a day has no form of zic's manual, or lies past its month's longest length, or is February 29
                                             and not of one leap year alone */
    SEFUNJARO_PLAIN_TIME = 11,            /* a time has no form of that manual, minutes past 59, or hours past 99 */
    SEFUNJARO_PLAIN_SAVING = 12,          /* the suffix of a saving changes which time is standard */
    SEFUNJARO_PLAIN_FORMAT = 13,          /* a format has a `%` that can't be filled, or is empty */
    SEFUNJARO_PLAIN_UNSAYABLE = 14,       /* what is written of the line would not be read as what it means */
    SEFUNJARO_PLAIN_CONTINUATION = 15,    /* the source ends where a continuation has to follow; the line is the one after the last */
    SEFUNJARO_PLAIN_UNKNOWN_RULESET = 16, /* RULES is no amount, and no rule of the source has that name */
    SEFUNJARO_PLAIN_DUPLICATE_ZONE = 17,  /* an earlier zone has the name */
    SEFUNJARO_PLAIN_LINK_IS_ZONE = 18,    /* a zone has the new name of a link */
    SEFUNJARO_PLAIN_DUPLICATE_LINK = 19,  /* an earlier link has the new name, and another target */
    SEFUNJARO_PLAIN_TARGET = 20,          /* a link leads to no zone: to nothing, or in a circle */
    SEFUNJARO_PLAIN_TOO_LONG = 21,        /* the plain form would be longer than 16,777,216 bytes; no line is to blame */
    SEFUNJARO_PLAIN_NAME = 22             /* a name of a zone or a link is `-`, or a part between slashes is empty, `.` or `..` */
};

/* Why a compiled file is not read. */
enum sefunjaro_file_cause {
    SEFUNJARO_FILE_REFUSED = 1, /* it is no TZif file, or has leap seconds or an offset of 26 hours or more */
    SEFUNJARO_FILE_FOOTER = 2   /* its footer is not empty, and no POSIX string of those that are read */
};

/* Why a zone has no string that carries it on. */
enum sefunjaro_tail_cause {
    SEFUNJARO_TAIL_SHAPE = 1,        /* 2099 has changes, and they are not one into daylight saving time and one back to standard time */
    SEFUNJARO_TAIL_OFFSET_RANGE = 2, /* an offset that would be written is past 24:59:59 */
    SEFUNJARO_TAIL_NAME = 3          /* an abbreviation that would be written is empty, or has a `<`, a `>`, a line feed or a zero byte */
};

/* Why a zone has no TZif file. */
enum sefunjaro_tzif_cause {
    SEFUNJARO_TZIF_TIMES = 1, /* the times of its changes don't strictly rise, or are more than 4,294,967,295 */
    SEFUNJARO_TZIF_TYPES = 2, /* it has more than 256 distinct kinds: offset, whether it is daylight saving time, abbreviation */
    SEFUNJARO_TZIF_NAMES = 3  /* an abbreviation has a zero byte, or the distinct ones take more than 256 bytes, a zero after each */
};

/* Why a zone has no string or no TZif file for ever. */
enum sefunjaro_ever_cause {
    SEFUNJARO_EVER_SHAPE = 1,        /* 2102 has changes, and they are not one into daylight saving time and one back to one standard time */
    SEFUNJARO_EVER_OFFSET_RANGE = 2, /* an offset that would be written is past 24:59:59 */
    SEFUNJARO_EVER_NAME = 3,         /* an abbreviation that would be written isn't three or more ASCII letters, digits, `+` or `-` */
    SEFUNJARO_EVER_NO_RULE = 4,      /* no string of two weekdays or dates, with times from -167 to 167 hours, says the same for ever */
    SEFUNJARO_EVER_TIMES = 5,        /* as SEFUNJARO_TZIF_TIMES, of the changes before the string */
    SEFUNJARO_EVER_TYPES = 6,        /* as SEFUNJARO_TZIF_TYPES */
    SEFUNJARO_EVER_NAMES = 7,        /* as SEFUNJARO_TZIF_NAMES */
    SEFUNJARO_EVER_RULES_END = 8,    /* the zone doesn't go on: sefunjaro_years */
    SEFUNJARO_EVER_SAVING = 9        /* it has daylight saving time for good; then a file has no string */
};

/* Which instant is meant of a local time that has more than one. */
enum sefunjaro_fold {
    SEFUNJARO_FOLD_FIRST = 0,
    SEFUNJARO_FOLD_SECOND = 1
};

/* What is meant by a local time that clocks skip. */
enum sefunjaro_gap_rule {
    SEFUNJARO_GAP_BEFORE = 0, /* the instant by the offset in force up to the change that skips it */
    SEFUNJARO_GAP_AFTER = 1,  /* the instant by the offset in force from that change on */
    SEFUNJARO_GAP_NONE = 2    /* no instant: that change is told */
};

/* How many instants a local time has. */
enum sefunjaro_kind {
    SEFUNJARO_KIND_GAP = 0, /* none: clocks skip it */
    SEFUNJARO_KIND_ONE = 1,
    SEFUNJARO_KIND_FOLD = 2, /* two: clocks are set back over it */
    SEFUNJARO_KIND_MORE = 3  /* more, as in zones without order */
};

/* What a call refuses that opens something, or asks for a zone's string or file. */
struct sefunjaro_fault {
    uint32_t status; /* the status that the call answers */
    uint32_t cause;  /* the cause, from 1, or 0 where the status says it all */
    size_t line;     /* the line of the source, from 1, or 0 where none is to blame */
};

/* What is in force in a zone. */
struct sefunjaro_in_force {
    int32_t offset;
    bool is_saving;     /* whether the saving is above 0; of a file, whether it marks daylight saving time */
    size_t name_length; /* how many bytes the abbreviation has */
};

/* A local date and a time of day. */
struct sefunjaro_clock {
    int32_t year; /* the year before 1 is 0 */
    uint8_t month;
    uint8_t day;
    uint8_t hour;
    uint8_t minute;
    uint8_t second;
    uint32_t nanosecond;
};

/* An instant at which clocks show a local time; its nanosecond is that of the local time. */
struct sefunjaro_reading {
    int64_t second;
    int32_t offset; /* the offset in force then */
};

/* A change by which clocks are set ahead over a local time. */
struct sefunjaro_gap {
    int64_t second; /* the second of the change */
    int32_t before; /* the offset in force up to it */
    int32_t after;  /* the offset in force from it on */
};

/* One instant of a local time. */
struct sefunjaro_found {
    int64_t second; /* the instant; by SEFUNJARO_GAP_NONE the second of the change that skips the local time */
    int32_t offset; /* the offset by which the local time is that instant; by SEFUNJARO_GAP_NONE the one in force up to the change */
    uint32_t kind;  /* enum sefunjaro_kind */
};

/* All that a zone says of an instant, and seconds around it throughout which all of it but the local time holds. */
struct sefunjaro_answer {
    int32_t offset;
    bool is_saving;     /* whether the saving is above 0; of a file, whether it marks daylight saving time */
    bool is_kept;       /* whether the zone keeps its saving: those of sources do, and those of files and of POSIX strings don't */
    int64_t saving;     /* how many seconds of the offset are the saving, where it is kept, and else 0 */
    struct sefunjaro_clock clock;
    size_t name_length; /* how many bytes the abbreviation has */
    int64_t from;       /* the first of those seconds; where nothing comes before, INT64_MIN */
    int64_t until;      /* the one after the last of them */
};

/* The years that the rules of a source are worked out for. Before the first nothing changes in a zone; after the last no rule fires in one
   that doesn't go on for ever, and sefunjaro_years tells which. */
struct sefunjaro_years {
    int32_t first;
    int32_t last;
};

/* A change: what is in force from a second on. sefunjaro_in_force tells the abbreviation itself. */
struct sefunjaro_change {
    int64_t second;
    int32_t offset;
    int64_t saving;     /* how many seconds of the offset are the saving; below 0 where winter time is the one with a saving */
    size_t name_length; /* how many bytes the abbreviation has */
    bool differs;       /* whether the offset, the saving or the abbreviation is another than just before the second; where a source has
                           a line or a rule that says again what holds, none is */
};

/* An instant, and an offset. */
struct sefunjaro_instant {
    int64_t second;      /* rounded down */
    uint32_t nanosecond; /* from that second on: 0 to 999,999,999 */
    int32_t offset;
};

/* What reads a handle, over a copy of its two fields that serves one call at a time, and is then forgotten: it is never opened or closed.
   In C and C++ the functions below make the copy on the stack; other languages make it themselves. */
uint32_t sefunjaro_name_count_by(struct sefunjaro_source *copy, size_t *count);
uint32_t sefunjaro_name_by(struct sefunjaro_source *copy, size_t place, char *name, size_t room, size_t *whole);
uint32_t sefunjaro_source_version_by(struct sefunjaro_source *copy, char *version, size_t room, size_t *whole);
uint32_t sefunjaro_zone_open_by(struct sefunjaro_source *copy, const char *name, size_t length, struct sefunjaro_zone *zone,
                                struct sefunjaro_fault *fault);
uint32_t sefunjaro_share_by(struct sefunjaro_zone *copy, struct sefunjaro_zone *other);
uint32_t sefunjaro_offset_at_by(struct sefunjaro_zone *copy, int64_t second, uint32_t nanosecond, int32_t *offset);
uint32_t sefunjaro_offsets_at_by(struct sefunjaro_zone *copy, const int64_t *seconds, size_t count, int32_t *offsets, size_t room,
                                 size_t *place);
uint32_t sefunjaro_clocks_at_by(struct sefunjaro_zone *copy, const int64_t *seconds, size_t count, struct sefunjaro_clock *clocks,
                                size_t room, size_t *place);
uint32_t sefunjaro_texts_at_by(struct sefunjaro_zone *copy, const int64_t *seconds, size_t count, char *text, size_t room, size_t *whole,
                               size_t *place);
uint32_t sefunjaro_instants_of_by(struct sefunjaro_zone *copy, const struct sefunjaro_clock *clocks, size_t count, uint32_t fold,
                                  uint32_t gap, struct sefunjaro_found *found, size_t room, size_t *place);
uint32_t sefunjaro_in_force_by(struct sefunjaro_zone *copy, int64_t second, uint32_t nanosecond, struct sefunjaro_in_force *found,
                               char *name, size_t room);
uint32_t sefunjaro_clock_at_by(struct sefunjaro_zone *copy, int64_t second, uint32_t nanosecond, struct sefunjaro_clock *clock,
                               int32_t *offset);
uint32_t sefunjaro_answer_at_by(struct sefunjaro_zone *copy, int64_t second, uint32_t nanosecond, struct sefunjaro_answer *answer,
                                char *name, size_t room);
uint32_t sefunjaro_text_at_by(struct sefunjaro_zone *copy, int64_t second, uint32_t nanosecond, char *text, size_t room,
                              size_t *whole);
uint32_t sefunjaro_readings_by(struct sefunjaro_zone *copy, const struct sefunjaro_clock *local, struct sefunjaro_reading *readings,
                               size_t room, size_t *count, struct sefunjaro_gap *gap);
uint32_t sefunjaro_saving_at_by(struct sefunjaro_zone *copy, int64_t second, uint32_t nanosecond, int64_t *saving);
uint32_t sefunjaro_next_change_by(struct sefunjaro_zone *copy, int64_t second, struct sefunjaro_change *change);
uint32_t sefunjaro_changes_by(struct sefunjaro_zone *copy, int64_t from, int64_t to, struct sefunjaro_change *changes, size_t room,
                              size_t *count);
uint32_t sefunjaro_ring_by(struct sefunjaro_zone *copy, const struct sefunjaro_clock *local, struct sefunjaro_reading *ring);
uint32_t sefunjaro_years_by(struct sefunjaro_zone *copy, int32_t *year);
uint32_t sefunjaro_tail_by(struct sefunjaro_zone *copy, char *text, size_t room, size_t *whole, bool *is_posix,
                           struct sefunjaro_fault *fault);
uint32_t sefunjaro_tzif_by(struct sefunjaro_zone *copy, uint8_t *file, size_t room, size_t *whole, struct sefunjaro_fault *fault);
uint32_t sefunjaro_tail_for_ever_by(struct sefunjaro_zone *copy, char *text, size_t room, size_t *whole, bool *is_posix,
                                    struct sefunjaro_fault *fault);
uint32_t sefunjaro_tzif_for_ever_by(struct sefunjaro_zone *copy, uint8_t *file, size_t room, size_t *whole,
                                    struct sefunjaro_fault *fault);

/* The version of the calls that the library has, as SEFUNJARO_VERSION, and its whole length; and the years of the rules. */
void sefunjaro_version(char *text, size_t room, size_t *whole, struct sefunjaro_years *years);

/* Opens a source from its text in any form that zic reads: words cut short, times and days in each form of zic's manual, quotes, links to
   links, %z. What is opened is its plain form, as zone plain writes it. What the handle held before is closed first. The text
   is used no more after the call.
   TOO_LONG; NO_PLAIN_FORM, with the first line that is refused and why; NOT_TEXT, BAD_LINE or BAD_JOIN, of the plain form, in which the
   line is counted, and not in the text; NO_MEMORY. */
uint32_t sefunjaro_source_open(const char *text, size_t length, struct sefunjaro_source *source, struct sefunjaro_fault *fault);

/* Opens a source from its text in plain form, and in no other: what zone plain wrote, which it reads in less time. A line of another form
   is refused, or has the meaning that the plain form gives it: `%z` is then an abbreviation like any other. What the handle held before
   is closed first. The text is used no more after the call.
   TOO_LONG, NOT_TEXT, BAD_LINE, BAD_JOIN (of the first line that is refused), NO_MEMORY. */
uint32_t sefunjaro_source_open_plain(const char *text, size_t length, struct sefunjaro_source *source, struct sefunjaro_fault *fault);

/* How many names of a source find a zone: those of its zones, and of the links to them. NOT_OPEN. */
static inline uint32_t sefunjaro_name_count(const struct sefunjaro_source *source, size_t *count) {
    struct sefunjaro_source copy = *source;
    return sefunjaro_name_count_by(&copy, count);
}

/* The name at a place of the byte order, which counts from 0, and its whole length. NOT_OPEN, NONE. */
static inline uint32_t sefunjaro_name(const struct sefunjaro_source *source, size_t place, char *name, size_t room, size_t *whole) {
    struct sefunjaro_source copy = *source;
    return sefunjaro_name_by(&copy, place, name, room, whole);
}

/* The release that a source names by its first line, as 2026b in `# version 2026b`, and its whole length: all that stands behind
   `# version `, where that is something, UTF-8 and without control characters. NOT_OPEN, NONE. */
static inline uint32_t sefunjaro_source_version(const struct sefunjaro_source *source, char *version, size_t room, size_t *whole) {
    struct sefunjaro_source copy = *source;
    return sefunjaro_source_version_by(&copy, version, room, whole);
}

/* Opens the zone of a name. What the zone's handle held before is closed first. The zone needs its source no more. Where the lines of the
   name go on for ever, and come to no offset of 26 hours or more in a later year, the zone does too: each call below answers in each year
   as the lines do then. Else its answers stand up to the end of 2099: later no rule fires, and only the end of a line changes anything.
   sefunjaro_years tells.
   It takes one to two milliseconds and some 17 KB where rules go on; all 597 names of a tz database a quarter of a second and 5 MB.
   NOT_OPEN (of the source), NOT_TEXT (the name), UNKNOWN_ZONE, NO_SCHEDULE, OFFSET_RANGE, NO_MEMORY. */
static inline uint32_t sefunjaro_zone_open(const struct sefunjaro_source *source, const char *name, size_t length,
                                           struct sefunjaro_zone *zone, struct sefunjaro_fault *fault) {
    struct sefunjaro_source copy = *source;
    return sefunjaro_zone_open_by(&copy, name, length, zone, fault);
}

/* Opens the zone of a compiled file (TZif, RFC 8536) from its bytes, as zic writes it and systems keep it below
   /usr/share/zoneinfo, with what its footer says from its last change on. What the handle held before is closed first. The bytes are
   used no more after the call. Daylight saving time is what the file marks as such.
   NOT_READ (with its cause), NO_MEMORY. */
uint32_t sefunjaro_file_open(const uint8_t *bytes, size_t length, struct sefunjaro_zone *zone, struct sefunjaro_fault *fault);

/* Opens the zone that a POSIX string stands for at all times, as `CET-1CEST,M3.5.0,M10.5.0/3`: standard time alone, or with daylight
   saving time and its rule, whose times may have a sign and up to 167 hours. What the handle held before is closed first.
   NOT_TEXT, NOT_READ, NO_MEMORY. */
uint32_t sefunjaro_posix_open(const char *text, size_t length, struct sefunjaro_zone *zone, struct sefunjaro_fault *fault);

/* Opens another handle on the same zone, for another thread. What the other handle held before is closed first. The zone itself is
   there once, until its last handle is closed. NOT_OPEN, NO_MEMORY. */
static inline uint32_t sefunjaro_share(const struct sefunjaro_zone *zone, struct sefunjaro_zone *other) {
    struct sefunjaro_zone copy = *zone;
    return sefunjaro_share_by(&copy, other);
}

/* Closes a handle, whatever it holds. */
void sefunjaro_close(struct sefunjaro_handle *handle);

/* Closes a source; its zones stay open. */
static inline void sefunjaro_source_close(struct sefunjaro_source *source) {
    sefunjaro_close(&source->handle);
}

/* Closes a zone. */
static inline void sefunjaro_zone_close(struct sefunjaro_zone *zone) {
    sefunjaro_close(&zone->handle);
}

/* A source that is closed. */
static inline struct sefunjaro_source sefunjaro_no_source(void) {
    struct sefunjaro_source closed = SEFUNJARO_CLOSED;
    return closed;
}

/* A zone that is closed. */
static inline struct sefunjaro_zone sefunjaro_no_zone(void) {
    struct sefunjaro_zone closed = SEFUNJARO_CLOSED;
    return closed;
}

/* What a status says, in words; "" for a number that is none. */
static inline const char *sefunjaro_status_text(uint32_t status) {
    switch (status) {
        case SEFUNJARO_DONE: return "done";
        case SEFUNJARO_NOT_OPEN: return "it isn't open";
        case SEFUNJARO_NO_MEMORY: return "memory ran out";
        case SEFUNJARO_TOO_LONG: return "the source has more than 16,777,216 bytes";
        case SEFUNJARO_NOT_TEXT: return "the text is not UTF-8";
        case SEFUNJARO_BAD_LINE: return "a line of the source can't be read";
        case SEFUNJARO_BAD_JOIN: return "a line of the source may not follow those before it";
        case SEFUNJARO_UNKNOWN_ZONE: return "no zone has this name";
        case SEFUNJARO_NO_SCHEDULE: return "the zone has no schedule";
        case SEFUNJARO_OFFSET_RANGE: return "an offset of the zone is 26 hours or more";
        case SEFUNJARO_OUT_OF_RANGE: return "out of range";
        case SEFUNJARO_NONE: return "there is none";
        case SEFUNJARO_NOT_READ: return "this text is none of those that are read";
        case SEFUNJARO_NOT_KEPT: return "a zone of a file or of a POSIX string isn't asked this";
        case SEFUNJARO_NO_PLAIN_FORM: return "the source has no plain form";
        default: return "";
    }
}

/* The offset in force at an instant, of which the nanosecond is from 0 to 999,999,999. It takes no memory, nor does one below
   that doesn't say so: in the proved code behind it none of these is passed an allocator, and none answers NO_MEMORY.
   NOT_OPEN, OUT_OF_RANGE. */
static inline uint32_t sefunjaro_offset_at(const struct sefunjaro_zone *zone, int64_t second, uint32_t nanosecond, int32_t *offset) {
    struct sefunjaro_zone copy = *zone;
    return sefunjaro_offset_at_by(&copy, second, nanosecond, offset);
}

/* The offsets in force at so many seconds of the years -9999 to 9999 in UTC, in their order, as far as there is room: each as
   sefunjaro_offset_at tells it at the nanosecond 0. In a zone of a source a second costs least where no change lies between it and the one
   before it in the list, so seconds that rise cost less than others. Where a second lies outside those years `place` is set to the place of
   the first such one, from 0, and the offsets stay as they were; else `place` stays. NOT_OPEN, OUT_OF_RANGE. */
static inline uint32_t sefunjaro_offsets_at(const struct sefunjaro_zone *zone, const int64_t *seconds, size_t count, int32_t *offsets,
                                            size_t room, size_t *place) {
    struct sefunjaro_zone copy = *zone;
    return sefunjaro_offsets_at_by(&copy, seconds, count, offsets, room, place);
}

/* What clocks show at so many seconds, in their order, as far as there is room: each as sefunjaro_clock_at tells it at the nanosecond 0. It
   costs what sefunjaro_offsets_at does, and the calendar. Where a second lies outside the years -9999 to 9999 in UTC, or its local date
   does, `place` is set to the place of the first such one, from 0, and the clocks stay as they were; else `place` stays. NOT_OPEN,
   OUT_OF_RANGE. */
static inline uint32_t sefunjaro_clocks_at(const struct sefunjaro_zone *zone, const int64_t *seconds, size_t count,
                                           struct sefunjaro_clock *clocks, size_t room, size_t *place) {
    struct sefunjaro_zone copy = *zone;
    return sefunjaro_clocks_at_by(&copy, seconds, count, clocks, room, place);
}

/* The texts of so many seconds, one after another, and their whole length: each as sefunjaro_text_at writes it at the nanosecond 0, with a
   line feed behind it, so 40 bytes or 41. Room for 41 bytes a second is always enough; where there is less, a text may be cut. `place` is
   told as by sefunjaro_clocks_at; of more than 2^58 seconds it is that of the first too many. NOT_OPEN, OUT_OF_RANGE. */
static inline uint32_t sefunjaro_texts_at(const struct sefunjaro_zone *zone, const int64_t *seconds, size_t count, char *text, size_t room,
                                          size_t *whole, size_t *place) {
    struct sefunjaro_zone copy = *zone;
    return sefunjaro_texts_at_by(&copy, seconds, count, text, room, whole, place);
}

/* One instant of each of so many local times, in their order, as far as there is room, at its nanosecond: of one with more than one
   instant that of `fold`, of enum sefunjaro_fold, and of one that clocks skip what `gap` names, of enum sefunjaro_gap_rule. With
   SEFUNJARO_GAP_NONE the item of a local time that is skipped holds no instant, but the second of the change that skips it and the offset
   up to it. Where some parts are no date or no time `place` is set to the place of the first such ones, from 0, and the items stay as they
   were; else `place` stays, also where `fold` or `gap` is none of those numbers, which is OUT_OF_RANGE too. NOT_OPEN, OUT_OF_RANGE. */
static inline uint32_t sefunjaro_instants_of(const struct sefunjaro_zone *zone, const struct sefunjaro_clock *clocks, size_t count,
                                             uint32_t fold, uint32_t gap, struct sefunjaro_found *found, size_t room, size_t *place) {
    struct sefunjaro_zone copy = *zone;
    return sefunjaro_instants_of_by(&copy, clocks, count, fold, gap, found, room, place);
}

/* The offset, whether it is daylight saving time, and the abbreviation at an instant. NOT_OPEN, OUT_OF_RANGE. */
static inline uint32_t sefunjaro_in_force(const struct sefunjaro_zone *zone, int64_t second, uint32_t nanosecond,
                                          struct sefunjaro_in_force *found, char *name, size_t room) {
    struct sefunjaro_zone copy = *zone;
    return sefunjaro_in_force_by(&copy, second, nanosecond, found, name, room);
}

/* The local date and time of an instant, and the offset in force. NOT_OPEN, OUT_OF_RANGE. */
static inline uint32_t sefunjaro_clock_at(const struct sefunjaro_zone *zone, int64_t second, uint32_t nanosecond,
                                          struct sefunjaro_clock *clock, int32_t *offset) {
    struct sefunjaro_zone copy = *zone;
    return sefunjaro_clock_at_by(&copy, second, nanosecond, clock, offset);
}

/* All that a zone says of an instant, in one call: what sefunjaro_in_force, sefunjaro_saving_at and sefunjaro_clock_at tell of it, and how
   long it holds. At each instant of the seconds from `from` on and before `until`, of which the instant's own is one, the same offset, saving
   and abbreviation are in force. In a zone of a source `from` is the second of its last entry up to then, or INT64_MIN, and `until` that of
   the next change, as sefunjaro_next_change tells it, which may change nothing, or the end of 10501. In a zone of a file or of a POSIX
   string `from` is the instant's own second, and at `until` another offset, abbreviation or kind of time comes; where none comes up to the
   year 8307, `until` lies past it, which takes long to find where a rule goes on. Outside the years -4000 to 8000 such a zone tells that
   second alone.
   NOT_OPEN, OUT_OF_RANGE (also where the local date lies outside the years -9999 to 9999). */
static inline uint32_t sefunjaro_answer_at(const struct sefunjaro_zone *zone, int64_t second, uint32_t nanosecond,
                                           struct sefunjaro_answer *answer, char *name, size_t room) {
    struct sefunjaro_zone copy = *zone;
    return sefunjaro_answer_at_by(&copy, second, nanosecond, answer, name, room);
}

/* The text of an instant, `YYYY-MM-DD hh:mm:ss.nnnnnnnnn +hh:mm:ss` with a `-` before a year below 0, and its whole length: 39 bytes
   or 40. NOT_OPEN, OUT_OF_RANGE. */
static inline uint32_t sefunjaro_text_at(const struct sefunjaro_zone *zone, int64_t second, uint32_t nanosecond, char *text,
                                         size_t room, size_t *whole) {
    struct sefunjaro_zone copy = *zone;
    return sefunjaro_text_at_by(&copy, second, nanosecond, text, room, whole);
}

/* All instants at which clocks show a local time, by time, and how many there are: most often one, two where clocks are set back over
   it, more in zones without order. Where there are none, `gap` is the change that skips the local time; else it stays as it is.
   NOT_OPEN, OUT_OF_RANGE (also where the parts are no date or no time). */
static inline uint32_t sefunjaro_readings(const struct sefunjaro_zone *zone, const struct sefunjaro_clock *local,
                                          struct sefunjaro_reading *readings, size_t room, size_t *count, struct sefunjaro_gap *gap) {
    struct sefunjaro_zone copy = *zone;
    return sefunjaro_readings_by(&copy, local, readings, room, count, gap);
}

/* How many seconds of the offset at an instant are the saving: above 0 in daylight saving time, and below 0 where winter time is the
   one with a saving. NOT_OPEN, NOT_KEPT, OUT_OF_RANGE. */
static inline uint32_t sefunjaro_saving_at(const struct sefunjaro_zone *zone, int64_t second, uint32_t nanosecond, int64_t *saving) {
    struct sefunjaro_zone copy = *zone;
    return sefunjaro_saving_at_by(&copy, second, nanosecond, saving);
}

/* The last year up to whose end a zone says what is in force: 9999 where it goes on for ever or is that of a file or of a POSIX string, and
   2099 where the lines of its name don't go on, since a line or a rule ends or begins later, a day of theirs lies in another year, or they
   come to an offset of 26 hours or more. NOT_OPEN. */
static inline uint32_t sefunjaro_years(const struct sefunjaro_zone *zone, int32_t *year) {
    struct sefunjaro_zone copy = *zone;
    return sefunjaro_years_by(&copy, year);
}

/* The first change after a second, also where it changes nothing: `differs` tells. Those of a zone that goes on for ever are told up to the
   end of 10501, and none after it. The `saving` of a zone of a file or of a POSIX string is an hour where it is daylight saving time, since
   these say no more. NOT_OPEN, NONE. */
static inline uint32_t sefunjaro_next_change(const struct sefunjaro_zone *zone, int64_t second, struct sefunjaro_change *change) {
    struct sefunjaro_zone copy = *zone;
    return sefunjaro_next_change_by(&copy, second, change);
}

/* The changes from the second `from` on and before `to`, by time, and how many there are: none where `from` is not below `to`. Those that
   change nothing are among them. Those of a zone that goes on for ever are told up to the end of 10501. NOT_OPEN. */
static inline uint32_t sefunjaro_changes(const struct sefunjaro_zone *zone, int64_t from, int64_t to, struct sefunjaro_change *changes,
                                         size_t room, size_t *count) {
    struct sefunjaro_zone copy = *zone;
    return sefunjaro_changes_by(&copy, from, to, changes, room, count);
}

/* When a daily alarm rings on the day and at the time of day of a local time: at the first instant at which clocks show it, at its
   nanosecond. NONE where clocks skip it. NOT_OPEN, OUT_OF_RANGE (also where the parts are no date or no time). */
static inline uint32_t sefunjaro_ring(const struct sefunjaro_zone *zone, const struct sefunjaro_clock *local,
                                      struct sefunjaro_reading *ring) {
    struct sefunjaro_zone copy = *zone;
    return sefunjaro_ring_by(&copy, local, ring);
}

/* The POSIX TZ string that carries a zone on after its last change, as zic writes it at a file's end, and its whole length: up to the end
   of 2099 it gives the zone's offsets from some change on. `is_posix` is whether POSIX has a place for the abbreviations in it: three
   bytes or more, ASCII letters, digits, `+` and `-`. Other strings, as `<CD>-2` or `<A_B>-5`, are read as UTC by the GNU C library. It
   takes memory.
   NOT_OPEN; NOT_KEPT; NONE, with why there is no string: enum sefunjaro_tail_cause; NO_MEMORY. */
static inline uint32_t sefunjaro_tail(const struct sefunjaro_zone *zone, char *text, size_t room, size_t *whole, bool *is_posix,
                                      struct sefunjaro_fault *fault) {
    struct sefunjaro_zone copy = *zone;
    return sefunjaro_tail_by(&copy, text, room, whole, is_posix, fault);
}

/* The zone's TZif file (RFC 8536, version 2), and its whole length: each change up to the end of 2099, and as the footer the string of
   sefunjaro_tail, or nothing where there is none, where the zone changes at or past the end of 2099, of which that string says nothing, or
   where its daylight saving time ends in the first week of January, so that as a footer the string may end it before 2099 is over, or where
   it holds all of 2099, since the string says standard time. It takes memory: each call writes the file whole, and then as much of it into the room as fits.
   NOT_OPEN; NOT_KEPT; NONE, with why there is no file: enum sefunjaro_tzif_cause; NO_MEMORY. */
static inline uint32_t sefunjaro_tzif(const struct sefunjaro_zone *zone, uint8_t *file, size_t room, size_t *whole,
                                      struct sefunjaro_fault *fault) {
    struct sefunjaro_zone copy = *zone;
    return sefunjaro_tzif_by(&copy, file, room, whole, fault);
}

/* The string that carries a zone on in each year up to 9999, in the grammar of footers (RFC 8536, version 3): with times from -167 to 167
   hours, and a saving below 0 as zic writes it. `is_posix` is whether it is a string of sefunjaro_tail's grammar with such names. It takes
   memory.
   NOT_OPEN; NOT_KEPT; NONE, with why there is no string: enum sefunjaro_ever_cause; NO_MEMORY. */
static inline uint32_t sefunjaro_tail_for_ever(const struct sefunjaro_zone *zone, char *text, size_t room, size_t *whole,
                                               bool *is_posix, struct sefunjaro_fault *fault) {
    struct sefunjaro_zone copy = *zone;
    return sefunjaro_tail_for_ever_by(&copy, text, room, whole, is_posix, fault);
}

/* The zone's TZif file for ever: each change before 2102, and this string as the footer, which says the same from one of them on, so that
   whoever reads the file has the zone's offset in each year up to 9999. It is of version 3 where the string needs it, and daylight saving
   time is what has a saving other than 0. It takes memory.
   NOT_OPEN; NOT_KEPT; NONE, with why there is no file: enum sefunjaro_ever_cause; NO_MEMORY. */
static inline uint32_t sefunjaro_tzif_for_ever(const struct sefunjaro_zone *zone, uint8_t *file, size_t room, size_t *whole,
                                               struct sefunjaro_fault *fault) {
    struct sefunjaro_zone copy = *zone;
    return sefunjaro_tzif_for_ever_by(&copy, file, room, whole, fault);
}

/* The local time that a text `YYYY-MM-DD hh:mm:ss.nnnnnnnnn` names. Each local time has one such text, and nothing stands before or
   after it. NOT_READ. */
uint32_t sefunjaro_read_local(const char *text, size_t length, struct sefunjaro_clock *clock);

/* The instant and the offset that a text `YYYY-MM-DD hh:mm:ss.nnnnnnnnn +hh:mm:ss` names, as sefunjaro_text_at writes it. Each pair of
   an instant and an offset has one such text, and nothing stands before or after it. NOT_READ. */
uint32_t sefunjaro_read_zoned(const char *text, size_t length, struct sefunjaro_instant *instant);

#ifdef __cplusplus
}
#endif
#endif
