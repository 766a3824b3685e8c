/* texts: opens sources in any form that zic reads, with each cause that one is refused for, asks zones for the string that carries them
   on and for their TZif files, and ends with the number of the first check that fails, or 0. Dates and offsets are those of New York and
   Paris, strings and the file's bytes those of `zic -b slim`.
   With the words SOURCE and NAME it writes the file of that zone. */
#include "sefunjaro.h"
#include <stdio.h>
#include <stdlib.h>
#include <string.h>

/* A handle that holds the other kind, as no caller passes it who doesn't say so. */
static const struct sefunjaro_zone *as_zone(const struct sefunjaro_source *source) { return (const struct sefunjaro_zone *)source; }

static struct sefunjaro_source source = SEFUNJARO_CLOSED;
static struct sefunjaro_zone zone = SEFUNJARO_CLOSED;
static struct sefunjaro_fault fault;

static uint32_t open_any(const char *text) { return sefunjaro_source_open(text, strlen(text), &source, &fault); }
static uint32_t open_name(const char *name) { return sefunjaro_zone_open(&source, name, strlen(name), &zone, &fault); }
static bool is_fault(uint32_t status, uint32_t cause, size_t line) { return fault.status == status && fault.cause == cause && fault.line == line; }

/* Words cut short, times and days in other forms, quotes, comments, a link to a link that comes later, and %z. */
static const char any_source[] =
    "R US 2007 ma - March su>=8 2 1 D # spring\n"
    "R US 2007 ma - N \"su>=1\" 2 0 S\n"
    "\tR EU 1981 max - mar lastSunday 1u 1:00 S\n"
    "Rule EU 1996 MAXIMUM - Oct lastsu 1:00g 0 -\n"
    "Z America/New_York -5 US E%sT\n"
    "Zone Europe/Paris 1 EU %z\n"
    "L US/Eastern East\n"
    "Link America/New_York US/Eastern\n";

static int any_form(void) {
    size_t count = 9;
    int32_t offset;
    char name[9] = "........";
    struct sefunjaro_in_force found;
    if (open_any(any_source) != SEFUNJARO_DONE || !is_fault(0, 0, 0)) return 1;
    if (sefunjaro_name_count(&source, &count) || count != 4) return 2;
    if (open_name("East") || sefunjaro_offset_at(&zone, 1710053999, 0, &offset) || offset != -18000) return 3;
    if (sefunjaro_offset_at(&zone, 1710054000, 0, &offset) || offset != -14400) return 4;
    if (open_name("Europe/Paris") || sefunjaro_in_force(&zone, 1711846800, 0, &found, name, 8)) return 5;
    if (found.offset != 7200 || found.name_length != 3 || memcmp(name, "+02.....", 8)) return 6;
    if (open_any("") != SEFUNJARO_DONE || sefunjaro_name_count(&source, &count) || count != 0) return 7;
    return 0;
}

/* A text that is refused, with the line and the cause. */
static const struct { const char *text; uint32_t cause; size_t line; } refused[] = {
    { "\nZone A 1 - A\xff\n", SEFUNJARO_PLAIN_NOT_TEXT, 2 },
    { "Zone A 1 - \"A\n", SEFUNJARO_PLAIN_QUOTES, 1 },
    { "# A comment\nNonsense\n", SEFUNJARO_PLAIN_LINE_TYPE, 2 },
    { "Link A\n", SEFUNJARO_PLAIN_FIELD_COUNT, 1 },
    { "Rule 1A 2000 only - Jan 1 0 0 -\n", SEFUNJARO_PLAIN_RULESET_NAME, 1 },
    { "Rule A 2000x only - Jan 1 0 0 -\n", SEFUNJARO_PLAIN_YEAR, 1 },
    { "Rule A 2001 2000 - Jan 1 0 0 -\n", SEFUNJARO_PLAIN_YEAR_ORDER, 1 },
    { "Rule A 2000 only even Jan 1 0 0 -\n", SEFUNJARO_PLAIN_TYPE, 1 },
    { "Rule A 2000 only - Foo 1 0 0 -\n", SEFUNJARO_PLAIN_MONTH, 1 },
    { "Rule A 2000 only - Jan 32 0 0 -\n", SEFUNJARO_PLAIN_DAY, 1 },
    { "Rule A 2000 only - Jan 1 0:60 0 -\n", SEFUNJARO_PLAIN_TIME, 1 },
    { "Zone A 1 - %q\n", SEFUNJARO_PLAIN_FORMAT, 1 },
    { "Zone A 1 - A 2000\n\n", SEFUNJARO_PLAIN_CONTINUATION, 3 },
    { "Zone A 1 B A\n", SEFUNJARO_PLAIN_UNKNOWN_RULESET, 1 },
    { "Zone A 1 - A\nZone A 2 - B\n", SEFUNJARO_PLAIN_DUPLICATE_ZONE, 2 },
    { "Zone A 1 - A\nZone B 2 - B\nLink A B\n", SEFUNJARO_PLAIN_LINK_IS_ZONE, 3 },
    { "Zone A 1 - A\nZone B 2 - B\nLink A C\nLink B C\n", SEFUNJARO_PLAIN_DUPLICATE_LINK, 4 },
    { "Zone A 1 - A\nLink B C\nLink C B\n", SEFUNJARO_PLAIN_TARGET, 2 },
};

static int faults(void) {
    static char many[(1 << 24) + 1];
    size_t count;
    for (size_t i = 0; i < sizeof refused / sizeof *refused; i++) {
        if (open_any(refused[i].text) != SEFUNJARO_NO_PLAIN_FORM) return 20 + (int)i;
        if (!is_fault(SEFUNJARO_NO_PLAIN_FORM, refused[i].cause, refused[i].line)) return 50 + (int)i;
        if (sefunjaro_name_count(&source, &count) != SEFUNJARO_NOT_OPEN) return 10;
    }
    if (sefunjaro_source_open(many, sizeof many, &source, &fault) != SEFUNJARO_TOO_LONG) return 11;
    if (!is_fault(SEFUNJARO_TOO_LONG, 0, 0)) return 12;
    return 0;
}

/* Zones that have no string, or no file, and one that has both. */
static const char whole_source[] =
    "Zone Shape 1 - A 2099 June 1\n"
    " 2 - B\n"
    "Zone Far 25:30 - FAR\n"
    "Zone Name 1 - A<B\n"
    "Zone Twice 1 - A 2000 Jan 1 0:00u\n"
    " 2 - B 2000 Jan 1 0:00u\n"
    " 3 - C\n"
    "Zone America/Sao_Paulo -3 - %z\n"
    "Zone Letters 2 - CD\n"
    "Zone Underscore 5 - A_B\n"
    "R EU 1981 max - Mar lastSun 1u 1 S\n"
    "R EU 1996 max - Oct lastSun 1u 0 -\n"
    "Zone Europe/Paris 1 EU CE%sT\n";

static int tails(void) {
    static const struct { const char *name; uint32_t cause; } none[] = {
        { "Shape", SEFUNJARO_TAIL_SHAPE }, { "Far", SEFUNJARO_TAIL_OFFSET_RANGE }, { "Name", SEFUNJARO_TAIL_NAME }
    };
    char text[40];
    size_t whole = 9;
    bool is_posix = true;
    memset(text, '.', sizeof text);
    sefunjaro_zone_close(&zone);
    if (open_any(whole_source) || sefunjaro_tail(&zone, text, 40, &whole, &is_posix, &fault) != SEFUNJARO_NOT_OPEN) return 80;
    if (!is_fault(SEFUNJARO_NOT_OPEN, 0, 0) || whole != 9 || text[0] != '.' || !is_posix) return 81;
    if (sefunjaro_tail(as_zone(&source), text, 40, &whole, &is_posix, &fault) != SEFUNJARO_NOT_OPEN) return 82;
    for (size_t i = 0; i < sizeof none / sizeof *none; i++) {
        if (open_name(none[i].name) || sefunjaro_tail(&zone, text, 40, &whole, &is_posix, &fault) != SEFUNJARO_NONE) return 83 + (int)i;
        if (!is_fault(SEFUNJARO_NONE, none[i].cause, 0) || text[0] != '.' || !is_posix) return 86 + (int)i;
    }
    is_posix = false;
    if (open_name("Europe/Paris") || sefunjaro_tail(&zone, text, 0, &whole, &is_posix, &fault) || whole != 26 || text[0] != '.' || !is_posix) return 90;
    if (sefunjaro_tail(&zone, text, 6, &whole, &is_posix, &fault) || !is_fault(0, 0, 0) || memcmp(text, "CET-1C.", 7)) return 91;
    if (sefunjaro_tail(&zone, text, 40, &whole, &is_posix, &fault) || memcmp(text, "CET-1CEST,M3.5.0,M10.5.0/3.", 27)) return 92;
    if (open_name("Letters") || sefunjaro_tail(&zone, text, 40, &whole, &is_posix, &fault) || whole != 6 || memcmp(text, "<CD>-2EST", 9) || is_posix) return 96;
    if (open_name("America/Sao_Paulo") || sefunjaro_tail(&zone, text, 40, &whole, &is_posix, &fault) || whole != 6 || memcmp(text, "<-03>3CET", 6)) return 93;
    if (!is_posix) return 97;
    if (open_name("Underscore") || sefunjaro_tail(&zone, text, 40, &whole, &is_posix, &fault) || memcmp(text, "<A_B>-5", 7) || is_posix) return 98;
    if (sefunjaro_posix_open("UTC0", 4, &zone, &fault) || sefunjaro_tail(&zone, text, 40, &whole, &is_posix, &fault) != SEFUNJARO_NOT_KEPT) return 94;
    if (sefunjaro_tzif(&zone, (uint8_t *)text, 40, &whole, &fault) != SEFUNJARO_NOT_KEPT || !is_fault(SEFUNJARO_NOT_KEPT, 0, 0) || whole != 7) return 95;
    return 0;
}

/* A zone of more kinds than a file can have, or of names too long for one. */
static uint32_t open_many(int kinds, const char *name) {
    char *text = malloc((size_t)kinds * 40 + 40), *end = text;
    for (int i = 0; i <= kinds; i++)
        end += sprintf(end, "%s 0:%02d:%02d - %s%04d%s", i ? "" : "Zone Many", i / 60, i % 60, name, i % 64, i < kinds ? "" : "\n"),
        end += i < kinds ? sprintf(end, " %d\n", 1900 + i) : 0;
    uint32_t status = open_any(text);
    free(text);
    return status ? status : open_name("Many");
}

static int files(void) {
    uint8_t file[4] = "....";
    size_t whole = 9;
    if (sefunjaro_tzif(as_zone(&source), file, 4, &whole, &fault) != SEFUNJARO_NOT_OPEN || whole != 9 || file[0] != '.') return 100;
    if (open_name("Twice") || sefunjaro_tzif(&zone, file, 4, &whole, &fault) != SEFUNJARO_NONE) return 101;
    if (!is_fault(SEFUNJARO_NONE, SEFUNJARO_TZIF_TIMES, 0) || whole != 9 || file[0] != '.') return 102;
    if (open_name("Shape") || sefunjaro_tzif(&zone, file, 4, &whole, &fault) || memcmp(file, "TZif", 4)) return 103;
    if (open_many(256, "A") || sefunjaro_tzif(&zone, file, 4, &whole, &fault) != SEFUNJARO_NONE) return 104;
    if (!is_fault(SEFUNJARO_NONE, SEFUNJARO_TZIF_TYPES, 0)) return 105;
    if (open_many(60, "AAAAAA") || sefunjaro_tzif(&zone, file, 4, &whole, &fault) != SEFUNJARO_NONE) return 106;
    if (!is_fault(SEFUNJARO_NONE, SEFUNJARO_TZIF_NAMES, 0)) return 107;
    return 0;
}

/* Zones that go on for ever, by Ireland's rules and by rules that fire past 24:00, and one that doesn't. */
static const char ever_source[] =
    "R E 1981 ma - Mar lastSun 1u 0 -\n"
    "R E 1996 ma - O lastSun 1u -1 -\n"
    "Z Ireland 1 E IST/GMT\n"
    "R G 2013 ma - Mar lastThu 26 1 D\n"
    "R G 2013 ma - O lastThu 26 0 S\n"
    "Z Late -3 G X%sT\n"
    "R N 1981 2150 - Mar lastSun 1u 1 S\n"
    "R N 1996 2150 - O lastSun 1u 0 -\n"
    "Z Ends 1 N CE%sT\n";

static int for_ever(void) {
    char text[40];
    uint8_t file[5] = ".....";
    size_t whole = 9;
    bool is_posix = false;
    memset(text, '.', sizeof text);
    if (open_any(ever_source) || sefunjaro_tail_for_ever(as_zone(&source), text, 40, &whole, &is_posix, &fault) != SEFUNJARO_NOT_OPEN) return 110;
    if (sefunjaro_tzif_for_ever(as_zone(&source), file, 5, &whole, &fault) != SEFUNJARO_NOT_OPEN || whole != 9 || file[0] != '.') return 111;
    if (open_name("Ends") || sefunjaro_tail_for_ever(&zone, text, 40, &whole, &is_posix, &fault) != SEFUNJARO_NONE) return 112;
    if (!is_fault(SEFUNJARO_NONE, SEFUNJARO_EVER_RULES_END, 0) || text[0] != '.' || whole != 9) return 113;
    if (sefunjaro_tzif_for_ever(&zone, file, 5, &whole, &fault) != SEFUNJARO_NONE || !is_fault(SEFUNJARO_NONE, SEFUNJARO_EVER_RULES_END, 0)) return 114;
    if (open_name("Ireland") || sefunjaro_tail_for_ever(&zone, text, 40, &whole, &is_posix, &fault) || whole != 26 || !is_posix) return 115;
    if (memcmp(text, "IST-1GMT0,M10.5.0,M3.5.0/1.", 27)) return 116;
    if (sefunjaro_tzif_for_ever(&zone, file, 5, &whole, &fault) || memcmp(file, "TZif2", 5)) return 117;
    if (open_name("Late") || sefunjaro_tail_for_ever(&zone, text, 6, &whole, &is_posix, &fault) || whole != 28 || is_posix) return 118;
    if (memcmp(text, "XST3XDMT0,M10", 13)) return 119;
    if (sefunjaro_tzif_for_ever(&zone, file, 5, &whole, &fault) || memcmp(file, "TZif3", 5)) return 120;
    if (sefunjaro_posix_open("UTC0", 4, &zone, &fault)) return 121;
    if (sefunjaro_tail_for_ever(&zone, text, 40, &whole, &is_posix, &fault) != SEFUNJARO_NOT_KEPT) return 122;
    if (sefunjaro_tzif_for_ever(&zone, file, 5, &whole, &fault) != SEFUNJARO_NOT_KEPT || !is_fault(SEFUNJARO_NOT_KEPT, 0, 0)) return 123;
    return 0;
}

/* The file of a zone of a source, to standard output. */
static int written(const char *path, const char *name) {
    static char text[1 << 24];
    FILE *from = fopen(path, "rb");
    size_t length = from ? fread(text, 1, sizeof text, from) : 0, whole = 0, room = 0;
    uint8_t *file = malloc(1);
    if (!from || sefunjaro_source_open(text, length, &source, &fault) || open_name(name)) return 1;
    fclose(from);
    while (!sefunjaro_tzif(&zone, file, room, &whole, &fault) && room < whole) file = realloc(file, room = whole);
    bool is_done = !fault.status && fwrite(file, 1, whole, stdout) == whole;
    free(file);
    return is_done ? 0 : 2;
}

int main(int count, char **words) {
    int failed = count == 3 ? written(words[1], words[2]) : any_form();
    if (!failed && count == 1) failed = faults();
    if (!failed && count == 1) failed = tails();
    if (!failed && count == 1) failed = files();
    if (!failed && count == 1) failed = for_ever();
    sefunjaro_source_close(&source);
    sefunjaro_zone_close(&zone);
    return failed;
}
