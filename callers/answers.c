/* answers ZONES: answers the requests on standard input as zone_answers does, each zone opened once. It ends with 1 where a request or
   the file is refused. */
#include "sefunjaro.h"
#include <stdio.h>
#include <stdlib.h>
#include <string.h>

struct named { char *name; struct sefunjaro_zone zone; };

static struct named *zones;
static size_t zone_count, zone_room;

/* The handle of a zone, which is opened where it is asked for the first time. */
static struct sefunjaro_zone *zone_of(struct sefunjaro_source *source, const char *name, size_t length) {
    for (size_t i = zone_count; i-- > 0;)
        if (strlen(zones[i].name) == length && !memcmp(zones[i].name, name, length)) return &zones[i].zone;
    if (zone_count == zone_room) {
        zone_room = zone_room ? 2 * zone_room : 64;
        zones = realloc(zones, zone_room * sizeof *zones);
        if (!zones) exit(1);
    }
    struct named *made = &zones[zone_count];
    struct sefunjaro_fault fault;
    *made = (struct named){ malloc(length + 1), SEFUNJARO_CLOSED };
    if (!made->name || sefunjaro_zone_open(source, name, length, &made->zone, &fault)) exit(1);
    memcpy(made->name, name, length);
    made->name[length] = 0;
    zone_count++;
    return &made->zone;
}

/* Seconds, rounded down, and nanoseconds of a number of nanoseconds; the requests here have at most 18 digits. */
static void instant_of(const char *text, int64_t *second, uint32_t *nanosecond) {
    long long nanos = atoll(text), rest = nanos % 1000000000;
    *second = nanos / 1000000000 - (rest < 0);
    *nanosecond = (uint32_t)(rest < 0 ? rest + 1000000000 : rest);
}

static void show(struct sefunjaro_zone *zone, int64_t second, uint32_t nanosecond, const char *before) {
    char text[40];
    size_t whole;
    if (sefunjaro_text_at(zone, second, nanosecond, text, sizeof text, &whole)) exit(1);
    fputs(before, stdout);
    fwrite(text, 1, whole, stdout);
}

static void answer_local(struct sefunjaro_zone *zone, const char *text) {
    struct sefunjaro_clock local;
    struct sefunjaro_reading readings[8];
    struct sefunjaro_gap gap;
    size_t count;
    if (sefunjaro_read_local(text, strlen(text), &local)) exit(1);
    if (sefunjaro_readings(zone, &local, readings, 8, &count, &gap) || count > 8) exit(1);
    if (!count) fputs("none", stdout);
    for (size_t i = 0; i < count; i++) show(zone, readings[i].second, local.nanosecond, i ? " | " : "");
}

static void answer(struct sefunjaro_source *source, char *line) {
    line[strcspn(line, "\n")] = 0;
    char *name = strchr(line, ' ') + 1, *value = strchr(name, ' ') + 1;
    struct sefunjaro_zone *zone = zone_of(source, name, (size_t)(value - 1 - name));
    if (line[0] == 'a') {
        int64_t second;
        uint32_t nanosecond;
        instant_of(value, &second, &nanosecond);
        show(zone, second, nanosecond, "");
    } else {
        answer_local(zone, value);
    }
    putchar('\n');
}

int main(int argc, char **argv) {
    FILE *file = argc == 2 ? fopen(argv[1], "rb") : NULL;
    char *text = malloc(1 << 24);
    if (!file || !text) return 1;
    size_t length = fread(text, 1, 1 << 24, file);
    fclose(file);
    struct sefunjaro_source source = SEFUNJARO_CLOSED;
    struct sefunjaro_fault fault;
    if (sefunjaro_source_open(text, length, &source, &fault)) return 1;
    free(text);
    char line[512];
    while (fgets(line, sizeof line, stdin)) answer(&source, line);
    for (size_t i = 0; i < zone_count; i++) sefunjaro_zone_close(&zones[i].zone), free(zones[i].name);
    free(zones);
    sefunjaro_source_close(&source);
    return 0;
}
