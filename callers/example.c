/* example ZONES: the two answers with which the README begins. */
#include "sefunjaro.h"
#include <stdio.h>

int main(int argc, char **argv) {
    static char text[1 << 24];
    FILE *file = argc == 2 ? fopen(argv[1], "rb") : NULL;
    if (!file) return 1;
    size_t length = fread(text, 1, sizeof text, file), count, whole;
    fclose(file);
    struct sefunjaro_source source = SEFUNJARO_CLOSED;
    struct sefunjaro_zone zone = SEFUNJARO_CLOSED;
    struct sefunjaro_fault fault;
    if (sefunjaro_source_open(text, length, &source, &fault)) return fprintf(stderr, "line %zu: status %u\n", fault.line, fault.status), 2;
    if (sefunjaro_zone_open(&source, "America/New_York", 16, &zone, &fault)) return 2;
    sefunjaro_source_close(&source);
    if (sefunjaro_text_at(&zone, 1710054000, 0, text, 40, &whole)) return 2;
    printf("%.*s\n", (int)whole, (const char *)text);
    struct sefunjaro_clock local = { 2024, 11, 3, 1, 30, 0, 0 };
    struct sefunjaro_reading readings[4];
    struct sefunjaro_gap gap;
    if (sefunjaro_readings(&zone, &local, readings, 4, &count, &gap)) return 2;
    for (size_t i = 0; i < count && i < 4; i++) {
        if (sefunjaro_text_at(&zone, readings[i].second, local.nanosecond, text, 40, &whole)) return 2;
        printf("%s%.*s", i ? " | " : "", (int)whole, (const char *)text);
    }
    printf("\n");
    sefunjaro_zone_close(&zone);
    return 0;
}
