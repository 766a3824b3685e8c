/* threads: eight threads ask one source and one zone by the same two handles, and open handles of their own by them, share these and close
   them, all at once. */
#include "sefunjaro.h"
#include "small.h"
#include <pthread.h>
#include <string.h>

enum { THREADS = 8, ROUNDS = 2000 };

static struct sefunjaro_source source = SEFUNJARO_CLOSED;
static struct sefunjaro_zone zone = SEFUNJARO_CLOSED;
static int failed[THREADS];

/* Whether a zone has the rules of Europe: its offset in winter, and the text of an instant in summer. */
static bool is_paris(const struct sefunjaro_zone *asked, int i) {
    char text[40];
    int32_t winter = 0;
    size_t whole = 0;
    if (sefunjaro_offset_at(asked, 1704067200 + i, 0, &winter) || winter != 3600) return false;
    if (sefunjaro_text_at(asked, 1720000000, (uint32_t)i, text, sizeof text, &whole) || whole != 39) return false;
    return !memcmp(text, "2024-07-03 11:46:40.", 20) && !memcmp(text + 29, " +02:00:00", 10);
}

static void *asks(void *place) {
    struct sefunjaro_zone opened = SEFUNJARO_CLOSED, shared = SEFUNJARO_CLOSED;
    struct sefunjaro_fault fault;
    int *wrong = place;
    size_t count;
    for (int i = 0; i < ROUNDS; i++) {
        if (!is_paris(&zone, i)) *wrong = 1;
        if (sefunjaro_name_count(&source, &count) || count != 5) *wrong = 2;
        if (i % 100 == 0 && sefunjaro_zone_open(&source, "Europe/Monaco", 13, &opened, &fault)) *wrong = 3;
        if (i % 100 == 0 && sefunjaro_share(i % 200 ? &zone : &opened, &shared)) *wrong = 4;
        if (!is_paris(&opened, i) || !is_paris(&shared, i)) *wrong = 5;
        if (i % 100 == 99) sefunjaro_zone_close(&opened), sefunjaro_zone_close(&shared);
    }
    return NULL;
}

int main(void) {
    struct sefunjaro_fault fault;
    pthread_t threads[THREADS];
    if (sefunjaro_source_open(small_source, strlen(small_source), &source, &fault)) return 1;
    if (sefunjaro_zone_open(&source, "Europe/Paris", 12, &zone, &fault)) return 1;
    for (int i = 0; i < THREADS; i++)
        if (pthread_create(&threads[i], NULL, asks, &failed[i])) return 1;
    int wrong = 0;
    for (int i = 0; i < THREADS; i++) pthread_join(threads[i], NULL), wrong |= failed[i];
    if (!is_paris(&zone, 0)) return 1;
    sefunjaro_source_close(&source);
    sefunjaro_zone_close(&zone);
    return wrong || is_paris(&zone, 0);
}
