/* test_named FOLDER SOURCE: the calls of sefunjaro_named.h, with each status, eight threads that ask first at once, and children of fork.
   In FOLDER it writes files; SOURCE is a source with the zone Europe/Paris. It ends with the number of the first check that fails, or 0.
   With REFUSED defined, malloc and realloc being wrapped, it refuses each request for memory in turn, and all from it on, instead. */
#define _GNU_SOURCE
#include "sefunjaro_named.h"
#include <errno.h>
#include <pthread.h>
#include <stdio.h>
#include <stdlib.h>
#include <string.h>
#include <sys/wait.h>
#include <unistd.h>

/* The address sanitizer has locks of its own, which a child of a process with threads may find taken. */
#ifdef __SANITIZE_ADDRESS__
enum { CHILDREN = 0 };
#else
enum { CHILDREN = 20 };
#endif
enum { THREADS = 8, SUMMER = 1720000000, TOO_MANY = (1 << 24) + 1 };

static struct sefunjaro_zone zone = SEFUNJARO_CLOSED;
static struct sefunjaro_fault fault;
static pthread_barrier_t barrier;

static uint32_t open_length(const char *name, size_t length) { return sefunjaro_named_open(name, length, &zone, &fault); }
static uint32_t open_name(const char *name) { return open_length(name, strlen(name)); }
static bool is_closed(void) { int32_t offset; return sefunjaro_offset_at(&zone, 0, 0, &offset) == SEFUNJARO_NOT_OPEN; }
static bool is_fault(uint32_t status, uint32_t cause, size_t line) {
    return fault.status == status && fault.cause == cause && fault.line == line;
}

/* Names a file of so many bytes as the source, and writes it. */
static void use(const char *folder, const char *text, size_t length) {
    char path[4096];
    snprintf(path, sizeof path, "%s/source", folder);
    FILE *file = fopen(path, "wb");
    if (!file || fwrite(text, 1, length, file) != length || fclose(file) || setenv("SEFUNJARO_TZDATA", path, 1)) exit(100);
}

static int without_source(const char *folder) {
    static char many[TOO_MANY];
    const struct sefunjaro_source nothing = SEFUNJARO_CLOSED, *source = &nothing;
    unsetenv("SEFUNJARO_TZDATA");
    if (strcmp(sefunjaro_named_path(), SEFUNJARO_NAMED_FILE)) return 1;
    setenv("SEFUNJARO_TZDATA", "", 1);
    if (strcmp(sefunjaro_named_path(), SEFUNJARO_NAMED_FILE)) return 2;
    setenv("SEFUNJARO_TZDATA", "/nowhere/tzdata.zi", 1);
    if (strcmp(sefunjaro_named_path(), "/nowhere/tzdata.zi")) return 3;
    if (sefunjaro_posix_open("UTC0", 4, &zone, &fault) || is_closed()) return 4;
    if (open_name("Europe/Paris") != SEFUNJARO_NAMED_NO_FILE || !is_fault(SEFUNJARO_NAMED_NO_FILE, ENOENT, 0) || !is_closed()) return 5;
    setenv("SEFUNJARO_TZDATA", folder, 1);
    if (open_name("Europe/Paris") != SEFUNJARO_NAMED_NO_FILE || !is_fault(SEFUNJARO_NAMED_NO_FILE, EISDIR, 0)) return 6;
    use(folder, "\nnothing\n", 9);
    if (open_name("Europe/Paris") != SEFUNJARO_NO_PLAIN_FORM || !is_fault(SEFUNJARO_NO_PLAIN_FORM, SEFUNJARO_PLAIN_LINE_TYPE, 2)) return 7;
    memset(many, '#', sizeof many);
    use(folder, many, sizeof many);
    if (sefunjaro_named_source(&source, &fault) != SEFUNJARO_TOO_LONG || !is_fault(SEFUNJARO_TOO_LONG, 0, 0) || source != &nothing) return 8;
    /* The name is refused before the source is asked for. */
    if (open_length("Europe\0Paris", 12) != SEFUNJARO_NAMED_ZERO_BYTE || !is_fault(SEFUNJARO_NAMED_ZERO_BYTE, 0, 0)) return 9;
    return 0;
}

/* The offset of Paris in summer by a handle of one's own, or 0. */
static int32_t paris(void) {
    struct sefunjaro_zone own = SEFUNJARO_CLOSED;
    struct sefunjaro_fault why;
    int32_t offset = 0;
    if (!sefunjaro_named_open("Europe/Paris", 12, &own, &why)) sefunjaro_offset_at(&own, SUMMER, 0, &offset);
    sefunjaro_zone_close(&own);
    return offset;
}

static void *first_at_once(void *source) {
    struct sefunjaro_fault why;
    pthread_barrier_wait(&barrier);
    return paris() == 7200 && !sefunjaro_named_source(source, &why) ? source : NULL;
}

/* What threads ask first at once is read once; children of fork ask it too, and wait for no thread of their parent. */
static int at_once(void) {
    const struct sefunjaro_source *sources[THREADS];
    pthread_t threads[THREADS];
    pid_t children[CHILDREN + 1];
    pthread_barrier_init(&barrier, NULL, THREADS + 1);
    for (int thread = 0; thread < THREADS; thread++) {
        if (pthread_create(&threads[thread], NULL, first_at_once, &sources[thread])) return 20;
    }
    pthread_barrier_wait(&barrier);
    for (int child = 0; child < CHILDREN; child++) {
        children[child] = fork();
        if (children[child] < 0) return 21;
        if (children[child] == 0) {
            alarm(60);
            _exit(paris() == 7200 ? 0 : 1);
        }
    }
    for (int thread = 0; thread < THREADS; thread++) {
        void *asked = NULL;
        if (pthread_join(threads[thread], &asked) || !asked || sources[thread] != sources[0]) return 22;
    }
    for (int child = 0; child < CHILDREN; child++) {
        int status = 1;
        if (waitpid(children[child], &status, 0) != children[child] || status) return 23;
    }
    return 0;
}

static int with_source(void) {
    const struct sefunjaro_source *source = NULL;
    size_t count = 0;
    int32_t offset = 0;
    if (open_name("Europe/Paris") || !is_fault(0, 0, 0) || sefunjaro_offset_at(&zone, SUMMER, 0, &offset) || offset != 7200) return 30;
    if (open_name("Europe/Nowhere") != SEFUNJARO_UNKNOWN_ZONE || !is_closed()) return 31;
    if (open_length("", 0) != SEFUNJARO_UNKNOWN_ZONE || open_name("\xff") != SEFUNJARO_NOT_TEXT) return 32;
    if (open_length("Europe/Paris", 13) != SEFUNJARO_NAMED_ZERO_BYTE || !is_closed()) return 33;
    /* It is not read again, also where the environment names another file. */
    setenv("SEFUNJARO_TZDATA", "/nowhere", 1);
    if (sefunjaro_named_source(&source, &fault) || sefunjaro_name_count(source, &count) || !count || paris() != 7200) return 34;
    return 0;
}

#ifdef REFUSED
/* How many requests for memory are still granted before all are refused; below 0 none is. */
static long granted = -1;

void *__real_malloc(size_t size);
void *__real_realloc(void *at, size_t size);
void *__wrap_malloc(size_t size);
void *__wrap_realloc(void *at, size_t size);

static bool is_refused(void) {
    if (granted > 0) granted--;
    else return granted == 0;
    return false;
}
void *__wrap_malloc(size_t size) { return is_refused() ? NULL : __real_malloc(size); }
void *__wrap_realloc(void *at, size_t size) { return is_refused() ? NULL : __real_realloc(at, size); }

static int refusing(const char *folder) {
    static const char small[] = "Zone Europe/Paris 1 - CET\n";
    uint32_t status = SEFUNJARO_NO_MEMORY;
    long requests = 0;
    use(folder, small, sizeof small - 1);
    for (; status == SEFUNJARO_NO_MEMORY; requests++) {
        granted = requests;
        status = open_name("Europe/Paris");
        granted = -1;
        if (status == SEFUNJARO_NO_MEMORY && (!is_fault(status, 0, 0) || !is_closed())) return 40;
    }
    sefunjaro_zone_close(&zone);
    return status == SEFUNJARO_DONE && requests > 2 ? 0 : 41;
}
#endif

int main(int count, char **words) {
    if (count != 3) return 99;
#ifdef REFUSED
    return refusing(words[1]);
#endif
    int wrong = without_source(words[1]);
    if (wrong) return wrong;
    setenv("SEFUNJARO_TZDATA", words[2], 1);
    wrong = at_once();
    return wrong ? wrong : with_source();
}
