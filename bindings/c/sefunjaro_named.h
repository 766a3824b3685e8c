/* Zones by their names alone, of the machine's own source of the tz database.

   Compile sefunjaro_named.c with the program, and link it with the library and the threads of POSIX. It stands beside the library, which
   keeps nothing between calls, and is tested, not proved: it reads the file, holds what sefunjaro_source_open makes of it to the end of the
   process, and asks sefunjaro_zone_open. All that sefunjaro.h says of handles, pointers and threads holds here. Any number of threads may
   call at once, and in a child of fork nothing waits for a thread that it doesn't have. */
#ifndef SEFUNJARO_NAMED_H
#define SEFUNJARO_NAMED_H

#include "sefunjaro.h"

#ifdef __cplusplus
extern "C" {
#endif

/* The file that is read where the environment variable SEFUNJARO_TZDATA names none; a program that runs with another's rights doesn't heed
   the variable. */
#define SEFUNJARO_NAMED_FILE "/usr/share/zoneinfo/tzdata.zi"

/* What these calls answer besides the statuses of sefunjaro.h. */
enum sefunjaro_named_status {
    SEFUNJARO_NAMED_NO_FILE = 64,  /* the file of sefunjaro_named_path can't be read; the fault's cause is the errno */
    SEFUNJARO_NAMED_ZERO_BYTE = 65 /* the name has a zero byte */
};

/* The path of the file that is read: where a call looks for a source. It is the variable's own text, and no longer there than that. */
const char *sefunjaro_named_path(void);

/* The machine's own source, in any form that zic reads, for the calls that read one. It is read once in a process, also where many
   threads ask at once, and nobody closes it; one that can't be read is looked for again by the next call. The pointer stays as it was
   where there is none.
   SEFUNJARO_NAMED_NO_FILE, NO_MEMORY, and what sefunjaro_source_open answers. */
uint32_t sefunjaro_named_source(const struct sefunjaro_source **source, struct sefunjaro_fault *fault);

/* Opens the zone of a name of that source. What the zone's handle held before is closed first.
   SEFUNJARO_NAMED_ZERO_BYTE, what sefunjaro_named_source answers, and what sefunjaro_zone_open does. */
uint32_t sefunjaro_named_open(const char *name, size_t length, struct sefunjaro_zone *zone, struct sefunjaro_fault *fault);

#ifdef __cplusplus
}
#endif
#endif
