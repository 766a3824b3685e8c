/* layouts: the size of each struct of the header, and where its fields begin. */
#include "sefunjaro.h"
#include <stdio.h>

#define SIZE(name, of) printf("%s %zu:", name, sizeof(struct of))
#define FIELD(of, field) printf(" %s %zu", #field, offsetof(struct of, field))
#define END() putchar('\n')

int main(void) {
    SIZE("Handle", sefunjaro_handle), FIELD(sefunjaro_handle, at), FIELD(sefunjaro_handle, is_open), END();
    SIZE("Fault", sefunjaro_fault), FIELD(sefunjaro_fault, status), FIELD(sefunjaro_fault, cause), FIELD(sefunjaro_fault, line), END();
    SIZE("InForce", sefunjaro_in_force), FIELD(sefunjaro_in_force, offset), FIELD(sefunjaro_in_force, is_saving);
    FIELD(sefunjaro_in_force, name_length), END();
    SIZE("Clock", sefunjaro_clock), FIELD(sefunjaro_clock, year), FIELD(sefunjaro_clock, month), FIELD(sefunjaro_clock, day);
    FIELD(sefunjaro_clock, hour), FIELD(sefunjaro_clock, minute), FIELD(sefunjaro_clock, second), FIELD(sefunjaro_clock, nanosecond), END();
    SIZE("Reading", sefunjaro_reading), FIELD(sefunjaro_reading, second), FIELD(sefunjaro_reading, offset), END();
    SIZE("Gap", sefunjaro_gap), FIELD(sefunjaro_gap, second), FIELD(sefunjaro_gap, before), FIELD(sefunjaro_gap, after), END();
    SIZE("Found", sefunjaro_found), FIELD(sefunjaro_found, second), FIELD(sefunjaro_found, offset), FIELD(sefunjaro_found, kind), END();
    SIZE("Answer", sefunjaro_answer), FIELD(sefunjaro_answer, offset), FIELD(sefunjaro_answer, is_saving), FIELD(sefunjaro_answer, is_kept);
    FIELD(sefunjaro_answer, saving), FIELD(sefunjaro_answer, clock), FIELD(sefunjaro_answer, name_length), FIELD(sefunjaro_answer, from);
    FIELD(sefunjaro_answer, until), END();
    SIZE("Years", sefunjaro_years), FIELD(sefunjaro_years, first), FIELD(sefunjaro_years, last), END();
    SIZE("Change", sefunjaro_change), FIELD(sefunjaro_change, second), FIELD(sefunjaro_change, offset), FIELD(sefunjaro_change, saving);
    FIELD(sefunjaro_change, name_length), FIELD(sefunjaro_change, differs), END();
    SIZE("Instant", sefunjaro_instant), FIELD(sefunjaro_instant, second), FIELD(sefunjaro_instant, nanosecond);
    FIELD(sefunjaro_instant, offset), END();
    return 0;
}
