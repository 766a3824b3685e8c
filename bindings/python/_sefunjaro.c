/* _sefunjaro: what a datetime asks of a zone, in C over the library: the base of sefunjaro.Zone where it was built for this version of
   Python. sefunjaro.py hands it the library's calls, and lends each zone its handle while it is open. A call here lets no other thread of
   Python run, so a handle that is lent is closed by nobody meanwhile; sefunjaro.py takes it back before it closes it. */
#define PY_SSIZE_T_CLEAN
#include <Python.h>
#include <datetime.h>

#include "sefunjaro.h"

#define DAY 86400
#define NAME_ROOM 16
#define KEPT_DELTAS 256

/* What is kept of a zone is kept in cells: how many, and which seconds share one, 2^22 of them, or 48 days. */
#define KEPT_CELLS 1024
#define BITS_OF_CELL 22

/* Changes are asked for up to so many seconds before and after the middle of a cell, half a year. */
#define REACH ((int64_t)1 << 24)
#define ROOM_OF_CHANGES 16

/* The greatest offset, so that no reading of a local time lies further from it by its seconds. */
#define FARTHEST 93599

/* The first second of -9999 and the one after 9999, in UTC. */
#define FIRST_SECOND (-377705116800)
#define END_SECOND 253402300800

typedef uint32_t offset_at_call(struct sefunjaro_handle *, int64_t, uint32_t, int32_t *);
typedef uint32_t in_force_call(struct sefunjaro_handle *, int64_t, uint32_t, struct sefunjaro_in_force *, uint8_t *, size_t);
typedef uint32_t saving_at_call(struct sefunjaro_handle *, int64_t, uint32_t, int64_t *);
typedef uint32_t readings_call(struct sefunjaro_handle *, const struct sefunjaro_clock *, struct sefunjaro_reading *, size_t, size_t *,
                               struct sefunjaro_gap *);
typedef uint32_t changes_call(struct sefunjaro_handle *, int64_t, int64_t, struct sefunjaro_change *, size_t, size_t *);

/* The library's calls, and what sefunjaro.py does of its own: raise the exception of a status, and make the timedelta of seconds that are
   too many for this module's. */
static struct {
    offset_at_call *offset_at;
    in_force_call *in_force;
    saving_at_call *saving_at;
    readings_call *readings;
    changes_call *changes;
    PyObject *refuse;
    PyObject *delta;
} bound;

static PyObject *second_fold;

struct zone {
    PyDateTime_TZInfo base;
    struct sefunjaro_handle lent;
    uint64_t lending;   /* its number, which no other has: what is kept of a zone that was closed is nobody's */
};

/* What is told of a local time. */
enum { NAME, OFFSET, SAVING, KINDS };

/* The two sides of a change. */
enum { BEFORE, AFTER, SIDES, NO_SIDE = -1 };

/* Seconds in which there is one change, or none: then it is their end. Each side has one offset, one saving and one abbreviation. What a
   look-up reads stands in the first 64 bytes, which come to the processor as one. */
struct cell {
    _Alignas(64) uint64_t lending; /* whose they are, or 0 */
    int64_t from;
    int64_t change;
    int64_t to; /* the second after the last */
    int32_t offset[SIDES];
    PyObject *told[KINDS][SIDES]; /* what was told of a side, or NULL */
    int64_t place;                /* that of the seconds that it is kept for */
};

static struct cell kept_cells[KEPT_CELLS];

/* An instant at which a local time's offset is in force. */
struct chosen {
    int32_t offset;
    int64_t second;
    uint32_t nanosecond;
};

/* A call reads the handle over a copy that serves it alone. */
static struct sefunjaro_handle copy_of(PyObject *self) {
    return ((struct zone *)self)->lent;
}

static PyObject *refused(PyObject *self, uint32_t status) {
    PyObject *nothing = PyObject_CallFunction(bound.refuse, "IO", (unsigned int)status, self);
    Py_XDECREF(nothing);
    return NULL;
}

/* A timedelta of seconds; those of the last ones are kept. */
static PyObject *delta_of(int64_t seconds) {
    static struct {
        int64_t seconds;
        PyObject *delta;
    } kept[KEPT_DELTAS];
    if (seconds <= -DAY || seconds >= DAY) {
        return PyObject_CallFunction(bound.delta, "L", (long long)seconds);
    }
    size_t place = (size_t)((seconds + DAY) / 60) % KEPT_DELTAS;
    if (kept[place].delta == NULL || kept[place].seconds != seconds) {
        PyObject *delta = PyDelta_FromDSU(0, (int)seconds, 0);
        if (delta == NULL) {
            return NULL;
        }
        Py_XDECREF(kept[place].delta);
        kept[place].delta = delta;
        kept[place].seconds = seconds;
    }
    Py_INCREF(kept[place].delta);
    return kept[place].delta;
}

/* The days from 1970-01-01 to a date of the years from 1 on. */
static int64_t day_number(int year, int month, int day) {
    int64_t from_march = month > 2 ? year : year - 1;
    int64_t months = month > 2 ? month - 3 : month + 9;
    return from_march * 365 + from_march / 4 - from_march / 100 + from_march / 400 + (months * 153 + 2) / 5 + day - 719469;
}

/* The seconds from 1970-01-01 00:00:00 to a date and time, both by the same clock. */
static int64_t second_of(PyObject *utc) {
    int64_t day = day_number(PyDateTime_GET_YEAR(utc), PyDateTime_GET_MONTH(utc), PyDateTime_GET_DAY(utc));
    return day * DAY + PyDateTime_DATE_GET_HOUR(utc) * 3600 + PyDateTime_DATE_GET_MINUTE(utc) * 60 + PyDateTime_DATE_GET_SECOND(utc);
}

static struct sefunjaro_clock clock_of(PyObject *local) {
    struct sefunjaro_clock clock = {
        .year = PyDateTime_GET_YEAR(local),
        .month = (uint8_t)PyDateTime_GET_MONTH(local),
        .day = (uint8_t)PyDateTime_GET_DAY(local),
        .hour = (uint8_t)PyDateTime_DATE_GET_HOUR(local),
        .minute = (uint8_t)PyDateTime_DATE_GET_MINUTE(local),
        .second = (uint8_t)PyDateTime_DATE_GET_SECOND(local),
        .nanosecond = (uint32_t)PyDateTime_DATE_GET_MICROSECOND(local) * 1000,
    };
    return clock;
}

/* The place of a second, in UTC or as clocks show it; those of a cell have one. */
static int64_t place_of(int64_t second) {
    return second >> BITS_OF_CELL;
}

/* Where the cell of a second is kept, if it is. */
static struct cell *cell_of(PyObject *self, int64_t second) {
    return &kept_cells[((uint64_t)place_of(second) + ((struct zone *)self)->lending * 769) % KEPT_CELLS];
}

/* Puts what lies around the change that is the nearest to a second into a cell, and returns whether it could. */
static bool fill(PyObject *self, struct cell *cell, int64_t middle) {
    struct sefunjaro_change changes[ROOM_OF_CHANGES];
    struct sefunjaro_handle copy = copy_of(self);
    int64_t from = middle - REACH, to = middle + REACH;
    size_t count, of = 0;
    int32_t first;
    uint32_t status = bound.changes(&copy, from, to, changes, ROOM_OF_CHANGES, &count);
    if (status != SEFUNJARO_DONE || count > ROOM_OF_CHANGES) {
        return false;
    }
    copy = copy_of(self);
    if (bound.offset_at(&copy, from, 0, &first) != SEFUNJARO_DONE) {
        return false;
    }
    while (of + 1 < count && changes[of + 1].second - middle <= middle - changes[of].second) {
        of++;
    }
    for (int kind = 0; kind < KINDS; kind++) {
        Py_CLEAR(cell->told[kind][BEFORE]);
        Py_CLEAR(cell->told[kind][AFTER]);
    }
    cell->from = of > 0 ? changes[of - 1].second : from;
    cell->change = of < count ? changes[of].second : to;
    cell->to = of + 1 < count ? changes[of + 1].second : to;
    cell->offset[BEFORE] = of > 0 ? changes[of - 1].offset : first;
    cell->offset[AFTER] = of < count ? changes[of].offset : first;
    return true;
}

/* Whether a cell is the zone's. */
static bool is_of(PyObject *self, const struct cell *cell) {
    return cell->lending != 0 && cell->lending == ((struct zone *)self)->lending;
}

/* Makes the cell of a second anew, and returns whether it did: not where it is kept already, or the zone tells no changes. */
static bool renew(PyObject *self, struct cell *cell, int64_t second) {
    struct zone *zone = (struct zone *)self;
    int64_t place = place_of(second), middle = (place * 2 + 1) * ((int64_t)1 << (BITS_OF_CELL - 1));
    if (zone->lending == 0 || (is_of(self, cell) && cell->place == place) || middle < FIRST_SECOND + REACH ||
        middle >= END_SECOND - REACH) {
        return false;
    }
    cell->lending = 0;
    if (!fill(self, cell, middle)) {
        return false;
    }
    cell->lending = zone->lending;
    cell->place = place;
    return true;
}

/* The cell of a second in UTC, where it has the second and as many around it; else NULL. */
static struct cell *cell_at(PyObject *self, int64_t second, int64_t around) {
    struct cell *cell = cell_of(self, second);
    do {
        if (is_of(self, cell) && cell->from + around <= second && second < cell->to - around) {
            return cell;
        }
    } while (renew(self, cell, second));
    return NULL;
}

/* The cell of a local time, by its seconds from 1970-01-01 00:00:00 by the same clock, where it has all that may be its readings; else
   NULL. */
static struct cell *cell_shown(PyObject *self, int64_t shown) {
    return cell_at(self, shown, FARTHEST);
}

static int side_at(const struct cell *cell, int64_t second) {
    return second < cell->change ? BEFORE : AFTER;
}

/* Whether the clocks of a side show a local time on that side. */
static bool shows(const struct cell *cell, int side, int64_t shown) {
    return side_at(cell, shown - cell->offset[side]) == side;
}

/* The side on which clocks show a local time; where both do, or none, NO_SIDE. */
static int only_side(const struct cell *cell, int64_t shown) {
    bool before = shows(cell, BEFORE, shown), after = shows(cell, AFTER, shown);
    return before == after ? NO_SIDE : after ? AFTER : BEFORE;
}

/* The offset of a local time by PEP 495, and an instant at which it is in force. */
static bool choose(PyObject *self, PyObject *local, struct chosen *chosen) {
    struct sefunjaro_handle copy = copy_of(self);
    struct sefunjaro_clock clock = clock_of(local);
    struct sefunjaro_reading readings[2];
    struct sefunjaro_gap gap;
    size_t count;
    bool second_one = PyDateTime_DATE_GET_FOLD(local) != 0;
    uint32_t status = bound.readings(&copy, &clock, readings, 2, &count, &gap);
    if (status != SEFUNJARO_DONE) {
        refused(self, status);
        return false;
    }
    if (count > 0) {
        struct sefunjaro_reading reading = readings[second_one && count > 1 ? 1 : 0];
        *chosen = (struct chosen){reading.offset, reading.second, clock.nanosecond};
    } else if (second_one) {
        *chosen = (struct chosen){gap.after, gap.second, 0};
    } else {
        *chosen = (struct chosen){gap.before, gap.second - 1, 0};
    }
    return true;
}

/* Whether it is a datetime; else TypeError is raised. None is asked of sefunjaro.py. */
static bool is_datetime(PyObject *local) {
    if (PyDateTime_Check(local)) {
        return true;
    }
    PyErr_Format(PyExc_TypeError, "a zone is asked of a datetime or None, not %.80s", Py_TYPE(local)->tp_name);
    return false;
}

/* The offset at an instant as a timedelta. */
static PyObject *offset_at(PyObject *self, int64_t second, uint32_t nanosecond) {
    struct sefunjaro_handle copy = copy_of(self);
    int32_t offset;
    uint32_t status = bound.offset_at(&copy, second, nanosecond, &offset);
    return status == SEFUNJARO_DONE ? delta_of(offset) : refused(self, status);
}

/* The abbreviation at an instant. */
static PyObject *name_at(PyObject *self, int64_t second, uint32_t nanosecond) {
    struct sefunjaro_in_force found;
    uint8_t few[NAME_ROOM], *name = few;
    size_t room = NAME_ROOM;
    PyObject *told = NULL;
    for (;;) {
        struct sefunjaro_handle copy = copy_of(self);
        uint32_t status = bound.in_force(&copy, second, nanosecond, &found, name, room);
        if (status != SEFUNJARO_DONE) {
            refused(self, status);
            break;
        }
        if (found.name_length <= room) {
            told = PyUnicode_DecodeUTF8((const char *)name, (Py_ssize_t)found.name_length, NULL);
            break;
        }
        room = found.name_length;
        name = PyMem_Malloc(room);
        if (name == NULL) {
            return PyErr_NoMemory();
        }
    }
    if (name != few) {
        PyMem_Free(name);
    }
    return told;
}

/* The saving at an instant as a timedelta, or None in a zone that tells none. */
static PyObject *saving_at(PyObject *self, int64_t second, uint32_t nanosecond) {
    struct sefunjaro_handle copy = copy_of(self);
    int64_t saving;
    uint32_t status = bound.saving_at(&copy, second, nanosecond, &saving);
    if (status == SEFUNJARO_NOT_KEPT) {
        Py_RETURN_NONE;
    }
    return status == SEFUNJARO_DONE ? delta_of(saving) : refused(self, status);
}

static PyObject *(*const told_at[KINDS])(PyObject *, int64_t, uint32_t) = {name_at, offset_at, saving_at};

/* What is told of a side of a cell, kept with it; or NULL with an exception. */
static PyObject *told_in(PyObject *self, struct cell *cell, int side, int kind) {
    if (cell->told[kind][side] == NULL) {
        int64_t place = cell->place;
        PyObject *told = told_at[kind](self, side == BEFORE ? cell->from : cell->change, 0);
        /* What was called may have put another cell there. */
        if (told == NULL || !is_of(self, cell) || cell->place != place || cell->told[kind][side] != NULL) {
            return told;
        }
        cell->told[kind][side] = told;
    }
    Py_INCREF(cell->told[kind][side]);
    return cell->told[kind][side];
}

/* What is told of a local time, of which `fold` names the side where two show it or none; of None it is asked of sefunjaro.py. */
static PyObject *told_of(PyObject *self, PyObject *local, int kind, const char *of_none) {
    struct chosen chosen;
    if (local == Py_None) {
        return PyObject_CallMethod(self, of_none, NULL);
    }
    if (!is_datetime(local)) {
        return NULL;
    }
    int64_t shown = second_of(local);
    struct cell *cell = cell_shown(self, shown);
    if (cell != NULL) {
        int side = only_side(cell, shown);
        return told_in(self, cell, side != NO_SIDE ? side : PyDateTime_DATE_GET_FOLD(local) ? AFTER : BEFORE, kind);
    }
    return choose(self, local, &chosen) ? told_at[kind](self, chosen.second, chosen.nanosecond) : NULL;
}

static PyObject *zone_utcoffset(PyObject *self, PyObject *local) {
    return told_of(self, local, OFFSET, "_utcoffset_of_none");
}

static PyObject *zone_tzname(PyObject *self, PyObject *local) {
    return told_of(self, local, NAME, "_tzname_of_none");
}

static PyObject *zone_dst(PyObject *self, PyObject *local) {
    return told_of(self, local, SAVING, "_dst_of_none");
}

/* The second reading of a local time. */
static PyObject *second_reading(PyObject *local) {
    PyObject *replace = PyObject_GetAttrString(local, "replace"), *none = PyTuple_New(0), *later = NULL;
    if (replace != NULL && none != NULL) {
        later = PyObject_Call(replace, none, second_fold);
    }
    Py_XDECREF(replace);
    Py_XDECREF(none);
    return later;
}

/* Whether an instant isn't the first at which clocks show a local time, or -1 with an exception. */
static int is_later(PyObject *self, PyObject *local, int64_t second) {
    struct sefunjaro_handle copy = copy_of(self);
    struct sefunjaro_clock clock = clock_of(local);
    struct sefunjaro_reading readings[2];
    struct sefunjaro_gap gap;
    size_t count;
    uint32_t status = bound.readings(&copy, &clock, readings, 2, &count, &gap);
    if (status != SEFUNJARO_DONE) {
        refused(self, status);
        return -1;
    }
    return count == 0 || readings[0].second != second;
}

static PyObject *zone_fromutc(PyObject *self, PyObject *utc) {
    if (!PyDateTime_Check(utc)) {
        PyErr_SetString(PyExc_TypeError, "fromutc() requires a datetime argument");
        return NULL;
    }
    if (!((PyDateTime_DateTime *)utc)->hastzinfo || ((PyDateTime_DateTime *)utc)->tzinfo != self) {
        PyErr_SetString(PyExc_ValueError, "fromutc: dt.tzinfo is not self");
        return NULL;
    }
    int64_t second = second_of(utc);
    struct cell *cell = cell_at(self, second, 2 * FARTHEST);
    int side = cell != NULL ? side_at(cell, second) : NO_SIDE;
    /* It is known of a cell before what Python runs may change it. */
    int later = side == AFTER && shows(cell, BEFORE, second + cell->offset[AFTER]);
    PyObject *delta;
    if (cell != NULL) {
        delta = told_in(self, cell, side, OFFSET);
    } else {
        delta = offset_at(self, second, (uint32_t)PyDateTime_DATE_GET_MICROSECOND(utc) * 1000);
    }
    PyObject *local = delta == NULL ? NULL : PyNumber_Add(utc, delta);
    Py_XDECREF(delta);
    if (local != NULL && cell == NULL) {
        later = is_later(self, local, second);
    }
    if (local == NULL || !later) {
        return local;
    }
    PyObject *told = later > 0 ? second_reading(local) : NULL;
    Py_DECREF(local);
    return told;
}

/* The offset at a second of the years -9999 to 9999, by what is kept where it is. */
static uint32_t offset_by(PyObject *self, int64_t second, int32_t *offset) {
    struct cell *cell = cell_at(self, second, 0);
    if (cell != NULL) {
        *offset = cell->offset[side_at(cell, second)];
        return SEFUNJARO_DONE;
    }
    struct sefunjaro_handle copy = copy_of(self);
    return bound.offset_at(&copy, second, 0, offset);
}

/* The date and time that is so many seconds after 1970-01-01 00:00:00 by the same clock. */
static struct sefunjaro_clock clock_after(int64_t shown) {
    int64_t day = shown / DAY - (shown % DAY < 0), of_day = shown - day * DAY;
    /* Counted from 0000-03-01, in cycles of 400 years. */
    int64_t from_march = day + 719468;
    int64_t cycle = from_march / 146097 - (from_march % 146097 < 0), of_cycle = from_march - cycle * 146097;
    int64_t of_400 = (of_cycle - of_cycle / 1460 + of_cycle / 36524 - of_cycle / 146096) / 365;
    int64_t of_year = of_cycle - (of_400 * 365 + of_400 / 4 - of_400 / 100), months = (of_year * 5 + 2) / 153;
    struct sefunjaro_clock clock = {
        .year = (int32_t)(cycle * 400 + of_400 + (months >= 10)),
        .month = (uint8_t)(months < 10 ? months + 3 : months - 9),
        .day = (uint8_t)(of_year - (months * 153 + 2) / 5 + 1),
        .hour = (uint8_t)(of_day / 3600),
        .minute = (uint8_t)(of_day / 60 % 60),
        .second = (uint8_t)(of_day % 60),
    };
    return clock;
}

/* What is wanted of a local time that clocks show twice, or skip. */
enum { FIRST_READING, SECOND_READING };
enum { BEFORE_GAP, AFTER_GAP, NO_GAP };

/* The instant of a local time, by what is wanted, where a cell has all that may be its readings. */
static uint32_t instant_in(const struct cell *cell, int64_t shown, int fold, int gap_rule, int64_t *second) {
    int side = only_side(cell, shown);
    if (side == NO_SIDE && shows(cell, BEFORE, shown)) {
        side = fold == SECOND_READING ? AFTER : BEFORE;
    } else if (side == NO_SIDE && gap_rule == NO_GAP) {
        return SEFUNJARO_NONE;
    } else if (side == NO_SIDE) {
        side = gap_rule == BEFORE_GAP ? BEFORE : AFTER;
    }
    *second = shown - cell->offset[side];
    return SEFUNJARO_DONE;
}

/* The same of any local time; NONE where clocks skip it and none is wanted. */
static uint32_t instant_by(PyObject *self, int64_t shown, int fold, int gap_rule, int64_t *second) {
    struct cell *cell = cell_shown(self, shown);
    if (cell != NULL) {
        return instant_in(cell, shown, fold, gap_rule, second);
    }
    struct sefunjaro_handle copy = copy_of(self);
    struct sefunjaro_clock clock = clock_after(shown);
    struct sefunjaro_reading readings[2];
    struct sefunjaro_gap gap;
    size_t count;
    uint32_t status = bound.readings(&copy, &clock, readings, 2, &count, &gap);
    if (status != SEFUNJARO_DONE) {
        return status;
    }
    if (count > 0) {
        *second = readings[fold == SECOND_READING && count > 1 ? 1 : 0].second;
    } else if (gap_rule == NO_GAP) {
        return SEFUNJARO_NONE;
    } else {
        *second = shown - (gap_rule == BEFORE_GAP ? gap.before : gap.after);
    }
    return SEFUNJARO_DONE;
}

/* What is asked of each of many seconds. */
enum { OFFSETS, LOCALS, INSTANTS };

static uint32_t answer(PyObject *self, int kind, int64_t asked, int fold, int gap_rule, int64_t *told) {
    int32_t offset = 0;
    uint32_t status;
    if (asked < FIRST_SECOND || asked >= END_SECOND) {
        return SEFUNJARO_OUT_OF_RANGE;
    }
    if (kind == INSTANTS) {
        return instant_by(self, asked, fold, gap_rule, told);
    }
    status = offset_by(self, asked, &offset);
    *told = kind == LOCALS ? asked + offset : offset;
    return status;
}

/* Answers each second of a buffer into another, up to the first that is refused: the status, and how many were answered. */
static PyObject *zone_answer_all(PyObject *self, PyObject *given) {
    int kind, fold, gap_rule;
    Py_buffer asked, told;
    if (!PyArg_ParseTuple(given, "iy*w*ii", &kind, &asked, &told, &fold, &gap_rule)) {
        return NULL;
    }
    size_t width = kind == OFFSETS ? sizeof(int32_t) : sizeof(int64_t), count = (size_t)told.len / width, place = 0;
    uint32_t status = SEFUNJARO_DONE;
    for (; place < count && place < (size_t)asked.len / sizeof(int64_t); place++) {
        int64_t second, value;
        memcpy(&second, (char *)asked.buf + place * sizeof(int64_t), sizeof second);
        status = answer(self, kind, second, fold, gap_rule, &value);
        if (status != SEFUNJARO_DONE) {
            break;
        }
        int32_t narrow = (int32_t)value;
        memcpy((char *)told.buf + place * width, kind == OFFSETS ? (void *)&narrow : (void *)&value, width);
    }
    PyBuffer_Release(&asked);
    PyBuffer_Release(&told);
    return Py_BuildValue("In", (unsigned int)status, (Py_ssize_t)place);
}

static PyObject *zone_lend(PyObject *self, PyObject *fields) {
    unsigned long long at;
    int is_open;
    if (!PyArg_ParseTuple(fields, "Kp", &at, &is_open)) {
        return NULL;
    }
    static uint64_t lendings;
    struct zone *zone = (struct zone *)self;
    zone->lent = (struct sefunjaro_handle){(void *)(uintptr_t)at, is_open != 0};
    zone->lending = is_open ? ++lendings : 0;
    Py_RETURN_NONE;
}

static PyMethodDef zone_methods[] = {
    {"utcoffset", zone_utcoffset, METH_O,
     "The offset of a local time; of None, as a `datetime.time` asks, that of a zone in which nothing ever changes, or else None.\n"
     "Raises OffsetTooLarge."},
    {"tzname", zone_tzname, METH_O, "The abbreviation of a local time, and of None as `utcoffset`."},
    {"dst", zone_dst, METH_O,
     "The saving of a local time: how much of the offset it is, and of None as `utcoffset`; None in a zone of a file or of a POSIX\n"
     "string, which has none. Raises OffsetTooLarge."},
    {"fromutc", zone_fromutc, METH_O,
     "The local time of a UTC time to which this zone is attached, with its fold. Raises OffsetTooLarge, and OverflowError where\n"
     "the local date lies outside the years 1 to 9999."},
    {"_answer_all", zone_answer_all, METH_VARARGS, "Answers each second of a buffer into another: the status, and how many were answered."},
    {"_lend", zone_lend, METH_VARARGS, "Lends the handle's two fields, or takes them back as 0 and False."},
    {NULL, NULL, 0, NULL},
};

static PyType_Slot zone_slots[] = {{Py_tp_methods, zone_methods}, {0, NULL}};

static PyType_Spec zone_spec = {
    .name = "_sefunjaro.Asked",
    .basicsize = sizeof(struct zone),
    .flags = Py_TPFLAGS_DEFAULT | Py_TPFLAGS_BASETYPE,
    .slots = zone_slots,
};

static PyObject *bind(PyObject *Py_UNUSED(module), PyObject *given) {
    unsigned long long offset_at, in_force, saving, readings, changes;
    PyObject *refuse, *delta;
    if (!PyArg_ParseTuple(given, "KKKKKOO", &offset_at, &in_force, &saving, &readings, &changes, &refuse, &delta)) {
        return NULL;
    }
    bound.offset_at = (offset_at_call *)(uintptr_t)offset_at;
    bound.in_force = (in_force_call *)(uintptr_t)in_force;
    bound.saving_at = (saving_at_call *)(uintptr_t)saving;
    bound.readings = (readings_call *)(uintptr_t)readings;
    bound.changes = (changes_call *)(uintptr_t)changes;
    Py_INCREF(refuse);
    Py_INCREF(delta);
    Py_XSETREF(bound.refuse, refuse);
    Py_XSETREF(bound.delta, delta);
    Py_RETURN_NONE;
}

static PyMethodDef functions[] = {
    {"bind", bind, METH_VARARGS, "Takes the addresses of the library's calls, and two functions of sefunjaro.py."},
    {NULL, NULL, 0, NULL},
};

static struct PyModuleDef definition = {
    PyModuleDef_HEAD_INIT, "_sefunjaro", "What a datetime asks of a zone, in C.", -1, functions, NULL, NULL, NULL, NULL,
};

PyMODINIT_FUNC PyInit__sefunjaro(void) {
    PyDateTime_IMPORT;
    if (PyDateTimeAPI == NULL) {
        return NULL;
    }
    second_fold = Py_BuildValue("{s:i}", "fold", 1);
    PyObject *bases = PyTuple_Pack(1, (PyObject *)PyDateTimeAPI->TZInfoType);
    PyObject *type = bases == NULL ? NULL : PyType_FromSpecWithBases(&zone_spec, bases);
    PyObject *module = type == NULL || second_fold == NULL ? NULL : PyModule_Create(&definition);
    Py_XDECREF(bases);
    if (module == NULL || PyModule_AddObject(module, "Asked", type) < 0) {
        Py_XDECREF(type);
        Py_XDECREF(module);
        return NULL;
    }
    return module;
}
