/* Sukepina, the water level monitor: header of libsukepina.a for C99 and C++. See docs/C_LIBRARY.md.
 *
 * A call answers 0, or the number of its refusal; then all memory is what it was. */
#ifndef SUKEPINA_H
#define SUKEPINA_H

#include <stddef.h>
#include <stdint.h>

#define SUKEPINA_LINE_ROOM 64  /* enough for any line */
#define SUKEPINA_RECORD_LEN 19 /* bytes of a step record */

/* Marks at 13 and 27 cm, limits at 14 and 26 cm, half a centimetre of hysteresis. */
#define SUKEPINA_STANDARD_PLATE { 1300000, 1400000, 2600000, 2700000, 50000 }

enum sukepina_refusal {
    SUKEPINA_OK = 0,
    SUKEPINA_SHORT = 1,    /* fewer than 19 bytes from the place on */
    SUKEPINA_MARK = 2,     /* mark not 57 4C */
    SUKEPINA_FLAGS = 3,    /* a flag above bit 4 set */
    SUKEPINA_TIME = 4,     /* time above the limit */
    SUKEPINA_OUTPUT = 5,   /* output too short */
    SUKEPINA_SETTING = 6,  /* plate, mount or rest outside its range */
    SUKEPINA_STATE = 7,    /* the numbers are no state that a monitor can have */
    SUKEPINA_ARGUMENT = 8  /* null, misaligned or overlapping memory, or a length above PTRDIFF_MAX */
};

typedef struct sukepina_plate {
    uint32_t low_mark, low_limit, high_limit, high_mark, hysteresis; /* units of 0.00001 cm */
} sukepina_plate;

typedef struct sukepina_step {
    uint64_t time;  /* ms */
    uint32_t a, b;  /* the gauge's words */
    uint32_t facts; /* bit 0 power on, 1 reset down, 2 self test down, 3 memory failed, 4 clock failed */
} sukepina_step;

typedef struct sukepina_core {
    uint64_t time;        /* of the last accepted step, 0 before any */
    uint64_t entered;     /* when the mode was entered */
    uint64_t reset_since; /* since when each button is down; up: the last step's time */
    uint64_t test_since;
    sukepina_plate plate;
    uint32_t mode;       /* 0 dark, 1 standby, 2 operating, 3 shutdown, 4 test */
    uint32_t failure;    /* 0 allok, 1 badlevdev, 2 hardfail */
    uint32_t signal;     /* 1 operate, 0 shutdown */
    uint32_t watchdog;   /* 1 operate, 0 shut */
    uint32_t reset_down; /* 1 down, 0 up */
    uint32_t test_down;
    uint32_t high;       /* windows: 1 on, 0 off */
    uint32_t low;
    uint32_t alarm;      /* 1 audible, 0 silent */
    uint8_t figure[4];   /* as in the line */
} sukepina_core;

/* Pressure cell and direct contact. */
typedef struct sukepina_cell {
    sukepina_core core;
    uint32_t taken;  /* 1 once the cell took a word */
    uint32_t word;   /* the last word A; 0 before any */
    uint32_t closed; /* the contact: 1 closed, 0 open */
} sukepina_cell;

/* Echo gauge, and rest layer over a drive word. */
typedef struct sukepina_echo {
    sukepina_core core;
    uint64_t rest;      /* ms */
    uint64_t last_tick; /* the rest layer's last tick */
    uint64_t opening;   /* its opening tick; 0 if there was none */
    uint32_t opened;    /* 1 if there was an opening */
    float mount;        /* cm */
    uint32_t fault;     /* the reading: the fault's cause, or 0 for a level */
    uint32_t level;     /* the level in units; 0 with a fault */
    uint32_t drive;     /* the drive's word: 0x00FF closed, 0xFF00 open */
} sukepina_echo;

#if defined(__cplusplus) && __cplusplus >= 201103L
static_assert(sizeof(sukepina_cell) == 112, "sukepina_cell");
static_assert(sizeof(sukepina_echo) == 144, "sukepina_echo");
#elif defined(__STDC_VERSION__) && __STDC_VERSION__ >= 201112L
_Static_assert(sizeof(sukepina_cell) == 112, "sukepina_cell");
_Static_assert(sizeof(sukepina_echo) == 144, "sukepina_echo");
#endif

#ifdef __cplusplus
extern "C" {
#endif

/* The library's own functions. They trust their pointers and lengths: call the ones below instead. */

uint32_t sukepina_cell_set_up_raw(sukepina_cell *monitor, const sukepina_plate *plate);
uint32_t sukepina_cell_step_raw(sukepina_cell *monitor, const sukepina_step *step);
uint32_t sukepina_cell_feed_raw(sukepina_cell *monitor, const uint8_t *bytes, size_t len, size_t *place);
uint32_t sukepina_cell_readout_raw(const sukepina_cell *monitor, uint8_t *out, size_t room, size_t *len);
uint32_t sukepina_cell_lines_raw(sukepina_cell *monitor, const uint8_t *bytes, size_t bytes_len, size_t *place,
                                 uint8_t *out, size_t room, size_t *written);

uint32_t sukepina_echo_set_up_raw(sukepina_echo *monitor, const sukepina_plate *plate, float mount, uint64_t rest);
uint32_t sukepina_echo_step_raw(sukepina_echo *monitor, const sukepina_step *step);
uint32_t sukepina_echo_feed_raw(sukepina_echo *monitor, const uint8_t *bytes, size_t len, size_t *place);
uint32_t sukepina_echo_readout_raw(const sukepina_echo *monitor, uint8_t *out, size_t room, size_t *len);
uint32_t sukepina_echo_lines_raw(sukepina_echo *monitor, const uint8_t *bytes, size_t bytes_len, size_t *place,
                                 uint8_t *out, size_t room, size_t *written);

#ifdef __cplusplus
}
#endif

/* What the wrappers look at. Every type here is aligned like its widest number. */

static inline int sukepina_is_object(const void *at, size_t align)
{
    return at != NULL && (uintptr_t)at % align == 0;
}

static inline int sukepina_is_buffer(const void *at, size_t len)
{
    return len == 0 || (at != NULL && len <= (size_t)PTRDIFF_MAX);
}

/* Differences only: no sum of an address and a length can wrap. */
static inline int sukepina_apart(const void *p, size_t p_len, const void *q, size_t q_len)
{
    const uintptr_t a = (uintptr_t)p, b = (uintptr_t)q;
    if (p_len == 0 || q_len == 0)
        return 1;
    return a <= b ? b - a >= p_len : a - b >= q_len;
}

/* set_up and step: a monitor, and a plate or step with its length and alignment. */
static inline int sukepina_fits_given(const void *monitor, size_t size, const void *given, size_t len, size_t align)
{
    return sukepina_is_object(monitor, sizeof(uint64_t)) && sukepina_is_object(given, align)
        && sukepina_apart(monitor, size, given, len);
}

/* feed, readout, and each half of lines: a monitor, a buffer, and a place or length. */
static inline int sukepina_fits_buffer(const void *monitor, size_t size, const void *buffer, size_t len,
                                       const size_t *number)
{
    return sukepina_is_object(monitor, sizeof(uint64_t)) && sukepina_is_buffer(buffer, len)
        && sukepina_is_object(number, sizeof *number) && sukepina_apart(monitor, size, buffer, len)
        && sukepina_apart(monitor, size, number, sizeof *number) && sukepina_apart(buffer, len, number, sizeof *number);
}

static inline int sukepina_fits_lines(const void *monitor, size_t size, const void *bytes, size_t bytes_len,
                                      const size_t *place, const void *out, size_t room, const size_t *written)
{
    return sukepina_fits_buffer(monitor, size, bytes, bytes_len, place)
        && sukepina_fits_buffer(monitor, size, out, room, written)
        && sukepina_apart(bytes, bytes_len, out, room) && sukepina_apart(bytes, bytes_len, written, sizeof *written)
        && sukepina_apart(place, sizeof *place, out, room)
        && sukepina_apart(place, sizeof *place, written, sizeof *written);
}

/* Sets up a dark monitor, its contact open. What was in the memory does not matter. */

static inline uint32_t sukepina_cell_set_up(sukepina_cell *monitor, const sukepina_plate *plate)
{
    if (!sukepina_fits_given(monitor, sizeof *monitor, plate, sizeof *plate, sizeof(uint32_t)))
        return SUKEPINA_ARGUMENT;
    return sukepina_cell_set_up_raw(monitor, plate);
}

static inline uint32_t sukepina_echo_set_up(sukepina_echo *monitor, const sukepina_plate *plate, float mount,
                                            uint64_t rest)
{
    if (!sukepina_fits_given(monitor, sizeof *monitor, plate, sizeof *plate, sizeof(uint32_t)))
        return SUKEPINA_ARGUMENT;
    return sukepina_echo_set_up_raw(monitor, plate, mount, rest);
}

/* One step. */

static inline uint32_t sukepina_cell_step(sukepina_cell *monitor, const sukepina_step *step)
{
    if (!sukepina_fits_given(monitor, sizeof *monitor, step, sizeof *step, sizeof(uint64_t)))
        return SUKEPINA_ARGUMENT;
    return sukepina_cell_step_raw(monitor, step);
}

static inline uint32_t sukepina_echo_step(sukepina_echo *monitor, const sukepina_step *step)
{
    if (!sukepina_fits_given(monitor, sizeof *monitor, step, sizeof *step, sizeof(uint64_t)))
        return SUKEPINA_ARGUMENT;
    return sukepina_echo_step_raw(monitor, step);
}

/* Steps with the record at *place, and moves *place 19 bytes on. */

static inline uint32_t sukepina_cell_feed(sukepina_cell *monitor, const uint8_t *bytes, size_t len, size_t *place)
{
    if (!sukepina_fits_buffer(monitor, sizeof *monitor, bytes, len, place))
        return SUKEPINA_ARGUMENT;
    return sukepina_cell_feed_raw(monitor, bytes, len, place);
}

static inline uint32_t sukepina_echo_feed(sukepina_echo *monitor, const uint8_t *bytes, size_t len, size_t *place)
{
    if (!sukepina_fits_buffer(monitor, sizeof *monitor, bytes, len, place))
        return SUKEPINA_ARGUMENT;
    return sukepina_echo_feed_raw(monitor, bytes, len, place);
}

/* Writes the monitor's line to the front of out, and its length to *len. */

static inline uint32_t sukepina_cell_readout(const sukepina_cell *monitor, uint8_t *out, size_t room, size_t *len)
{
    if (!sukepina_fits_buffer(monitor, sizeof *monitor, out, room, len))
        return SUKEPINA_ARGUMENT;
    return sukepina_cell_readout_raw(monitor, out, room, len);
}

static inline uint32_t sukepina_echo_readout(const sukepina_echo *monitor, uint8_t *out, size_t room, size_t *len)
{
    if (!sukepina_fits_buffer(monitor, sizeof *monitor, out, room, len))
        return SUKEPINA_ARGUMENT;
    return sukepina_echo_readout_raw(monitor, out, room, len);
}

/* Feeds the records from *place on and writes a line for each, while 64 bytes of out are left.
 * All is done when *place == bytes_len. */

static inline uint32_t sukepina_cell_lines(sukepina_cell *monitor, const uint8_t *bytes, size_t bytes_len,
                                           size_t *place, uint8_t *out, size_t room, size_t *written)
{
    if (!sukepina_fits_lines(monitor, sizeof *monitor, bytes, bytes_len, place, out, room, written))
        return SUKEPINA_ARGUMENT;
    return sukepina_cell_lines_raw(monitor, bytes, bytes_len, place, out, room, written);
}

static inline uint32_t sukepina_echo_lines(sukepina_echo *monitor, const uint8_t *bytes, size_t bytes_len,
                                           size_t *place, uint8_t *out, size_t room, size_t *written)
{
    if (!sukepina_fits_lines(monitor, sizeof *monitor, bytes, bytes_len, place, out, room, written))
        return SUKEPINA_ARGUMENT;
    return sukepina_echo_lines_raw(monitor, bytes, bytes_len, place, out, room, written);
}

#endif
