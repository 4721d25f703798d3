/* Calls the monitor with hostile arguments and states, and checks each answer, and that a refused call left all
 * memory as it was. Prints `hostile: N checks`, or each failing row and exits 1. */
#include "sukepina.h"

#include <stdio.h>
#include <string.h>

#define TIME_LIMIT UINT64_C(10000000000000)
#define LONGEST_REST UINT64_C(86400000)
#define TICK 250
#define MOUNT 50.0f
#define REST 60000
#define RECORDS 2
#define BYTES_LEN (RECORDS * SUKEPINA_RECORD_LEN)
#define OUT_ROOM 200
#define COUNT(table) (sizeof(table) / sizeof *(table))

enum { CELL = 1, ECHO = 2, BOTH = CELL | ECHO };

/* All memory that a call can reach. */
typedef struct world {
    sukepina_cell cell;
    sukepina_echo echo;
    sukepina_step step;
    size_t place, len;
    union { uint64_t align; uint8_t at[BYTES_LEN]; } bytes;
    union { uint64_t align; uint8_t at[OUT_ROOM]; } out;
    sukepina_plate plate;
} world;

static unsigned long checks, failures;

static void check(int right, int who, const char *call, const char *row)
{
    checks++;
    if (!right) {
        failures++;
        printf("hostile: %s %s: %s\n", who == CELL ? "cell" : "echo", call, row);
    }
}

/* The numbers, without the padding between and after them. */
static int same_numbers(const void *p, const void *q, size_t end)
{
    const size_t core_end = offsetof(sukepina_core, figure) + 4, after = sizeof(sukepina_core);
    return memcmp(p, q, core_end) == 0
        && memcmp((const char *)p + after, (const char *)q + after, end - after) == 0;
}

static int same_world(const world *w, const world *was)
{
    return same_numbers(&w->cell, &was->cell, offsetof(sukepina_cell, closed) + 4)
        && same_numbers(&w->echo, &was->echo, offsetof(sukepina_echo, drive) + 4)
        && memcmp(&w->step, &was->step, sizeof w->step) == 0 && w->place == was->place && w->len == was->len
        && memcmp(w->bytes.at, was->bytes.at, BYTES_LEN) == 0 && memcmp(w->out.at, was->out.at, OUT_ROOM) == 0
        && memcmp(&w->plate, &was->plate, sizeof w->plate) == 0;
}

/* One call of either monitor, its arguments as data. */

enum call { SET_UP, STEP, FEED, READOUT, LINES, CALLS };
static const char *const call_names[CALLS] = { "set_up", "step", "feed", "readout", "lines" };

enum pointer { MONITOR, PLATE, STEP_AT, BYTES, PLACE, OUT, LEN, POINTERS };

typedef struct arguments {
    void *at[POINTERS];
    size_t size[POINTERS]; /* of what is there; of BYTES and OUT: as the caller says */
    float mount;
    uint64_t rest;
} arguments;

static int uses(enum call call, enum pointer p)
{
    static const unsigned used[CALLS] = {
        1u << MONITOR | 1u << PLATE,
        1u << MONITOR | 1u << STEP_AT,
        1u << MONITOR | 1u << BYTES | 1u << PLACE,
        1u << MONITOR | 1u << OUT | 1u << LEN,
        1u << MONITOR | 1u << BYTES | 1u << PLACE | 1u << OUT | 1u << LEN,
    };
    return (used[call] >> p & 1) != 0;
}

static int is_buffer(enum pointer p)
{
    return p == BYTES || p == OUT;
}

static arguments good_arguments(world *w, int who)
{
    arguments a = { { NULL, &w->plate, &w->step, w->bytes.at, &w->place, w->out.at, &w->len },
                    { 0, sizeof w->plate, sizeof w->step, BYTES_LEN, sizeof w->place, OUT_ROOM, sizeof w->len },
                    MOUNT, REST };
    a.at[MONITOR] = who == CELL ? (void *)&w->cell : (void *)&w->echo;
    a.size[MONITOR] = who == CELL ? sizeof w->cell : sizeof w->echo;
    return a;
}

static uint32_t call_cell(enum call call, const arguments *a)
{
    switch (call) {
    case SET_UP: return sukepina_cell_set_up(a->at[MONITOR], a->at[PLATE]);
    case STEP: return sukepina_cell_step(a->at[MONITOR], a->at[STEP_AT]);
    case FEED: return sukepina_cell_feed(a->at[MONITOR], a->at[BYTES], a->size[BYTES], a->at[PLACE]);
    case READOUT: return sukepina_cell_readout(a->at[MONITOR], a->at[OUT], a->size[OUT], a->at[LEN]);
    default: return sukepina_cell_lines(a->at[MONITOR], a->at[BYTES], a->size[BYTES], a->at[PLACE],
                                        a->at[OUT], a->size[OUT], a->at[LEN]);
    }
}

static uint32_t call_echo(enum call call, const arguments *a)
{
    switch (call) {
    case SET_UP: return sukepina_echo_set_up(a->at[MONITOR], a->at[PLATE], a->mount, a->rest);
    case STEP: return sukepina_echo_step(a->at[MONITOR], a->at[STEP_AT]);
    case FEED: return sukepina_echo_feed(a->at[MONITOR], a->at[BYTES], a->size[BYTES], a->at[PLACE]);
    case READOUT: return sukepina_echo_readout(a->at[MONITOR], a->at[OUT], a->size[OUT], a->at[LEN]);
    default: return sukepina_echo_lines(a->at[MONITOR], a->at[BYTES], a->size[BYTES], a->at[PLACE],
                                        a->at[OUT], a->size[OUT], a->at[LEN]);
    }
}

/* Calls, and checks the answer and that a refusal changed nothing. */
static void expect(world *w, int who, enum call call, const arguments *a, uint32_t answer, const char *row)
{
    const world was = *w;
    const uint32_t got = who == CELL ? call_cell(call, a) : call_echo(call, a);
    check(got == answer, who, call_names[call], row);
    if (got != SUKEPINA_OK)
        check(same_world(w, &was), who, call_names[call], row);
}

/* Worlds. A way is the steps that lead there, one letter each, TICK ms apart: o power off, p power on, and with
 * power on r reset down, t self test down, l a low level, f a faulty reading, m memory failed. */

static const char operating[] = "prrrrrrrrrrrrrrp";
static const char shut_down[] = "prrrrrrrrrrrrrrpl";

static uint32_t word_for(int who, char letter)
{
    const float gap = letter == 'l' ? 36.1f : letter == 'f' ? -1.0f : 30.0f;
    uint32_t bits;
    memcpy(&bits, &gap, sizeof bits);
    return who == ECHO ? bits : letter == 'l' ? 20 : letter == 'f' ? 256 : 128;
}

static uint32_t facts_for(char letter)
{
    return letter == 'o' ? 0 : letter == 'r' ? 3 : letter == 't' ? 5 : letter == 'm' ? 9 : 1;
}

static void put_record(uint8_t *at, const sukepina_step *step)
{
    int i;
    at[0] = 0x57, at[1] = 0x4C, at[2] = (uint8_t)step->facts;
    for (i = 0; i < 8; i++)
        at[3 + i] = (uint8_t)(step->time >> (56 - 8 * i));
    for (i = 0; i < 4; i++) {
        at[11 + i] = (uint8_t)(step->a >> (24 - 8 * i));
        at[15 + i] = (uint8_t)(step->b >> (24 - 8 * i));
    }
}

static world world_after(int who, const char *way)
{
    const sukepina_plate plate = SUKEPINA_STANDARD_PLATE;
    world w;
    arguments a;
    size_t i;
    memset(&w, 0, sizeof w);
    memset(w.out.at, '#', OUT_ROOM);
    w.len = 777;
    w.plate = plate;
    a = good_arguments(&w, who);
    expect(&w, who, SET_UP, &a, SUKEPINA_OK, way);
    for (i = 0; way[i] != 0; i++) {
        w.step.time += TICK;
        w.step.facts = facts_for(way[i]);
        w.step.a = word_for(who, way[i]);
        expect(&w, who, STEP, &a, SUKEPINA_OK, way);
    }
    /* What comes next: one more step, as a step and as records. */
    w.step.time += TICK;
    w.step.facts = facts_for('p');
    w.step.a = word_for(who, 'p');
    for (i = 0; i < RECORDS; i++) {
        sukepina_step next = w.step;
        next.time += i * TICK;
        put_record(w.bytes.at + i * SUKEPINA_RECORD_LEN, &next);
    }
    return w;
}

/* Pointers and lengths: every pointer null and misaligned, every length too long, every two regions overlapping. */
static void check_arguments(int who)
{
    static const char *const null_rows[POINTERS] = { "monitor null", "plate null", "step null", "bytes null",
                                                     "place null", "out null", "len null" };
    const world start = world_after(who, operating);
    int call, p, q;
    for (call = 0; call < CALLS; call++) {
        for (p = 0; p < POINTERS; p++) {
            world w = start;
            arguments a = good_arguments(&w, who);
            if (!uses((enum call)call, (enum pointer)p))
                continue;

            a.at[p] = NULL;
            expect(&w, who, (enum call)call, &a, SUKEPINA_ARGUMENT, null_rows[p]);
            a = good_arguments(&w, who);
            if (is_buffer((enum pointer)p)) {
                a.size[p] = (size_t)PTRDIFF_MAX + 1;
                expect(&w, who, (enum call)call, &a, SUKEPINA_ARGUMENT, "length PTRDIFF_MAX + 1");
                a.size[p] = SIZE_MAX;
                expect(&w, who, (enum call)call, &a, SUKEPINA_ARGUMENT, "length SIZE_MAX");
            } else {
                a.at[p] = (char *)a.at[p] + 1;
                expect(&w, who, (enum call)call, &a, SUKEPINA_ARGUMENT, "misaligned");
            }
            for (q = 0; q < POINTERS; q++) {
                if (q == p || !uses((enum call)call, (enum pointer)q))
                    continue;
                a = good_arguments(&w, who);
                a.at[q] = a.at[p];
                expect(&w, who, (enum call)call, &a, SUKEPINA_ARGUMENT, "two regions begin together");
                a.at[q] = (char *)a.at[p] + (a.size[p] - 1) / 8 * 8;
                expect(&w, who, (enum call)call, &a, SUKEPINA_ARGUMENT, "one region begins in another's last bytes");
            }
        }
    }
}

/* Buffers that are null with length 0, or touch without overlapping, are fine. */
static void check_fine_buffers(int who)
{
    world w = world_after(who, operating);
    arguments a = good_arguments(&w, who);
    a.at[OUT] = NULL, a.size[OUT] = 0;
    expect(&w, who, READOUT, &a, SUKEPINA_OUTPUT, "out null, room 0");
    expect(&w, who, LINES, &a, SUKEPINA_OUTPUT, "out null, room 0");
    a.at[BYTES] = NULL, a.size[BYTES] = 0;
    expect(&w, who, FEED, &a, SUKEPINA_SHORT, "bytes null, length 0");
    expect(&w, who, LINES, &a, SUKEPINA_OK, "bytes and out null, lengths 0");
    check(w.len == 0 && w.place == 0, who, "lines", "bytes and out null, lengths 0");

    a = good_arguments(&w, who);
    memcpy(w.out.at, w.bytes.at, BYTES_LEN);
    a.at[BYTES] = w.out.at;
    a.at[OUT] = w.out.at + BYTES_LEN, a.size[OUT] = OUT_ROOM - BYTES_LEN;
    expect(&w, who, LINES, &a, SUKEPINA_OK, "out begins where bytes end");
}

/* Steps and records. */

static const struct step_row {
    const char *row;
    uint64_t time;
    uint32_t facts, step, feed; /* the answers of step and feed */
} step_rows[] = {
    { "facts 31", 5000, 31, 0, 0 },
    { "facts 32", 5000, 32, 3, 3 },
    { "facts 255", 5000, 255, 3, 3 },
    { "facts UINT32_MAX", 5000, UINT32_MAX, 3, 3 },
    { "facts 32, time UINT64_MAX", UINT64_MAX, 32, 3, 3 },
    { "time 10^13", TIME_LIMIT, 1, 0, 0 },
    { "time 10^13 + 1", TIME_LIMIT + 1, 1, 4, 4 },
    { "time UINT64_MAX", UINT64_MAX, 1, 4, 4 },
    { "time UINT64_MAX without power", UINT64_MAX, 0, 4, 4 },
    { "time going back", 1, 1, 0, 0 },
    { "time 0 without power", 0, 0, 0, 0 },
};

static void check_steps(int who)
{
    const world start = world_after(who, operating);
    size_t i;
    for (i = 0; i < COUNT(step_rows); i++) {
        const struct step_row *row = &step_rows[i];
        world w = start;
        arguments a = good_arguments(&w, who);
        w.step.time = row->time, w.step.facts = row->facts;
        expect(&w, who, STEP, &a, row->step, row->row);
        w = start;
        w.step.time = row->time, w.step.facts = row->facts;
        put_record(w.bytes.at, &w.step);
        expect(&w, who, FEED, &a, row->feed, row->row);
        w.bytes.at[1] ^= 1;
        w.place = 0;
        expect(&w, who, FEED, &a, SUKEPINA_MARK, row->row);
    }
}

static const struct place_row {
    const char *row;
    size_t place;
    uint32_t feed;
    size_t next; /* the place after lines; lines is never refused here */
    int written;
} place_rows[] = {
    { "place end - 19", BYTES_LEN - 19, 0, BYTES_LEN, 1 },
    { "place end - 18", BYTES_LEN - 18, 1, BYTES_LEN, 1 },
    { "place end - 1", BYTES_LEN - 1, 1, BYTES_LEN, 1 },
    { "place end", BYTES_LEN, 1, BYTES_LEN, 0 },
    { "place end + 1", BYTES_LEN + 1, 1, BYTES_LEN + 1, 0 },
    { "place SIZE_MAX - 18", SIZE_MAX - 18, 1, SIZE_MAX - 18, 0 },
    { "place SIZE_MAX", SIZE_MAX, 1, SIZE_MAX, 0 },
};

static void check_places(int who)
{
    const world start = world_after(who, operating);
    size_t i;
    for (i = 0; i < COUNT(place_rows); i++) {
        const struct place_row *row = &place_rows[i];
        world w = start;
        arguments a = good_arguments(&w, who);
        w.place = row->place;
        expect(&w, who, FEED, &a, row->feed, row->row);
        w = start;
        w.place = row->place;
        expect(&w, who, LINES, &a, SUKEPINA_OK, row->row);
        check(w.place == row->next && (w.len != 0) == row->written, who, "lines", row->row);
        check(w.len < SUKEPINA_LINE_ROOM && (w.len == 0 || w.out.at[w.len - 1] == '\n'), who, "lines", row->row);
        check(w.out.at[w.len] == '#', who, "lines", row->row);
    }
}

/* Output rooms; `line` is this line's length. */
static void check_rooms(int who)
{
    const world start = world_after(who, operating);
    world w = start;
    arguments a = good_arguments(&w, who);
    size_t line;
    expect(&w, who, READOUT, &a, SUKEPINA_OK, "room for all");
    line = w.len;
    check(line < SUKEPINA_LINE_ROOM && w.out.at[line - 1] == '\n', who, "readout", "the line");
    {
        const struct { const char *row; enum call call; size_t room; uint32_t answer; size_t len, place; } rows[] = {
            { "room 0", READOUT, 0, 5, 0, 0 },
            { "room one less than the line", READOUT, line - 1, 5, 0, 0 },
            { "room exact", READOUT, line, 0, line, 0 },
            { "room 0", LINES, 0, 5, 0, 0 },
            { "room 63", LINES, 63, 5, 0, 0 },
            { "room 64", LINES, 64, 0, line, 19 },
            { "room one less than for the second line", LINES, line + 63, 0, line, 19 },
            { "room for the second line", LINES, line + 64, 0, 2 * line, 38 },
        };
        size_t i;
        for (i = 0; i < COUNT(rows); i++) {
            w = start;
            a.size[OUT] = rows[i].room;
            expect(&w, who, rows[i].call, &a, rows[i].answer, rows[i].row);
            if (rows[i].answer == 0)
                check(w.len == rows[i].len && w.place == rows[i].place && w.out.at[w.len] == '#', who,
                      call_names[rows[i].call], rows[i].row);
        }
        w = start;
        w.place = BYTES_LEN;
        a.size[OUT] = 0;
        expect(&w, who, LINES, &a, SUKEPINA_OK, "room 0 with nothing left");
    }
}

/* Settings. */

static const struct plate_row {
    const char *row;
    sukepina_plate plate;
    uint32_t answer;
} plate_rows[] = {
    { "standard", SUKEPINA_STANDARD_PLATE, 0 },
    { "least", { 0, 1, 3, 4, 1 }, 0 },
    { "low mark at low limit", { 1400000, 1400000, 2600000, 2700000, 50000 }, 6 },
    { "limits twice the hysteresis apart", { 1300000, 1400000, 2600000, 2700000, 600000 }, 0 },
    { "limits closer", { 1300000, 1400000, 2600000, 2700000, 600001 }, 6 },
    { "high limit at high mark", { 1300000, 1400000, 2700000, 2700000, 50000 }, 6 },
    { "high mark 9990000", { 1300000, 1400000, 2600000, 9990000, 50000 }, 0 },
    { "high mark 9990001", { 1300000, 1400000, 2600000, 9990001, 50000 }, 6 },
    { "hysteresis 0", { 1300000, 1400000, 2600000, 2700000, 0 }, 6 },
    { "twice the hysteresis wraps to 0", { 1300000, 1400000, 2600000, 2700000, 0x80000000u }, 6 },
    { "twice the hysteresis wraps to 100000", { 1300000, 1400000, 2600000, 2700000, 0x8000C350u }, 6 },
    { "twice the hysteresis wraps to -2", { 1300000, 1400000, 2600000, 2700000, UINT32_MAX }, 6 },
    { "low limit and hysteresis wrap", { 1300000, 0xFFFE7960u, 2600000, 2700000, 50000 }, 6 },
    { "all UINT32_MAX", { UINT32_MAX, UINT32_MAX, UINT32_MAX, UINT32_MAX, UINT32_MAX }, 6 },
    { "all 0", { 0, 0, 0, 0, 0 }, 6 },
};

static void check_plates(int who)
{
    const world start = world_after(who, operating);
    size_t i;
    for (i = 0; i < COUNT(plate_rows); i++) {
        world w = start;
        arguments a = good_arguments(&w, who);
        w.plate = plate_rows[i].plate;
        expect(&w, who, SET_UP, &a, plate_rows[i].answer, plate_rows[i].row);
    }
}

static const struct setting_row {
    const char *row;
    uint32_t mount; /* the float's bits */
    uint64_t rest;
    uint32_t answer;
} setting_rows[] = {
    { "mount 1", 0x3F800000, REST, 0 },
    { "mount 0.99999994", 0x3F7FFFFF, REST, 6 },
    { "mount 100", 0x42C80000, REST, 0 },
    { "mount 100.00001", 0x42C80001, REST, 6 },
    { "mount 0", 0, REST, 6 },
    { "mount -0", 0x80000000u, REST, 6 },
    { "mount -50", 0xC2480000u, REST, 6 },
    { "mount infinity", 0x7F800000, REST, 6 },
    { "mount -infinity", 0xFF800000u, REST, 6 },
    { "mount NaN", 0x7FC00000, REST, 6 },
    { "mount signalling NaN", 0x7F800001, REST, 6 },
    { "mount -NaN", UINT32_MAX, REST, 6 },
    { "rest 0", 0x42480000, 0, 0 },
    { "rest 86400000", 0x42480000, LONGEST_REST, 0 },
    { "rest 86400001", 0x42480000, LONGEST_REST + 1, 6 },
    { "rest UINT64_MAX", 0x42480000, UINT64_MAX, 6 },
};

static void check_settings(void)
{
    const world start = world_after(ECHO, operating);
    size_t i;
    for (i = 0; i < COUNT(setting_rows); i++) {
        world w = start;
        arguments a = good_arguments(&w, ECHO);
        memcpy(&a.mount, &setting_rows[i].mount, sizeof a.mount);
        a.rest = setting_rows[i].rest;
        expect(&w, ECHO, SET_UP, &a, setting_rows[i].answer, setting_rows[i].row);
    }
}

/* States, each by the way to a good one and a few numbers changed in it. */

typedef struct field {
    int who;
    size_t offset, width;
} field;

#define FIELD(who, type, name) { who, offsetof(type, name), sizeof ((type *)0)->name }
#define IN_CORE(name) FIELD(BOTH, sukepina_core, name)
#define IN_CELL(name) FIELD(CELL, sukepina_cell, name)
#define IN_ECHO(name) FIELD(ECHO, sukepina_echo, name)

/* Only fields of the monitor at hand are set. */
static void set_field(world *w, int who, field f, uint64_t value)
{
    char *at = (who == CELL ? (char *)&w->cell : (char *)&w->echo) + f.offset;
    const uint32_t narrow = (uint32_t)value;
    const uint8_t byte = (uint8_t)value;
    if ((f.who & who) == 0)
        return;
    if (f.width == 8)
        memcpy(at, &value, 8);
    else if (f.width == 4)
        memcpy(at, &narrow, 4);
    else
        memcpy(at, &byte, 1);
}

static const struct state_row {
    const char *row;
    int who;
    const char *way;
    uint32_t answer;
    struct { field field; uint64_t value; } set[5];
} state_rows[] = {
    /* 1: each number's values */
    { "mode 5", BOTH, operating, 7, { { IN_CORE(mode), 5 } } },
    { "failure 3", BOTH, operating, 7, { { IN_CORE(failure), 3 } } },
    { "signal 2", BOTH, operating, 7, { { IN_CORE(signal), 2 } } },
    { "signal 3", BOTH, operating, 7, { { IN_CORE(signal), 3 } } },
    { "watchdog 2", BOTH, "p", 7, { { IN_CORE(watchdog), 2 } } },
    { "reset_down 2", BOTH, "pr", 7, { { IN_CORE(reset_down), 2 } } },
    { "test_down 2", BOTH, "pt", 7, { { IN_CORE(test_down), 2 } } },
    { "high 2", BOTH, "p", 7, { { IN_CORE(high), 2 } } },
    { "low 2", BOTH, "p", 7, { { IN_CORE(low), 2 } } },
    { "alarm 2", BOTH, "p", 7, { { IN_CORE(alarm), 2 } } },
    { "taken 2", CELL, "p", 7, { { IN_CELL(taken), 2 } } },
    { "closed 2", CELL, operating, 7, { { IN_CELL(closed), 2 } } },
    { "opened 2", ECHO, "p", 7, { { IN_ECHO(opened), 2 } } },
    /* 2: the plate */
    { "low mark at low limit", BOTH, operating, 7, { { IN_CORE(plate.low_mark), 1400000 } } },
    { "limits twice the hysteresis apart", BOTH, operating, 0, { { IN_CORE(plate.hysteresis), 600000 } } },
    { "limits closer", BOTH, operating, 7, { { IN_CORE(plate.hysteresis), 600001 } } },
    { "high mark at high limit", BOTH, operating, 7, { { IN_CORE(plate.high_mark), 2600000 } } },
    { "high mark 9990000", BOTH, operating, 0, { { IN_CORE(plate.high_mark), 9990000 } } },
    { "high mark 9990001", BOTH, operating, 7, { { IN_CORE(plate.high_mark), 9990001 } } },
    { "hysteresis 0", BOTH, operating, 7, { { IN_CORE(plate.hysteresis), 0 } } },
    { "twice the hysteresis wraps", BOTH, operating, 7, { { IN_CORE(plate.hysteresis), 0x80000000u } } },
    /* 3: times */
    { "all times at the limit", BOTH, "", 0,
      { { IN_CORE(time), TIME_LIMIT }, { IN_CORE(entered), TIME_LIMIT }, { IN_CORE(reset_since), TIME_LIMIT },
        { IN_CORE(test_since), TIME_LIMIT }, { IN_ECHO(last_tick), TIME_LIMIT } } },
    { "all times past the limit", BOTH, "", 7,
      { { IN_CORE(time), TIME_LIMIT + 1 }, { IN_CORE(entered), TIME_LIMIT + 1 },
        { IN_CORE(reset_since), TIME_LIMIT + 1 }, { IN_CORE(test_since), TIME_LIMIT + 1 },
        { IN_ECHO(last_tick), TIME_LIMIT + 1 } } },
    { "entered at the limit", BOTH, "p", 0, { { IN_CORE(entered), TIME_LIMIT } } },
    { "entered past the limit", BOTH, "p", 7, { { IN_CORE(entered), TIME_LIMIT + 1 } } },
    { "reset since the limit", BOTH, "pr", 0, { { IN_CORE(reset_since), TIME_LIMIT } } },
    { "reset since past the limit", BOTH, "pr", 7, { { IN_CORE(reset_since), TIME_LIMIT + 1 } } },
    { "test since the limit", BOTH, "pt", 0, { { IN_CORE(test_since), TIME_LIMIT } } },
    { "test since past the limit", BOTH, "pt", 7, { { IN_CORE(test_since), TIME_LIMIT + 1 } } },
    { "reset up, since before the step", BOTH, "p", 7, { { IN_CORE(reset_since), TICK - 1 } } },
    { "reset up, since after the step", BOTH, "p", 7, { { IN_CORE(reset_since), TICK + 1 } } },
    { "test up, since before the step", BOTH, "p", 7, { { IN_CORE(test_since), TICK - 1 } } },
    { "test up, since after the step", BOTH, "p", 7, { { IN_CORE(test_since), TICK + 1 } } },
    /* 4: the dark */
    { "dark and badlevdev", BOTH, "", 7,
      { { IN_CORE(failure), 1 }, { IN_CORE(high), 1 }, { IN_CORE(low), 1 }, { IN_CORE(alarm), 1 } } },
    { "dark and hardfail", BOTH, "", 7,
      { { IN_CORE(failure), 2 }, { IN_CORE(high), 1 }, { IN_CORE(low), 1 }, { IN_CORE(alarm), 1 } } },
    { "dark, signal operate", BOTH, "", 7, { { IN_CORE(signal), 1 } } },
    { "dark, watchdog operate", BOTH, "", 7, { { IN_CORE(watchdog), 1 } } },
    { "dark, reset down", BOTH, "", 7, { { IN_CORE(reset_down), 1 } } },
    { "dark, test down", BOTH, "", 7, { { IN_CORE(test_down), 1 } } },
    { "dark, entered before the step", BOTH, "o", 7, { { IN_CORE(entered), TICK - 1 } } },
    /* 5: the signal */
    { "standby, signal operate", BOTH, "p", 7, { { IN_CORE(signal), 1 }, { IN_CELL(closed), 1 } } },
    { "test, signal operate", BOTH, "ptttt", 7, { { IN_CORE(signal), 1 }, { IN_CELL(closed), 1 } } },
    { "badlevdev, signal operate", BOTH, "prrrrrrrrrrrrrrpf", 7, { { IN_CORE(signal), 1 }, { IN_CELL(closed), 1 } } },
    { "hardfail, signal operate", BOTH, "prrrrrrrrrrrrrrpm", 7, { { IN_CORE(signal), 1 }, { IN_CELL(closed), 1 } } },
    { "shutdown, signal shutdown", BOTH, shut_down, 0,
      { { IN_CORE(signal), 0 }, { IN_CELL(closed), 0 }, { IN_ECHO(drive), 0xFF00 } } },
    /* 6: the reading */
    { "operating, a fault", ECHO, operating, 7,
      { { IN_ECHO(fault), 2 }, { IN_ECHO(level), 0 }, { IN_CORE(figure[0]), '-' }, { IN_CORE(figure[1]), '-' },
        { IN_CORE(figure[3]), '-' } } },
    { "test, level past a mark", ECHO, "ptttt", 7, { { IN_ECHO(level), 2700001 } } },
    { "test, level at the mark", ECHO, "ptttt", 0, { { IN_ECHO(level), 2700000 } } },
    { "hardfail, level past a mark", ECHO, "m", 0, { { IN_ECHO(level), 2700001 } } },
    { "dark, level past a mark", ECHO, "", 0, { { IN_ECHO(fault), 0 }, { IN_ECHO(level), 2700001 } } },
    /* 7: the panel */
    { "standby, all on", BOTH, "p", 0, { { IN_CORE(high), 1 }, { IN_CORE(low), 1 }, { IN_CORE(alarm), 1 } } },
    { "standby, other figure", BOTH, "p", 7, { { IN_CORE(figure[3]), '1' } } },
    { "standby, no figure", BOTH, "p", 7, { { IN_CORE(figure[2]), '-' } } },
    { "operating, all on", BOTH, operating, 0, { { IN_CORE(high), 1 }, { IN_CORE(low), 1 }, { IN_CORE(alarm), 1 } } },
    { "operating, other figure", BOTH, operating, 7, { { IN_CORE(figure[0]), '1' } } },
    { "low level, low window off", BOTH, shut_down, 7, { { IN_CORE(low), 0 } } },
    { "low level, silent", BOTH, shut_down, 7, { { IN_CORE(alarm), 0 } } },
    { "low level, high window on", BOTH, shut_down, 0, { { IN_CORE(high), 1 } } },
    { "level at the high limit, high window off", ECHO, shut_down, 7,
      { { IN_ECHO(level), 2600000 }, { IN_CORE(figure[0]), '2' }, { IN_CORE(figure[1]), '6' },
        { IN_CORE(figure[3]), '0' } } },
    { "test, high window off", BOTH, "ptttt", 7, { { IN_CORE(high), 0 } } },
    { "test, low window on", BOTH, "ptttt", 7, { { IN_CORE(low), 1 } } },
    { "test, silent", BOTH, "ptttt", 7, { { IN_CORE(alarm), 0 } } },
    { "test, other figure", BOTH, "ptttt", 7, { { IN_CORE(figure[0]), '1' } } },
    { "badlevdev, high window off", BOTH, "f", 7, { { IN_CORE(high), 0 } } },
    { "badlevdev, low window off", BOTH, "f", 7, { { IN_CORE(low), 0 } } },
    { "badlevdev, windows on", BOTH, "ff", 7, { { IN_CORE(high), 1 }, { IN_CORE(low), 1 } } },
    { "badlevdev, silent", BOTH, "f", 7, { { IN_CORE(alarm), 0 } } },
    { "badlevdev, a figure", BOTH, "f", 7, { { IN_CORE(figure[0]), '0' } } },
    { "hardfail, high window off", BOTH, "m", 7, { { IN_CORE(high), 0 } } },
    { "hardfail, low window off", BOTH, "m", 7, { { IN_CORE(low), 0 } } },
    { "hardfail, silent", BOTH, "m", 7, { { IN_CORE(alarm), 0 } } },
    { "dark, high window on", BOTH, "", 7, { { IN_CORE(high), 1 } } },
    { "dark, low window on", BOTH, "", 7, { { IN_CORE(low), 1 } } },
    { "dark, audible", BOTH, "", 7, { { IN_CORE(alarm), 1 } } },
    { "dark, a figure", BOTH, "", 7, { { IN_CORE(figure[3]), '0' } } },
    /* 8: cell and contact */
    { "nothing taken in hardfail", CELL, "m", 7, { { IN_CELL(taken), 0 }, { IN_CELL(word), 0 } } },
    { "nothing taken, but a word", CELL, "", 7, { { IN_CELL(word), 1 } } },
    { "dark, any word taken", CELL, "", 0, { { IN_CELL(taken), 1 }, { IN_CELL(word), UINT32_MAX } } },
    { "closed in standby", CELL, "p", 7, { { IN_CELL(closed), 1 } } },
    { "closed in the dark", CELL, "", 7, { { IN_CELL(closed), 1 } } },
    { "open with signal and watchdog operate", CELL, operating, 7, { { IN_CELL(closed), 0 } } },
    { "closed with watchdog shut", CELL, operating, 7, { { IN_CORE(watchdog), 0 } } },
    /* 9: echo gauge */
    { "mount 1", ECHO, operating, 0, { { IN_ECHO(mount), 0x3F800000 } } },
    { "mount 0.99999994", ECHO, operating, 7, { { IN_ECHO(mount), 0x3F7FFFFF } } },
    { "mount 100", ECHO, operating, 0, { { IN_ECHO(mount), 0x42C80000 } } },
    { "mount 100.00001", ECHO, operating, 7, { { IN_ECHO(mount), 0x42C80001 } } },
    { "mount -0", ECHO, operating, 7, { { IN_ECHO(mount), 0x80000000u } } },
    { "mount infinity", ECHO, operating, 7, { { IN_ECHO(mount), 0x7F800000 } } },
    { "mount NaN", ECHO, operating, 7, { { IN_ECHO(mount), 0x7FC00000 } } },
    { "fault 1", ECHO, "", 7, { { IN_ECHO(fault), 1 } } },
    { "fault 2", ECHO, "", 0, { { IN_ECHO(fault), 2 } } },
    { "fault 4", ECHO, "", 7, { { IN_ECHO(fault), 4 } } },
    { "fault 6", ECHO, "", 7, { { IN_ECHO(fault), 6 } } },
    { "fault with a level", ECHO, "", 7, { { IN_ECHO(fault), 3 }, { IN_ECHO(level), 1 } } },
    { "fault 5 in badlevdev", ECHO, "f", 7, { { IN_ECHO(fault), 5 } } },
    { "level 10000000", ECHO, "m", 0, { { IN_ECHO(level), 10000000 } } },
    { "level 10000001", ECHO, "m", 7, { { IN_ECHO(level), 10000001 } } },
    /* 10: rest and drive */
    { "rest 86400000", ECHO, operating, 0, { { IN_ECHO(rest), LONGEST_REST } } },
    { "rest 86400001", ECHO, operating, 7, { { IN_ECHO(rest), LONGEST_REST + 1 } } },
    { "last tick before the step", ECHO, "p", 7, { { IN_ECHO(last_tick), TICK - 1 } } },
    { "last tick after the step", ECHO, "p", 7, { { IN_ECHO(last_tick), TICK + 1 } } },
    { "opening without an opening", ECHO, "p", 7, { { IN_ECHO(opening), 1 } } },
    { "opening at the last tick", ECHO, "p", 0, { { IN_ECHO(opened), 1 }, { IN_ECHO(opening), TICK } } },
    { "opening after the last tick", ECHO, "p", 7, { { IN_ECHO(opened), 1 }, { IN_ECHO(opening), TICK + 1 } } },
    { "drive open with signal and watchdog operate", ECHO, operating, 0, { { IN_ECHO(drive), 0xFF00 } } },
    { "drive 0", ECHO, operating, 7, { { IN_ECHO(drive), 0 } } },
    { "drive 1", ECHO, operating, 7, { { IN_ECHO(drive), 1 } } },
    { "drive above 16 bits", ECHO, operating, 7, { { IN_ECHO(drive), 0x100FF } } },
    { "drive closed in standby", ECHO, "p", 7, { { IN_ECHO(drive), 0x00FF } } },
    { "drive closed with watchdog shut", ECHO, operating, 7, { { IN_CORE(watchdog), 0 } } },
};

/* Any number set to its greatest makes this no state of an operating monitor. */
static const field fields[] = {
    IN_CORE(time), IN_CORE(entered), IN_CORE(reset_since), IN_CORE(test_since),
    IN_CORE(plate.low_mark), IN_CORE(plate.low_limit), IN_CORE(plate.high_limit), IN_CORE(plate.high_mark),
    IN_CORE(plate.hysteresis),
    IN_CORE(mode), IN_CORE(failure), IN_CORE(signal), IN_CORE(watchdog), IN_CORE(reset_down), IN_CORE(test_down),
    IN_CORE(high), IN_CORE(low), IN_CORE(alarm),
    IN_CORE(figure[0]), IN_CORE(figure[1]), IN_CORE(figure[2]), IN_CORE(figure[3]),
    IN_CELL(taken), IN_CELL(word), IN_CELL(closed),
    IN_ECHO(rest), IN_ECHO(last_tick), IN_ECHO(opening), IN_ECHO(opened), IN_ECHO(mount), IN_ECHO(fault),
    IN_ECHO(level), IN_ECHO(drive),
};

/* A broken state is refused before anything else is looked at, and behind bad arguments only. */
static void check_state(const world *state, int who, uint32_t answer, const char *row)
{
    int call;
    for (call = STEP; call < CALLS; call++) {
        world w = *state;
        arguments a = good_arguments(&w, who);
        expect(&w, who, (enum call)call, &a, answer, row);
        if (answer == SUKEPINA_OK) {
            expect(&w, who, READOUT, &a, SUKEPINA_OK, row); /* what a call left is a state */
            continue;
        }
        w.step.facts = UINT32_MAX;
        w.place = SIZE_MAX;
        a.size[OUT] = 0;
        expect(&w, who, (enum call)call, &a, answer, row);
        a.at[LEN] = a.at[PLACE] = a.at[STEP_AT] = NULL;
        expect(&w, who, (enum call)call, &a, SUKEPINA_ARGUMENT, row);
    }
}

static void check_states(int who)
{
    size_t i, j;
    for (i = 0; i < COUNT(state_rows); i++) {
        const struct state_row *row = &state_rows[i];
        world w;
        if ((row->who & who) == 0)
            continue;
        w = world_after(who, row->way);
        for (j = 0; j < COUNT(row->set) && row->set[j].field.width != 0; j++)
            set_field(&w, who, row->set[j].field, row->set[j].value);
        check_state(&w, who, row->answer, row->row);
    }
    for (i = 0; i < COUNT(fields); i++) {
        world w = world_after(who, operating);
        if ((fields[i].who & who) == 0)
            continue;
        set_field(&w, who, fields[i], UINT64_MAX);
        check_state(&w, who, SUKEPINA_STATE, "a number at its greatest");
    }
}

int main(void)
{
    int who;
    for (who = CELL; who <= ECHO; who++) {
        check_arguments(who);
        check_fine_buffers(who);
        check_steps(who);
        check_places(who);
        check_rooms(who);
        check_plates(who);
        check_states(who);
    }
    check_settings();
    if (failures != 0) {
        printf("hostile: %lu of %lu checks failed\n", failures, checks);
        return 1;
    }
    printf("hostile: %lu checks\n", checks);
    return 0;
}
