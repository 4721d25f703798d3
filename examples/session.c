/* Reads step records from standard input and prints the report, through the C header.
 *
 *   session              the cell monitor, record by record: what wellreport prints
 *   session batch        the same through the batch call and a small buffer
 *   session echo         the echo monitor, record by record
 *   session echo-batch   the same through the batch call */
#include "sukepina.h"

#include <stdio.h>
#include <stdlib.h>
#include <string.h>

#define INPUT_LEN 60800
#define BATCH_ROOM 1000
#define MOUNT 50.0f
#define REST 60000

static uint8_t bytes[INPUT_LEN];
static size_t len;

static void print(const uint8_t *text, size_t text_len)
{
    if (fwrite(text, 1, text_len, stdout) != text_len) {
        fputs("session: cannot write\n", stderr);
        exit(1);
    }
}

static void require(uint32_t answer, const char *call)
{
    if (answer != SUKEPINA_OK) {
        fprintf(stderr, "session: %s refused with %u\n", call, (unsigned)answer);
        exit(1);
    }
}

/* A cut record at the end is refused with 1; then nothing is left. */
static size_t after_refusal(uint32_t answer, size_t place)
{
    printf("refused %u at %lu\n", (unsigned)answer, (unsigned long)place);
    return answer == SUKEPINA_SHORT ? len : place + SUKEPINA_RECORD_LEN;
}

/* Both monitors have the same calls: one text for both. */
#define REPORTS(M)                                                              \
    static void M##_report(M *monitor)                                          \
    {                                                                           \
        uint8_t line[SUKEPINA_LINE_ROOM];                                       \
        size_t place = 0, line_len;                                             \
        while (place != len) {                                                  \
            const uint32_t answer = M##_feed(monitor, bytes, len, &place);      \
            if (answer != SUKEPINA_OK) {                                        \
                place = after_refusal(answer, place);                           \
                continue;                                                       \
            }                                                                   \
            require(M##_readout(monitor, line, sizeof line, &line_len), "readout"); \
            print(line, line_len);                                              \
        }                                                                       \
    }                                                                           \
                                                                                \
    static void M##_batch(M *monitor)                                           \
    {                                                                           \
        uint8_t out[BATCH_ROOM];                                                \
        size_t place = 0, written;                                              \
        while (place != len) {                                                  \
            require(M##_lines(monitor, bytes, len, &place, out, sizeof out, &written), "lines"); \
            print(out, written);                                                \
        }                                                                       \
    }

REPORTS(sukepina_cell)
REPORTS(sukepina_echo)

int main(int argc, char **argv)
{
    const char *way = argc > 1 ? argv[1] : "";
    const int echo = strncmp(way, "echo", 4) == 0;
    const int batch = strcmp(way, "batch") == 0 || strcmp(way, "echo-batch") == 0;
    const sukepina_plate plate = SUKEPINA_STANDARD_PLATE;

    if (argc > 2 || !(batch || strcmp(way, "") == 0 || strcmp(way, "echo") == 0)) {
        fputs("session: the argument is nothing, batch, echo or echo-batch\n", stderr);
        return 2;
    }

    len = fread(bytes, 1, sizeof bytes, stdin);
    if (ferror(stdin)) {
        fputs("session: cannot read\n", stderr);
        return 1;
    }

    if (echo) {
        sukepina_echo monitor;
        require(sukepina_echo_set_up(&monitor, &plate, MOUNT, REST), "set_up");
        (batch ? sukepina_echo_batch : sukepina_echo_report)(&monitor);
    } else {
        sukepina_cell monitor;
        require(sukepina_cell_set_up(&monitor, &plate), "set_up");
        (batch ? sukepina_cell_batch : sukepina_cell_report)(&monitor);
    }
    return fflush(stdout) == 0 ? 0 : 1;
}
