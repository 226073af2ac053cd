/* Loads the worked day and answers the lines of standard input, as the program post does. */
#include <inttypes.h>
#include <stdio.h>
#include <stdlib.h>

#include "firmware.h"

enum { MEMORY = 16384, LINES = 65536, OUT = 65536 };

static const uint8_t WORKED_DAY[] = {
    2, 1, 2, 0, 0, 0, 0, 100, 0, 20, 0, 0, 0, 0, 0, 0,
    2, 1, 3, 0, 0, 0, 0, 105, 0, 60, 0, 0, 0, 0, 0, 0,
    2, 1, 2, 0, 0, 0, 0, 110, 0, 15, 0, 0, 0, 0, 0, 0,
    1, 2, 0, 0, 0, 0, 0, 125, 0, 0,  0, 0, 0, 0, 0, 0,
    2, 2, 3, 0, 0, 0, 0, 125, 0, 30, 0, 0, 0, 0, 0, 0,
    2, 2, 3, 0, 0, 0, 0, 148, 0, 10, 0, 0, 0, 0, 0, 0,
    1, 3, 0, 0, 0, 0, 0, 170, 0, 0,  0, 0, 0, 0, 0, 0,
};

static uint8_t memory[MEMORY], lines[LINES], out[OUT];

/* Shows that a load with a damaged record is refused, and leaves the memory alone. */
static int damaged_load_is_refused(void)
{
    uint8_t damaged[sizeof WORKED_DAY];
    for (size_t i = 0; i < sizeof damaged; i++)
        damaged[i] = WORKED_DAY[i];
    damaged[5 * 16 + 9] = 0;
    uint64_t answer = firmware_load_records(memory, sizeof memory, damaged, sizeof damaged);
    for (size_t i = 0; i < sizeof memory; i++)
        if (memory[i] != 0)
            return 0;
    return FIRMWARE_FAULT_NUMBER(answer) == 6 && FIRMWARE_FAULT_LAYER(answer) == 2 && FIRMWARE_FAULT_PLACE(answer) == 5;
}

/* Shows that nothing is written where what is printed does not fit. */
static int short_out_is_left(void)
{
    static const uint8_t tally[] = {'t', '\n'};
    uint8_t small[2] = {7, 7};
    ptrdiff_t none = firmware_answer_lines(memory, 0, tally, sizeof tally, small, 1);
    return none == -1 && small[0] == 7 && firmware_answer_lines(memory, 0, tally, sizeof tally, small, 2) == 2 && small[0] == '0';
}

int main(void)
{
    if (!damaged_load_is_refused() || !short_out_is_left())
        return EXIT_FAILURE;
    uint64_t held = firmware_load_records(memory, sizeof memory, WORKED_DAY, sizeof WORKED_DAY);
    if (held != sizeof WORKED_DAY / 16)
        return EXIT_FAILURE;
    size_t length = fread(lines, 1, sizeof lines, stdin);
    ptrdiff_t written = firmware_answer_lines(memory, held * 16, lines, length, out, sizeof out);
    if (written < 0)
        return EXIT_FAILURE;
    return fwrite(out, 1, (size_t)written, stdout) == (size_t)written ? EXIT_SUCCESS : EXIT_FAILURE;
}
