/* Replays events through an axis: an example of axis.h, which c/compare holds against the rival.
 *
 * Standard input has an event a line, all numbers in hexadecimal:
 *
 *     fresh                             a fresh axis, as at the beginning
 *     word WORD                         one settings word
 *     tick 7 WORDS 7 FLOATS             one tick; a float is its 32-bit pattern
 *     layout LAYOUT LENGTH 16 FIELDS    the writer, asked for this layout, on a buffer of LENGTH words that each hold DEADBEEF
 *     sheet LENGTH 16 FIELDS            the same, asked for layout 1
 *
 * Each is answered by a line as docs/LINES.md has it, without the name of a refusal. */
#include <inttypes.h>
#include <stdio.h>
#include <stdlib.h>
#include <string.h>

#include "axis.h"

#define LONGEST_BUFFER 32

static void fail(const char *why)
{
    fprintf(stderr, "replay: %s\n", why);
    exit(2);
}

static void take(uint32_t *words, int count)
{
    for (int i = 0; i < count; i++)
        if (scanf("%" SCNx32, &words[i]) != 1)
            fail("expected a hexadecimal number");
}

static void word(uint32_t *axis)
{
    uint32_t word;

    take(&word, 1);
    printf("word %" PRIu32 "\n", axis_word(axis, word));
}

static void tick(uint32_t *axis)
{
    uint32_t event[AXIS_EVENT], patterns[AXIS_FLOATS], answer[AXIS_ANSWER], number;
    float floats[AXIS_FLOATS];

    take(event, AXIS_EVENT);
    take(patterns, AXIS_FLOATS);
    memcpy(floats, patterns, sizeof floats);
    number = axis_tick(axis, event, floats, answer);
    if (number != answer[AXIS_ANSWER_NUMBER])
        fail("a tick has two numbers");
    printf("tick %" PRIu32 " torque %" PRId32 " speed %" PRId32 " position %" PRId32 " status %04" PRIX32 " mode %" PRId32 " alarm %" PRIu32 "\n",
           number, (int32_t)answer[AXIS_ANSWER_TORQUE], (int32_t)answer[AXIS_ANSWER_SPEED], (int32_t)answer[AXIS_ANSWER_POSITION],
           answer[AXIS_ANSWER_STATUSWORD], (int32_t)answer[AXIS_ANSWER_MODE], answer[AXIS_ANSWER_ALARM]);
}

/* The rest of a line `sheet` or `layout`. */
static void sheet(const char *event, uint32_t layout)
{
    uint32_t length, fields[AXIS_FIELDS], buffer[LONGEST_BUFFER];

    take(&length, 1);
    if (length > LONGEST_BUFFER)
        fail("the buffer is too long");
    take(fields, AXIS_FIELDS);
    for (uint32_t i = 0; i < length; i++)
        buffer[i] = 0xDEADBEEF;
    printf("%s %" PRIu32, event, axis_write(layout, fields, buffer, length));
    for (uint32_t i = 0; i < length; i++)
        printf(" %08" PRIX32, buffer[i]);
    printf("\n");
}

int main(void)
{
    uint32_t axis[AXIS_WORDS];
    char event[8];

    axis_fresh(axis);
    while (scanf("%7s", event) == 1) {
        if (strcmp(event, "fresh") == 0) {
            axis_fresh(axis);
            printf("fresh\n");
        } else if (strcmp(event, "word") == 0) {
            word(axis);
        } else if (strcmp(event, "tick") == 0) {
            tick(axis);
        } else if (strcmp(event, "sheet") == 0) {
            sheet(event, AXIS_LAYOUT_1);
        } else if (strcmp(event, "layout") == 0) {
            uint32_t layout;

            take(&layout, 1);
            sheet(event, layout);
        } else {
            fail("expected fresh, word, tick, sheet or layout");
        }
    }
    if (ferror(stdin) || fflush(stdout) != 0)
        fail("standard input or output failed");
    return 0;
}
