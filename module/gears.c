/* Each gear alone, the narrow one and the wide one, on a hundred targets under each of some gears, for module/run to count their calls.
 *
 * Prints `row NAME` for a gear, and then a line for each target: TARGET, whether the narrow gear answers, its count or 0, and the wide gear's
 * count. Targets are spread as those of the bench's followed positions. The proved wide gear is measured with home added, here 0. */
#include <inttypes.h>
#include <stdbool.h>
#include <stdio.h>

#include "axis.h"

#ifdef AXIS
/* The proved ones, as the compiler has them: settings are their sixteen fields, an answer is its case and its number. */
struct narrow {
    uint8_t counts;
    int32_t count;
};
void axis_narrow_gear(struct narrow *, const uint32_t *settings, int32_t target);
int32_t axis_wide_gear(const uint32_t *settings, int32_t home, int32_t target);

static bool narrow_gear(const uint32_t *settings, int32_t target, int32_t *count)
{
    struct narrow answer = { 0, 0 };

    axis_narrow_gear(&answer, settings, target);
    *count = answer.counts ? answer.count : 0;
    return answer.counts;
}
#define wide_gear(settings, target) axis_wide_gear(settings, 0, target)
#else
uint32_t baseline_narrow_gear(const uint32_t *fields, int32_t target, int32_t *count);
int32_t baseline_wide_gear(const uint32_t *fields, int32_t target);
#define narrow_gear baseline_narrow_gear
#define wide_gear baseline_wide_gear
#endif

static const struct {
    const char *name;
    uint32_t numerator, denominator;
    int32_t offset, limit;
} gears[] = {
    { "3 to 2, as in S", 3, 2, 0, 1000 },
    { "16 to 3, products up to 2^31", 16, 3, 0, 134000000 },
    { "512 to 625, a greater denominator", 512, 625, 0, 4000000 },
    { "10000 to 9999, too wide", 10000, 9999, 1000000, 134000000 },
};

int main(void)
{
    for (unsigned i = 0; i < sizeof gears / sizeof *gears; i++) {
        const int32_t limit = gears[i].limit;
        const uint32_t settings[AXIS_FIELDS] = {
            [AXIS_FIELD_HOME_OFFSET] = (uint32_t)gears[i].offset,
            [AXIS_FIELD_GEAR_RATIO_NUMERATOR] = gears[i].numerator,
            [AXIS_FIELD_GEAR_RATIO_DENOMINATOR] = gears[i].denominator,
            [AXIS_FIELD_POSITION_LIMIT_LOWER] = (uint32_t)-limit,
            [AXIS_FIELD_POSITION_LIMIT_UPPER] = (uint32_t)limit,
        };

        printf("row %s\n", gears[i].name);
        for (int k = 0; k < 100; k++) {
            const int32_t target = (k * 23 - 1150) * (limit / 1000);
            int32_t count = 0;
            const bool narrow = narrow_gear(settings, target, &count);

            printf("%" PRId32 " %d %" PRId32 " %" PRId32 "\n", target, narrow, count, wide_gear(settings, target));
        }
    }
    return 0;
}
