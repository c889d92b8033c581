/* One axis, and the writer of its settings, for C99 and C++11. Link with libexports.a (`rt lib` in crates/exports), which is for x86-64.
 *
 * An axis lives in AXIS_WORDS words that you lend to each call; nothing of it is kept elsewhere. Make it fresh once, feed it the settings words
 * that axis_write made, in their order, and tick it once a cycle; words and ticks may come in any order.
 *
 * - Every array is aligned to 4 bytes, as its type is, and no pointer is null, also not that of a buffer of no words. The arrays lent to one call
 *   do not overlap.
 * - No call keeps a pointer, allocates, blocks or has a state of its own. One axis is used by one caller at a time, an
 *   interrupt handler being a caller too; two axes may be used at once.
 * - Every value of every number is answered, and every content of the axis's words is some axis: zeros are a fresh one too. Rely on axis_fresh
 *   all the same: what the words mean is the library's own affair.
 *
 * Units. Positions: counts of the encoder, modulo 2^32. Targets, home offset and software position limits: user units, a gear ratio away from
 * counts. Speeds: a unit of yours; a homing speed is handed out as it was set, with the sign of its direction. Torques: thousandths of the rated torque,
 * which itself is in millinewton metres. A number marked (signed) is two's complement over 32 bits: cast it from and to int32_t, never by way of a narrower
 * unsigned type. */
#ifndef AXIS_H
#define AXIS_H

#include <stdint.h>

#ifdef __cplusplus
extern "C" {
#endif

#define AXIS_WORDS  39 /* words of an axis */
#define AXIS_EVENT   7 /* words of a tick's inputs */
#define AXIS_FLOATS  7 /* floats of a tick's inputs */
#define AXIS_ANSWER  7 /* words of a tick's answer */
#define AXIS_FIELDS 16 /* fields of settings, one a word */
#define AXIS_SETTINGS_WORDS 16 /* words that carry settings to an axis, at most: layout 1 has 15, layouts 2 and 3 have 16 */

/* Makes the axis fresh, whatever the words held: no settings, drive state Not ready to switch on, homing idle. */
void axis_fresh(uint32_t axis[AXIS_WORDS]);

/* Takes one settings word: a kind in the top 4 bits, data in the low 28. Kinds come in rising order from the start word (0), whose data is the layout,
 * to the end word (15), whose data is the sum of all data before it, modulo 2^28. Layout 1 has no kind 14; the word of kind 12 has the quick stop option
 * code, and in layout 3 the homing torque beside it. A start word begins afresh at any time, in any layout. Returns AXIS_ACCEPTED, or the refusal (1 to 7;
 * an end word is tested 1, 4, 5, 6, 7, another 1, then 2 or 3). A refused word empties the unfinished settings, so that they begin again with their
 * first word. An end word that is accepted brings all fields into force together, and the axis is neither homed nor in homing error any more and homing
 * is idle; until then the settings in force stay. */
uint32_t axis_word(uint32_t axis[AXIS_WORDS], uint32_t word);

/* One tick: takes its inputs and writes every word of its answer. Returns the answer's first word: AXIS_ACCEPTED, or AXIS_NO_SETTINGS, where the
 * other six are 0 and the axis stays as it was. The floats are looked at by a hybrid command alone, but seven are lent in each call. */
uint32_t axis_tick(uint32_t axis[AXIS_WORDS], const uint32_t event[AXIS_EVENT], const float floats[AXIS_FLOATS], uint32_t answer[AXIS_ANSWER]);

/* The layouts of the words that carry settings. What several hold means the same in each; ask for the lowest that holds yours where an older axis is to
 * read it too. */
enum {
    AXIS_LAYOUT_1 = 1, /* 15 words; home offset and software position limits from -2^27 to 2^27 - 1, homing torque equal to the maximum torque */
    AXIS_LAYOUT_2 = 2, /* 16 words; homing torque equal to the maximum torque, which is how layouts 1 and 2 are read */
    AXIS_LAYOUT_3 = 3  /* 16 words; holds all settings */
};

/* Writes settings as the words of a layout, 15 or 16 of them, to the front of a buffer of `length` words, and leaves the rest of it alone. Returns AXIS_ACCEPTED, or the
 * refusal, tested in the order 2, 9, 10, 11, 3, 5, 6, and then leaves all of it alone. The length has 64 bits on a 32-bit machine too. */
uint32_t axis_write(uint32_t layout, const uint32_t fields[AXIS_FIELDS], uint32_t *buffer, uint64_t length);

/* Why a word, a tick or a buffer is refused, each in its case and in no other. */
enum {
    AXIS_ACCEPTED = 0,
    AXIS_OUT_OF_SEQUENCE = 1,   /* a word whose kind is neither the next one due nor 0 */
    AXIS_UNKNOWN_LAYOUT = 2,    /* a start word's data, or the layout asked of the writer, is none of 1, 2 and 3 */
    AXIS_OUT_OF_RANGE = 3,      /* a word's data, or a field, outside its range */
    AXIS_CHECKSUM_MISMATCH = 4, /* an end word whose data is not the sum */
    AXIS_LIMITS_CROSSED = 5,    /* the lower software position limit is not below the upper */
    AXIS_OUT_OF_REACH = 6,      /* a software position limit, geared, is beyond 2^30 counts either way */
    AXIS_DRIVE_ACTIVE = 7,      /* an end word in Operation enabled or Quick stop active */
    AXIS_NO_SETTINGS = 8,       /* a tick before any settings are in force */
    AXIS_BUFFER_TOO_SHORT = 9,  /* fewer words than the layout has */
    AXIS_LONG_VALUE = 10,       /* layout 1 is asked of the writer, and the home offset or a software position limit needs more than 28 bits */
    AXIS_HOMING_TORQUE_LOST = 11 /* layout 1 or 2 is asked of the writer, and the homing torque differs from the maximum torque */
};

/* The words of an event. Seven zeros are rest with the voltage disabled, at position 0. */
enum {
    AXIS_EVENT_COMMAND = 0,  /* AXIS_COMMAND_... */
    AXIS_EVENT_CONTROL = 1,  /* control word: bits 0 to 3 and 7 command the drive (0006 shutdown, 0007 switch on, 000F enable, 0000 disable
                                voltage, 0002 quick stop; bit 7, on its rise, resets a fault), bit 4, on its rise, starts homing and keeps it
                                running, bit 8 halts it. A number of more than 16 bits is none: it is taken as 0000 and never enables */
    AXIS_EVENT_POSITION = 2, /* actual position, counts (signed) */
    AXIS_EVENT_INPUTS = 3,   /* AXIS_INPUT_..., summed; other bits are not looked at */
    AXIS_EVENT_ALARM = 4,    /* alarm word: any bit is an alarm */
    AXIS_EVENT_TORQUE = 5,   /* torque request of homing, position and torque (signed): (uint32_t)(int32_t)request, so that -1 is FFFFFFFF and not
                                0000FFFF; one beyond 16 bits is taken as the nearest of 16 bits, which no torque limit of settings can tell from it */
    AXIS_EVENT_TARGET = 6    /* target of position, user units (signed) */
};

/* The command of a tick; any other number is rest too, which asks for no torque and leaves the shown mode. */
enum { AXIS_COMMAND_REST = 0, AXIS_COMMAND_HYBRID = 1, AXIS_COMMAND_HOMING = 2, AXIS_COMMAND_POSITION = 3, AXIS_COMMAND_TORQUE = 4 };

enum {
    AXIS_INPUT_POT = 1 << 0,        /* positive limit switch */
    AXIS_INPUT_NOT = 1 << 1,        /* negative limit switch */
    AXIS_INPUT_HOM = 1 << 2,        /* home switch */
    AXIS_INPUT_Z = 1 << 3,          /* index pulse */
    AXIS_INPUT_STANDSTILL = 1 << 4, /* the axis stands still */
    AXIS_INPUT_LIMIT_SET_2 = 1 << 5 /* the torque limits are those of set 2, and not of set 1 */
};

/* The floats of a hybrid command: radians, radians a second, newton metres. It asks for the torque KP (pd - p) + KD (vd - v) + T, by single
 * floats, each operation rounded once to nearest: the machine must not be set to round otherwise or to flush to zero. What is demanded is the whole part,
 * towards zero, of the torque in thousandths of the rated one; where that is not finite, bit 31 of the alarm word counts as set, in any mode. */
enum {
    AXIS_FLOAT_KP = 0, /* gain of position */
    AXIS_FLOAT_KD = 1, /* gain of speed */
    AXIS_FLOAT_PD = 2, /* target of position */
    AXIS_FLOAT_VD = 3, /* target of speed */
    AXIS_FLOAT_T = 4,  /* target of torque */
    AXIS_FLOAT_P = 5,  /* actual position */
    AXIS_FLOAT_V = 6   /* actual speed */
};

/* The words of an answer. */
enum {
    AXIS_ANSWER_NUMBER = 0,     /* AXIS_ACCEPTED or AXIS_NO_SETTINGS */
    AXIS_ANSWER_TORQUE = 1,     /* commanded torque, thousandths of the rated torque (signed): at most, either way, the least of the maximum torque, the
                                   chosen set's limit and, in mode 6, the homing torque */
    AXIS_ANSWER_SPEED = 2,      /* commanded speed (signed) */
    AXIS_ANSWER_POSITION = 3,   /* commanded position, counts (signed) */
    AXIS_ANSWER_STATUSWORD = 4, /* statusword. Bits 0 to 9 by drive state: 0000 not ready, 0250 switch on disabled, 0231 ready, 0233 switched on,
                                   0237 operation enabled, 0217 quick stop, 020F fault reaction, 0208 fault. Bit 8: homed. Bit 11: a limit switch is
                                   on, or the followed target was clamped. In mode 6 bit 10: homing does not run, 12: homed, 13: homing error; in
                                   mode 8 bit 12: a target is followed */
    AXIS_ANSWER_MODE = 5,       /* modes of operation display (signed): -1 hybrid, 6 homing, 8 position, 10 torque, 0 none yet */
    AXIS_ANSWER_ALARM = 6       /* alarm number: place of the lowest alarm bit, from 1, as Fault reaction was entered; 0 none */
};

/* The fields of settings, by CiA 402's names where it has one. */
enum {
    AXIS_FIELD_HOMING_METHOD = 0,           /* 1, 2, 17, 18, 23 to 30, 33, 34 or 35 */
    AXIS_FIELD_HOMING_SPEED_FAST = 1,       /* 1 to 2^28 - 1: searching for a switch */
    AXIS_FIELD_HOMING_SPEED_SLOW = 2,       /* 1 to 2^28 - 1: at its edge, or searching for the index pulse */
    AXIS_FIELD_HOME_OFFSET = 3,             /* user units (signed), any; layout 1 holds -2^27 to 2^27 - 1 */
    AXIS_FIELD_GEAR_RATIO_NUMERATOR = 4,    /* 1 to 2^20: counts */
    AXIS_FIELD_GEAR_RATIO_DENOMINATOR = 5,  /* 1 to 2^20: for so many user units */
    AXIS_FIELD_POSITION_LIMIT_LOWER = 6,    /* software position limits, user units (signed), any; layout 1 holds -2^27 to 2^27 - 1 */
    AXIS_FIELD_POSITION_LIMIT_UPPER = 7,
    AXIS_FIELD_MAXIMUM_TORQUE = 8,          /* torques: 0 to 3000 thousandths of the rated torque */
    AXIS_FIELD_POSITIVE_TORQUE_LIMIT_1 = 9, /* torque limits of sets 1 and 2, as magnitudes */
    AXIS_FIELD_NEGATIVE_TORQUE_LIMIT_1 = 10,
    AXIS_FIELD_POSITIVE_TORQUE_LIMIT_2 = 11,
    AXIS_FIELD_NEGATIVE_TORQUE_LIMIT_2 = 12,
    AXIS_FIELD_QUICK_STOP_OPTION_CODE = 13, /* 2 or 6 */
    AXIS_FIELD_RATED_TORQUE = 14,           /* 1 to 2^24 millinewton metres */
    AXIS_FIELD_HOMING_TORQUE = 15           /* 0 to 3000, as the torques above: caps the torque in mode 6. Set it to the maximum torque for no cap of its
                                               own; 0 leaves mode 6 without torque. Layouts 1 and 2 hold the maximum torque's value alone */
};

#ifdef __cplusplus
}
#endif

#endif
