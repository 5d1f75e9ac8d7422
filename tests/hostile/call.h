/* One call of the C interface as data, so that it can be made through either implementation, printed, and made up by a fuzzer. */
#ifndef CALL_H
#define CALL_H

#include "independent.h"

#include <stdbool.h>

enum function {
    SHIFT, GEOID, FIRST, SECOND, THIRD, REFUSAL, READ_LATITUDE, READ_LONGITUDE, WRITE_LATITUDE, WRITE_LONGITUDE, SHEET, LINE,
    WAYPOINT, FUNCTIONS
};

enum { MOST_GIVEN = 8192, MOST_ROOM = 8192 };                           /* bytes of a call */
enum { POINT_LENGTH = 9, RESULT_START = 6, RESULT_LENGTH = 13 };        /* of a sheet and its result */

struct kind {
    const char *name;
    int numbers;
    bool is_given, is_lent;             /* whether it reads bytes, and whether it is lent a buffer */
    const char *refusals;               /* those that document 01, or 02, lets it give */
};

extern const struct kind KINDS[FUNCTIONS];

struct call {
    enum function function;
    int64_t number[3];                  /* the code and the position, or the position to write, or the unit's serial */
    const uint8_t *given;
    size_t length, room;
};

/* Numbers as they are, floats by their bits; what a function has no field for is 0. */
struct answer { uint32_t refusal; int64_t value[3]; };

struct implementation {
    buckettin_shift_t (*shift)(int64_t, int64_t, int64_t);
    buckettin_geoid_t (*geoid)(int64_t, int64_t, int64_t);
    double (*floating[3])(int64_t, int64_t, int64_t);
    uint32_t (*refusal)(int64_t, int64_t, int64_t);
    buckettin_read_t (*read[2])(const uint8_t *, size_t);
    buckettin_written_t (*write[2])(int64_t, uint8_t *, size_t);
    buckettin_written_t (*sheet)(int64_t, const uint8_t *, size_t, uint8_t *, size_t);
    buckettin_written_t (*line)(const uint8_t *, size_t, uint8_t *, size_t);
    buckettin_written_t (*waypoint)(int64_t, int64_t, int64_t, uint8_t *, size_t);
};

#define IMPLEMENTATION(name) { \
    name##_shift, name##_geoid, { name##_first, name##_second, name##_third }, name##_refusal, \
    { name##_read_latitude, name##_read_longitude }, { name##_write_latitude, name##_write_longitude }, name##_sheet, name##_line, \
    name##_waypoint }

extern const struct implementation INDEPENDENT;

/* Makes a call with its bytes at given, and its buffer, of call->room bytes, at lent. */
struct answer answer_of(const struct implementation *made, const struct call *call, const uint8_t *given, uint8_t *lent);

void print_call(const struct call *call);
void print_answer(const char *whose, struct answer answer);
void print_bytes(const char *name, const uint8_t *bytes, size_t count);

/* The call that an input of the fuzzer means: a byte for the function, two for the room, eight for each number, all big-endian,
   and the bytes given. False where it is too short, or has more bytes than a call may. */
bool take_call(const uint8_t *input, size_t size, struct call *call);

#endif
