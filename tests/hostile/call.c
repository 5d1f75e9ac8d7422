#include "call.h"

#include <inttypes.h>
#include <stdio.h>
#include <string.h>

const struct kind KINDS[FUNCTIONS] = {
    [SHIFT] = { "shift", 3, false, false, "3456" },
    [GEOID] = { "geoid", 3, false, false, "3456" },
    [FIRST] = { "first", 3, false, false, "346" },
    [SECOND] = { "second", 3, false, false, "346" },
    [THIRD] = { "third", 3, false, false, "346" },
    [REFUSAL] = { "refusal", 3, false, false, "346" },
    [READ_LATITUDE] = { "read_latitude", 0, true, false, "123" },
    [READ_LONGITUDE] = { "read_longitude", 0, true, false, "123" },
    [WRITE_LATITUDE] = { "write_latitude", 1, false, true, "37" },
    [WRITE_LONGITUDE] = { "write_longitude", 1, false, true, "37" },
    [SHEET] = { "sheet", 1, true, true, "1789" },
    [LINE] = { "line", 0, true, true, "123467" },
    [WAYPOINT] = { "waypoint", 3, false, true, "34567" },
};

const struct implementation INDEPENDENT = IMPLEMENTATION(independent);

static struct answer of_shift(buckettin_shift_t got) {
    return (struct answer){ got.refusal, { got.dlat, got.dlon, got.dh } };
}

static struct answer of_geoid(buckettin_geoid_t got) {
    return (struct answer){ got.refusal, { got.n, 0, 0 } };
}

static struct answer of_float(double got) {
    struct answer answer = { 0 };
    memcpy(&answer.value[0], &got, sizeof got);
    return answer;
}

static struct answer of_read(buckettin_read_t got) {
    return (struct answer){ got.refusal, { got.ms, 0, 0 } };
}

static struct answer of_written(buckettin_written_t got) {
    return (struct answer){ got.refusal, { got.written, 0, 0 } };
}

struct answer answer_of(const struct implementation *made, const struct call *call, const uint8_t *given, uint8_t *lent) {
    const int64_t *number = call->number;
    switch (call->function) {
    case SHIFT:
        return of_shift(made->shift(number[0], number[1], number[2]));
    case GEOID:
        return of_geoid(made->geoid(number[0], number[1], number[2]));
    case FIRST: case SECOND: case THIRD:
        return of_float(made->floating[call->function - FIRST](number[0], number[1], number[2]));
    case REFUSAL:
        return (struct answer){ made->refusal(number[0], number[1], number[2]), { 0 } };
    case READ_LATITUDE: case READ_LONGITUDE:
        return of_read(made->read[call->function - READ_LATITUDE](given, call->length));
    case WRITE_LATITUDE: case WRITE_LONGITUDE:
        return of_written(made->write[call->function - WRITE_LATITUDE](number[0], lent, call->room));
    case SHEET:
        return of_written(made->sheet(number[0], given, call->length, lent, call->room));
    case WAYPOINT:
        return of_written(made->waypoint(number[0], number[1], number[2], lent, call->room));
    default:
        return of_written(made->line(given, call->length, lent, call->room));
    }
}

void print_bytes(const char *name, const uint8_t *bytes, size_t count) {
    printf("  %s, %zu bytes:", name, count);
    for (size_t i = 0; i < count; i++) printf(" %02x", bytes[i]);
    printf("\n");
}

void print_call(const struct call *call) {
    const struct kind *kind = &KINDS[call->function];
    printf("%s\n", kind->name);
    for (int i = 0; i < kind->numbers; i++) {
        printf("  number %" PRId64 " (%#" PRIx64 ")\n", call->number[i], (uint64_t)call->number[i]);
    }
    if (kind->is_given) print_bytes("given", call->given, call->length);
    if (kind->is_lent) printf("  room %zu\n", call->room);
}

void print_answer(const char *whose, struct answer answer) {
    printf("  %s: refusal %" PRIu32 ", values %" PRId64 " %" PRId64 " %" PRId64 "\n", whose, answer.refusal, answer.value[0],
           answer.value[1], answer.value[2]);
}

static uint64_t take(const uint8_t **at, int width) {
    uint64_t number = 0;
    for (int i = 0; i < width; i++) number = number << 8 | *(*at)++;
    return number;
}

bool take_call(const uint8_t *input, size_t size, struct call *call) {
    const uint8_t *at = input;
    if (size < 3) return false;
    *call = (struct call){ .function = take(&at, 1) % FUNCTIONS };
    call->room = take(&at, 2) % (MOST_ROOM + 1);
    size_t header = 3 + 8 * (size_t)KINDS[call->function].numbers;
    if (size < header || size - header > MOST_GIVEN) return false;
    for (int i = 0; i < KINDS[call->function].numbers; i++) call->number[i] = (int64_t)take(&at, 8);
    call->given = at;
    call->length = size - header;
    return true;
}
