/* The layout of what C gets, and the examples of include/buckettin.h, which tests/header.py takes out of its comments into
   examples.h: a CALL of each that gives a struct, a NUMBER of each that gives a number, and TEXT or BYTES of what a buffer starts with. */
#include "buckettin.h"

#include <stdio.h>
#include <string.h>

#define AT(type, field, offset) _Static_assert(offsetof(type, field) == (offset), #type "." #field)
#define SIZE(type, size) _Static_assert(sizeof(type) == (size), #type)

SIZE(buckettin_shift_t, 16);
AT(buckettin_shift_t, refusal, 0);
AT(buckettin_shift_t, dlat, 4);
AT(buckettin_shift_t, dlon, 8);
AT(buckettin_shift_t, dh, 12);

SIZE(buckettin_geoid_t, 8);
AT(buckettin_geoid_t, refusal, 0);
AT(buckettin_geoid_t, n, 4);

SIZE(buckettin_read_t, 8);
AT(buckettin_read_t, refusal, 0);
AT(buckettin_read_t, ms, 4);

SIZE(buckettin_written_t, 8);
AT(buckettin_written_t, refusal, 0);
AT(buckettin_written_t, written, 4);

static int count, wrong;

static void seen(int right, const char *what)
{
    count++;
    if (right) return;
    wrong++;
    printf("not so: %s\n", what);
}

#define CALL(type, call, ...) \
    do { \
        const type must = __VA_ARGS__, found = call; \
        seen(memcmp(&found, &must, sizeof must) == 0, #call); \
    } while (0)
#define NUMBER(call, must) seen((call) == (must), #call)
#define BYTES(buffer, ...) \
    do { \
        const uint8_t must[] = __VA_ARGS__; \
        seen(memcmp(buffer, must, sizeof must) == 0, #buffer " starts with " #__VA_ARGS__); \
    } while (0)
#define TEXT(buffer, must) seen(memcmp(buffer, must, sizeof must - 1) == 0, #buffer " starts with " #must)

int main(void)
{
    static const uint8_t sheet[] = {0,0,0,7, 0, 0,0};
    static const uint32_t none[] = {BUCKETTIN_SHEET + 1, 255, 256, INT32_MAX, UINT32_MAX};
    uint8_t out[BUCKETTIN_WAYPOINT_ROOM], result[6];
    memset(out, '#', sizeof out);
    memset(result, '#', sizeof result);
#include "examples.h"
    seen(strcmp(buckettin_why(BUCKETTIN_AREA), "the point is outside its datum's area") == 0, "the words of 6");
    seen(buckettin_shifted(INT32_MAX, INT32_MIN) == INT64_C(212600881052), "100 times the largest ms");
    for (int64_t code = -1; code < 9; code++) {
        seen(buckettin_has_geoid(code) == (buckettin_shift(code, 0, 0).refusal == BUCKETTIN_FAMILY), "which codes have a geoid height");
    }
    for (size_t k = 0; k < sizeof none / sizeof none[0]; k++) {
        seen(strcmp(buckettin_why(none[k]), "a number that is no refusal") == 0, "the words of a number that is none");
    }
    printf("%d of %d are so\n", count - wrong, count);
    return wrong != 0;
}
