/* libFuzzer's target. Built with ARCHIVE, it compares the archive with the independent implementation, which is instrumented; built
   without, for a processor on which the archive does not run, the independent implementation stands on both sides. What holds of
   one implementation alone is checked in either case. */
#include "check.h"

#include <stdlib.h>
#include <string.h>

#ifdef ARCHIVE
static const struct implementation OTHER = IMPLEMENTATION(buckettin);
#else
static const struct implementation OTHER = IMPLEMENTATION(independent);
#endif

enum { SHORT = 7, CODES_START = 5 };

/* For the fuzzer each refusal of a function is news, even where the compiler made no branch for it. */
__attribute__((section("__libfuzzer_extra_counters"))) static uint8_t reached[FUNCTIONS][10];

static void demand(bool holds) {
    if (!holds) abort();
}

/* What was written fits exactly, and not into a byte less. */
static void check_room(const struct call *call, size_t written) {
    struct call exact = *call, less = *call;
    uint8_t *lent = malloc(written);
    exact.room = written;
    less.room = written - 1;
    demand(answer_of(&OTHER, &less, call->given, lent).refusal == SHORT);
    demand(answer_of(&OTHER, &exact, call->given, lent).refusal == 0);
    free(lent);
}

/* A text that is read is written again with the same bytes. */
static void check_text(const struct call *call, int64_t ms) {
    uint8_t text[16];
    int which = call->function - READ_LATITUDE;
    demand(OTHER.write[which](ms, text, sizeof text).written == call->length);
    demand(memcmp(text, call->given, call->length) == 0);
}

/* A number that is written is read again. */
static void check_number(const struct call *call) {
    uint8_t text[16];
    int which = call->function - WRITE_LATITUDE;
    size_t written = OTHER.write[which](call->number[0], text, sizeof text).written;
    demand(OTHER.read[which](text, written).ms == call->number[0]);
}

static uint32_t big_endian(const uint8_t *bytes) {
    return (uint32_t)bytes[0] << 24 | (uint32_t)bytes[1] << 16 | (uint32_t)bytes[2] << 8 | bytes[3];
}

/* A point of a sheet has the answer of the point alone. */
static void check_point(const uint8_t *point, const uint8_t *result) {
    int64_t code = point[0], latitude = (int32_t)big_endian(point + 1), longitude = big_endian(point + 5);
    buckettin_shift_t shift = OTHER.shift(code, latitude, longitude);
    buckettin_geoid_t geoid = OTHER.geoid(code, latitude, longitude);
    demand(result[0] == OTHER.refusal(code, latitude, longitude));
    demand((int32_t)big_endian(result + 1) == (code < 5 ? shift.dlat : geoid.n));
    demand((int32_t)big_endian(result + 5) == shift.dlon);
    demand((int32_t)big_endian(result + 9) == shift.dh);
}

static void check_points(const struct call *call, size_t written) {
    uint8_t *result = malloc(written);
    const uint8_t *point = call->given + CODES_START + call->given[CODES_START - 1] + 2;
    demand(OTHER.sheet(call->number[0], call->given, call->length, result, written).refusal == 0);
    for (size_t at = RESULT_START; at < written; at += RESULT_LENGTH) {
        check_point(point, result + at);
        point += POINT_LENGTH;
    }
    demand(point == call->given + call->length);
    free(result);
}

/* A number with nine places, in billionths, from a text that is moved past it. */
static int64_t billionths(const uint8_t **at) {
    int64_t number = 0;
    bool is_negative = **at == '-';
    int places = -1;
    if (is_negative) (*at)++;
    for (; **at != '"'; (*at)++) {
        if (**at == '.') {
            places = 0;
        } else {
            number = 10 * number + (**at - '0');
            places += places >= 0;
        }
    }
    demand(places == 9);
    return is_negative ? -number : number;
}

/* Whether so many billionths of a degree are the nearest to an angle in 0.00001": 9 of these are 25 of those. */
static bool is_nearest(int64_t found, int64_t units) {
    int64_t off = 9 * found - 25 * units;
    return -9 <= 2 * off && 2 * off <= 9;
}

/* A waypoint has the point's position by its shift, the longitude from -180 up to 180 degrees. */
static void check_waypoint(const struct call *call, size_t written) {
    static const int64_t TURN = INT64_C(360000000000);
    const int64_t *number = call->number;
    buckettin_shift_t shift = OTHER.shift(number[0], number[1], number[2]);
    uint8_t text[64];
    const uint8_t *at = text + strlen("<wpt lat=\"");
    demand(OTHER.waypoint(number[0], number[1], number[2], text, sizeof text).written == written);
    demand(is_nearest(billionths(&at), 100 * number[1] + shift.dlat));
    at += strlen("\" lon=\"");
    int64_t east = billionths(&at);
    demand(-TURN / 2 <= east && east < TURN / 2);
    demand(is_nearest(east < 0 ? east + TURN : east, 100 * number[2] + shift.dlon));
    demand(shift.refusal == 0 && at + strlen("\"/>") == text + written);
}

int LLVMFuzzerInitialize(int *count, char ***words);
int LLVMFuzzerTestOneInput(const uint8_t *input, size_t size);

int LLVMFuzzerInitialize(int *count, char ***words) {
    (void)count;
    (void)words;
    start_checks();
    return 0;
}

int LLVMFuzzerTestOneInput(const uint8_t *input, size_t size) {
    struct call call;
    struct answer answer;
    if (!take_call(input, size, &call)) return 0;
    demand(is_same(&OTHER, &call, (uint32_t)size, &answer));
    reached[call.function][answer.refusal] = 1;
    if (answer.refusal != 0) return 0;
    if (KINDS[call.function].is_lent) check_room(&call, (size_t)answer.value[0]);
    if (call.function == READ_LATITUDE || call.function == READ_LONGITUDE) check_text(&call, answer.value[0]);
    if (call.function == WRITE_LATITUDE || call.function == WRITE_LONGITUDE) check_number(&call);
    if (call.function == SHEET) check_points(&call, (size_t)answer.value[0]);
    if (call.function == WAYPOINT) check_waypoint(&call, (size_t)answer.value[0]);
    return 0;
}
