/* Times each call of include/buckettin.h beside the one of tests/bench/plain.h, and beside the one of tests/bench/tuned.h where
   that has it, on the same inputs: the same loops call every side, through pointers. First all answers, with every byte of the
   lent buffers, are held to each other, those of broken inputs too: it ends with 1 where two differ. Run with an argument it
   times nothing, and marks where each loop begins and ends, for an emulator that counts. areas.h, which tests/bench.py writes,
   has the areas of document 01. */
#include <stdio.h>
#include <stdlib.h>
#include <string.h>
#include <time.h>

#include "plain.h"
#include "tuned.h"

#ifndef INPUTS
#define INPUTS 2000           /* of a call, but for sheets */
#define SHEETS 4
#endif
#define POINTS 500            /* of a sheet */
#define BROKEN 50             /* times that as many broken inputs are tried */
#define BROKEN_SHEETS 40000
#define ROUNDS 15
#define ROUND 0.02            /* seconds of one side in a round, or one pass over the inputs where that takes longer */
#define UNIT 1989             /* a unit's serial */
#define TEXT 50               /* more bytes than any text, line or waypoint has */
#define SHEET (4 + 1 + 6 + 2 + POINTS * 9)
#define RESULT (6 + POINTS * 13)

struct side {
    buckettin_shift_t (*shift)(int64_t, int64_t, int64_t);
    buckettin_geoid_t (*geoid)(int64_t, int64_t, int64_t);
    double (*first)(int64_t, int64_t, int64_t);
    buckettin_read_t (*read_latitude)(const uint8_t *, size_t), (*read_longitude)(const uint8_t *, size_t);
    buckettin_written_t (*write_latitude)(int64_t, uint8_t *, size_t), (*write_longitude)(int64_t, uint8_t *, size_t);
    buckettin_written_t (*sheet)(int64_t, const uint8_t *, size_t, uint8_t *, size_t);
    buckettin_written_t (*line)(const uint8_t *, size_t, uint8_t *, size_t);
    buckettin_written_t (*waypoint)(int64_t, int64_t, int64_t, uint8_t *, size_t);
};

enum { ARCHIVE, PLAIN, TUNED, ALL };

static const struct side SIDES[ALL] = {
    {buckettin_shift, buckettin_geoid, buckettin_first, buckettin_read_latitude, buckettin_read_longitude,
     buckettin_write_latitude, buckettin_write_longitude, buckettin_sheet, buckettin_line, buckettin_waypoint},
    {plain_shift, plain_geoid, plain_first, plain_read_latitude, plain_read_longitude,
     plain_write_latitude, plain_write_longitude, plain_sheet, plain_line, plain_waypoint},
    {.shift = tuned_shift, .geoid = tuned_geoid},
};

struct area {
    int64_t south, north, west, east;
};

#include "areas.h"

struct text {
    uint8_t bytes[TEXT];
    size_t length;
};

/* A point, and what each call takes of it. */
struct input {
    int64_t code, latitude, longitude;
    struct text latitude_text, longitude_text, line;
    size_t room;
};

struct answer {
    union {
        buckettin_shift_t shift;
        buckettin_geoid_t geoid;
        double first;
        buckettin_read_t read;
        buckettin_written_t written;
    };
    uint8_t lent[TEXT];
};

struct sheet {
    int64_t unit;
    uint8_t bytes[SHEET + 1];
    size_t length, room;
};

struct result {
    buckettin_written_t written;
    uint8_t lent[RESULT + 1];
};

enum { CODES = 6, MIXED = CODES, OUTSIDE, WRONG_BYTE, NO_ROOM, SETS };
enum { WHOLE, FOREIGN, UNLISTED, SHEET_SETS };

static struct input inputs[SETS][INPUTS];
static struct sheet sheets[SHEET_SETS][SHEETS];
static union {
    struct answer answers[INPUTS];
    struct result results[SHEETS];
} given[ALL];

/* A loop of one call over the inputs; the call says what it takes of an input, `in`, and of what is lent, `out`. */
#define OVER_INPUTS(name, field, ...) \
    static void run_##name(const struct side *side, const void *inputs, void *answers) \
    { \
        struct answer *out = answers; \
        for (const struct input *in = inputs, *end = in + INPUTS; in < end; in++, out++) \
            out->field = side->name(__VA_ARGS__); \
    }

OVER_INPUTS(shift, shift, in->code, in->latitude, in->longitude)
OVER_INPUTS(geoid, geoid, in->code, in->latitude, in->longitude)
OVER_INPUTS(first, first, in->code, in->latitude, in->longitude)
OVER_INPUTS(read_latitude, read, in->latitude_text.bytes, in->latitude_text.length)
OVER_INPUTS(read_longitude, read, in->longitude_text.bytes, in->longitude_text.length)
OVER_INPUTS(write_latitude, written, in->latitude, out->lent, in->room)
OVER_INPUTS(write_longitude, written, in->longitude, out->lent, in->room)
OVER_INPUTS(line, written, in->line.bytes, in->line.length, out->lent, in->room)
OVER_INPUTS(waypoint, written, in->code, in->latitude, in->longitude, out->lent, in->room)

static void run_sheet(const struct side *side, const void *inputs, void *answers)
{
    const struct sheet *in = inputs;
    struct result *out = answers;
    for (int i = 0; i < SHEETS; i++)
        out[i].written = side->sheet(in[i].unit, in[i].bytes, in[i].length, out[i].lent, in[i].room);
}

typedef void run_t(const struct side *, const void *, void *);

static run_t *const OF_INPUTS[] = {run_shift, run_geoid, run_first, run_read_latitude, run_read_longitude,
                                   run_write_latitude, run_write_longitude, run_line, run_waypoint};

/* How many sides have the call: tuned C, the last of them, has two. */
static int sides(run_t *run)
{
    return run == run_shift || run == run_geoid ? ALL : TUNED;
}

/* What is timed: a loop of calls over one set of inputs. */
struct measure {
    const char *name;
    run_t *run;
    const void *inputs;
    int count;                /* calls, or points of sheets */
    uint32_t refusal;         /* of each call */
};

static const struct measure MEASURES[] = {
    {"shift, code 1", run_shift, inputs[0], INPUTS, 0},
    {"shift, code 2", run_shift, inputs[1], INPUTS, 0},
    {"shift, code 3", run_shift, inputs[2], INPUTS, 0},
    {"shift, code 4", run_shift, inputs[3], INPUTS, 0},
    {"geoid, code 5", run_geoid, inputs[4], INPUTS, 0},
    {"geoid, code 6", run_geoid, inputs[5], INPUTS, 0},
    {"first, code 1", run_first, inputs[0], INPUTS, 0},
    {"sheet, points", run_sheet, sheets[WHOLE], SHEETS * POINTS, 0},
    {"read_latitude", run_read_latitude, inputs[MIXED], INPUTS, 0},
    {"read_longitude", run_read_longitude, inputs[MIXED], INPUTS, 0},
    {"write_latitude", run_write_latitude, inputs[MIXED], INPUTS, 0},
    {"write_longitude", run_write_longitude, inputs[MIXED], INPUTS, 0},
    {"line", run_line, inputs[MIXED], INPUTS, 0},
    {"waypoint, code 1", run_waypoint, inputs[0], INPUTS, 0},
    {"waypoint, code 2", run_waypoint, inputs[1], INPUTS, 0},
    {"waypoint, code 3", run_waypoint, inputs[2], INPUTS, 0},
    {"waypoint, code 4", run_waypoint, inputs[3], INPUTS, 0},
    {"shift, outside: 6", run_shift, inputs[OUTSIDE], INPUTS, 6},
    {"shift of a geoid datum: 5", run_shift, inputs[5], INPUTS, 5},
    {"read_latitude, a wrong byte: 2", run_read_latitude, inputs[WRONG_BYTE], INPUTS, 2},
    {"read_longitude, a wrong byte: 2", run_read_longitude, inputs[WRONG_BYTE], INPUTS, 2},
    {"write_latitude, no room: 7", run_write_latitude, inputs[NO_ROOM], INPUTS, 7},
    {"line, a wrong byte: 2", run_line, inputs[WRONG_BYTE], INPUTS, 2},
    {"line, outside: 6", run_line, inputs[OUTSIDE], INPUTS, 6},
    {"waypoint, outside: 6", run_waypoint, inputs[OUTSIDE], INPUTS, 6},
    {"waypoint of a geoid datum: 5", run_waypoint, inputs[5], INPUTS, 5},
    {"waypoint, no room: 7", run_waypoint, inputs[NO_ROOM], INPUTS, 7},
    {"sheet, foreign: 8", run_sheet, sheets[FOREIGN], SHEETS, 8},
    {"sheet, last code unlisted: 9", run_sheet, sheets[UNLISTED], SHEETS, 9},
};

/* A number from 0 up to the limit, which is out, by Marsaglia's xorshift. */
static uint64_t chance(uint64_t limit)
{
    static uint64_t state = 1989;
    state ^= state << 13;
    state ^= state >> 7;
    state ^= state << 17;
    return state % limit;
}

static int64_t between(int64_t least, int64_t largest)
{
    return least + (int64_t)chance(largest - least + 1);
}

/* Spells the texts and the line of a point whose latitude and longitude are in range. */
static void spell(struct input *input)
{
    uint8_t *line = input->line.bytes;
    line[0] = '0' + input->code;
    line[1] = line[13] = ' ';
    input->latitude_text.length = plain_write_latitude(input->latitude, line + 2, 11).written;
    input->longitude_text.length = plain_write_longitude(input->longitude, line + 14, 12).written;
    input->line.length = LINE;
    memcpy(input->latitude_text.bytes, line + 2, 11);
    memcpy(input->longitude_text.bytes, line + 14, 12);
}

/* A point of an area, with room for any answer. */
static struct input inside(int code)
{
    const struct area *area = &AREAS[code - 1];
    struct input input = {.code = code, .room = ELEMENT};
    input.latitude = between(area->south, area->north);
    input.longitude = between(area->west, area->east);
    spell(&input);
    return input;
}

/* The same with its latitude north of the area. */
static struct input outside(int code)
{
    struct input input = inside(code);
    input.latitude = AREAS[code - 1].north + between(1, 3600000);
    spell(&input);
    return input;
}

/* The same with another byte at a place of each text. */
static struct input with_wrong_byte(int code)
{
    struct input input = inside(code);
    input.latitude_text.bytes[chance(11)] = ':';
    input.longitude_text.bytes[chance(12)] = ':';
    input.line.bytes[chance(LINE)] = ':';
    return input;
}

static void make_inputs(void)
{
    for (int i = 0; i < INPUTS; i++) {
        for (int code = 1; code <= CODES; code++)
            inputs[code - 1][i] = inside(code);
        inputs[MIXED][i] = inside(1 + i % CODES);
        inputs[OUTSIDE][i] = outside(1 + i % 4);
        inputs[WRONG_BYTE][i] = with_wrong_byte(1 + i % CODES);
        inputs[NO_ROOM][i] = inside(1 + i % 4);
        inputs[NO_ROOM][i].room = 0;
    }
}

static uint8_t *put_four(uint8_t *out, uint32_t n)
{
    for (int shift = 24; shift >= 0; shift -= 8)
        *out++ = n >> shift;
    return out;
}

/* A sheet that lists the codes from the first one on, with so many points of all six in turn, and room for its result. */
static struct sheet made_sheet(int first, int points)
{
    struct sheet sheet = {.unit = UNIT, .room = RESULT};
    uint8_t *out = put_four(sheet.bytes, UNIT);
    *out++ = CODES - first + 1;
    for (int code = first; code <= CODES; code++)
        *out++ = code;
    *out++ = points >> 8;
    *out++ = points;
    for (int i = 0; i < points; i++) {
        struct input point = inside(1 + i % CODES);
        *out++ = point.code;
        out = put_four(put_four(out, point.latitude), point.longitude);
    }
    sheet.length = out - sheet.bytes;
    return sheet;
}

static void make_sheets(void)
{
    for (int i = 0; i < SHEETS; i++) {
        sheets[WHOLE][i] = sheets[FOREIGN][i] = sheets[UNLISTED][i] = made_sheet(1, POINTS);
        sheets[FOREIGN][i].unit = UNIT + 1;
        sheets[UNLISTED][i].bytes[SHEET - 9] = 7;
    }
}

/* Changes nothing, or a byte, or the length. */
static void spoil(uint8_t *bytes, size_t *length, size_t most)
{
    static const uint8_t BYTES[] = "0123456789/:.NSEWns \n\r\0\1\2\3\4\5\6\7\377";
    switch (chance(4)) {
    case 0:
        bytes[chance(most)] = BYTES[chance(sizeof BYTES)];
        break;
    case 1:
        bytes[chance(most)] = '0' + chance(10);
        break;
    case 2:
        *length = chance(most + 1);
    }
}

/* A number as it is, or next to an end of an area or of a range, or any. */
static int64_t spoiled(int64_t n)
{
    const struct area *area = &AREAS[chance(CODES)];
    const int64_t ends[] = {area->south, area->north, area->west, area->east, 0, -324000000, 324000000, 1295999999, INT32_MIN};
    switch (chance(4)) {
    case 0:
        return ends[chance(sizeof ends / sizeof *ends)] + between(-1, 1);
    case 1:
        return (int64_t)(chance(UINT64_MAX) >> chance(64)) * between(-1, 1);
    default:
        return n;
    }
}

static struct input broken(void)
{
    struct input input = inside(1 + chance(CODES));
    if (chance(4) == 0) {
        input.latitude = between(-1, 1) * 324000000;
        input.longitude = chance(2) ? 1295999999 : between(0, 1) * 350 * 3600000;
        spell(&input);
    }
    spoil(input.latitude_text.bytes, &input.latitude_text.length, 12);
    spoil(input.longitude_text.bytes, &input.longitude_text.length, 13);
    spoil(input.line.bytes, &input.line.length, LINE);
    spoil(input.line.bytes, &input.line.length, LINE + 1);
    input.code = chance(4) ? input.code : spoiled(between(-1, 8));
    input.latitude = spoiled(input.latitude);
    input.longitude = spoiled(input.longitude);
    input.room = chance(TEXT + 1);
    return input;
}

static struct sheet broken_sheet(void)
{
    struct sheet sheet = made_sheet(1 + chance(2), chance(4));
    size_t head = 15;
    if (chance(8) == 0)
        put_four(sheet.bytes, 0);
    spoil(sheet.bytes, &head, head);
    spoil(sheet.bytes, &sheet.length, sheet.length + 1);
    sheet.unit = UNIT + (chance(8) ? 0 : between(-1, 1) * 4294967296);
    sheet.room = chance(4) ? RESULT : chance(60);
    return sheet;
}

/* Runs every side; whether they answer alike, to the last byte that they are lent. */
static int is_alike(run_t *run, const void *inputs)
{
    for (int side = 0; side < sides(run); side++) {
        memset(&given[side], '#', sizeof given[side]);
        run(&SIDES[side], inputs, &given[side]);
        if (memcmp(&given[side], &given[ARCHIVE], sizeof given[side]) != 0)
            return 0;
    }
    return 1;
}

/* Whether each call of it, as it was run last, was answered or refused as it is named. A float has no refusal beside it. */
static int is_as_named(const struct measure *measure)
{
    int is_sheet = measure->run == run_sheet;
    size_t size = is_sheet ? sizeof(struct result) : sizeof(struct answer);
    for (size_t i = 0; i < (is_sheet ? SHEETS : INPUTS); i++) {
        uint32_t refusal;
        memcpy(&refusal, (const char *)&given[ARCHIVE] + i * size, sizeof refusal);
        if (measure->run != run_first && refusal != measure->refusal)
            return 0;
    }
    return 1;
}

static int are_alike_when_broken(void)
{
    static struct input some[INPUTS];
    static struct sheet few[SHEETS];
    for (int n = 0; n < BROKEN; n++) {
        for (int i = 0; i < INPUTS; i++)
            some[i] = broken();
        for (size_t i = 0; i < sizeof OF_INPUTS / sizeof *OF_INPUTS; i++)
            if (!is_alike(OF_INPUTS[i], some))
                return 0;
    }
    for (int n = 0; n < BROKEN_SHEETS; n += SHEETS) {
        for (int i = 0; i < SHEETS; i++)
            few[i] = broken_sheet();
        if (!is_alike(run_sheet, few))
            return 0;
    }
    return 1;
}

/* Seconds of the processor for so many passes over the inputs. */
static double seconds(const struct measure *measure, int side, int passes)
{
    struct timespec began, ended;
    clock_gettime(CLOCK_PROCESS_CPUTIME_ID, &began);
    for (int i = 0; i < passes; i++)
        measure->run(&SIDES[side], measure->inputs, &given[side]);
    clock_gettime(CLOCK_PROCESS_CPUTIME_ID, &ended);
    return (ended.tv_sec - began.tv_sec) + (ended.tv_nsec - began.tv_nsec) / 1e9;
}

static int by_size(const void *a, const void *b)
{
    double x = *(const double *)a, y = *(const double *)b;
    return (x > y) - (x < y);
}

static double median(double values[ROUNDS])
{
    qsort(values, ROUNDS, sizeof *values, by_size);
    return values[ROUNDS / 2];
}

/* How many calls of each side are answered in a second, and how many times as long the archive takes as each other side. */
static void print_row(const struct measure *measure, int passes, double times[ALL][ROUNDS], double ratios[ALL][ROUNDS])
{
    double calls = (double)measure->count * passes;
    printf("%-32s %12.0f %12.0f", measure->name, calls / median(times[ARCHIVE]), calls / median(times[PLAIN]));
    if (sides(measure->run) == ALL)
        printf(" %12.0f %14.2f %14.2f\n", calls / median(times[TUNED]), median(ratios[PLAIN]), median(ratios[TUNED]));
    else
        printf(" %12s %14.2f %14s\n", "-", median(ratios[PLAIN]), "-");
}

/* All sides in turn, in each round the next one first, after a pass of each that is not counted. */
static void compare(const struct measure *measure)
{
    int count = sides(measure->run);
    double times[ALL][ROUNDS], ratios[ALL][ROUNDS], all = 0;
    seconds(measure, ARCHIVE, 1);
    for (int side = 0; side < count; side++)
        all += seconds(measure, side, 1);
    int passes = 1 + ROUND / all * count;
    for (int round = 0; round < ROUNDS; round++) {
        for (int turn = 0; turn < count; turn++) {
            int side = (round + turn) % count;
            times[side][round] = seconds(measure, side, passes);
        }
        for (int side = PLAIN; side < count; side++)
            ratios[side][round] = times[ARCHIVE][round] / times[side][round];
    }
    print_row(measure, passes, times, ratios);
}

/* The one instruction that the emulator's log has under this name. */
__attribute__((noipa)) static void mark(void)
{
}

/* Between the two marks every side has the same instructions beside its own. */
static void run_marked(const struct measure *measure)
{
    int count = sides(measure->run);
    for (int side = 0; side < count; side++) {
        mark();
        measure->run(&SIDES[side], measure->inputs, &given[side]);
        mark();
    }
    printf("%d %d %s\n", measure->count, count, measure->name);
}

static int are_alike(void)
{
    for (size_t i = 0; i < sizeof MEASURES / sizeof *MEASURES; i++)
        if (!is_alike(MEASURES[i].run, MEASURES[i].inputs) || !is_as_named(&MEASURES[i]))
            return 0;
    return are_alike_when_broken();
}

int main(int argc, char **argv)
{
    (void)argv;
    make_inputs();
    make_sheets();
    if (argc == 1 && !are_alike()) {
        puts("the archive, plain C and tuned C answer differently, or not as is said here");
        return 1;
    }
    if (argc == 1)
        printf("%-32s %12s %12s %12s %14s %14s\n", "answers a second", "archive", "plain C", "tuned C", "times plain C",
               "times tuned C");
    for (size_t i = 0; i < sizeof MEASURES / sizeof *MEASURES; i++)
        (argc == 1 ? compare : run_marked)(&MEASURES[i]);
}
