/* The rules of documents 01 and 02 in plain C, with 64-bit integers. tables.h, which tests/plain.py writes, has the terms, centre
   and K of each datum as document 000's text prints them, and the areas of document 01. */
#include "plain.h"

#include <string.h>

#define SCALE 100000000       /* u, v and their powers are in hundred-millionths */
#define DEGREE 3600000        /* in ms */
#define LARGEST (90 * DEGREE)
#define TURN ((int64_t)360 * DEGREE)
#define BILLION 1000000000
#define POWERS 10
#define LATITUDE 11           /* bytes of a text */
#define LONGITUDE 12
#define MOST_DATUMS 6
#define MOST_POINTS 500
#define POINT 9               /* bytes of a point in a sheet, and of its record in a result after the first START */
#define RECORD 13
#define START 6

struct term {
    int64_t coefficient;
    uint8_t u, v;
};

struct equation {
    const struct term *terms;
    int count;
};

struct datum {
    int64_t latitude, longitude, k;
    int64_t south, north, west, east;
    struct equation equations[3];
    int count;
};

#include "tables.h"

/* n / SCALE to the nearest, halves away from zero. */
static inline int64_t rounded(int64_t n)
{
    return (n < 0 ? n - SCALE / 2 : n + SCALE / 2) / SCALE;
}

/* K times the distance from the centre in ms, over the ms of a degree, likewise. */
static inline int64_t from_centre(int64_t k, int64_t ms)
{
    int64_t n = k * ms;
    return (n < 0 ? n - DEGREE / 2 : n + DEGREE / 2) / DEGREE;
}

/* p * u may not fit 64 bits, so p is split by the scale: both parts have its sign. */
static void work_powers(int64_t u, int64_t powers[POWERS])
{
    powers[0] = SCALE;
    powers[1] = u;
    for (int k = 2; k < POWERS; k++) {
        int64_t p = powers[k - 1];
        powers[k] = p / SCALE * u + rounded(p % SCALE * u);
    }
}

static inline int32_t work_equation(const struct equation *equation, const int64_t pu[POWERS], const int64_t pv[POWERS])
{
    int64_t sum = 0;
    const struct term *end = equation->terms + equation->count;
    for (const struct term *t = equation->terms; t < end; t++)
        sum += t->coefficient * rounded(pu[t->u] * pv[t->v]);
    return rounded(sum);
}

static inline int in_range(int64_t latitude, int64_t longitude)
{
    return latitude >= -LARGEST && latitude <= LARGEST && longitude >= 0 && longitude < TURN;
}

/* Every area lies in the range, so what is in the area needs no other test. The number of the refusal, or 0. */
static int work_point(const struct datum *datum, int64_t latitude, int64_t longitude, int32_t values[3])
{
    if (latitude < datum->south || latitude > datum->north || longitude < datum->west || longitude > datum->east)
        return in_range(latitude, longitude) ? 6 : 3;
    int64_t pu[POWERS], pv[POWERS];
    work_powers(from_centre(datum->k, latitude - datum->latitude), pu);
    work_powers(from_centre(datum->k, longitude - datum->longitude), pv);
    for (int i = 0; i < datum->count; i++)
        values[i] = work_equation(&datum->equations[i], pu, pv);
    return 0;
}

static inline int is_code(int64_t code)
{
    return code >= 1 && code <= 6;
}

/* The refusals of a point of one family that come before those of its place; 0 where there is none. */
static inline int family_refusal(int64_t code, int count)
{
    return !is_code(code) ? 4 : DATUMS[code - 1].count != count ? 5 : 0;
}

buckettin_shift_t plain_shift(int64_t code, int64_t latitude_ms, int64_t longitude_ms)
{
    int32_t values[3] = {0};
    int refusal = family_refusal(code, 3);
    if (refusal == 0)
        refusal = work_point(&DATUMS[code - 1], latitude_ms, longitude_ms, values);
    return (buckettin_shift_t){refusal, values[0], values[1], values[2]};
}

buckettin_geoid_t plain_geoid(int64_t code, int64_t latitude_ms, int64_t longitude_ms)
{
    int32_t values[3] = {0};
    int refusal = family_refusal(code, 1);
    if (refusal == 0)
        refusal = work_point(&DATUMS[code - 1], latitude_ms, longitude_ms, values);
    return (buckettin_geoid_t){refusal, values[0]};
}

double plain_first(int64_t code, int64_t latitude_ms, int64_t longitude_ms)
{
    int32_t values[3];
    if (!is_code(code) || work_point(&DATUMS[code - 1], latitude_ms, longitude_ms, values) != 0)
        return 0;
    return code <= 4 ? values[0] / 100000.0 : values[0] / 1000.0;
}

static inline int is_digit(uint8_t c)
{
    return c >= '0' && c <= '9';
}

/* Whether t begins with `ddmmss.sss`. */
static inline int is_angle(const uint8_t *t)
{
    return is_digit(t[0]) && is_digit(t[1]) && is_digit(t[2]) && is_digit(t[3]) && is_digit(t[4]) && is_digit(t[5])
        && t[6] == '.' && is_digit(t[7]) && is_digit(t[8]) && is_digit(t[9]);
}

static inline int pair(const uint8_t *t)
{
    return (t[0] - '0') * 10 + (t[1] - '0');
}

/* The ms of such a text, or -1 where its minutes or seconds are not below 60. */
static inline int64_t angle(const uint8_t *t)
{
    int minutes = pair(t + 2), seconds = pair(t + 4);
    if (minutes >= 60 || seconds >= 60)
        return -1;
    return ((pair(t) * 60 + minutes) * 60 + seconds) * 1000 + (t[7] - '0') * 100 + pair(t + 8);
}

/* The number of the refusal, or 0. */
static inline int read_latitude(const uint8_t *text, int32_t *ms)
{
    uint8_t letter = text[10];
    if (!is_angle(text) || (letter != 'N' && letter != 'S'))
        return 2;
    int64_t size = angle(text);
    if (size < 0 || size > LARGEST || (letter == 'S' && size == 0))
        return 3;
    *ms = letter == 'S' ? -size : size;
    return 0;
}

static inline int read_longitude(const uint8_t *text, int32_t *ms)
{
    if (!is_digit(text[0]) || !is_angle(text + 1) || text[11] != 'E')
        return 2;
    int64_t size = angle(text + 1);
    if (size < 0)
        return 3;
    size += (int64_t)(text[0] - '0') * 100 * DEGREE;
    if (size >= TURN)
        return 3;
    *ms = size;
    return 0;
}

buckettin_read_t plain_read_latitude(const uint8_t *text, size_t length)
{
    int32_t ms = 0;
    int refusal = length != LATITUDE ? 1 : read_latitude(text, &ms);
    return (buckettin_read_t){refusal, ms};
}

buckettin_read_t plain_read_longitude(const uint8_t *text, size_t length)
{
    int32_t ms = 0;
    int refusal = length != LONGITUDE ? 1 : read_longitude(text, &ms);
    return (buckettin_read_t){refusal, ms};
}

static inline void put_pair(uint8_t *out, uint32_t n)
{
    out[0] = '0' + n / 10;
    out[1] = '0' + n % 10;
}

/* Writes `mmss.sss` and the letter, and says how many degrees are left. */
static inline uint32_t put_angle(uint8_t *out, uint32_t ms, uint8_t letter)
{
    uint32_t seconds = ms / 1000, minutes = seconds / 60, thousandths = ms % 1000;
    put_pair(out, minutes % 60);
    put_pair(out + 2, seconds % 60);
    out[4] = '.';
    out[5] = '0' + thousandths / 100;
    put_pair(out + 6, thousandths % 100);
    out[8] = letter;
    return minutes / 60;
}

static inline buckettin_written_t refused(int refusal)
{
    return (buckettin_written_t){refusal, 0};
}

buckettin_written_t plain_write_latitude(int64_t latitude_ms, uint8_t *out, size_t room)
{
    if (latitude_ms < -LARGEST || latitude_ms > LARGEST)
        return refused(3);
    if (room < LATITUDE)
        return refused(7);
    put_pair(out, put_angle(out + 2, latitude_ms < 0 ? -latitude_ms : latitude_ms, latitude_ms < 0 ? 'S' : 'N'));
    return (buckettin_written_t){0, LATITUDE};
}

buckettin_written_t plain_write_longitude(int64_t longitude_ms, uint8_t *out, size_t room)
{
    if (longitude_ms < 0 || longitude_ms >= TURN)
        return refused(3);
    if (room < LONGITUDE)
        return refused(7);
    uint32_t degrees = put_angle(out + 3, longitude_ms, 'E');
    out[0] = '0' + degrees / 100;
    put_pair(out + 1, degrees % 100);
    return (buckettin_written_t){0, LONGITUDE};
}

static inline uint32_t in_two(const uint8_t *bytes)
{
    return (uint32_t)bytes[0] << 8 | bytes[1];
}

static inline uint32_t in_four(const uint8_t *bytes)
{
    return in_two(bytes) << 16 | in_two(bytes + 2);
}

static inline void put_four(uint8_t *out, uint32_t n)
{
    out[0] = n >> 24;
    out[1] = n >> 16;
    out[2] = n >> 8;
    out[3] = n;
}

/* Whether each code is above the one before, from 1 to 6. */
static int rise(const uint8_t *codes, size_t datums)
{
    uint8_t before = 0;
    for (size_t i = 0; i < datums; i++) {
        if (codes[i] <= before || codes[i] > 6)
            return 0;
        before = codes[i];
    }
    return 1;
}

/* Tests a sheet but for its points' codes; the number of the refusal, or 0. */
static int read_sheet(int64_t unit, const uint8_t *sheet, size_t length)
{
    if (length < 4)
        return 1;
    uint32_t serial = in_four(sheet);
    if (serial == 0)
        return 9;
    if (serial != unit)
        return 8;
    if (length < 5)
        return 1;
    size_t datums = sheet[4];
    if (datums > MOST_DATUMS)
        return 9;
    if (length < 5 + datums)
        return 1;
    if (!rise(sheet + 5, datums))
        return 9;
    if (length < 7 + datums)
        return 1;
    size_t points = in_two(sheet + 5 + datums);
    if (points > MOST_POINTS)
        return 9;
    return length != 7 + datums + points * POINT;
}

/* Whether every point's code is one of those listed. */
static int all_listed(const uint8_t *codes, size_t datums, const uint8_t *body, size_t points)
{
    uint8_t listed[256] = {0};
    for (size_t i = 0; i < datums; i++)
        listed[codes[i]] = 1;
    for (size_t i = 0; i < points; i++)
        if (!listed[body[i * POINT]])
            return 0;
    return 1;
}

/* The record of a point whose code is 1 to 6. */
static inline void put_record(uint8_t *out, const uint8_t *point)
{
    int32_t values[3] = {0};
    out[0] = work_point(&DATUMS[point[0] - 1], (int32_t)in_four(point + 1), in_four(point + 5), values);
    for (int i = 0; i < 3; i++)
        put_four(out + 1 + 4 * i, values[i]);
}

buckettin_written_t plain_sheet(int64_t unit_serial, const uint8_t *sheet, size_t length, uint8_t *result, size_t room)
{
    int refusal = read_sheet(unit_serial, sheet, length);
    if (refusal != 0)
        return refused(refusal);
    size_t datums = sheet[4], points = in_two(sheet + 5 + datums), bytes = START + points * RECORD;
    const uint8_t *body = sheet + 7 + datums;
    if (!all_listed(sheet + 5, datums, body, points))
        return refused(9);
    if (room < bytes)
        return refused(7);
    memcpy(result, sheet, 4);
    memcpy(result + 4, sheet + 5 + datums, 2);
    for (size_t i = 0; i < points; i++)
        put_record(result + START + i * RECORD, body + i * POINT);
    return (buckettin_written_t){0, bytes};
}

/* Writes n and the byte after it, and says where that ends. */
static inline uint8_t *put_number(uint8_t *out, int32_t n, uint8_t next)
{
    uint8_t digits[10];
    int count = 0;
    uint32_t size = n < 0 ? -(uint32_t)n : (uint32_t)n;
    if (n < 0)
        *out++ = '-';
    do {
        digits[count++] = '0' + size % 10;
        size /= 10;
    } while (size > 0);
    while (count > 0)
        *out++ = digits[--count];
    *out++ = next;
    return out;
}

/* Reads a line whose code may be any digit; the number of its refusal, or 0. */
static int read_line(const uint8_t *line, size_t length, int32_t *latitude, int32_t *longitude)
{
    if (length != LINE)
        return 1;
    if (!is_digit(line[0]) || line[1] != ' ' || line[13] != ' ')
        return 2;
    int first = read_latitude(line + 2, latitude), second = read_longitude(line + 14, longitude);
    return first == 2 || second == 2 ? 2 : first | second;
}

/* The answer is written where it belongs, unless it may not have room there. */
buckettin_written_t plain_line(const uint8_t *line, size_t length, uint8_t *out, size_t room)
{
    int32_t latitude = 0, longitude = 0, values[3];
    int refusal = read_line(line, length, &latitude, &longitude);
    if (refusal != 0)
        return refused(refusal);
    if (!is_code(line[0] - '0'))
        return refused(4);
    const struct datum *datum = &DATUMS[line[0] - '1'];
    refusal = work_point(datum, latitude, longitude, values);
    if (refusal != 0)
        return refused(refusal);
    uint8_t text[ANSWER], *start = room < ANSWER ? text : out, *end = start;
    for (int i = 0; i < datum->count; i++)
        end = put_number(end, values[i], i + 1 < datum->count ? ' ' : '\n');
    size_t bytes = end - start;
    if (room < bytes)
        return refused(7);
    if (start == text)
        memcpy(out, text, bytes);
    return (buckettin_written_t){0, bytes};
}

/* Billionths of a degree of an angle in 0.00001", to the nearest: 9 of these are 25 of those. */
static inline int64_t billionths(int64_t units)
{
    int64_t n = units * 25;
    return (n < 0 ? n - 4 : n + 4) / 9;
}

static inline uint8_t *put_text(uint8_t *out, const char *text)
{
    size_t length = strlen(text);
    memcpy(out, text, length);
    return out + length;
}

/* Writes a number of billionths with nine places, and says where that ends. */
static inline uint8_t *put_degrees(uint8_t *out, int64_t n)
{
    uint64_t size = n < 0 ? -n : n;
    uint32_t places = size % BILLION;
    if (n < 0)
        *out++ = '-';
    out = put_number(out, size / BILLION, '.');
    for (int i = 8; i >= 0; i--) {
        out[i] = '0' + places % 10;
        places /= 10;
    }
    return out + 9;
}

/* The element is written where it belongs, unless it may not have room there. */
buckettin_written_t plain_waypoint(int64_t code, int64_t latitude_ms, int64_t longitude_ms, uint8_t *out, size_t room)
{
    int32_t values[3];
    int refusal = family_refusal(code, 3);
    if (refusal == 0)
        refusal = work_point(&DATUMS[code - 1], latitude_ms, longitude_ms, values);
    if (refusal != 0)
        return refused(refusal);
    int64_t east = billionths(100 * longitude_ms + values[1]);
    if (east >= (int64_t)180 * BILLION)
        east -= (int64_t)360 * BILLION;
    uint8_t text[ELEMENT], *start = room < ELEMENT ? text : out;
    uint8_t *end = put_text(start, "<wpt lat=\"");
    end = put_degrees(end, billionths(100 * latitude_ms + values[0]));
    end = put_text(end, "\" lon=\"");
    end = put_degrees(end, east);
    end = put_text(end, "\"/>");
    size_t bytes = end - start;
    if (room < bytes)
        return refused(7);
    if (start == text)
        memcpy(out, text, bytes);
    return (buckettin_written_t){0, bytes};
}
