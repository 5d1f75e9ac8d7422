/* Written from documents 000 and 01, without looking at the crates, and the waypoint from document 02; for clarity and not for
   speed. The equations stand as document 000 prints them and are read from that print; the working rule is in 128 bits, with one
   division that rounds. */
#include "independent.h"

#include <stdbool.h>
#include <stdio.h>
#include <stdlib.h>
#include <string.h>

typedef __int128 whole;

enum { MS_OF_SECOND = 1000, MS_OF_MINUTE = 60 * MS_OF_SECOND, MS_OF_DEGREE = 60 * MS_OF_MINUTE };
enum { HUNDRED_MILLION = 100000000, POWERS = 10, MOST_TERMS = 23, CODES = 6, MOST_POINTS = 500 };
enum { LARGEST_LATITUDE = 90 * MS_OF_DEGREE, LARGEST_LONGITUDE = 360 * MS_OF_DEGREE - 1 };
enum { ANGLE_PLACES = 5, HEIGHT_PLACES = 3 };
enum {
    ANSWERED, WRONG_LENGTH, WRONG_BYTE, OUT_OF_RANGE, WRONG_CODE, WRONG_FAMILY, OUTSIDE_AREA, BUFFER_SHORT, FOREIGN_SERIAL,
    WRONG_SHEET
};

struct print { int terms, places; const char *equation; };
struct span { int least, most; };                       /* minutes of arc */
struct datum {
    int latitude, longitude, k;                         /* the centre in degrees; K in hundred-millionths */
    struct span latitudes, longitudes;
    int equations;
    struct print prints[3];
};

static const struct datum DATUMS[CODES] = {
    { 35, 33, 78539816, { 34 * 60 + 30, 35 * 60 + 45 }, { 32 * 60 + 10, 34 * 60 + 40 }, 3, {
        { 4, ANGLE_PLACES, "- 3.84288 + 0.09188 U + 0.03581 V - 0.07481 UV" },
        { 7, ANGLE_PLACES, "- 1.10294 - 0.04240 U + 0.12748 V - 0.32783 UV^2 + 0.51023 UV^3 - 0.01600 V^7 - 0.1718 U^3V^9" },
        { 11, HEIGHT_PLACES, "24.430 - 5.719 U + 0.778 V + 5.631 U^2 - 23.892 UV + 18.980 U^2V - 0.988 V^3 + 106.027 U^3V"
            "- 42.824 U^4V - 323.655 U^9V^2 + 2.261 U^4V^9" } } },
    { 10, 8, 15707963, { 4 * 60, 14 * 60 }, { 2 * 60 + 30, 14 * 60 + 45 }, 3, {
        { 16, ANGLE_PLACES, "0.49461 - 0.69094 U + 0.39940 V - 7.44709 U^3 - 1.82129 U^2V - 2.92752 UV^2 + 5.70789 U^3V"
            "- 2.10838 U^2V^2 - 6.88780 UV^3 + 14.35602 U^5 + 5.10389 UV^4 + 6.18524 U^6 + 8.62320 UV^5"
            "+ 48.52705 U^7V^2 - 0.49769 V^9 - 11.39331 U^4V^8" },
        { 9, ANGLE_PLACES, "-2.62435 - 0.21876 U + 0.43678 V + 0.35068 UV - 1.53864 U^2V - 0.46268 UV^3 + 2.20240 U^4V"
            "- 0.11456 V^5 + 1.59485 U^3V^4" },
        { 9, HEIGHT_PLACES, "20.013 + 2.098 U - 11.691 V + 47.983 U^2V - 60.195 U^4V - 21.214 U^2V^3 + 8.642 V^5 - 12.588 U^5V"
            "- 27.760 U^3V^8" } } },
    { 62, 208, 10471975, { 54 * 60, 72 * 60 }, { 190 * 60, 220 * 60 }, 3, {
        { 20, ANGLE_PLACES, "- 2.08611 + 0.59833 U + 0.52967 V + 0.23473 U^2 + 0.23563 UV + 0.28672 UV^2 + 0.27573 V^3"
            "+ 0.19561 U^4 - 0.15184 U^3V - 0.21241 U^2V^2 + 0.04891 V^4 - 0.18860 UV^4 - 0.17032 V^5 - 0.05741 UV^5"
            "- 0.04292 U^2V^5 + 0.02097 V^7 - 0.01487 U^2V^6 - 0.00384 V^8 - 0.18402 U^9 - 0.00188 U^3V^7" },
        { 23, ANGLE_PLACES, "- 8.19369 - 1.56665 U + 0.73861 V - 3.10809 U^2 - 0.35323 UV - 0.06926 V^2 - 0.68114 UV^2"
            "- 0.32398 V^3 + 0.74679 U^4 + 0.43200 U^3V + 4.24388 U^2V^2 + 0.14065 UV^3 - 0.30990 U^2V^3"
            "+ 0.11365 V^5 - 1.48566 U^4V^2 - 1.96501 U^2V^4 + 2.04229 U^6V - 0.48255 U^5V^2 + 0.09847 UV^6"
            "+ 0.49313 U^2V^6 - 1.00218 U^8V - 0.02809 U^2V^8 + 0.00054 U^5V^9" },
        { 17, HEIGHT_PLACES, "8.352 - 13.742 U - 8.268 V + 0.900 V^2 + 5.340 U^3 + 2.960 UV^2 - 2.016 V^3 + 5.087 U^3V + 1.437 UV^3"
            "+ 0.951 V^5 - 2.461 U^3V^4 - 1.560 U^8 - 1.980 U^7V - 0.205 U^5V^3 + 0.094 UV^8 - 2.885 U^8V^2"
            "- 0.011 UV^9" } } },
    { 25, 51, 104719754, { 24 * 60 + 20, 26 * 60 + 15 }, { 50 * 60 + 40, 51 * 60 + 45 }, 3, {
        { 9, ANGLE_PLACES, "2.47363 + 0.08786 U + 0.14283 U^2 + 0.04380 UV + 0.07142 V^2 - 0.08879 UV^2 - 0.11089 U^5"
            "- 0.06321 U^3V^4 + 0.01669 U^9" },
        { 7, ANGLE_PLACES, "-2.80439 + 0.10489 V + 0.02697 V^2 - 1.10721 U^2V^2 + 2.88786 U^2V^3 - 0.06281 U^5V - 2.59921 U^3V^6" },
        { 9, HEIGHT_PLACES, "-28.376 + 2.381 U - 1.126 U^2 + 3.095 V^2 - 4.112 U^3V^3 - 13.156 V^7 - 2.048 U^8 + 1.618 U^9"
            "+ 18.689 UV^8" } } },
    { 7, 80, 52359877, { 5 * 60 + 50, 9 * 60 + 55 }, { 79 * 60 + 30, 82 * 60 }, 1, {
        { 9, HEIGHT_PLACES, "- 0.979 + 1.853 U - 3.443 U^2 + 2.523 U^3 - 5.423 U^2V - 5.278 V^3 + 3.965 U^4V^3 - 0.899 U^7V^2"
            "+ 5.225 U^2V^9" } } },
    { 23, 57, 41887902, { 20 * 60, 26 * 60 + 15 }, { 51 * 60, 59 * 60 }, 1, {
        { 7, HEIGHT_PLACES, "7.464 - 3.286 U - 3.024 V - 3.944 U^2 - 4.720 V^2 - 2.019 U^3 - 1.613 V^3" } } },
};

/* Equations, read from their print. */

struct term { int64_t coefficient; int of_u, of_v; };
struct equation { int terms; struct term term[MOST_TERMS]; };

static void skip_spaces(const char **at) {
    while (**at == ' ') (*at)++;
}

static int take_digit(const char **at) {
    if (**at < '0' || **at > '9') abort();
    return *(*at)++ - '0';
}

/* A decimal number in units of its last place, of so many places. */
static int64_t take_decimal(const char **at, int places) {
    int64_t units = take_digit(at);
    while (**at != '.') units = 10 * units + take_digit(at);
    (*at)++;
    for (int place = 0; place < places; place++) {
        bool is_printed = **at >= '0' && **at <= '9';
        units = 10 * units + (is_printed ? take_digit(at) : 0);
    }
    return units;
}

static int take_power(const char **at, char letter) {
    if (**at != letter) return 0;
    (*at)++;
    if (**at != '^') return 1;
    (*at)++;
    return take_digit(at);
}

static struct term take_term(const char **at, int places) {
    struct term term;
    bool is_negative = **at == '-';
    if (**at == '-' || **at == '+') (*at)++;
    skip_spaces(at);
    term.coefficient = take_decimal(at, places) * (is_negative ? -1 : 1);
    skip_spaces(at);
    term.of_u = take_power(at, 'U');
    term.of_v = take_power(at, 'V');
    skip_spaces(at);
    return term;
}

static struct equation equation_of(const struct print *print) {
    struct equation equation = { 0 };
    const char *at = print->equation;
    while (*at != 0) {
        if (equation.terms == print->terms) abort();
        equation.term[equation.terms++] = take_term(&at, print->places);
    }
    if (equation.terms != print->terms) abort();
    return equation;
}

static const struct equation *equation_at(int code, int which) {
    static struct equation known[CODES][3];
    struct equation *equation = &known[code - 1][which];
    if (equation->terms == 0) *equation = equation_of(&DATUMS[code - 1].prints[which]);
    return equation;
}

/* The working rule. */

static whole rounded(whole dividend, whole divisor) {
    whole size = dividend < 0 ? -dividend : dividend;
    whole nearest = (2 * size + divisor) / (2 * divisor);
    return dividend < 0 ? -nearest : nearest;
}

struct powers { whole of[POWERS]; };

static struct powers powers_of(int k, int64_t ms, int centre) {
    struct powers powers;
    powers.of[0] = HUNDRED_MILLION;
    powers.of[1] = rounded((whole)k * (ms - (int64_t)centre * MS_OF_DEGREE), MS_OF_DEGREE);
    for (int i = 2; i < POWERS; i++) powers.of[i] = rounded(powers.of[i - 1] * powers.of[1], HUNDRED_MILLION);
    return powers;
}

static int32_t value_of(const struct equation *equation, const struct powers *u, const struct powers *v) {
    whole sum = 0;
    for (int i = 0; i < equation->terms; i++) {
        const struct term *term = &equation->term[i];
        sum += term->coefficient * rounded(u->of[term->of_u] * v->of[term->of_v], HUNDRED_MILLION);
    }
    return (int32_t)rounded(sum, HUNDRED_MILLION);
}

/* A point that is not refused: its three numbers, or N and two zeros. */
struct values { int32_t of[3]; };

static struct values values_at(int code, int64_t latitude, int64_t longitude) {
    const struct datum *datum = &DATUMS[code - 1];
    struct powers u = powers_of(datum->k, latitude, datum->latitude);
    struct powers v = powers_of(datum->k, longitude, datum->longitude);
    struct values values = { { 0 } };
    for (int i = 0; i < datum->equations; i++) values.of[i] = value_of(equation_at(code, i), &u, &v);
    return values;
}

/* Refusals of a point. */

static bool is_code(int64_t code) {
    return code >= 1 && code <= CODES;
}

static bool is_geoid(int64_t code) {
    return DATUMS[code - 1].equations == 1;
}

static bool is_latitude(int64_t ms) {
    return ms >= -LARGEST_LATITUDE && ms <= LARGEST_LATITUDE;
}

static bool is_longitude(int64_t ms) {
    return ms >= 0 && ms <= LARGEST_LONGITUDE;
}

static bool is_within(struct span span, int64_t ms) {
    return ms >= (int64_t)span.least * MS_OF_MINUTE && ms <= (int64_t)span.most * MS_OF_MINUTE;
}

static uint32_t place_refusal(int64_t code, int64_t latitude, int64_t longitude) {
    const struct datum *datum = &DATUMS[code - 1];
    if (!is_latitude(latitude) || !is_longitude(longitude)) return OUT_OF_RANGE;
    if (!is_within(datum->latitudes, latitude) || !is_within(datum->longitudes, longitude)) return OUTSIDE_AREA;
    return ANSWERED;
}

static uint32_t family_refusal(bool asks_geoid, int64_t code, int64_t latitude, int64_t longitude) {
    if (!is_code(code)) return WRONG_CODE;
    if (is_geoid(code) != asks_geoid) return WRONG_FAMILY;
    return place_refusal(code, latitude, longitude);
}

uint32_t independent_refusal(int64_t code, int64_t latitude_ms, int64_t longitude_ms) {
    return is_code(code) ? place_refusal(code, latitude_ms, longitude_ms) : WRONG_CODE;
}

/* Points. */

buckettin_shift_t independent_shift(int64_t code, int64_t latitude_ms, int64_t longitude_ms) {
    uint32_t refusal = family_refusal(false, code, latitude_ms, longitude_ms);
    if (refusal != ANSWERED) return (buckettin_shift_t){ refusal, 0, 0, 0 };
    struct values values = values_at((int)code, latitude_ms, longitude_ms);
    return (buckettin_shift_t){ ANSWERED, values.of[0], values.of[1], values.of[2] };
}

buckettin_geoid_t independent_geoid(int64_t code, int64_t latitude_ms, int64_t longitude_ms) {
    uint32_t refusal = family_refusal(true, code, latitude_ms, longitude_ms);
    if (refusal != ANSWERED) return (buckettin_geoid_t){ refusal, 0 };
    return (buckettin_geoid_t){ ANSWERED, values_at((int)code, latitude_ms, longitude_ms).of[0] };
}

static double floating(int which, int64_t code, int64_t latitude, int64_t longitude) {
    if (independent_refusal(code, latitude, longitude) != ANSWERED) return 0;
    bool is_height = which == 2 || is_geoid(code);
    return (double)values_at((int)code, latitude, longitude).of[which] / (is_height ? 1000.0 : 100000.0);
}

double independent_first(int64_t code, int64_t latitude_ms, int64_t longitude_ms) {
    return floating(0, code, latitude_ms, longitude_ms);
}

double independent_second(int64_t code, int64_t latitude_ms, int64_t longitude_ms) {
    return floating(1, code, latitude_ms, longitude_ms);
}

double independent_third(int64_t code, int64_t latitude_ms, int64_t longitude_ms) {
    return floating(2, code, latitude_ms, longitude_ms);
}

/* Texts. In a pattern 9 is a digit, H the letter N or S, and any other byte is itself. */

static const char LATITUDE[] = "999999.999H";
static const char LONGITUDE[] = "9999999.999E";
static const char LINE[] = "9 999999.999H 9999999.999E";
enum { LATITUDE_LENGTH = sizeof LATITUDE - 1, LONGITUDE_LENGTH = sizeof LONGITUDE - 1, LINE_LENGTH = sizeof LINE - 1 };
enum { LATITUDE_PLACE = 2, LONGITUDE_PLACE = LATITUDE_PLACE + LATITUDE_LENGTH + 1 };

static bool is_of_kind(char kind, uint8_t byte) {
    if (kind == '9') return byte >= '0' && byte <= '9';
    if (kind == 'H') return byte == 'N' || byte == 'S';
    return byte == kind;
}

static uint32_t text_refusal(const char *pattern, const uint8_t *text, size_t length) {
    if (length != strlen(pattern)) return WRONG_LENGTH;
    for (size_t i = 0; i < length; i++) {
        if (!is_of_kind(pattern[i], text[i])) return WRONG_BYTE;
    }
    return ANSWERED;
}

static int digits(const uint8_t *text, int count) {
    int number = 0;
    for (int i = 0; i < count; i++) number = 10 * number + (text[i] - '0');
    return number;
}

/* The ms of a text of the right kind, whatever its degrees; -1 where a minute or second is out of range. */
static int64_t angle_of(const uint8_t *text, int degree_digits) {
    const uint8_t *rest = text + degree_digits;
    int minutes = digits(rest, 2), seconds = digits(rest + 2, 2), thousandths = digits(rest + 5, 3);
    if (minutes >= 60 || seconds >= 60) return -1;
    return (int64_t)digits(text, degree_digits) * MS_OF_DEGREE + minutes * MS_OF_MINUTE + seconds * MS_OF_SECOND + thousandths;
}

static buckettin_read_t latitude_of(const uint8_t *text) {
    int64_t ms = angle_of(text, 2);
    bool is_south = text[LATITUDE_LENGTH - 1] == 'S';
    if (ms < 0 || ms > LARGEST_LATITUDE || (is_south && ms == 0)) return (buckettin_read_t){ OUT_OF_RANGE, 0 };
    return (buckettin_read_t){ ANSWERED, (int32_t)(is_south ? -ms : ms) };
}

static buckettin_read_t longitude_of(const uint8_t *text) {
    int64_t ms = angle_of(text, 3);
    if (!is_longitude(ms)) return (buckettin_read_t){ OUT_OF_RANGE, 0 };
    return (buckettin_read_t){ ANSWERED, (int32_t)ms };
}

buckettin_read_t independent_read_latitude(const uint8_t *text, size_t length) {
    uint32_t refusal = text_refusal(LATITUDE, text, length);
    return refusal == ANSWERED ? latitude_of(text) : (buckettin_read_t){ refusal, 0 };
}

buckettin_read_t independent_read_longitude(const uint8_t *text, size_t length) {
    uint32_t refusal = text_refusal(LONGITUDE, text, length);
    return refusal == ANSWERED ? longitude_of(text) : (buckettin_read_t){ refusal, 0 };
}

/* Writing. */

static buckettin_written_t refused(uint32_t refusal) {
    return (buckettin_written_t){ refusal, 0 };
}

static buckettin_written_t lend(const char *bytes, int count, uint8_t *out, size_t room) {
    if (room < (size_t)count) return refused(BUFFER_SHORT);
    memcpy(out, bytes, (size_t)count);
    return (buckettin_written_t){ ANSWERED, (uint32_t)count };
}

static buckettin_written_t write_angle(int degree_digits, int64_t size, char letter, uint8_t *out, size_t room) {
    char text[64];
    int count = snprintf(text, sizeof text, "%0*d%02d%02d.%03d%c", degree_digits, (int)(size / MS_OF_DEGREE),
                         (int)(size / MS_OF_MINUTE % 60), (int)(size / MS_OF_SECOND % 60), (int)(size % MS_OF_SECOND), letter);
    return lend(text, count, out, room);
}

buckettin_written_t independent_write_latitude(int64_t latitude_ms, uint8_t *out, size_t room) {
    if (!is_latitude(latitude_ms)) return refused(OUT_OF_RANGE);
    return latitude_ms < 0 ? write_angle(2, -latitude_ms, 'S', out, room) : write_angle(2, latitude_ms, 'N', out, room);
}

buckettin_written_t independent_write_longitude(int64_t longitude_ms, uint8_t *out, size_t room) {
    if (!is_longitude(longitude_ms)) return refused(OUT_OF_RANGE);
    return write_angle(3, longitude_ms, 'E', out, room);
}

/* Lines. */

static buckettin_written_t write_values(int code, struct values values, uint8_t *out, size_t room) {
    char text[64];
    int count = is_geoid(code) ? snprintf(text, sizeof text, "%d\n", values.of[0])
                               : snprintf(text, sizeof text, "%d %d %d\n", values.of[0], values.of[1], values.of[2]);
    return lend(text, count, out, room);
}

buckettin_written_t independent_line(const uint8_t *line, size_t length, uint8_t *out, size_t room) {
    uint32_t refusal = text_refusal(LINE, line, length);
    if (refusal != ANSWERED) return refused(refusal);
    buckettin_read_t latitude = latitude_of(line + LATITUDE_PLACE), longitude = longitude_of(line + LONGITUDE_PLACE);
    if (latitude.refusal != ANSWERED || longitude.refusal != ANSWERED) return refused(OUT_OF_RANGE);
    int code = digits(line, 1);
    refusal = independent_refusal(code, latitude.ms, longitude.ms);
    if (refusal != ANSWERED) return refused(refusal);
    return write_values(code, values_at(code, latitude.ms, longitude.ms), out, room);
}

/* Waypoints. */

enum { UNITS_OF_MS = 100, UNITS_OF_DEGREE = UNITS_OF_MS * MS_OF_DEGREE, BILLION = 1000000000 };

/* Billionths of a degree of an angle on WGS 84, which is the local one in ms and its shift. */
static int64_t degrees_of(int64_t ms, int32_t shift) {
    return (int64_t)rounded((whole)(UNITS_OF_MS * ms + shift) * BILLION, UNITS_OF_DEGREE);
}

static int64_t from_greenwich(int64_t degrees) {
    return degrees >= (int64_t)180 * BILLION ? degrees - (int64_t)360 * BILLION : degrees;
}

struct decimal { char text[32]; };

static struct decimal decimal_of(int64_t billionths) {
    struct decimal decimal;
    int64_t size = billionths < 0 ? -billionths : billionths;
    snprintf(decimal.text, sizeof decimal.text, "%s%d.%09d", billionths < 0 ? "-" : "", (int)(size / BILLION),
             (int)(size % BILLION));
    return decimal;
}

buckettin_written_t independent_waypoint(int64_t code, int64_t latitude_ms, int64_t longitude_ms, uint8_t *out, size_t room) {
    char text[80];
    uint32_t refusal = family_refusal(false, code, latitude_ms, longitude_ms);
    if (refusal != ANSWERED) return refused(refusal);
    struct values values = values_at((int)code, latitude_ms, longitude_ms);
    struct decimal lat = decimal_of(degrees_of(latitude_ms, values.of[0]));
    struct decimal lon = decimal_of(from_greenwich(degrees_of(longitude_ms, values.of[1])));
    int count = snprintf(text, sizeof text, "<wpt lat=\"%s\" lon=\"%s\"/>", lat.text, lon.text);
    return lend(text, count, out, room);
}

/* Sheets. */

enum { SERIAL_LENGTH = 4, POINT_LENGTH = 9, RESULT_START = 6, RESULT_LENGTH = 13 };

struct sheet { const uint8_t *codes, *points; size_t datums, count; };

static uint32_t big_endian(const uint8_t *bytes, int width) {
    uint32_t number = 0;
    for (int i = 0; i < width; i++) number = number << 8 | bytes[i];
    return number;
}

static void put_big_endian(uint8_t *bytes, uint32_t number) {
    for (int i = 0; i < 4; i++) bytes[i] = (uint8_t)(number >> (24 - 8 * i));
}

static bool are_rising_codes(const uint8_t *codes, size_t count) {
    for (size_t i = 0; i < count; i++) {
        if (!is_code(codes[i]) || (i > 0 && codes[i] <= codes[i - 1])) return false;
    }
    return true;
}

static bool are_listed(const struct sheet *sheet) {
    for (size_t i = 0; i < sheet->count; i++) {
        if (sheet->datums == 0 || !memchr(sheet->codes, sheet->points[i * POINT_LENGTH], sheet->datums)) return false;
    }
    return true;
}

static uint32_t serial_refusal(int64_t unit_serial, const uint8_t *bytes, size_t length) {
    if (length < SERIAL_LENGTH) return WRONG_LENGTH;
    uint32_t serial = big_endian(bytes, SERIAL_LENGTH);
    if (serial == 0) return WRONG_SHEET;
    return (int64_t)serial == unit_serial ? ANSWERED : FOREIGN_SERIAL;
}

static uint32_t take_datums(struct sheet *sheet, const uint8_t *bytes, size_t length) {
    if (length < SERIAL_LENGTH + 1) return WRONG_LENGTH;
    sheet->datums = bytes[SERIAL_LENGTH];
    if (sheet->datums > CODES) return WRONG_SHEET;
    if (length < SERIAL_LENGTH + 1 + sheet->datums) return WRONG_LENGTH;
    sheet->codes = bytes + SERIAL_LENGTH + 1;
    return are_rising_codes(sheet->codes, sheet->datums) ? ANSWERED : WRONG_SHEET;
}

static uint32_t take_points(struct sheet *sheet, const uint8_t *bytes, size_t length) {
    size_t start = SERIAL_LENGTH + 1 + sheet->datums;
    if (length < start + 2) return WRONG_LENGTH;
    sheet->count = big_endian(bytes + start, 2);
    if (sheet->count > MOST_POINTS) return WRONG_SHEET;
    if (length != start + 2 + sheet->count * POINT_LENGTH) return WRONG_LENGTH;
    sheet->points = bytes + start + 2;
    return are_listed(sheet) ? ANSWERED : WRONG_SHEET;
}

static void put_result(const uint8_t *point, uint8_t *result) {
    int code = point[0];
    int32_t latitude = (int32_t)big_endian(point + 1, 4);
    uint32_t longitude = big_endian(point + 5, 4), refusal = independent_refusal(code, latitude, longitude);
    struct values values = { { 0 } };
    if (refusal == ANSWERED) values = values_at(code, latitude, longitude);
    result[0] = (uint8_t)refusal;
    for (int i = 0; i < 3; i++) put_big_endian(result + 1 + 4 * i, (uint32_t)values.of[i]);
}

buckettin_written_t independent_sheet(int64_t unit_serial, const uint8_t *sheet, size_t length, uint8_t *result, size_t room) {
    struct sheet taken = { 0 };
    uint32_t refusal = serial_refusal(unit_serial, sheet, length);
    if (refusal == ANSWERED) refusal = take_datums(&taken, sheet, length);
    if (refusal == ANSWERED) refusal = take_points(&taken, sheet, length);
    if (refusal != ANSWERED) return refused(refusal);
    size_t needed = RESULT_START + taken.count * RESULT_LENGTH;
    if (room < needed) return refused(BUFFER_SHORT);
    memcpy(result, sheet, SERIAL_LENGTH);
    memcpy(result + SERIAL_LENGTH, taken.points - 2, 2);
    for (size_t i = 0; i < taken.count; i++) {
        put_result(taken.points + i * POINT_LENGTH, result + RESULT_START + i * RESULT_LENGTH);
    }
    return (buckettin_written_t){ ANSWERED, (uint32_t)needed };
}
