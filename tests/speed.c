/* The line program once more, in plain C: document 01's lines on standard input, their answers on standard output; with --gpx
   document 02's file of waypoints. tests/speed.py times the proved program beside this one. tables.h, which it writes, has the
   terms, centre and K of each datum as document 000's text prints them, and the areas of document 01. */
#include <errno.h>
#include <stdint.h>
#include <string.h>
#include <unistd.h>

#define SCALE 100000000       /* u, v and their powers are in hundred-millionths */
#define DEGREE 3600000        /* in ms */
#define LIMIT 100000000       /* bytes that are read of an input */
#define LINE 26               /* bytes of a line, before its line feed */
#define ANSWER 48             /* bytes of the longest answer, with its line feed: of a waypoint */
#define BILLION 1000000000
#define POWERS 10

struct term {
    int64_t coefficient;
    uint8_t u, v;
};

struct equation {
    const struct term *terms;
    int count;
};

struct datum {
    int64_t latitude, longitude, k;
    int64_t south, north, west, east;
    struct equation equations[3];
    int count;
};

#include "tables.h"

/* n / SCALE to the nearest, halves away from zero. */
static inline int64_t rounded(int64_t n)
{
    return (n < 0 ? n - SCALE / 2 : n + SCALE / 2) / SCALE;
}

/* K times the distance from the centre in ms, over the ms of a degree, likewise. */
static int64_t from_centre(int64_t k, int64_t ms)
{
    int64_t n = k * ms;
    return (n < 0 ? n - DEGREE / 2 : n + DEGREE / 2) / DEGREE;
}

/* p * u may not fit 64 bits, so p is split by the scale: both parts have its sign. */
static void work_powers(int64_t u, int64_t powers[POWERS])
{
    powers[0] = SCALE;
    powers[1] = u;
    for (int k = 2; k < POWERS; k++) {
        int64_t p = powers[k - 1];
        powers[k] = p / SCALE * u + rounded(p % SCALE * u);
    }
}

static int64_t work_equation(const struct equation *equation, const int64_t pu[POWERS], const int64_t pv[POWERS])
{
    int64_t sum = 0;
    const struct term *end = equation->terms + equation->count;
    for (const struct term *t = equation->terms; t < end; t++)
        sum += t->coefficient * rounded(pu[t->u] * pv[t->v]);
    return rounded(sum);
}

static inline int is_digit(unsigned char c)
{
    return c >= '0' && c <= '9';
}

/* Whether t begins with `ddmmss.sss`. */
static int is_angle(const unsigned char *t)
{
    return is_digit(t[0]) && is_digit(t[1]) && is_digit(t[2]) && is_digit(t[3]) && is_digit(t[4]) && is_digit(t[5])
        && t[6] == '.' && is_digit(t[7]) && is_digit(t[8]) && is_digit(t[9]);
}

static inline int pair(const unsigned char *t)
{
    return (t[0] - '0') * 10 + (t[1] - '0');
}

/* The ms of such a text, or -1 where its minutes or seconds are not below 60. */
static int64_t angle(const unsigned char *t)
{
    int minutes = pair(t + 2), seconds = pair(t + 4);
    if (minutes >= 60 || seconds >= 60)
        return -1;
    return ((pair(t) * 60 + minutes) * 60 + seconds) * 1000 + (t[7] - '0') * 100 + pair(t + 8);
}

/* Writes n and the byte after it, and says where that ends. */
static unsigned char *put_number(unsigned char *out, int64_t n, unsigned char next)
{
    unsigned char digits[20];
    int count = 0;
    uint32_t size = n < 0 ? -n : n;
    if (n < 0)
        *out++ = '-';
    do {
        digits[count++] = '0' + size % 10;
        size /= 10;
    } while (size > 0);
    while (count > 0)
        *out++ = digits[--count];
    *out++ = next;
    return out;
}

/* Writes a text, and says where that ends. */
static unsigned char *put_text(unsigned char *out, const char *text)
{
    size_t length = strlen(text);
    memcpy(out, text, length);
    return out + length;
}

/* Billionths of a degree of an angle in 0.00001", to the nearest, halves away from zero: 9 of these are 25 of those. */
static int64_t billionths(int64_t units)
{
    int64_t n = units * 25;
    return (n < 0 ? n - 4 : n + 4) / 9;
}

/* Writes a number of billionths with nine places, and says where that ends. */
static unsigned char *put_degrees(unsigned char *out, int64_t n)
{
    uint64_t size = n < 0 ? -n : n;
    uint32_t places = size % BILLION;
    if (n < 0)
        *out++ = '-';
    out = put_number(out, size / BILLION, '.');
    for (int i = 8; i >= 0; i--) {
        out[i] = '0' + places % 10;
        places /= 10;
    }
    return out + 9;
}

struct place {
    int code;
    int64_t latitude, longitude;
};

/* Reads a line whose code may be any digit; the number of its refusal, or 0. */
static int read_place(const unsigned char *line, size_t length, struct place *place)
{
    if (length != LINE)
        return 1;
    unsigned char letter = line[12];
    if (!is_digit(line[0]) || line[1] != ' ' || !is_angle(line + 2) || (letter != 'N' && letter != 'S') || line[13] != ' '
        || !is_digit(line[14]) || !is_angle(line + 15) || line[25] != 'E')
        return 2;
    int64_t latitude = angle(line + 2), longitude = angle(line + 15);
    if (latitude < 0 || longitude < 0 || (letter == 'S' && latitude == 0))
        return 3;
    longitude += (int64_t)(line[14] - '0') * 100 * DEGREE;
    if (latitude > 90 * DEGREE || longitude >= (int64_t)360 * DEGREE)
        return 3;
    place->code = line[0] - '0';
    place->latitude = letter == 'S' ? -latitude : latitude;
    place->longitude = longitude;
    return 0;
}

static int is_gpx;                    /* whether waypoints are printed */

/* Writes the waypoint of a place by its shift, and says where that ends. */
static unsigned char *put_waypoint(unsigned char *out, const struct place *place, const int64_t values[3])
{
    int64_t east = billionths(100 * place->longitude + values[1]);
    if (east >= (int64_t)180 * BILLION)
        east -= (int64_t)360 * BILLION;
    out = put_text(out, "<wpt lat=\"");
    out = put_degrees(out, billionths(100 * place->latitude + values[0]));
    out = put_text(out, "\" lon=\"");
    out = put_degrees(out, east);
    return put_text(out, "\"/>\n");
}

/* Writes the answer of a place to *out, and moves that to its end; the number of its refusal, or 0. */
static int put_answer(const struct place *place, unsigned char **out)
{
    if (place->code < 1 || place->code > 6)
        return 4;
    const struct datum *datum = &DATUMS[place->code - 1];
    if (is_gpx && datum->count != 3)
        return 5;
    if (place->latitude < datum->south || place->latitude > datum->north
        || place->longitude < datum->west || place->longitude > datum->east)
        return 6;
    int64_t pu[POWERS], pv[POWERS], values[3];
    work_powers(from_centre(datum->k, place->latitude - datum->latitude), pu);
    work_powers(from_centre(datum->k, place->longitude - datum->longitude), pv);
    for (int i = 0; i < datum->count; i++)
        values[i] = work_equation(&datum->equations[i], pu, pv);
    if (is_gpx)
        *out = put_waypoint(*out, place, values);
    else
        for (int i = 0; i < datum->count; i++)
            *out = put_number(*out, values[i], i + 1 < datum->count ? ' ' : '\n');
    return 0;
}

/* Before the waypoints of a file. */
#define HEAD "<?xml version=\"1.0\" encoding=\"UTF-8\"?>\n" \
             "<gpx version=\"1.1\" creator=\"Buckettin\" xmlns=\"http://www.topografix.com/GPX/1/1\">\n"

static unsigned char input[65536], output[65536];
static size_t put;

/* Writes what is in the output; 0 where that fails. */
static int flush(void)
{
    for (size_t done = 0; done < put;) {
        ssize_t n = write(1, output + done, put - done);
        if (n > 0)
            done += n;
        else if (n == 0 || errno != EINTR)
            return 0;
    }
    put = 0;
    return 1;
}

/* Prints a line's answer, or that it is refused and the number; 0 where there is no room and none can be made. */
static int print(const unsigned char *line, size_t length)
{
    if (sizeof output - put < ANSWER && !flush())
        return 0;
    struct place place;
    unsigned char *out = output + put;
    int refusal = read_place(line, length, &place);
    if (refusal == 0)
        refusal = put_answer(&place, &out);
    if (refusal != 0 && is_gpx) {
        memcpy(out, "<!-- refused 0 -->\n", 19);
        out[13] += refusal;
        out += 19;
    } else if (refusal != 0) {
        memcpy(out, "refused 0\n", 10);
        out[8] += refusal;
        out += 10;
    }
    put = out - output;
    return 1;
}

int main(int argc, char **argv)
{
    is_gpx = argc == 2 && strcmp(argv[1], "--gpx") == 0;
    if (argc != 1 && !is_gpx)
        return 1;
    if (is_gpx)
        put = put_text(output, HEAD) - output;
    size_t held = 0, left = LIMIT;    /* bytes of a line that is begun, at the start of the input; bytes that may yet be read */
    while (left > 0) {
        size_t room = sizeof input - held;
        ssize_t got = read(0, input + held, room < left ? room : left);
        if (got < 0) {
            flush();
            return 1;
        }
        if (got == 0)
            break;
        left -= got;
        unsigned char *line = input, *from = input + held, *end = from + got, *feed;
        while ((feed = memchr(from, '\n', end - from)) != NULL) {
            if (!print(line, feed - line))
                return 1;
            line = from = feed + 1;
        }
        held = end - line;
        if (held > LINE + 1)
            held = LINE + 1;          /* enough to refuse it by its length */
        memmove(input, line, held);
    }
    if (held > 0 && !print(input, held))
        return 1;
    if (is_gpx && sizeof output - put < ANSWER && !flush())
        return 1;
    if (is_gpx)
        put = put_text(output + put, "</gpx>\n") - output;
    return flush() ? 0 : 1;
}
