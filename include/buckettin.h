/* Buckettin: positions on a local datum, and their shifts to WGS 84 by the regression equations of DMA TR 8350.2-B (change
   pages of March 1989). Link libbuckettin.a, for x86-64 Linux. Needs C99 or C++11. docs/C.md says how to build and link.

   Units. Latitude and longitude on the local datum are whole ms, thousandths of an arc second: a degree is 3,600,000. North
   and east are positive; latitude goes from -324,000,000 to 324,000,000, longitude from 0 to 1,295,999,999. There is no
   west: 160° W is 200° E. Shifts of latitude and longitude are whole numbers of 0.00001", heights whole mm.

       WGS 84 latitude  = local latitude + dlat        in 0.00001" it is buckettin_shifted(latitude_ms, dlat)
       WGS 84 longitude = local longitude + dlon       in 0.00001" it is buckettin_shifted(longitude_ms, dlon)
       WGS 84 height    = local height + dh            in mm, each height above its own ellipsoid and not above the sea
       local height     = height above mean sea level + n, above the ellipsoid Everest (code 5) or Clarke 1880 (code 6)

   Datums. A datum is named by its code. Its area includes its edges. 'Fit' is what the printed page claims of its equations,
   in metres: the RMS of latitude, longitude and height at its comparison points, or of the geoid heights it was made from.

       code   datum              has            latitude                longitude             fit
       1      ED 50 Cyprus       shift          34°30' to 35°45'        32°10' to 34°40'      0.5  0.3  0.2
       2      Minna              shift           4°00' to 14°00'         2°30' to 14°45'      1.2  1.0  0.7
       3      NAD 27 Alaska      shift          54°00' to 72°00'       190°00' to 220°00'     1.7  1.7  1.2
       4      Qatar National     shift          24°20' to 26°15'        50°40' to 51°45'      0.3  0.2  0.2
       5      Kandawala          geoid height    5°50' to  9°55'        79°30' to 82°00'                0.4
       6      Nahrwan            geoid height   20°00' to 26°15'        51°00' to 59°00'                1.2

   Caution: that is not the fit all over the area. Toward the southern corners of Minna's area the equations run away: at
   4° N 14°45' E their answer is 2 km from the plain three-parameter shift. docs/ACCURACY.md has the maps. And a wrong code
   is not always outside: areas 4 and 6 overlap.

   Refusals. Every call takes any numbers, any bytes and any length. A refused call says why by its number, every other field
   of its answer is 0, and no byte of the buffer that you lent it has changed. Caution: the zeros of a refused shift look
   like a shift of nothing. Test refusal before any other field.

   Threads. Calls are independent and have no state: they allocate nothing, and take nothing of the C library but memcpy.
   Several threads may call at once, each with buffers of its own.

   Pointers. What no call can test is left to the caller: a pointer is not NULL, even where the length is 0; it has as many
   bytes behind it as the length beside it says; and the bytes that a call reads and the buffer that it is lent do not
   overlap. */
#ifndef BUCKETTIN_H
#define BUCKETTIN_H

#include <stddef.h>
#include <stdint.h>

#ifdef __cplusplus
extern "C" {
#endif

/* 1,000,000 times the first number of the version, 1,000 times the second, and the third. While the first is 0, a call may
   still change from one version to the next. The archive does not carry it: keep header and archive together. */
#define BUCKETTIN_VERSION 2000
#define BUCKETTIN_VERSION_TEXT "0.2.0"

/* gcc and clang warn where the answer of a call is dropped. They do not warn where it is kept and refusal is not tested. */
#ifdef __GNUC__
#define BUCKETTIN_MUST_USE __attribute__((warn_unused_result))
#else
#define BUCKETTIN_MUST_USE
#endif

enum buckettin_codes {
    BUCKETTIN_CYPRUS = 1,
    BUCKETTIN_MINNA = 2,
    BUCKETTIN_ALASKA = 3,
    BUCKETTIN_QATAR = 4,
    BUCKETTIN_KANDAWALA = 5,
    BUCKETTIN_NAHRWAN = 6
};

enum buckettin_refusals {
    BUCKETTIN_ANSWERED = 0,
    BUCKETTIN_LENGTH = 1,   /* a text, line or sheet has the wrong length */
    BUCKETTIN_KIND = 2,     /* a byte of a text or line is not of its kind */
    BUCKETTIN_RANGE = 3,    /* a latitude, longitude, minute or second is out of range */
    BUCKETTIN_CODE = 4,     /* the code is not 1 to 6 */
    BUCKETTIN_FAMILY = 5,   /* a shift is asked of code 5 or 6, or a geoid height of code 1 to 4 */
    BUCKETTIN_AREA = 6,     /* the point is outside its datum's area */
    BUCKETTIN_ROOM = 7,     /* the lent buffer is too short */
    BUCKETTIN_FOREIGN = 8,  /* the sheet's serial is not zero and not the unit's */
    BUCKETTIN_SHEET = 9     /* the sheet's serial is zero, a count is over its limit, codes do not rise or are not 1 to 6, or
                               a point's code is not listed */
};

enum buckettin_sizes {
    BUCKETTIN_DEGREE_MS = 3600000,
    BUCKETTIN_LATITUDE_BYTES = 11,
    BUCKETTIN_LONGITUDE_BYTES = 12,
    BUCKETTIN_LINE_BYTES = 26,
    BUCKETTIN_LINE_ROOM = 36,       /* enough for the answer to any line */
    BUCKETTIN_WAYPOINT_ROOM = 47,   /* enough for any waypoint */
    BUCKETTIN_RESULT_ROOM = 6506    /* enough for the result of any sheet */
};

/* The words above for a refusal's number. Any number may be passed: one that is no refusal has words that say so. */
static inline const char *buckettin_why(uint32_t refusal)
{
    static const char *const words[] = {
        "answered",
        "a text, line or sheet has the wrong length",
        "a byte of a text or line is not of its kind",
        "a latitude, longitude, minute or second is out of range",
        "the code is not 1 to 6",
        "a shift is asked of code 5 or 6, or a geoid height of code 1 to 4",
        "the point is outside its datum's area",
        "the lent buffer is too short",
        "the sheet's serial is not zero and not the unit's",
        ("the sheet's serial is zero, a count is over its limit, codes do not rise or are not 1 to 6, or a point's code is "
         "not listed")
    };
    return refusal < sizeof words / sizeof words[0] ? words[refusal] : "a number that is no refusal";
}

/* Whether a code has a geoid height, and no shift. */
static inline int buckettin_has_geoid(int64_t code)
{
    return code == BUCKETTIN_KANDAWALA || code == BUCKETTIN_NAHRWAN;
}

/* A local angle in ms and its shift, as an angle on WGS 84 in 0.00001". In 32 bits, 100 times the ms would overflow. */
static inline int64_t buckettin_shifted(int64_t ms, int32_t shift)
{
    return 100 * ms + shift;
}

typedef struct { uint32_t refusal; int32_t dlat, dlon, dh; } buckettin_shift_t;   /* 0.00001", 0.00001", mm */
typedef struct { uint32_t refusal; int32_t n; }              buckettin_geoid_t;   /* mm */
typedef struct { uint32_t refusal; int32_t ms; }             buckettin_read_t;    /* ms */
typedef struct { uint32_t refusal; uint32_t written; }       buckettin_written_t; /* bytes */

/* ---- a point: latitude first, then longitude, in ms

   Caution: the compiler cannot tell if you swap them. In four fifths of Minna's area the swapped point is inside too, and
   gets an answer that is wrong: at 9°19'09" N 12°13'50" E, its printed test point, by 27 m in latitude. */

/* The shift from the local datum to WGS 84 at a point of codes 1 to 4: each angle within 0.00002", the height within 1 mm,
   of the exact value of the printed polynomial. Refused, in this order: 4, 5, 3, 6.
   At 35° N 33° E: buckettin_shift(BUCKETTIN_CYPRUS, 126000000, 118800000) is {0, -384288, -110294, 24430}, which is
   -3.84288", -1.10294", 24.430 m. */
buckettin_shift_t   buckettin_shift(int64_t code, int64_t latitude_ms, int64_t longitude_ms) BUCKETTIN_MUST_USE;

/* The geoid height at a point of codes 5 and 6, within 1 mm of the exact value. Refused, in this order: 4, 5, 3, 6.
   At 23° N 57° E: buckettin_geoid(BUCKETTIN_NAHRWAN, 82800000, 205200000) is {0, 7464}, 7.464 m. */
buckettin_geoid_t   buckettin_geoid(int64_t code, int64_t latitude_ms, int64_t longitude_ms) BUCKETTIN_MUST_USE;

/* The answers of all six codes as floats, in seconds and metres: each is the integer answer divided once, by 100000 or 1000,
   and rounded as the processor is set: to the nearest, unless the program has called fesetround. Where it has turned traps
   on (feenableexcept), the division may raise SIGFPE. Caution: these calls refuse nothing, and where the point is refused
   all three are 0. Ask buckettin_refusal first. Each call works the whole point; buckettin_shift gives all at once.
   The first is the shift of latitude in seconds, or the geoid height in metres: buckettin_first(1, 126000000, 118800000) is
   -3.84288. */
double              buckettin_first(int64_t code, int64_t latitude_ms, int64_t longitude_ms) BUCKETTIN_MUST_USE;

/* The second is the shift of longitude; 0 for codes 5 and 6: buckettin_second(1, 126000000, 118800000) is -1.10294. */
double              buckettin_second(int64_t code, int64_t latitude_ms, int64_t longitude_ms) BUCKETTIN_MUST_USE;

/* The third is the shift of height; 0 for codes 5 and 6: buckettin_third(1, 126000000, 118800000) is 24.43. */
double              buckettin_third(int64_t code, int64_t latitude_ms, int64_t longitude_ms) BUCKETTIN_MUST_USE;

/* Why the point is refused, in this order: 4, 3, 6; 0 where it is answered. It takes all six codes, so it is never 5.
   Outside Qatar: buckettin_refusal(BUCKETTIN_QATAR, 126000000, 118800000) is 6. */
uint32_t            buckettin_refusal(int64_t code, int64_t latitude_ms, int64_t longitude_ms) BUCKETTIN_MUST_USE;

/* ---- a position as text: no call reads or writes a NUL */

/* The ms that a text of 11 bytes says, ddmmss.sssN or ddmmss.sssS. Refused, in this order: 1, 2, 3. 000000.000S is refused
   with 3: it is written 000000.000N.
   buckettin_read_latitude((const uint8_t *)"350000.000N", BUCKETTIN_LATITUDE_BYTES) is {0, 126000000}. */
buckettin_read_t    buckettin_read_latitude(const uint8_t *text, size_t length) BUCKETTIN_MUST_USE;

/* The ms that a text of 12 bytes says, dddmmss.sssE: 1° west of Greenwich is 3590000.000E. Refused, in this order: 1, 2, 3.
   buckettin_read_longitude((const uint8_t *)"0330000.000E", BUCKETTIN_LONGITUDE_BYTES) is {0, 118800000}. */
buckettin_read_t    buckettin_read_longitude(const uint8_t *text, size_t length) BUCKETTIN_MUST_USE;

/* Writes the text of a latitude, 11 bytes, at the start of out, and leaves the rest of it. Refused, in this order: 3, 7
   where room is below 11.
   buckettin_write_latitude(126000000, out, BUCKETTIN_LATITUDE_BYTES) is {0, 11}, and out starts with "350000.000N". */
buckettin_written_t buckettin_write_latitude(int64_t latitude_ms, uint8_t *out, size_t room) BUCKETTIN_MUST_USE;

/* Writes the text of a longitude, 12 bytes, at the start of out, and leaves the rest of it. Refused, in this order: 3, 7
   where room is below 12.
   buckettin_write_longitude(118800000, out, BUCKETTIN_LONGITUDE_BYTES) is {0, 12}, and out starts with "0330000.000E". */
buckettin_written_t buckettin_write_longitude(int64_t longitude_ms, uint8_t *out, size_t room) BUCKETTIN_MUST_USE;

/* ---- a unit sheet, and its result

   Works a unit's sheet, and writes its result at the start of result. All numbers are big-endian, the signed ones in two's
   complement.

       bytes  of a sheet
       4      serial, not 0
       1      count of datums, at most 6
       1      for each datum: its code, above the one before
       2      count of points, at most 500
       9      for each point: code (1), latitude_ms (4, signed), longitude_ms (4, unsigned); nothing follows the last

       bytes  of its result, 6 + 13 times the count of points, at most 6,506
       4      the same serial
       2      the same count of points
       13     for each point: its refusal, 0, 3 or 6 (1), and
                  dlat, dlon, dh (4 each, signed), where the refusal is 0 and the code 1 to 4
                  n (4, signed) and eight zero bytes, where the refusal is 0 and the code 5 or 6
                  twelve zero bytes, where the refusal is 3 or 6

   Caution: a sheet that is answered may have points that are refused. Test the first byte of each record. The result does
   not repeat the codes: keep the sheet to read it.

   The sheet is tested in the order of its bytes, and refused with the number of the first row that holds:

       1      it ends within its serial
       9      its serial is 0
       8      its serial is not unit_serial: it is for another unit
       1      it ends before the count of datums
       9      the count of datums is over 6
       1      it ends within the codes
       9      a code is not 1 to 6, or not above the one before
       1      it ends within the count of points
       9      the count of points is over 500
       1      its length is not what its counts ask for
       9      the code of a point is not among its datums
       7      room is below what the result needs

   A unit's serial is 1 to 4,294,967,295. Any other unit_serial has no sheet: it is refused with 8, or with what comes
   before.
   With sheet {0,0,0,7, 0, 0,0}, of no datum and no point: buckettin_sheet(7, sheet, 7, result, 6) is {0, 6}, and result
   starts with {0,0,0,7, 0,0}; buckettin_sheet(8, sheet, 7, result, 6) is {8, 0}. examples/sheet.c has one of two points. */
buckettin_written_t buckettin_sheet(int64_t unit_serial, const uint8_t *sheet, size_t length,
                                    uint8_t *result, size_t room) BUCKETTIN_MUST_USE;

/* ---- a line of the line program

   Answers a line of 26 bytes, without its line feed: code digit, space, latitude text, space, longitude text. Writes dlat,
   dlon and dh as whole numbers in 0.00001", 0.00001" and mm with a space between, or n alone, and a line feed, at the start
   of out. Refused, in this order: 1, 2, 3, 4, 6, 7.
   buckettin_line((const uint8_t *)"1 350000.000N 0330000.000E", BUCKETTIN_LINE_BYTES, out, BUCKETTIN_LINE_ROOM) is {0, 22},
   and out starts with "-384288 -110294 24430\n". */
buckettin_written_t buckettin_line(const uint8_t *line, size_t length, uint8_t *out, size_t room) BUCKETTIN_MUST_USE;

/* ---- a waypoint of a GPX 1.1 file

   Writes the WGS 84 position of a point of codes 1 to 4 as a waypoint at the start of out: the element alone, at most 47
   bytes, with no line feed, and leaves the rest of out. lat and lon are the angles on WGS 84 in decimal degrees, rounded to
   the nearest billionth, halves away from zero, with nine places. lon goes from -180 up to but not 180: 160° W is -160. A
   waypoint has no height. Refused, in this order: 4, 5, 3, 6, 7 where room is below what the element needs.
   buckettin_waypoint(BUCKETTIN_CYPRUS, 126000000, 118800000, out, BUCKETTIN_WAYPOINT_ROOM) is {0, 44}, and out starts with
   "<wpt lat=\"34.998932533\" lon=\"32.999693628\"/>". examples/waypoint.c writes a whole file. */
buckettin_written_t buckettin_waypoint(int64_t code, int64_t latitude_ms, int64_t longitude_ms,
                                       uint8_t *out, size_t room) BUCKETTIN_MUST_USE;

#ifdef __cplusplus
}
#endif

#endif
