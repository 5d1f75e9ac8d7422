/* Document 01's rules for a point, in C that is tuned for each code, for as few instructions as could be found: the limit that
   the archive is measured by. sums.h, which tests/tuned.py writes, has the place of each datum, and its sums as straight-line code.

   Only sizes are multiplied and rounded, so that a rounding is one addition and one division by a constant, which gcc makes a
   multiplication and a shift. The signs cost nothing: the centre cuts an area into four quarters, in each of which u, v and so
   every term have one sign, and each quarter has code of its own. One code for all four, with a sum for each parity of the two
   powers and the signs put on in the end, took 13 to 18 % more instructions; with a sign put on each product, 19 to 22 % more. */
#include "tuned.h"

#include <string.h>

#define SCALE ((int64_t)100000000)    /* u, v and their powers are in hundred-millionths */
#define DEGREE ((int64_t)3600000)     /* in ms */
#define LARGEST (90 * DEGREE)
#define TURN (360 * DEGREE)
#define CODES 6
#define INLINE static inline __attribute__((always_inline))

/* The centre, K, and how far the area goes from the centre to each side, in ms. */
struct place {
    uint64_t latitude, longitude, k, south, north, west, east;
};

/* What a sum starts with: 2^32 units of the answer, which its 32 bits do not show, so that no negative number is divided; and
   half a unit, for the rounding. */
#define START ((SCALE << 32) + SCALE / 2)

/* n / SCALE to the nearest, halves up. */
INLINE int64_t rounded(uint64_t n)
{
    return (n + SCALE / 2) / SCALE;
}

/* The size of u or v, so many ms from the centre. */
INLINE int64_t from_centre(uint64_t k, uint64_t ms)
{
    return (k * ms + DEGREE / 2) / DEGREE;
}

/* What a sum comes to, to the nearest. The division takes halves up: those below zero go down, as one is taken off first. */
INLINE uint32_t answer(uint64_t sum)
{
    return (sum - (sum < (uint64_t)START)) / SCALE;
}

/* Put together in two registers, as it is returned: left to gcc, it takes two to five instructions more. */
INLINE buckettin_shift_t shift_of(int64_t dlat, int64_t dlon, int64_t dh)
{
    uint64_t words[] = {(uint64_t)answer(dlat) << 32, answer(dlon) | (uint64_t)answer(dh) << 32};
    buckettin_shift_t shift;
    memcpy(&shift, words, sizeof shift);
    return shift;
}

INLINE buckettin_geoid_t geoid_of(int64_t n)
{
    return (buckettin_geoid_t){0, answer(n)};
}

#include "sums.h"

INLINE uint32_t outside(int64_t latitude, int64_t longitude)
{
    return latitude >= -LARGEST && latitude <= LARGEST && longitude >= 0 && longitude < TURN ? 6 : 3;
}

/* A point of one code, by quarters; s and t are the signs of u and v. The code is passed on so that latitude and longitude stay
   in their registers. */
#define DATUM(kind, number) \
    INLINE buckettin_##kind##_t quarter_##number(uint64_t to_latitude, uint64_t to_longitude, int64_t s, int64_t t) \
    { \
        uint64_t k = PLACE_##number.k; \
        return kind##_##number##_sums(from_centre(k, to_latitude), from_centre(k, to_longitude), s, t); \
    } \
    \
    static buckettin_##kind##_t kind##_##number(int64_t code, int64_t latitude, int64_t longitude) \
    { \
        (void)code; \
        const struct place *place = &PLACE_##number; \
        uint64_t north = latitude - place->latitude, south = place->latitude - latitude; \
        uint64_t east = longitude - place->longitude, west = place->longitude - longitude; \
        if (north <= place->north && east <= place->east) \
            return quarter_##number(north, east, 1, 1); \
        if (north <= place->north && west <= place->west) \
            return quarter_##number(north, west, 1, -1); \
        if (south <= place->south && east <= place->east) \
            return quarter_##number(south, east, -1, 1); \
        if (south <= place->south && west <= place->west) \
            return quarter_##number(south, west, -1, -1); \
        return (buckettin_##kind##_t){.refusal = outside(latitude, longitude)}; \
    }

#define REFUSED(kind, number) \
    static buckettin_##kind##_t kind##_refused_##number(int64_t code, int64_t latitude, int64_t longitude) \
    { \
        (void)code, (void)latitude, (void)longitude; \
        return (buckettin_##kind##_t){.refusal = number}; \
    }

DATUM(shift, 1)
DATUM(shift, 2)
DATUM(shift, 3)
DATUM(shift, 4)
DATUM(geoid, 5)
DATUM(geoid, 6)
REFUSED(shift, 4)
REFUSED(shift, 5)
REFUSED(geoid, 4)
REFUSED(geoid, 5)

/* By the code, from 0 on. */
static buckettin_shift_t (*const SHIFTS[])(int64_t, int64_t, int64_t) = {
    shift_refused_4, shift_1, shift_2, shift_3, shift_4, shift_refused_5, shift_refused_5};
static buckettin_geoid_t (*const GEOIDS[])(int64_t, int64_t, int64_t) = {
    geoid_refused_4, geoid_refused_5, geoid_refused_5, geoid_refused_5, geoid_refused_5, geoid_5, geoid_6};

buckettin_shift_t tuned_shift(int64_t code, int64_t latitude_ms, int64_t longitude_ms)
{
    if ((uint64_t)code > CODES)
        return shift_refused_4(code, latitude_ms, longitude_ms);
    return SHIFTS[code](code, latitude_ms, longitude_ms);
}

buckettin_geoid_t tuned_geoid(int64_t code, int64_t latitude_ms, int64_t longitude_ms)
{
    if ((uint64_t)code > CODES)
        return geoid_refused_4(code, latitude_ms, longitude_ms);
    return GEOIDS[code](code, latitude_ms, longitude_ms);
}
