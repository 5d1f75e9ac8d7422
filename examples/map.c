/* One position, from text to WGS 84: map CODE LATITUDE LONGITUDE prints the shift from the local datum to WGS 84 and the position
   on WGS 84, or the geoid height, or why the position is refused.

       cc -I include examples/map.c target/staticlib/libbuckettin.a -o map
       ./map 1 350000.000N 0330000.000E

   prints

       shift: latitude -3.84288", longitude -1.10294", height 24.430 m
       WGS 84: 34 59 56.15712 N, 32 59 58.89706 E */
#include "buckettin.h"

#include <stdio.h>
#include <stdlib.h>
#include <string.h>

static int refused(uint32_t number)
{
    fprintf(stderr, "refused %u: %s\n", (unsigned)number, buckettin_why(number));
    return 1;
}

/* Degrees, minutes and seconds of an angle in 0.00001", and a letter for its side: longitude is east all the way round. */
static void print_angle(int64_t angle, char positive, char negative)
{
    long long size = angle < 0 ? -angle : angle;
    long long seconds = size / 100000;
    printf("%lld %02lld %02lld.%05lld ", seconds / 3600, seconds / 60 % 60, seconds % 60, size % 100000);
    putchar(angle < 0 ? negative : positive);
}

static int print_shift(int64_t code, int32_t latitude_ms, int32_t longitude_ms)
{
    buckettin_shift_t shift = buckettin_shift(code, latitude_ms, longitude_ms);
    if (shift.refusal != BUCKETTIN_ANSWERED) return refused(shift.refusal);
    printf("shift: latitude %.5f\", longitude %.5f\", height %.3f m\n",
           shift.dlat / 100000.0, shift.dlon / 100000.0, shift.dh / 1000.0);
    printf("WGS 84: ");
    print_angle(buckettin_shifted(latitude_ms, shift.dlat), 'N', 'S');
    printf(", ");
    print_angle(buckettin_shifted(longitude_ms, shift.dlon), 'E', 'W');
    printf("\n");
    return 0;
}

static int print_geoid(int64_t code, int32_t latitude_ms, int32_t longitude_ms)
{
    buckettin_geoid_t geoid = buckettin_geoid(code, latitude_ms, longitude_ms);
    if (geoid.refusal != BUCKETTIN_ANSWERED) return refused(geoid.refusal);
    printf("geoid height %.3f m\n", geoid.n / 1000.0);
    return 0;
}

/* A word that is no whole number is 0, which is no code. */
static int64_t number_of(const char *word)
{
    char *end;
    int64_t number = strtoll(word, &end, 10);
    return end != word && *end == '\0' ? number : 0;
}

int main(int argc, char **argv)
{
    if (argc != 4) {
        fprintf(stderr, "map CODE LATITUDE LONGITUDE, as: map 1 350000.000N 0330000.000E\n");
        return 2;
    }
    int64_t code = number_of(argv[1]);
    buckettin_read_t latitude = buckettin_read_latitude((const uint8_t *)argv[2], strlen(argv[2]));
    if (latitude.refusal != BUCKETTIN_ANSWERED) return refused(latitude.refusal);
    buckettin_read_t longitude = buckettin_read_longitude((const uint8_t *)argv[3], strlen(argv[3]));
    if (longitude.refusal != BUCKETTIN_ANSWERED) return refused(longitude.refusal);
    if (buckettin_has_geoid(code)) return print_geoid(code, latitude.ms, longitude.ms);
    return print_shift(code, latitude.ms, longitude.ms);
}
