/* A unit sheet, made, worked and read: sheet UNIT LATITUDE LONGITUDE makes a sheet for unit 7 that asks for one position on two
   datums, works it as unit UNIT does, and prints the result in seconds and metres, and in words why a point is refused. Any
   UNIT but 7 is refused.

       cc -I include examples/sheet.c target/staticlib/libbuckettin.a -o sheet
       ./sheet 7 350000.000N 0330000.000E

   prints

       unit 7, 2 points
       code 1: latitude -3.84288", longitude -1.10294", height 24.430 m
       code 6: refused 6: the point is outside its datum's area */
#include "buckettin.h"

#include <stdio.h>
#include <stdlib.h>
#include <string.h>

enum { SERIAL = 7, DATUMS = 2, POINTS = 2 };
enum { SHEET = 4 + 1 + DATUMS + 2 + 9 * POINTS, HEAD = 4 + 2, RECORD = 13, RESULT = HEAD + RECORD * POINTS };

/* The datums of the sheet, each above the one before, and the datum of each of its points, which is one of them. */
static const uint8_t datums[DATUMS] = {BUCKETTIN_CYPRUS, BUCKETTIN_NAHRWAN};
static const uint8_t codes[POINTS] = {BUCKETTIN_CYPRUS, BUCKETTIN_NAHRWAN};

/* Puts a number behind what a sheet has so far, in so many big-endian bytes, and gives the new length. */
static size_t put(uint8_t *sheet, size_t length, uint32_t number, unsigned bytes)
{
    unsigned k;
    for (k = 0; k < bytes; k++) sheet[length + k] = (uint8_t)(number >> 8 * (bytes - 1 - k));
    return length + bytes;
}

static size_t put_datums(uint8_t *sheet, size_t length)
{
    int k;
    length = put(sheet, length, DATUMS, 1);
    for (k = 0; k < DATUMS; k++) length = put(sheet, length, datums[k], 1);
    return length;
}

static size_t put_points(uint8_t *sheet, size_t length, int32_t latitude_ms, int32_t longitude_ms)
{
    int k;
    length = put(sheet, length, POINTS, 2);
    for (k = 0; k < POINTS; k++) {
        length = put(sheet, length, codes[k], 1);
        length = put(sheet, length, (uint32_t)latitude_ms, 4);
        length = put(sheet, length, (uint32_t)longitude_ms, 4);
    }
    return length;
}

/* A number of a result, of so many big-endian bytes. */
static uint32_t number_at(const uint8_t *bytes, unsigned count)
{
    uint32_t number = 0;
    while (count-- > 0) number = number << 8 | *bytes++;
    return number;
}

/* A signed one of 4 bytes, in two's complement, with no cast that depends on the compiler. */
static int32_t signed_at(const uint8_t *bytes)
{
    uint32_t number = number_at(bytes, 4);
    return number < 0x80000000u ? (int32_t)number : -(int32_t)(0xffffffffu - number) - 1;
}

/* One record of the result. The code is the sheet's: the result does not repeat it. */
static void print_record(uint8_t code, const uint8_t *record)
{
    printf("code %u: ", (unsigned)code);
    if (record[0] != BUCKETTIN_ANSWERED) {
        printf("refused %u: %s\n", (unsigned)record[0], buckettin_why(record[0]));
    } else if (buckettin_has_geoid(code)) {
        printf("geoid height %.3f m\n", signed_at(record + 1) / 1000.0);
    } else {
        printf("latitude %.5f\", longitude %.5f\", height %.3f m\n",
               signed_at(record + 1) / 100000.0, signed_at(record + 5) / 100000.0, signed_at(record + 9) / 1000.0);
    }
}

/* A word that is no whole number is 0, which is no unit. */
static int64_t number_of(const char *word)
{
    char *end;
    int64_t number = strtoll(word, &end, 10);
    return end != word && *end == '\0' ? number : 0;
}

static int refused(uint32_t number)
{
    fprintf(stderr, "refused %u: %s\n", (unsigned)number, buckettin_why(number));
    return 1;
}

int main(int argc, char **argv)
{
    uint8_t sheet[SHEET], result[RESULT];
    size_t length;
    int k;
    if (argc != 4) {
        fprintf(stderr, "sheet UNIT LATITUDE LONGITUDE, as: sheet 7 350000.000N 0330000.000E\n");
        return 2;
    }
    buckettin_read_t latitude = buckettin_read_latitude((const uint8_t *)argv[2], strlen(argv[2]));
    if (latitude.refusal != BUCKETTIN_ANSWERED) return refused(latitude.refusal);
    buckettin_read_t longitude = buckettin_read_longitude((const uint8_t *)argv[3], strlen(argv[3]));
    if (longitude.refusal != BUCKETTIN_ANSWERED) return refused(longitude.refusal);

    length = put(sheet, 0, SERIAL, 4);
    length = put_datums(sheet, length);
    length = put_points(sheet, length, latitude.ms, longitude.ms);
    buckettin_written_t written = buckettin_sheet(number_of(argv[1]), sheet, length, result, sizeof result);
    if (written.refusal != BUCKETTIN_ANSWERED) return refused(written.refusal);
    printf("unit %lu, %lu points\n", (unsigned long)number_at(result, 4), (unsigned long)number_at(result + 4, 2));
    for (k = 0; k < POINTS; k++) print_record(codes[k], result + HEAD + RECORD * k);
    return 0;
}
