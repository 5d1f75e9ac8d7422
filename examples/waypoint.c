/* A GPX file of two points, for a drawing program: waypoint CODE LATITUDE LONGITUDE LATITUDE LONGITUDE prints the file with both
   positions on WGS 84, or why one of them is refused, and then no file.

       cc -I include examples/waypoint.c target/staticlib/libbuckettin.a -o waypoint
       ./waypoint 1 350000.000N 0330000.000E 344323.316N 0322806.026E

   prints

       <?xml version="1.0" encoding="UTF-8"?>
       <gpx version="1.1" creator="waypoint" xmlns="http://www.topografix.com/GPX/1/1">
       <wpt lat="34.998932533" lon="32.999693628"/>
       <wpt lat="34.722064278" lon="32.468027664"/>
       </gpx> */
#include "buckettin.h"

#include <stdio.h>
#include <stdlib.h>
#include <string.h>

enum { POINTS = 2 };

/* An element has no NUL behind it: its length is kept. */
struct element {
    uint8_t bytes[BUCKETTIN_WAYPOINT_ROOM];
    size_t length;
};

static int refused(uint32_t number)
{
    fprintf(stderr, "refused %u: %s\n", (unsigned)number, buckettin_why(number));
    return 1;
}

/* Makes the waypoint of a position as text; 0, or 1 where it is refused. */
static int make(struct element *element, int64_t code, const char *latitude_text, const char *longitude_text)
{
    buckettin_read_t latitude = buckettin_read_latitude((const uint8_t *)latitude_text, strlen(latitude_text));
    if (latitude.refusal != BUCKETTIN_ANSWERED) return refused(latitude.refusal);
    buckettin_read_t longitude = buckettin_read_longitude((const uint8_t *)longitude_text, strlen(longitude_text));
    if (longitude.refusal != BUCKETTIN_ANSWERED) return refused(longitude.refusal);
    buckettin_written_t written =
        buckettin_waypoint(code, latitude.ms, longitude.ms, element->bytes, sizeof element->bytes);
    if (written.refusal != BUCKETTIN_ANSWERED) return refused(written.refusal);
    element->length = written.written;
    return 0;
}

/* A word that is no whole number is 0, which is no code. */
static int64_t number_of(const char *word)
{
    char *end;
    int64_t number = strtoll(word, &end, 10);
    return end != word && *end == '\0' ? number : 0;
}

int main(int argc, char **argv)
{
    struct element elements[POINTS];
    int k;
    if (argc != 2 + 2 * POINTS) {
        fprintf(stderr, "waypoint CODE LATITUDE LONGITUDE LATITUDE LONGITUDE, as: "
                        "waypoint 1 350000.000N 0330000.000E 344323.316N 0322806.026E\n");
        return 2;
    }
    for (k = 0; k < POINTS; k++) {
        if (make(&elements[k], number_of(argv[1]), argv[2 + 2 * k], argv[3 + 2 * k]) != 0) return 1;
    }
    printf("<?xml version=\"1.0\" encoding=\"UTF-8\"?>\n"
           "<gpx version=\"1.1\" creator=\"waypoint\" xmlns=\"http://www.topografix.com/GPX/1/1\">\n");
    for (k = 0; k < POINTS; k++) printf("%.*s\n", (int)elements[k].length, (const char *)elements[k].bytes);
    printf("</gpx>\n");
    return 0;
}
