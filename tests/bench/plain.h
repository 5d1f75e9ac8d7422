/* What include/buckettin.h declares, in plain C: each call takes and gives the same as the one of that name there. */
#ifndef PLAIN_H
#define PLAIN_H

#include "buckettin.h"

#define LINE 26               /* bytes of a line, before its line feed */
#define ANSWER 36             /* bytes of the longest answer, with its line feed */
#define ELEMENT 47            /* bytes of the longest waypoint */

buckettin_shift_t   plain_shift(int64_t code, int64_t latitude_ms, int64_t longitude_ms);
buckettin_geoid_t   plain_geoid(int64_t code, int64_t latitude_ms, int64_t longitude_ms);
double              plain_first(int64_t code, int64_t latitude_ms, int64_t longitude_ms);
buckettin_read_t    plain_read_latitude(const uint8_t *text, size_t length);
buckettin_read_t    plain_read_longitude(const uint8_t *text, size_t length);
buckettin_written_t plain_write_latitude(int64_t latitude_ms, uint8_t *out, size_t room);
buckettin_written_t plain_write_longitude(int64_t longitude_ms, uint8_t *out, size_t room);
buckettin_written_t plain_sheet(int64_t unit_serial, const uint8_t *sheet, size_t length, uint8_t *result, size_t room);
buckettin_written_t plain_line(const uint8_t *line, size_t length, uint8_t *out, size_t room);
buckettin_written_t plain_waypoint(int64_t code, int64_t latitude_ms, int64_t longitude_ms, uint8_t *out, size_t room);

#endif
