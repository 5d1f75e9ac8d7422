/* A second implementation of every call of include/buckettin.h, written from documents 000 and 01, without looking at the crates;
   the waypoint is written from document 02. It shares the header's types and nothing else. */
#ifndef INDEPENDENT_H
#define INDEPENDENT_H

#include "buckettin.h"

buckettin_shift_t   independent_shift(int64_t code, int64_t latitude_ms, int64_t longitude_ms);
buckettin_geoid_t   independent_geoid(int64_t code, int64_t latitude_ms, int64_t longitude_ms);
double              independent_first(int64_t code, int64_t latitude_ms, int64_t longitude_ms);
double              independent_second(int64_t code, int64_t latitude_ms, int64_t longitude_ms);
double              independent_third(int64_t code, int64_t latitude_ms, int64_t longitude_ms);
uint32_t            independent_refusal(int64_t code, int64_t latitude_ms, int64_t longitude_ms);
buckettin_read_t    independent_read_latitude(const uint8_t *text, size_t length);
buckettin_read_t    independent_read_longitude(const uint8_t *text, size_t length);
buckettin_written_t independent_write_latitude(int64_t latitude_ms, uint8_t *out, size_t room);
buckettin_written_t independent_write_longitude(int64_t longitude_ms, uint8_t *out, size_t room);
buckettin_written_t independent_sheet(int64_t unit_serial, const uint8_t *sheet, size_t length, uint8_t *result, size_t room);
buckettin_written_t independent_line(const uint8_t *line, size_t length, uint8_t *out, size_t room);
buckettin_written_t independent_waypoint(int64_t code, int64_t latitude_ms, int64_t longitude_ms, uint8_t *out, size_t room);

#endif
