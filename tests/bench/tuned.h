/* A point of include/buckettin.h, in C that is tuned for each code: each call takes and gives the same as the one of that name
   there. */
#ifndef TUNED_H
#define TUNED_H

#include "buckettin.h"

buckettin_shift_t   tuned_shift(int64_t code, int64_t latitude_ms, int64_t longitude_ms);
buckettin_geoid_t   tuned_geoid(int64_t code, int64_t latitude_ms, int64_t longitude_ms);

#endif
