/* A call made through the independent implementation and through another, side by side. */
#ifndef CHECK_H
#define CHECK_H

#include "call.h"

/* Sets up the memory of the calls. */
void start_checks(void);

/* From here on, a call that reads or writes astray is printed, and ends the program with 1; so does abort. */
void print_astray(void);

/* Makes a call through both, and again for each place where its bytes and its buffer can lie: directly before a page that must
   not be touched, directly after one, and nowhere (NULL) where they have no bytes. The buffer comes filled with bytes that
   depend on fill. A difference is printed, and is false. The independent answer is left in *answer. */
bool is_same(const struct implementation *other, const struct call *call, uint32_t fill, struct answer *answer);

#endif
