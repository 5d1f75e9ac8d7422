/* How often each function was tried, answered and refused. */
#ifndef TALLY_H
#define TALLY_H

#include "call.h"

/* For first, second and third, which refuse nothing, the refusal of the point is counted. */
void count_call(const struct call *call, struct answer answer);

void print_tally(void);

/* Whether each function, and the points of sheets, have been answered, and refused in each way that document 01, or 02, allows;
   prints those that have not. */
bool is_all_reached(void);

#endif
