/*
 * Checks from outside, on real calls, what the entries for reports and for means promise about their buffers, the
 * size of a reach, the status of each reach and what it leaves untold, and the mean of a river over the means of its
 * reaches.
 */
#ifndef PROMISES_H
#define PROMISES_H

#include "desk.h"

/*
 * Calls the entries for reports, for the size of a reach and for means on this file and on thousands made from it,
 * and says on standard output how many calls for reports and for means there were. The first broken promise is said on
 * standard error and ends the program with status 1.
 */
void check_promises(const char *path, const struct river *river);

#endif
