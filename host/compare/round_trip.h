/* Files that are read, written and read again, and batches that are written and
   read. */
#ifndef HOST_ROUND_TRIP_H
#define HOST_ROUND_TRIP_H

#include <stdint.h>

/* Over so many files and so many batches; those that are refused are passed
   over. */
void round_trips(uint64_t count, uint64_t seed);

#endif
