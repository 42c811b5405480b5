/* A server as a process (shared_calls.h), seen by the one that starts it and
   hands it calls. */
#ifndef HOST_SERVER_PROCESS_H
#define HOST_SERVER_PROCESS_H

#include "shared_calls.h"

/* Starts the server by these words and gives back the slots that are shared
   with it. */
struct slot *start_server(char **command);

/* Hands it a slot that is filled; waits until the slot's calls are made, false
   if the server has ended before. */
void hand_slot(unsigned number);
bool take_slot(unsigned number);

/* Has the server ended.  False if it did not end well. */
bool end_server(void);

#endif
