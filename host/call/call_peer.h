/* A call made by the second program, which for the line of a number is
   lines.h. */
#ifndef HOST_CALL_PEER_H
#define HOST_CALL_PEER_H

#include "call.h"

caller call_peer;

#endif
