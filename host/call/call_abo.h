/* A call made by the library. */
#ifndef HOST_CALL_ABO_H
#define HOST_CALL_ABO_H

#include "call.h"

caller call_abo;

#endif
