/* What every server does, whoever makes its calls: the server's side of what
   shared_calls.h describes. */
#ifndef HOST_SERVER_H
#define HOST_SERVER_H

#include "shared_calls.h"

/* Makes the calls of slot after slot until there are no more.  Gives back the
   exit status. */
int run_server(caller *make);

#endif
