/* What macros, folders and compilers make of a header: it is read with -D CONFIGURED=.. and -I of a folder that has
   configured/part.h. Nothing that it includes from elsewhere is told. */
#ifndef CONFIGURED
#error "wants -D CONFIGURED"
#endif
#include "configured/part.h"
#include <stdio.h>
API long CONFIGURED(long by_long, part_size by_part, const char *text);
