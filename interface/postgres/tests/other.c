/* The stand-in for the library as a module of the server, whose names all modules see that are loaded after it. */
#include "postgres.h"

#include "fmgr.h"

#include "../../c/stand_in.c"

PG_MODULE_MAGIC;
