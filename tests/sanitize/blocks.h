/* What the programs that make dumped calls have in common: heap blocks of exact sizes, and the file of calls. */
#include <stdint.h>
#include <stdio.h>
#include <stdlib.h>
#include <string.h>

#include "../../package/include/gedrovit.h"

/* the tables for the results as dumped, uninitialised, or as dumped with a work table one entry shorter than told */
typedef enum { AS_DUMPED, UNINITIALISED, SHORT_WORK } manner;

static void *block(size_t bytes)
{
    void *memory = malloc(bytes);
    if (!memory) {
        fprintf(stderr, "no memory\n");
        exit(2);
    }
    return memory;
}

static void read_exactly(FILE *file, void *memory, size_t bytes)
{
    if (fread(memory, 1, bytes, file) != bytes) {
        fprintf(stderr, "the file is cut off\n");
        exit(2);
    }
}

/* the file that the arguments name */
static FILE *dumped(int count, char **arguments)
{
    FILE *file = count > 1 ? fopen(arguments[1], "rb") : NULL;
    if (!file) {
        fprintf(stderr, "usage: %s FILE [short]\n", arguments[0]);
        exit(2);
    }
    return file;
}

static int wants_short(int count, char **arguments) { return count > 2 && strcmp(arguments[2], "short") == 0; }

static void tell(unsigned long made, const char *what, int failed, int is_short)
{
    printf("%lu %s %s\n", made, what, failed ? "made, the last one differs" : is_short ? "made" : "agree, with tables as dumped and uninitialised");
}
