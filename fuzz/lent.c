/* Memory that is lent: for each buffer a stretch between two pages that may not be touched. */
#define _DEFAULT_SOURCE
#include <stdio.h>
#include <stdlib.h>
#include <sys/mman.h>
#include <unistd.h>

#include "fuzz.h"

static unsigned char *arenas[BUFFERS];
static size_t page, inside;

void open_arenas(void)
{
    int buffer;
    page = (size_t)sysconf(_SC_PAGESIZE);
    inside = (MOST_BYTES + page - 1) / page * page;
    for (buffer = 0; buffer < BUFFERS; buffer++) {
        unsigned char *pages = mmap(NULL, inside + 2 * page, PROT_NONE, MAP_PRIVATE | MAP_ANONYMOUS, -1, 0);
        if (pages == MAP_FAILED || mprotect(pages + page, inside, PROT_READ | PROT_WRITE) != 0) {
            printf("no memory\n");
            exit(1);
        }
        arenas[buffer] = pages + page;
    }
}

/* So many bytes that end at the later of these pages, or begin at the earlier one. */
void *lend(int buffer, size_t bytes, int at_end)
{
    return arenas[buffer] + (at_end ? inside - bytes : 0);
}

/* Whether these bytes may only be read. */
void only_read(int buffer, size_t bytes, int at_end, int yes)
{
    const size_t whole = (bytes + page - 1) / page * page;
    if (whole > 0 && mprotect(lend(buffer, whole, at_end), whole, yes ? PROT_READ : PROT_READ | PROT_WRITE) != 0) {
        printf("no memory that may only be read\n");
        exit(1);
    }
}
