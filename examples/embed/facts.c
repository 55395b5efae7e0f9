/* Writes what there is to know of the run of the job in standard input, as JSON. */
#include "kdf9.h"

#include <stdio.h>
#include <stdlib.h>

static char job[4194304 + 1];

int main(void)
{
    size_t length = fread(job, 1, sizeof job, stdin);
    uint64_t size = 0, room = 1 << 26;
    char *text = malloc(room);
    uint32_t status;
    if (text == NULL)
        room = 0;

    /* A room that is too small is told what is wanted, and the job is run again: so the first one is large. What isn't written to takes no memory. */
    while ((status = kdf9_facts("run\n", 4, job, length, text, room, &size)) == KDF9_NO_ROOM) {
        free(text);
        text = malloc(room = size);
        if (text == NULL)
            return KDF9_NO_MEMORY;
    }
    if (status != KDF9_NO_MEMORY)
        fwrite(text, 1, size, stdout);
    free(text);
    return (int)status;
}
