/* Runs the job of standard input, and writes its report. */
#include "kdf9.h"

#include <stdio.h>
#include <stdlib.h>

/* All bytes of a stream, and their number; null where there is no memory for them. */
static char *read_all(FILE *stream, size_t *length)
{
    size_t room = 4096;
    char *bytes = malloc(room);
    *length = 0;
    while (bytes != NULL) {
        *length += fread(bytes + *length, 1, room - *length, stream);
        if (*length < room)
            return bytes;
        char *more = realloc(bytes, room *= 2);
        if (more == NULL)
            free(bytes);
        bytes = more;
    }
    return NULL;
}

int main(void)
{
    size_t length;
    char *job = read_all(stdin, &length);
    if (job == NULL)
        return KDF9_NO_MEMORY;

    /* The first call has no room: it says how much the text wants. */
    uint64_t size = 0;
    uint32_t status = kdf9_run("run\n", 4, job, length, NULL, 0, &size);
    char *text = malloc(size);
    if (text == NULL || status == KDF9_NO_MEMORY)
        return KDF9_NO_MEMORY;
    status = kdf9_run("run\n", 4, job, length, text, size, &size);
    if (status != KDF9_NO_MEMORY)
        fwrite(text, 1, size, stdout);
    free(text);
    free(job);
    return (int)status;
}
