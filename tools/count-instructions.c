/* count-instructions.c WHAT FILE: asks the reader once, for tools/count-instructions, and prints the answer's code and count. */
#include <stdio.h>
#include <stdlib.h>
#include <string.h>

#include "sroviemat.h"

static void *some(size_t bytes)
{
    void *p = calloc(bytes, 1);
    if (!p)
        exit(3);
    return p;
}

int main(int argc, char **argv)
{
    FILE *file = argc == 3 ? fopen(argv[2], "rb") : NULL;
    if (!file || fseek(file, 0, SEEK_END))
        return 2;
    size_t bytes = ftell(file);
    uint8_t *text = some(bytes + 1);
    rewind(file);
    if (fread(text, 1, bytes, file) != bytes)
        return 2;

    const char *what = argv[1];
    uint32_t answer[SRV_ANSWER];
    uint64_t room = 2 * bytes + 3;
    /* Before interface 5 a record had no line. */
    uint64_t stride = srv_version() < 5 ? 3 : SRV_STRIDE;
    uint32_t *row = some(stride * room * sizeof *row);
    srv_measure(text, bytes, SRV_MODULE, 0, answer);
    if (!strcmp(what, "fits"))
        room = answer[1];
    if (strcmp(what, "measure"))
        srv_read(text, bytes, SRV_MODULE, 0, row, stride * room, answer);
    if (!strncmp(what, "edit", 4)) {
        /* A newline is typed behind the first one past so many hundredths of the text. */
        size_t at = bytes * atoi(what + 4) / 100;
        while (text[at] != '\n')
            at++;
        memmove(text + at + 1, text + at, bytes - at);
        srv_reread(text, bytes + 1, SRV_MODULE, row, stride * room, answer[1], at + 1, answer);
    }
    printf("%u %u\n", answer[0], answer[1]);
    return 0;
}
