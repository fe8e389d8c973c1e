/*
 * host FILE: plays the session file FILE and writes its listing to standard output, or, if the file
 * is refused, the number of the refusal as one line. The status is 0 in both cases, as that of
 * program rig; it is 1 if the file cannot be read or the listing not be written, 2 for bad usage.
 */
#include "rig.h"

#include <stdio.h>

/* One byte more than the longest file, so that a file which is too long is seen to be. */
#define FILE_BYTES 65536

static uint8_t file[FILE_BYTES];
static uint8_t listing[RIG_LISTING_BYTES];

/* Reads the file named name and sets *length. Answers 0 if it could not be read. */
static int read_file(const char *name, size_t *length)
{
    FILE *in = fopen(name, "rb");
    if (in == NULL)
        return 0;
    *length = fread(file, 1, sizeof file, in);
    int read_all = !ferror(in);
    fclose(in);
    return read_all;
}

int main(int count, char **words)
{
    if (count != 2) {
        fprintf(stderr, "usage: host FILE\n");
        return 2;
    }
    size_t length = 0;
    if (!read_file(words[1], &length)) {
        perror(words[1]);
        return 1;
    }
    uint32_t answer = rig_session(file, length, listing, sizeof listing);
    if (answer >= RIG_REFUSED)
        printf("%u\n", (unsigned)(answer - RIG_REFUSED));
    else
        fwrite(listing, 1, answer, stdout);
    return fflush(stdout) == 0 && !ferror(stdout) ? 0 : 1;
}
