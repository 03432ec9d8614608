/* The least and the greatest price of a file's list, an hour of steps whose quantities are uncertain, by the proved library. At
 * the root of the repository:
 *
 *     ./build library
 *     cc -Iinclude -o range examples/range.c target/lib/libauction.a
 *     ./range samples/wind.list
 *
 * Exit codes: 0 for a range, 1 for a refusal, 2 where the file cannot be read or the answer cannot be written.
 */
#include "auction.h"

#include <errno.h>
#include <stdio.h>
#include <string.h>

/* One byte more than a list may have, so that a longer file is refused and not cut. */
static uint8_t list[AUCTION_MOST_LIST + 1];

/* Reads the file into `list`; answers whether that went well. */
static int load(const char *name, size_t *length)
{
    FILE *file = fopen(name, "rb");
    if (file == NULL)
        return 0;
    *length = fread(list, 1, sizeof list, file);
    int whole = !ferror(file);
    int error = errno;
    fclose(file);
    errno = error;
    return whole;
}

int main(int count, char **words)
{
    size_t length;
    if (count != 2) {
        fputs("usage: range LIST\n", stderr);
        return 2;
    }
    if (!load(words[1], &length)) {
        fprintf(stderr, "range: %s: %s\n", words[1], strerror(errno));
        return 2;
    }
    uint32_t refusal = auction_range(list, length, AUCTION_RANGE_ANSWER);
    if (refusal != AUCTION_DONE)
        printf("refused;%u\n", refusal);
    else {
        printf("least;%u\n", auction_range(list, length, AUCTION_RANGE_LEAST));
        printf("greatest;%u\n", auction_range(list, length, AUCTION_RANGE_GREATEST));
    }
    if (fflush(stdout) != 0) {
        fprintf(stderr, "range: cannot write standard output: %s\n", strerror(errno));
        return 2;
    }
    return refusal != AUCTION_DONE;
}
