/* Clears the book of a file by the proved library and prints its sheet; standard error tells more. At the root of the repository:
 *
 *     ./build library
 *     cc -Iinclude -o clear examples/clear.c target/lib/libauction.a
 *     ./clear samples/S5.book
 *
 * Exit codes: 0 for a sheet, 1 for a refusal, 2 where the file cannot be read or the sheet cannot be written.
 */
#include "auction.h"

#include <errno.h>
#include <stdio.h>
#include <string.h>

/* One byte more than a book may have, so that a longer file is refused and not cut. */
static uint8_t book[AUCTION_MOST_BOOK + 1];
static uint8_t result[AUCTION_RESULT_SIZE(AUCTION_MOST_RECORDS)];
static uint8_t sheet[AUCTION_MOST_SHEET];
static uint8_t families[AUCTION_MOST_FAMILIES];
static uint8_t cash[AUCTION_MOST_CASH];

/* The number in 4 bytes, high byte first. */
static uint32_t number_at(const uint8_t *bytes)
{
    return (uint32_t)bytes[0] << 24 | (uint32_t)bytes[1] << 16 | (uint32_t)bytes[2] << 8 | bytes[3];
}

/* Reads the file into `book`; answers whether that went well. */
static int load(const char *name, size_t *length)
{
    FILE *file = fopen(name, "rb");
    if (file == NULL)
        return 0;
    *length = fread(book, 1, sizeof book, file);
    int whole = !ferror(file);
    int error = errno;
    fclose(file);
    errno = error;
    return whole;
}

/* Tells hour 1 of an accepted book, with the published blocks and with none. */
static void tell_hour_1(size_t length)
{
    size_t records = (size_t)book[0] << 8 | book[1];
    /* The outcome is in `result`, with the price of hour 1 after the 8 bytes of the welfare. */
    if (auction_clear(book, length, result, AUCTION_RESULT_SIZE(records)) == AUCTION_DONE)
        fprintf(stderr, "hour 1: price %u, traded %u\n", number_at(result + 8), number_at(result + 12));
    if (auction_price(book, length, 0, 1, AUCTION_PART_ANSWER) == AUCTION_DONE)
        fprintf(stderr, "hour 1 without blocks: price %u\n", auction_price(book, length, 0, 1, AUCTION_PART_PRICE));
}

int main(int count, char **words)
{
    size_t length;
    if (count != 2) {
        fputs("usage: clear BOOK\n", stderr);
        return 2;
    }
    if (!load(words[1], &length)) {
        fprintf(stderr, "clear: %s: %s\n", words[1], strerror(errno));
        return 2;
    }
    uint32_t refusal = auction_read(book, length);
    if (refusal == AUCTION_DONE) {
        tell_hour_1(length);
        /* What each family of linked blocks gains. */
        fwrite(families, 1, auction_families(book, length, families, sizeof families), stderr);
        /* What each portfolio buys and sells, pays and receives. */
        fwrite(cash, 1, auction_cash(book, length, cash, sizeof cash), stderr);
    }
    /* Of a refused book the sheet is `refused;` and the number. */
    fwrite(sheet, 1, auction_sheet(book, length, sheet, sizeof sheet), stdout);
    if (fflush(stdout) != 0) {
        fprintf(stderr, "clear: cannot write standard output: %s\n", strerror(errno));
        return 2;
    }
    return refusal != AUCTION_DONE;
}
