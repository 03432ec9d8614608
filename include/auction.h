/* The proved clearing of a day-ahead auction, for C and C++. `./build library` makes target/lib/libauction.a and libauction.so.
 *
 * A book is a string of bytes, and so is a list (docs/FORMATS.md). A call takes any bytes of any length: it always ends, answers
 * as said below, reads and writes within the lengths it is given, and keeps no pointer. Each pointer must be valid for its
 * length, and what a call writes to must not overlap its book. The calls share nothing: any number of threads may call at once,
 * each with AUCTION_STACK bytes of stack. A call has no heap.
 *
 * The bindings take the numbers from here, and the words of a refusal from the comment behind it.
 */
#ifndef AUCTION_H
#define AUCTION_H

#include <stddef.h>
#include <stdint.h>

#ifdef __cplusplus
extern "C" {
#endif

/* Sizes, in bytes where nothing else is said. */
#define AUCTION_HOURS 24              /* hours in a result, whatever the length of the day */
#define AUCTION_RECORD_SIZE 16        /* a record of a book */
#define AUCTION_MOST_RECORDS 2048     /* records of a book, the head included */
#define AUCTION_MOST_BOOK 32768       /* a book; a longer one is refused */
#define AUCTION_RESULT_HEAD 196       /* a result, before what its records add */
#define AUCTION_RESULT_RECORD 4       /* what each record of the book adds, the head included */
#define AUCTION_MOST_SHEET 781        /* a sheet */
#define AUCTION_MOST_FAMILIES 587     /* a family report */
#define AUCTION_MOST_CASH 22564       /* a cash sheet */
#define AUCTION_ENTRY_SIZE 16         /* an entry of a list, a step */
#define AUCTION_MOST_ENTRIES 256      /* entries of a list */
#define AUCTION_MOST_LIST 4096        /* a list; a longer one is refused */
#define AUCTION_STACK 2097152         /* the stack that a call needs at most */

/* The size of the result of a book with so many records, the head included. */
#define AUCTION_RESULT_SIZE(records) (AUCTION_RESULT_HEAD + AUCTION_RESULT_RECORD * (size_t)(records))

/* Answers. The first refusal whose cause holds is given, in the order 1 to 6, 9 to 11, and then the call's own, 7 or 8; R is the
 * record count, the first two bytes of a book. A list has no refusal but 17. A refusal is a byte. */
#define AUCTION_DONE 0                /* accepted, cleared, or published */
#define AUCTION_REFUSED_LENGTH 1      /* length not 16 x R, below 16 bytes, or R outside 1 to 2048 */
#define AUCTION_REFUSED_HEAD 2        /* head: hours not 23, 24 or 25, edition not 1 to 4, or bytes 8 to 15, from edition 3 on bytes 10 to 15, not all 0 */
#define AUCTION_REFUSED_CHAIN 3       /* on a chain: an index of R or more, a kind not the chain's, or a number that does not rise */
#define AUCTION_REFUSED_FIELD 4       /* on a chain: any other field outside its range */
#define AUCTION_REFUSED_STRAY 5       /* a record on no chain */
#define AUCTION_REFUSED_BLOCKS 6      /* more than 32 blocks, or of one portfolio more than 5 in edition 1, 10 in editions 2 to 4 */
#define AUCTION_REFUSED_RESULT 7      /* a result buffer not of 196 + 4 x R bytes */
#define AUCTION_REFUSED_CALL 8        /* an hour outside 1 to 24, hour 3 of a 23-hour day, or a set that names a block position not there */
#define AUCTION_REFUSED_HOURS 9       /* on a 23-hour day: a step for hour 3, or a block with fewer than two other hours */
#define AUCTION_REFUSED_LINK 10       /* a link that names a block not in the book, or whose parent's number is not below the child's */
#define AUCTION_REFUSED_STEPS 11      /* in edition 4: more than 256 steps of a portfolio in one hour */
#define AUCTION_REFUSED_LIST 17       /* a list longer than 4096 bytes or not a multiple of 16 bytes, a field of it out of range, or a low above its high */
#define AUCTION_DOES_NOT_CLEAR 256    /* no price clears the hour under the set; no refusal */

/* The parts of a price. */
#define AUCTION_PART_ANSWER 0         /* whether there is a price */
#define AUCTION_PART_LOW 1            /* L, the least clearing price */
#define AUCTION_PART_HIGH 2           /* H, the greatest clearing price */
#define AUCTION_PART_PRICE 3          /* the middle price, in every edition: (L + H) / 2, rounded down */

/* The parts of a price range. */
#define AUCTION_RANGE_ANSWER 0        /* whether there is a range */
#define AUCTION_RANGE_LEAST 1         /* the least price */
#define AUCTION_RANGE_GREATEST 2      /* the greatest price */

/* Reads a book: AUCTION_DONE where it is accepted, or its refusal, 1 to 6 or 9 to 11. */
uint32_t auction_read(const uint8_t *book, size_t book_len);

/* Prices an hour, 1 to 24, under a set of blocks, whose lowest bit is the first block of the chain; any set, whatever the links
 * say. One part of the answer: AUCTION_PART_ANSWER gives AUCTION_DONE, AUCTION_DOES_NOT_CLEAR, or the refusal, 1 to 6, 9 to 11
 * or 8; the other parts give a price in cents per MWh, or 0 where there is none. Hour 3 of a 23-hour day has no price. */
uint32_t auction_price(const uint8_t *book, size_t book_len, uint32_t set, uint32_t hour, uint32_t part);

/* Clears the day: AUCTION_DONE where every byte of the result is written, or the refusal, 1 to 6, 9 to 11 or 7, and the result
 * stays as it was. The result has AUCTION_RESULT_SIZE(R) bytes, no more and no less, whatever the length of the day; hour 3 of a
 * 23-hour day has price and quantity 0, a link has 0, and steps at the price share their side's amount in proportion. The price
 * of an hour is the middle one, from edition 4 on that at the shift of the published set, which may lie elsewhere from L to H. */
uint32_t auction_clear(const uint8_t *book, size_t book_len, uint8_t *result, size_t result_len);

/* Writes a book's sheet, or the line `refused;` and the number, to the start of `out`, and answers its length, at most
 * AUCTION_MOST_SHEET. Where `out` is shorter than what there is to write it stays as it was. */
uint32_t auction_sheet(const uint8_t *book, size_t book_len, uint8_t *out, size_t out_len);

/* Writes a book's family report, or the line `refused;` and the number, to the start of `out`, and answers its length, at most
 * AUCTION_MOST_FAMILIES. Where `out` is shorter than what there is to write it stays as it was. */
uint32_t auction_families(const uint8_t *book, size_t book_len, uint8_t *out, size_t out_len);

/* Writes a book's cash sheet, or the line `refused;` and the number, to the start of `out`, and answers its length, at most
 * AUCTION_MOST_CASH. Where `out` is shorter than what there is to write it stays as it was. */
uint32_t auction_cash(const uint8_t *book, size_t book_len, uint8_t *out, size_t out_len);

/* The least and the greatest price of an hour without blocks whose quantities are uncertain, over all choices of quantities that
 * lie between the low and the high figure of each step. A step of the list is four numbers of 4 bytes, high byte first: side, 0
 * buy or 1 sell, price, low, high. One part of the answer: AUCTION_RANGE_ANSWER gives AUCTION_DONE or AUCTION_REFUSED_LIST; the
 * other parts give a price in cents per MWh, or 0 where there is none. */
uint32_t auction_range(const uint8_t *list, size_t list_len, uint32_t part);

#ifdef __cplusplus
}
#endif

#endif
