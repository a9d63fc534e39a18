/* The desk of the base for C: 1,024 resting orders, 128 prices a side; and orders on a tape. Link target/staticlib/libffi.a (`rust/library`). x86-64.
 *
 * Storage is lent, and the caller owns it. The numbers that every call on a book takes:
 *
 *   desk      12 numbers: the small values of a book.
 *               [0] resting orders    [1] code of the first free record (0: none)    [2] bid rows    [3] ask rows
 *               [4] tracking (0 no, anything else yes)    [5] traded volume
 *               [6] a last trade is present (0 no, anything else yes), and if so:
 *               [7] its total quantity    [8] the bits of its average price as a double    [9] its whole average price
 *               [10] its last price    [11] its last quantity
 *             An accepted call that changes the desk writes all twelve anew: 0 or 1 at [4] and [6], 0 at [7] to [11] where there is no last trade, and
 *             for every NaN at [8] the pattern 0x7ff8000000000000.
 *   records   5,120 numbers: 1,024 rows of id, quantity, price, next, previous. A record's code is its row + 1, and 0 is none. Free records have
 *             quantity 0 and are a chain over next.
 *   bids      384 numbers: 128 rows of price, code of the first order, code of the last. The rows in use come first, prices ascending.
 *   asks      384 numbers: as bids.
 *   search    2,048 places: 0, or the code of a record. An id's home is the id modulo 2,048.
 *
 * Each slice passes as a pointer and its length (a count of numbers, not bytes). Whatever the numbers and the lengths are, a call answers, ends and
 * touches nothing but what it was lent. The pointers must be valid for their lengths, and no two pieces of memory may overlap; a slice of length 0 still
 * wants a pointer that isn't null.
 *
 * A call returns 0, or the number of its refusal, and then nothing lent has changed, `answer` included:
 *   1  the stored book isn't whole, or storage has wrong lengths
 *   2  the fills outnumber the places lent for them
 *   3  tracking is on, there are fills, and the sum of price times quantity or the new volume exceeds 2^64 - 1
 *   4  a remainder would rest and 1,024 orders rest already
 *   5  a remainder would rest at a price new to its side, and that side has 128
 *   6  depth needs more places than lent
 *   7  a level's total exceeds 2^64 - 1
 *   8  the tag of a tape's field, or the kind of an order to be written, is none of 1, 2 and 3
 *   9  a field's length isn't that of its tag
 *   10 the side is neither 0 nor 1 (for an order on a book, looked at before anything else)
 *   11 the tape ends within a field
 *   19 an order's field is longer than the room lent for it
 */
#ifndef FELAVUTI_H
#define FELAVUTI_H

#include <stddef.h>
#include <stdint.h>

#define FELAVUTI_DESK 12
#define FELAVUTI_RECORDS 5120
#define FELAVUTI_LEVELS 384
#define FELAVUTI_PLACES 2048
#define FELAVUTI_ANSWER 4
#define FELAVUTI_FILL 5   /* numbers in a fill's row */
#define FELAVUTI_LEVEL 2  /* numbers in a row of depth */
#define FELAVUTI_ORDER 6  /* numbers in an order of a tape */
#define FELAVUTI_FIELD 28 /* bytes in the longest field, a limit order's */

enum { FELAVUTI_BID = 0, FELAVUTI_ASK = 1 };
enum { FELAVUTI_END = 0, FELAVUTI_MARKET = 1, FELAVUTI_LIMIT = 2, FELAVUTI_CANCEL = 3 };
enum { FELAVUTI_UNFILLED = 0, FELAVUTI_PLACED = 1, FELAVUTI_CANCELED = 2, FELAVUTI_PARTIALLY_FILLED = 3, FELAVUTI_FILLED = 4 };

#ifdef __cplusplus
extern "C" {
#endif

/* A fresh book of whatever the storage holds: no orders, volume 0, no last trade, tracking off. Refused with 1 where a length is wrong. */
uint64_t felavuti_fresh(uint64_t desk[12], uint64_t *records, size_t records_len, uint64_t *bids, size_t bids_len, uint64_t *asks, size_t asks_len,
                        uint64_t *search, size_t search_len);

/* A market order. side: 0 bid, 1 ask.
 * fills: rows of 5 numbers, as many as fills_len / 5: taker, maker, quantity, price, side and use (taker's side: bid 0, ask 2; plus 1 if the maker
 * was used up). What lies beyond the fills keeps its value.
 * answer: event (FELAVUTI_UNFILLED ..), id, filled quantity, number of fills. Refused with 1, 2, 3, 10. */
uint64_t felavuti_market(uint64_t desk[12], uint64_t *records, size_t records_len, uint64_t *bids, size_t bids_len, uint64_t *asks, size_t asks_len,
                         uint64_t *search, size_t search_len, uint64_t *fills, size_t fills_len, uint64_t id, uint64_t side, uint64_t qty,
                         uint64_t answer[4]);

/* A limit order. side, fills and answer as for a market order. Refused with 1, 2, 3, 4, 5, 10. */
uint64_t felavuti_limit(uint64_t desk[12], uint64_t *records, size_t records_len, uint64_t *bids, size_t bids_len, uint64_t *asks, size_t asks_len,
                        uint64_t *search, size_t search_len, uint64_t *fills, size_t fills_len, uint64_t id, uint64_t side, uint64_t qty, uint64_t price,
                        uint64_t answer[4]);

/* The order found under the id leaves, if there is one. answer: FELAVUTI_CANCELED, id, 0, 0. Refused with 1. */
uint64_t felavuti_cancel(uint64_t desk[12], uint64_t *records, size_t records_len, uint64_t *bids, size_t bids_len, uint64_t *asks, size_t asks_len,
                         uint64_t *search, size_t search_len, uint64_t id, uint64_t answer[4]);

/* The lowest ask, the highest bid, and the lowest ask less the highest bid. answer: present (0 or 1), price or spread, 0, 0. Refused with 1. */
uint64_t felavuti_min_ask(const uint64_t desk[12], const uint64_t *records, size_t records_len, const uint64_t *bids, size_t bids_len,
                          const uint64_t *asks, size_t asks_len, const uint64_t *search, size_t search_len, uint64_t answer[4]);
uint64_t felavuti_max_bid(const uint64_t desk[12], const uint64_t *records, size_t records_len, const uint64_t *bids, size_t bids_len,
                          const uint64_t *asks, size_t asks_len, const uint64_t *search, size_t search_len, uint64_t answer[4]);
uint64_t felavuti_spread(const uint64_t desk[12], const uint64_t *records, size_t records_len, const uint64_t *bids, size_t bids_len,
                         const uint64_t *asks, size_t asks_len, const uint64_t *search, size_t search_len, uint64_t answer[4]);

/* Every occupied price with its total. out: rows of 2 numbers (price, total), as many as out_len / 2; asks from its start, then bids, both ascending;
 * what lies beyond keeps its value. levels is echoed and cuts nothing off. answer: levels, asks, bids, 0. Refused with 1, 6, 7. */
uint64_t felavuti_depth(const uint64_t desk[12], const uint64_t *records, size_t records_len, const uint64_t *bids, size_t bids_len,
                        const uint64_t *asks, size_t asks_len, const uint64_t *search, size_t search_len, uint64_t *out, size_t out_len, uint64_t levels,
                        uint64_t answer[4]);

/* The order that the search finds under an id. answer: found (0 or 1), price, quantity, places looked at. Refused with 1. */
uint64_t felavuti_get(const uint64_t desk[12], const uint64_t *records, size_t records_len, const uint64_t *bids, size_t bids_len,
                      const uint64_t *asks, size_t asks_len, const uint64_t *search, size_t search_len, uint64_t id, uint64_t answer[4]);

/* Whether a stored book is whole, at any size: room for `orders` resting orders and `prices` prices a side (1024 and 128 for all other calls). Then records
 * have 5 * orders numbers, bids and asks 3 * prices each, and the search 2 * orders places: an id's home is the id modulo that. Of the desk's numbers
 * [0] to [3] count. Returns 0 where the book is whole, and 1 where it isn't, a length is wrong, or orders is 0. It changes nothing. */
uint64_t felavuti_check(size_t orders, size_t prices, const uint64_t desk[12], const uint64_t *records, size_t records_len, const uint64_t *bids,
                        size_t bids_len, const uint64_t *asks, size_t asks_len, const uint64_t *search, size_t search_len);

/* Switches tracking: desk[4] becomes 0 where on is 0, and 1 otherwise; nothing else changes. Never refused: it returns 0. */
uint64_t felavuti_track_stats(uint64_t desk[12], uint64_t on);

/* Orders on a tape. Each is a field: a tag of one byte, a length of two, and its numbers, every one high byte first.
 *   tag 1, market   id 8 bytes, side 1 (0 bid, 1 ask), quantity 8: length 17
 *   tag 2, limit    the same, then price 8: length 25
 *   tag 3, cancel   id 8: length 8
 * An order is 6 numbers: [0] kind, which is its tag (FELAVUTI_MARKET ..; FELAVUTI_END where there is none)    [1] id    [2] side    [3] quantity
 *   [4] price    [5] the place behind its field. A number that the kind doesn't have is read as 0, and not looked at when the order is written.
 * `at` is a place of the tape, a count of bytes from its beginning, and may be any. */

/* What stands at a place of a tape: an order, or the end, with kind 0, the next four numbers 0, and `at` as the place; past the end of the bytes is the
 * end too. All 6 numbers are written. A tape is read by starting at 0 and going on at order[5] until order[0] is 0. Refused, checked in this order, with 11
 * where one or two bytes are left, 8, 9, 11 where the value is cut off, 10 (a cancel has no side); the bad field begins at `at`, and `order` is as it was. */
uint64_t felavuti_read_order(const uint8_t *tape, size_t tape_len, size_t at, uint64_t order[6]);

/* Writes an order at a place of a tape. order[5], whatever it was, becomes the place behind its field; the order's other numbers, and the bytes before and
 * behind the field, keep their values. What is written reads back as the same order. Refused, checked in this order, with 8, 10 (not for a cancel), 19, and
 * then neither the tape nor `order` has changed. */
uint64_t felavuti_write_order(uint8_t *tape, size_t tape_len, size_t at, uint64_t order[6]);

#ifdef __cplusplus
}
#endif

#endif
