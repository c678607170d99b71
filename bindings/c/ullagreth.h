/* The calls of Ullagreth for C programs. They stand in target/staticlib/libexport.a, which `tools/archive` proves and writes.
 *
 * A lent row passes as a pointer and then the number of its elements. The library takes the caller's word for both: no pointer is null (not
 * even with 0 elements), each is aligned for its type and has that many elements behind it, and a row that a call may write overlaps no other
 * row of that call. No call keeps a pointer, allocates, or has a state of its own.
 *
 * Every call takes a row `fault` last. With refusal 2 its first two places become the lowest-numbered rule of document 01 that the table breaks
 * (1 to 7) and the lowest slot where it does (0 to 255, or ULLAGRETH_HEADER), and with any other answer 0 and 0. The rest of the row stays; a row
 * of fewer than two places stays whole. */
#ifndef ULLAGRETH_H
#define ULLAGRETH_H

#include <stddef.h>
#include <stdint.h>

#ifdef __cplusplus
extern "C" {
#endif

/* The figures. The table is ULLAGRETH_WORDS words: the root's slot (-1 if empty), the number of points, then the slots: level (-1 if free),
 * number of entries, and eight entries of reference, x low, y low, x high, y high. */
enum {
    ULLAGRETH_WORDS = 10754,
    ULLAGRETH_SLOTS = 256,
    ULLAGRETH_SLOT_WORDS = 42,
    ULLAGRETH_MOST_ENTRIES = 8,
    ULLAGRETH_LEAST_ENTRIES = 3, /* of a node that is not the root */
    ULLAGRETH_MOST_POINTS = 500, /* a candidate list and an answer list of so many are never refused */
    ULLAGRETH_HIGHEST_NUMBER = 9999,
    ULLAGRETH_REACH = 1000000, /* a coordinate runs from -ULLAGRETH_REACH to ULLAGRETH_REACH */
    ULLAGRETH_MOST_K = 16      /* and so the most names on a card: a list of so many is never refused */
};

/* The slot that is told for a fault in the two header words; below all slots. */
enum { ULLAGRETH_HEADER = -1 };

/* The numbers given back. */
enum {
    ULLAGRETH_DONE = 0,
    ULLAGRETH_WRONG_LENGTH = 1,     /* table not 10,754 words */
    ULLAGRETH_NOT_WELL_FORMED = 2,  /* table not well formed: the row `fault` tells where */
    ULLAGRETH_NO_SUCH_NUMBER = 3,   /* point number outside 1 to 9,999 */
    ULLAGRETH_OFF_GRID = 4,         /* a coordinate off the grid */
    ULLAGRETH_NO_SUCH_K = 5,        /* k outside 1 to 16 */
    ULLAGRETH_ALREADY_ENROLLED = 6, /* point already enrolled */
    ULLAGRETH_FULL = 7,             /* 500 points enrolled */
    ULLAGRETH_NOT_ENROLLED = 8,     /* point not enrolled */
    ULLAGRETH_FEW_CANDIDATES = 9,   /* candidate list shorter than the points enrolled */
    ULLAGRETH_SHORT_LIST = 10,      /* list shorter than what it is to get: the answers of a query, the names of a card */
    ULLAGRETH_MISSHAPEN = 11,       /* misshapen line: of the job sheet only, no call here gives it */
    ULLAGRETH_SHEET_TOO_LONG = 12   /* sheet longer than 65,536 bytes: of the job sheet only */
};

/* A record of the candidate list: 24 bytes without a hole. */
struct ullagreth_candidate {
    uint64_t number;
    int32_t x;
    int32_t y;
    uint64_t square; /* the squared distance to the query's place */
};

/* Makes ULLAGRETH_WORDS words the empty table. The only code of this header, and not proved; ullagreth_check grants what it makes. */
static inline void ullagreth_empty(int32_t *table)
{
    for (size_t i = 0; i < ULLAGRETH_WORDS; i++)
        table[i] = 0;
    table[0] = -1;
    for (size_t slot = 0; slot < ULLAGRETH_SLOTS; slot++)
        table[2 + ULLAGRETH_SLOT_WORDS * slot] = -1;
}

/* The table check. Gives 1 or 2, or 0 for a well-formed table. It writes nothing but the row `fault`. */
uint8_t ullagreth_check(const int32_t *table, size_t table_length, int32_t *fault, size_t fault_length);

/* Enrols a point at a place. Gives the first of 1, 2, 3, 4, 6, 7 whose line holds, and then every word of the table stays as it was; or 0, and
 * then the table is well formed and holds its former points and this one, laid out as document 01's way down and split say. */
uint8_t ullagreth_enrol(int32_t *table, size_t table_length, int32_t number, int32_t x, int32_t y, int32_t *fault, size_t fault_length);

/* Withdraws the point with a number. Gives the first of 1, 2, 3, 8 whose line holds, and then every word of the table stays as it was; or 0, and
 * then the table is well formed and holds its former points but this one, laid out as document 01's joining says. */
uint8_t ullagreth_withdraw(int32_t *table, size_t table_length, int32_t number, int32_t *fault, size_t fault_length);

/* Lists the points to which fewer than k others are as near as (x, y), or nearer. Gives the first of 1, 2, 4, 5, 9, 10 whose line holds, or 0:
 * then the front of the list has the m candidates in the order found, the front of the answers has the n point numbers, rising, and the rest of
 * both stays. Refusal 10 leaves the list as a success would and the answers as they were; any other refusal leaves both.
 * The first three counts become n, m, o (10: n, 0, 0; any other refusal: 0, 0, 0) and the rest stays; a row of fewer than three stays whole. */
uint8_t ullagreth_query(const int32_t *table, size_t table_length, int32_t x, int32_t y, int32_t k,
                        struct ullagreth_candidate *list, size_t list_length, uint32_t *answers, size_t answers_length,
                        uint64_t *counts, size_t counts_length, int32_t *fault, size_t fault_length);

/* Counts the answers at many places after one check of the table. Gives 1 or 2 as the check does, and then no count changes; or 0: then for each
 * i below the least of the three lengths counts[i] is n of the query at (xs[i], ys[i]) with k and lists of 500, or 0 if that query is refused.
 * The counts behind those stay as they were. */
uint8_t ullagreth_sites(const int32_t *table, size_t table_length, const int32_t *xs, size_t xs_length, const int32_t *ys, size_t ys_length,
                        int32_t k, uint32_t *counts, size_t counts_length, int32_t *fault, size_t fault_length);

/* Lists the card of the station with a number: its k nearest other holders by squared distance, equal distances by lower number; fewer if fewer
 * are enrolled. Gives the first of 1, 2, 3, 5, 8, 10 whose line holds, and then the list stays; or 0: then the front of the list has the names,
 * nearest first, and the rest stays. The first place of the row of names becomes how many names the card has (10: so many too; any other
 * refusal: 0) and the rest of it stays; a row of no places stays. */
uint8_t ullagreth_card(const int32_t *table, size_t table_length, int32_t number, int32_t k, uint32_t *list, size_t list_length,
                       uint64_t *names, size_t names_length, int32_t *fault, size_t fault_length);

/* The cards of many stations after one check of the table. Gives 1 or 2 as the check does, and then no place changes; or 0: then the card of
 * numbers[i] goes to the front of the i-th stretch of ULLAGRETH_MOST_K places, for each i with a number and a whole stretch. All other places
 * stay, and so does the stretch of a number whose card is refused: in a row of zeros each card ends where its stretch does or at its first
 * zero. */
uint8_t ullagreth_cards(const int32_t *table, size_t table_length, const int32_t *numbers, size_t numbers_length, int32_t k, uint32_t *cards,
                        size_t cards_length, int32_t *fault, size_t fault_length);

#ifdef __cplusplus
}
#endif

#endif
