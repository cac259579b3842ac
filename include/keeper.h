/*
 * A keeper of a board: cards stand in one row, and of two cards it is said that the one has to stand before the other. The row keeps all that was said,
 * with as little of it moved as README.md says; what can't be kept is refused, and why is shown.
 *
 * The caller lends all memory: KEEPER_MEMORY numbers, all 0 at first, which are the board, and KEEPER_OUTPUT numbers or more for what is shown. What is
 * lent in one call doesn't overlap, and no pointer is null. Nothing is allocated, nothing is kept elsewhere, and each function returns whatever stands in
 * the memory. Calls for the same memory come one after the other; calls for different ones may come from different threads.
 *
 * Link with libkeeper_c.a.
 */
#ifndef KEEPER_H
#define KEEPER_H

#include <stddef.h>
#include <stdint.h>

#ifdef __cplusplus
extern "C" {
#endif

enum { KEEPER_MEMORY = 524288, KEEPER_OUTPUT = 8192 };

/* Why something is refused. */
enum {
    KEEPER_UNFIT = 0,   /* memory_len isn't KEEPER_MEMORY, or out_len is less than KEEPER_OUTPUT */
    KEEPER_IDLE = 1,    /* never from a memory that began with zeros */
    KEEPER_BUSY = 2,    /* likewise */
    KEEPER_MISSING = 3, /* a card or a link that is spoken of isn't there */
    KEEPER_EXISTS = 4,  /* the card is there already, or the link was said already */
    KEEPER_CYCLE = 5,   /* the link would go round, or the links together; the way is shown */
    KEEPER_FULL = 7     /* 8,192 cards, 65,536 links, or 256 links at once: there can't be more */
};

/* How a saying went: `done` is 1 or 0, and `reason` counts if it wasn't done. So many numbers at the front of the output are shown: places, or a way that goes round. */
typedef struct {
    uint64_t done;
    uint64_t reason;
    uint64_t shown;
} KeeperAnswer;

/* `from` has to stand before `to`. */
typedef struct {
    uint64_t from;
    uint64_t to;
} KeeperLink;

/* A card comes, at the end of the row. */
KeeperAnswer keeper_comes(uint64_t *memory, size_t memory_len, uint64_t card, uint64_t *out, size_t out_len);

/* A card goes, and its links with it. */
KeeperAnswer keeper_goes(uint64_t *memory, size_t memory_len, uint64_t card, uint64_t *out, size_t out_len);

/* `from` has to stand before `to`. If that would go round, a way from `to` to `from` is shown, each card linked to the next. */
KeeperAnswer keeper_link(uint64_t *memory, size_t memory_len, uint64_t from, uint64_t to, uint64_t *out, size_t out_len);

/* `from` needn't stand before `to`. */
KeeperAnswer keeper_unlink(uint64_t *memory, size_t memory_len, uint64_t from, uint64_t to, uint64_t *out, size_t out_len);

/* Shows two numbers: how many cards stand before each of the two. */
KeeperAnswer keeper_places(uint64_t *memory, size_t memory_len, uint64_t one, uint64_t other, uint64_t *out, size_t out_len);

/* All the links hold, or none. If together they would go round, a circle of links, old and new, is shown. */
KeeperAnswer keeper_several(uint64_t *memory, size_t memory_len, const KeeperLink *links, size_t links_len, uint64_t *out, size_t out_len);

/* The row is made anew: of the cards before which none has to stand that hasn't come yet, the one with the smallest number comes next. */
KeeperAnswer keeper_anew(uint64_t *memory, size_t memory_len, uint64_t *out, size_t out_len);

/* Writes the row, from the left, to the front of `row`; says how many cards it has, or 0 if there is no room for them or memory_len isn't KEEPER_MEMORY. */
uint64_t keeper_row(const uint64_t *memory, size_t memory_len, uint64_t *row, size_t row_len);

#ifdef __cplusplus
}
#endif
#endif
