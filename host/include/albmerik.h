/* Albmerik: proved block lists, for a host in C.
 *
 * Up to eight workers hand fixed blocks of one page of memory to each other through lists that are linked inside the
 * blocks: their own lists, a shared list S, and a tagged list T. What each function does is proved; the rules are
 * docs/RULES.md ("document 01" below). Link target/staticlib/libhost.a, which `tools/build archive` makes (x86-64).
 *
 * Memory. The host owns all of it: the state, the page, the bitmap, events and answers are lent for one call. Nothing
 * is kept between calls, nothing is allocated, and only the lent words are read or written, the const ones only read.
 *
 *   state    ALBMERIK_STATE_WORDS words: n, bw, W, S, T, on (0 or 1), then for each of eight workers own, got, operation,
 *            stage, tag, hand, seen, sightings. Start it with albmerik_fresh. It may be copied and kept like any words.
 *   page     (n+1)*bw words. Block i, 1 to n, has words i*bw to i*bw + bw-1: its link, then its entry. The first bw
 *            words belong to no block. While a block is on a list or in a hand its link belongs to the lists; every other
 *            word of blocks 1 to n is the host's to read and write at any time.
 *   bits     (n+64)/64 words. Block i is bit i%64 of word i/64, set while the block is on a list or in a hand.
 *
 * What the caller must see to: no pointer is null or misaligned (for a length of 0 too), each points to as many words as
 * its length says, and the lent parts do not overlap. Nothing else: any words in them, any lengths and any arguments have
 * an answer, and lengths that break the page rules are refused with number 2.
 *
 * Refusals. With a number of 2 or above no word of state, page, bitmap or answers has changed (albmerik_fresh zeroes the
 * state). If several numbers apply, the smallest is given. Any nonzero word in `on` means on; a call that does something
 * (number 0 or 1) leaves 0 or 1 there.
 *
 * Threads. A page takes one call at a time: calls for the same state, page or bitmap need a lock of the host's. Calls for
 * different pages may run at the same time.
 */
#ifndef ALBMERIK_H
#define ALBMERIK_H

#include <stddef.h>
#include <stdint.h>

#ifdef __cplusplus
extern "C" {
#endif

/* The words of a state. Use the name: later states are larger. */
#define ALBMERIK_STATE_WORDS 70

/* The words of an event and of its answer (albmerik_events). */
#define ALBMERIK_EVENT_WORDS 5
#define ALBMERIK_ANSWER_WORDS 2

/* The limits of the page rules: n is 0 to MOST_BLOCKS, bw 1 to MOST_WORDS, W 1 to MOST_WORKERS. */
#define ALBMERIK_MOST_BLOCKS 4095
#define ALBMERIK_MOST_WORDS 64
#define ALBMERIK_MOST_WORKERS 8

/* An answer: a number and a value. The value is 0 unless the number is ALBMERIK_DONE. */
struct albmerik_answer {
    uint64_t number;
    uint64_t value;
};

/* The numbers given back (document 01's table). */
enum albmerik_number {
    ALBMERIK_DONE = 0,       /* done, with the value */
    ALBMERIK_UNDER_WAY = 1,  /* under way: the worker's moves go on with it */
    ALBMERIK_BAD_PAGE = 2,   /* n, bw, W or a slice length breaks the page rules */
    ALBMERIK_NO_WORKER = 3,  /* no such worker */
    ALBMERIK_NO_SUCH = 4,    /* no such operation; block not 1 to n; extend by 0 or past n; tag above 3 */
    ALBMERIK_BUSY = 5,       /* request to a worker with an operation under way; T off while any worker has one */
    ALBMERIK_IDLE = 6,       /* move of an idle worker */
    ALBMERIK_SWITCHED = 7,   /* operation on T while off; switching off while off; switching on while on */
    ALBMERIK_NOT_EMPTY = 8,  /* take while got is not empty; switching off while T's address part is not 0 */
    ALBMERIK_LISTED = 9,     /* a named block is on a list or in a hand (for extend, any of them) */
    ALBMERIK_NONE_LEFT = 10, /* pop with own empty; no unlisted block; too little room for answers */
    ALBMERIK_DAMAGED = 11    /* a head, a link or a worker's record is damaged */
};

/* The requests. Those marked * answer ALBMERIK_UNDER_WAY and are done by moves; the rest act at once. */
enum albmerik_request_code {
    ALBMERIK_INSERT = 1,                 /* block a to the front of own */
    ALBMERIK_POP = 2,                    /* takes own's front; value: its block */
    ALBMERIK_APPEND = 3,                 /* got before own; value: got's length */
    ALBMERIK_EXTEND = 4,                 /* blocks a .. a+b-1 before own, ascending; value: b */
    ALBMERIK_RELEASE = 5,                /* empties own; value: its length */
    ALBMERIK_PUSH_SHARED = 6,            /* * block a on S; moves: load, write, exchange */
    ALBMERIK_TAKE_SHARED = 7,            /* * S to got; value: its front block or 0 */
    ALBMERIK_PUSH_TAGGED = 8,            /* * block a on T, tag kept; value: the tag */
    ALBMERIK_TAKE_TAGGED = 9,            /* * T to got in one move, tag kept; value: its front block or 0 */
    ALBMERIK_SET_TAG = 10,               /* * T's tag becomes a, 0 to 3; value: the tag before */
    ALBMERIK_ASK_FOR_TAG_ZERO = 11,      /* * value 0 after five sightings of tag 1, else 1 */
    ALBMERIK_WAIT_UNTIL_NOT_FREEING = 12, /* * under way while the tag is 1; value: the tag */
    ALBMERIK_IS_EMPTY = 13               /* value 1 if own is empty, else 0 */
};

/* The kinds of event. */
enum albmerik_event_kind {
    ALBMERIK_EVENT_REQUEST = 1,
    ALBMERIK_EVENT_MOVE = 2,
    ALBMERIK_EVENT_ON = 3,
    ALBMERIK_EVENT_OFF = 4
};

/* A fresh start: n blocks of bw words, w workers. The bitmap is zeroed and the state written, whatever they held; the page
 * stays as it is. Value 0. Refused with 2, it zeroes the state, which itself gives 2 everywhere, and writes nothing else. */
struct albmerik_answer albmerik_fresh(uint64_t state[ALBMERIK_STATE_WORDS], const uint64_t *page, size_t page_len,
                                      uint64_t *bits, size_t bits_len, uint64_t n, uint64_t bw, uint64_t w);

/* A request of a worker (from 0), by its code. Arguments that the request does not use are ignored.
 * Numbers: 0, 1, 2, 3, 4, 5, 7, 8, 9, 10, 11. */
struct albmerik_answer albmerik_request(uint64_t state[ALBMERIK_STATE_WORDS], uint64_t *page, size_t page_len,
                                        uint64_t *bits, size_t bits_len, uint64_t worker, uint64_t code, uint64_t a,
                                        uint64_t b);

/* A move of a worker: one stage of its operation. With a nonzero flag an exchange fails; it is tried again by the moves
 * that follow. Numbers: 0, 1, 2, 3, 6, 11. */
struct albmerik_answer albmerik_move(uint64_t state[ALBMERIK_STATE_WORDS], uint64_t *page, size_t page_len,
                                     const uint64_t *bits, size_t bits_len, uint64_t worker, uint64_t flag);

/* Switches T on: T becomes 0. Value 0. Numbers: 0, 2, 7. */
struct albmerik_answer albmerik_on(uint64_t state[ALBMERIK_STATE_WORDS], const uint64_t *page, size_t page_len,
                                   const uint64_t *bits, size_t bits_len);

/* Switches T off: T becomes 0. Value: its tag. Numbers: 0, 2, 5, 7, 8. */
struct albmerik_answer albmerik_off(uint64_t state[ALBMERIK_STATE_WORDS], const uint64_t *page, size_t page_len,
                                    const uint64_t *bits, size_t bits_len);

/* Runs events in order; the fastest way to make many calls. An event is ALBMERIK_EVENT_WORDS words: kind, worker, code (for
 * a move the flag), a, b; words that a kind does not use are ignored. Its answer is ALBMERIK_ANSWER_WORDS words, number and
 * value, in the event's place; an unknown kind is answered with 4. Answer words beyond the last event stay.
 * Number 0, value: the count of events. Refused as a whole, with nothing run: 2; 4 if events_len is no multiple of 5; 10 if
 * answers_len is too small. */
struct albmerik_answer albmerik_events(uint64_t state[ALBMERIK_STATE_WORDS], uint64_t *page, size_t page_len,
                                       uint64_t *bits, size_t bits_len, const uint64_t *events, size_t events_len,
                                       uint64_t *answers, size_t answers_len);

/* How many of blocks 1 to n are on a list or in a hand. Numbers: 0, 2. */
struct albmerik_answer albmerik_listed_count(const uint64_t state[ALBMERIK_STATE_WORDS], const uint64_t *page,
                                             size_t page_len, const uint64_t *bits, size_t bits_len);

/* The smallest block that is neither on a list nor in a hand; 10 if there is none. Numbers: 0, 2, 10. */
struct albmerik_answer albmerik_first_unlisted(const uint64_t state[ALBMERIK_STATE_WORDS], const uint64_t *page,
                                               size_t page_len, const uint64_t *bits, size_t bits_len);

/* Whether block a's entry is with its caller: number 0, value 0; else 2, 4 or 9. See albmerik_entry. */
struct albmerik_answer albmerik_entry_answer(const uint64_t state[ALBMERIK_STATE_WORDS], const uint64_t *page,
                                             size_t page_len, const uint64_t *bits, size_t bits_len, uint64_t a);

/* The count of equal leading words of the entries of blocks a and b, bw-1 if all are equal. Numbers: 0, 2, 4, 9. */
struct albmerik_answer albmerik_compare_entries(const uint64_t state[ALBMERIK_STATE_WORDS], const uint64_t *page,
                                                size_t page_len, const uint64_t *bits, size_t bits_len, uint64_t a,
                                                uint64_t b);

/* Block a's entry in a page of blocks of bw words: its bw-1 words after the link. Nothing is tested: a must be 1 to n, and
 * albmerik_entry_answer tells that and whether the block is with its caller. */
static inline uint64_t *albmerik_entry(uint64_t *page, uint64_t bw, uint64_t a)
{
    return page + a * bw + 1;
}

/* The same in a page that is only read. */
static inline const uint64_t *albmerik_entry_const(const uint64_t *page, uint64_t bw, uint64_t a)
{
    return page + a * bw + 1;
}

#ifdef __cplusplus
}
#endif

#endif
