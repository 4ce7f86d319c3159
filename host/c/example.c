/* Two workers hand a block over: worker 1 fills and pushes it on the shared list; worker 0 takes the list, puts it before
 * its own, pops the block and reads it back. */
#include "albmerik.h"

#include <inttypes.h>
#include <stdio.h>

enum { BLOCKS = 63, WORDS = 4, WORKERS = 8, PAGE = (BLOCKS + 1) * WORDS, BITS = (BLOCKS + 64) / 64 };

static uint64_t state[ALBMERIK_STATE_WORDS];
static uint64_t page[PAGE];
static uint64_t bits[BITS];

static struct albmerik_answer told(const char *what, struct albmerik_answer answer)
{
    printf("%s: %" PRIu64 " %" PRIu64 "\n", what, answer.number, answer.value);
    return answer;
}

static struct albmerik_answer request(const char *what, uint64_t worker, uint64_t code, uint64_t a, uint64_t b)
{
    return told(what, albmerik_request(state, page, PAGE, bits, BITS, worker, code, a, b));
}

/* Moves a worker until its operation is done. */
static struct albmerik_answer finish(const char *what, uint64_t worker)
{
    struct albmerik_answer answer;
    do {
        answer = told(what, albmerik_move(state, page, PAGE, bits, BITS, worker, 0));
    } while (answer.number == ALBMERIK_UNDER_WAY);
    return answer;
}

/* The same handing over of block 10 through the tagged list, as one run of events. */
static void run_events(void)
{
    static const uint64_t events[] = {
        ALBMERIK_EVENT_ON, 0, 0, 0, 0,
        ALBMERIK_EVENT_REQUEST, 1, ALBMERIK_PUSH_TAGGED, 10, 0,
        ALBMERIK_EVENT_MOVE, 1, 0, 0, 0,
        ALBMERIK_EVENT_MOVE, 1, 0, 0, 0,
        ALBMERIK_EVENT_MOVE, 1, 0, 0, 0,
        ALBMERIK_EVENT_REQUEST, 0, ALBMERIK_TAKE_TAGGED, 0, 0,
        ALBMERIK_EVENT_MOVE, 0, 0, 0, 0,
        ALBMERIK_EVENT_OFF, 0, 0, 0, 0,
    };
    enum { LENGTH = sizeof events / sizeof events[0], ROOM = LENGTH / ALBMERIK_EVENT_WORDS * ALBMERIK_ANSWER_WORDS };
    uint64_t answers[ROOM];
    told("events", albmerik_events(state, page, PAGE, bits, BITS, events, LENGTH, answers, ROOM));
    for (int i = 0; i < ROOM; i += ALBMERIK_ANSWER_WORDS)
        printf("  %" PRIu64 " %" PRIu64 "\n", answers[i], answers[i + 1]);
}

int main(void)
{
    told("fresh", albmerik_fresh(state, page, PAGE, bits, BITS, BLOCKS, WORDS, WORKERS));
    uint64_t *entry = albmerik_entry(page, WORDS, 9);
    for (uint64_t i = 0; i < WORDS - 1; i++)
        entry[i] = 70 + i;

    request("push block 9 on S", 1, ALBMERIK_PUSH_SHARED, 9, 0);
    finish("  move of worker 1", 1);
    request("insert block 9 while it is listed", 2, ALBMERIK_INSERT, 9, 0);
    told("listed", albmerik_listed_count(state, page, PAGE, bits, BITS));

    request("insert block 5", 0, ALBMERIK_INSERT, 5, 0);
    request("take S", 0, ALBMERIK_TAKE_SHARED, 0, 0);
    finish("  move of worker 0", 0);
    request("append", 0, ALBMERIK_APPEND, 0, 0);
    struct albmerik_answer popped = request("pop", 0, ALBMERIK_POP, 0, 0);

    told("entry", albmerik_entry_answer(state, page, PAGE, bits, BITS, popped.value));
    entry = albmerik_entry(page, WORDS, popped.value);
    printf("read back: %" PRIu64 " %" PRIu64 " %" PRIu64 "\n", entry[0], entry[1], entry[2]);

    run_events();
    told("a page a word too short", albmerik_on(state, page, PAGE - 1, bits, BITS));
    return 0;
}
