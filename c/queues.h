/*
 * What the C files of queues share.
 */
#ifndef TAGS_QUEUES_H
#define TAGS_QUEUES_H

#include "bell.h"

/* A queue of submitted tags: how it works is in queues.c. */
struct tags_queue {
	/* its tokens, and the bell of those who wait for one */
	struct tags_pool pool;
	/* a hand of that pool for each hand of the other one, by its number */
	struct tags_hand *hands;
	/* of each tag that is in no queue: the token that is posted for it. Only its holder looks. */
	uint32_t *tokens;
	/* the list: places for tickets, as many as a power of two, with 1 less in @mask */
	uint64_t *places;
	uint64_t mask;
	/* the next ticket of who puts a tag there, and of who takes one, in cache lines of their own */
	char apart[64];
	uint64_t tail;
	char between[64];
	uint64_t head;
	char behind[64];
};

/* The queues of a pool. */
struct tags_queues {
	/* of each tag: 1 while it is in one of them, or as good as there */
	uint32_t *marks;
	struct tags_queue each[];
};

static inline int32_t tags_find_queue(const struct tags_hand *hand, uint32_t number)
{
	if (!hand->place)
		return TAGS_BAD_HANDLE;
	return number < hand->waits->queues ? TAGS_OK : TAGS_NO_SUCH_QUEUE;
}

static inline struct tags_queue *tags_queue_of(const struct tags_hand *hand, uint32_t number)
{
	return &tags_bell_of(hand->waits)->queues->each[number];
}

/* The hand by which another one uses the tokens of a queue. */
static inline struct tags_hand *tags_hand_in(const struct tags_queue *queue, const struct tags_hand *hand)
{
	return &queue->hands[hand->place->number];
}

#endif
