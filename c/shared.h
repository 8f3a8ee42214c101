/* What the C files of shared hands have in common: shared_opens.c, shared_hands.c and shared_waits.c. */
#ifndef TAGS_SHARED_H
#define TAGS_SHARED_H

#include "bell.h"

/* A hand behind a lock, on cache lines of its own. */
struct tags_locked {
	uint32_t lock;
	struct tags_hand hand;
	char apart[128 - sizeof(uint64_t) - sizeof(struct tags_hand)];
};

struct tags_shared {
	/* 1 while a thread waits in the pool for a tag, and others for its turn */
	uint32_t has_turn;
	char apart[124];
	struct tags_locked hands[];
};

/* The hand that got a tag last. Whoever has the tag since then has been told of it. */
static inline struct tags_locked *tags_holder_of(const struct tags_hands *hands, uint32_t tag)
{
	return &hands->shared->hands[__atomic_load_n(&hands->holders[tag], __ATOMIC_SEQ_CST)];
}

#endif
