/*
 * What pairs.c asks of each kind of tags: contenders.c has them.
 */
#ifndef GROWTH_PAIRS_H
#define GROWTH_PAIRS_H
#include <pthread.h>
#include <stdbool.h>
#include <stdint.h>

#include "../../c/tags.h"
#include "../kernel/sbitmap_user.h"

struct bitmap_user {
	/* the word at which the next search begins */
	uint32_t hint;
};

/* What a thread has of its own, on lines of its own. */
struct thread {
	_Alignas(128) union {
		struct tags_hand hand;
		struct bitmap_user bitmap;
		struct sbitmap_user sbitmap;
		struct rte_mempool_cache *mempool;
	} user;
	pthread_t id;
	uint32_t index;
	int64_t began, processor;
	uint64_t pairs;
};

/* How many tags and threads there are. */
extern uint32_t tags, count;

/* What belongs to each tag. */
extern volatile uint64_t slots[TAGS_MAX_TOTAL];

/* How many tags lie between the parts in which two threads begin. */
uint32_t stride(void);

struct contender {
	const char *name;
	/* all tags are free */
	bool (*open)(void);
	/* the calling thread is this one from now on, or NULL */
	bool (*enter)(struct thread *self);
	/* so many pairs */
	uint64_t (*run)(struct thread *self, uint64_t rounds);
	/* the thread calls no more, or NULL */
	bool (*leave)(struct thread *self);
	/* whether no tag is missing */
	bool (*close)(void);
};

extern const struct contender kernel, mempool;

/* All of them, to a NULL. */
extern const struct contender *const contenders[];
#endif
