// The C library as a program has it: the calls of tags.h, which test the handle and look for those who wait in line. tag_c.rs calls
// these loops; what two threads do together, and what it needs apart, it calls one by one. It knows no layout of tags.h: handles
// are made and ended here.
#include <stdbool.h>
#include <stdio.h>
#include <stdlib.h>

#include "../../c/tags.h"

// A program looks at what a clear answers.
static inline void must(int32_t status)
{
	if (status < 0)
		abort();
}

// Without a pool or a hand the program ends, and says why.
static void must_begin(const char *call, int32_t status)
{
	if (status == TAGS_OK)
		return;
	fprintf(stderr, "%s: %s\n", call, tags_strerror(status));
	abort();
}

// A pool of so many tags and hands, each of which keeps up to `cache` tags.
struct tags_pool *c_tags_open(uint32_t total, uint32_t hands, uint32_t cache)
{
	struct tags_pool *pool = calloc(1, sizeof(*pool));
	struct tags_options options = TAGS_OPTIONS_INIT;

	options.total = total;
	options.hands = hands;
	options.cache = cache;
	must_begin("tags_open", pool == NULL ? TAGS_NO_MEMORY : tags_open(pool, &options));
	return pool;
}

// A hand of one thread. Its gets begin in a part of the tags of its own, or where its last get left off.
struct tags_hand *c_tags_join(struct tags_pool *pool, bool stays)
{
	struct tags_hand *hand = calloc(1, sizeof(*hand));

	must_begin("tags_join", hand == NULL ? TAGS_NO_MEMORY : tags_join(pool, hand, stays ? TAGS_STAY : 0));
	return hand;
}

void c_tags_leave(struct tags_hand *hand)
{
	must(tags_leave(hand));
	free(hand);
}

// Whether each tag that was got is back. The pool ends.
bool c_tags_close(struct tags_pool *pool)
{
	struct tags_sums sums;

	must(tags_close(pool, &sums));
	free(pool);
	return sums.got == sums.back;
}

// Up to so many tags side by side: the first, and a mask of them.
static uint64_t get_batch(struct tags_hand *hand, uint32_t count, uint32_t *first)
{
	uint64_t won = 0;
	int32_t tag = tags_get_batch(hand, count, &won);

	*first = (uint32_t)tag;
	return tag < 0 ? 0 : won;
}

// What belongs to a tag is in an array of the program's own.
#define LOOPS c_tags_beside
#define USER struct tags_hand
#define GET tags_get
#define CLEAR(user, tag) must(tags_clear(user, tag))
#define TOUCH(user, slots, tag, value) touch_beside(slots, tag, value)
#define GET_BATCH get_batch
#define CLEAR_BATCH(user, first, mask) must(tags_clear_mask(user, first, mask))
#include "loops.h"

// It is in the pool's slots.
static void write_slot(struct tags_hand *hand, uint32_t tag, uint64_t value)
{
	uint64_t former;

	must(tags_write(hand, tag, value, &former));
}

#define LOOPS c_tags_in_pool
#define USER struct tags_hand
#define GET tags_get
#define CLEAR(user, tag) must(tags_clear(user, tag))
#define TOUCH(user, slots, tag, value) ((void)(slots), write_slot(user, tag, value))
#define GET_BATCH get_batch
#define CLEAR_BATCH(user, first, mask) must(tags_clear_mask(user, first, mask))
#include "loops.h"

// A free tag, or a negative status.
int32_t c_tags_get(struct tags_hand *hand)
{
	return tags_get(hand);
}

// Clears a tag that the hand got or took.
int32_t c_tags_clear(struct tags_hand *hand, uint32_t tag)
{
	return tags_clear(hand, tag);
}

// Exchanges the value of a tag's slot.
int32_t c_tags_write(struct tags_hand *hand, uint32_t tag, uint64_t value, uint64_t *former)
{
	return tags_write(hand, tag, value, former);
}

int32_t c_tags_post(struct tags_hand *hand, uint32_t tag)
{
	return tags_post(hand, tag);
}

int32_t c_tags_take(struct tags_hand *hand, uint32_t tag)
{
	return tags_take(hand, tag);
}
