/*
 * The loops of kernel/loops.h by one thread, over the calls of tags.h that a program makes:
 * calls WORKLOAD CACHE DEPTH ROUNDS
 *
 * WORKLOAD is pair, ring, full or batch, and CACHE how many tags the hand may keep. What
 * belongs to a tag is in an array of the program's own. It prints nothing: instructions.sh
 * counts what it executes. The exit status is 2 for arguments that it does not know.
 */
#include <stdbool.h>
#include <stdlib.h>
#include <string.h>

#include "../c/tags.h"

enum { HELD = 32, BATCH = 8 };

/* The loops, in kernel/c_tags.c. */
uint64_t c_tags_beside_pairs(struct tags_hand *hand, volatile uint64_t *slots, uint64_t rounds);
uint64_t c_tags_beside_ring(struct tags_hand *hand, volatile uint64_t *slots, uint32_t *held, uint64_t hold,
			    uint64_t rounds);
uint64_t c_tags_beside_batches(struct tags_hand *hand, volatile uint64_t *slots, uint32_t batch, uint64_t rounds);

static volatile uint64_t slots[TAGS_MAX_TOTAL];
static uint32_t held[TAGS_MAX_TOTAL];

static bool run(const char *workload, struct tags_hand *hand, uint32_t depth, uint64_t rounds)
{
	if (strcmp(workload, "pair") == 0)
		c_tags_beside_pairs(hand, slots, rounds);
	else if (strcmp(workload, "ring") == 0)
		c_tags_beside_ring(hand, slots, held, depth < HELD ? depth : HELD, rounds);
	else if (strcmp(workload, "full") == 0)
		c_tags_beside_ring(hand, slots, held, depth, rounds);
	else if (strcmp(workload, "batch") == 0)
		c_tags_beside_batches(hand, slots, BATCH, rounds);
	else
		return false;
	return true;
}

int main(int argc, char **argv)
{
	struct tags_pool pool = TAGS_EMPTY;
	struct tags_hand hand = TAGS_EMPTY;
	struct tags_options options = TAGS_OPTIONS_INIT;
	struct tags_sums sums;
	bool known;

	if (argc != 5)
		return 2;
	options.hands = 1;
	options.cache = (uint32_t)strtoul(argv[2], NULL, 10);
	options.total = (uint32_t)strtoul(argv[3], NULL, 10);
	if (tags_open(&pool, &options) != TAGS_OK || tags_join(&pool, &hand, 0) != TAGS_OK)
		return 2;
	known = run(argv[1], &hand, options.total, strtoull(argv[4], NULL, 10));
	if (tags_leave(&hand) != TAGS_OK || tags_close(&pool, &sums) != TAGS_OK)
		return 1;
	if (sums.got != sums.back)
		return 1;
	return known ? 0 : 2;
}
