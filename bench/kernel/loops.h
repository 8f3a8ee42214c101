/*
 * The loops of loops.rs in C, for contenders that are C: a program calls them so, with what their headers have in line.
 *
 * Whoever includes this file defines:
 *
 *   LOOPS                             what the functions' names begin with
 *   USER                              what a thread has of its own
 *   GET(user)                         a free tag, or a negative number
 *   CLEAR(user, tag)                  clears a tag
 *   TOUCH(user, slots, tag, value)    exchanges the number beside a tag
 *   GET_BATCH(user, count, first)     up to so many tags side by side: a mask of them, and the first; or there are no batches
 *   CLEAR_BATCH(user, first, mask)    clears these
 *
 * It may be included more than once.
 */
#ifndef LOOPS_H
#define LOOPS_H
#include <stdint.h>

#define LOOPS_JOINED(loops, name) loops##_##name
#define LOOPS_NAME(loops, name) LOOPS_JOINED(loops, name)

/* A load and a store, as of plain memory. */
static inline void touch_beside(volatile uint64_t *slots, uint32_t tag, uint64_t value)
{
	(void)slots[tag];
	slots[tag] = value;
}
#endif

#define LOOP(name) LOOPS_NAME(LOOPS, name)

static inline uint32_t LOOP(win)(USER *user, volatile uint64_t *slots, uint64_t value)
{
	int32_t tag;

	do
		tag = GET(user);
	while (tag < 0);
	TOUCH(user, slots, (uint32_t)tag, value);
	return (uint32_t)tag;
}

uint64_t LOOP(pairs)(USER *user, volatile uint64_t *slots, uint64_t rounds)
{
	for (uint64_t round = 0; round < rounds; round++) {
		uint32_t tag = LOOP(win)(user, slots, round);

		CLEAR(user, tag);
	}
	return rounds;
}

/* `held` has room for as many tags as the thread holds. */
uint64_t LOOP(ring)(USER *user, volatile uint64_t *slots, uint32_t *held, uint64_t hold, uint64_t rounds)
{
	uint64_t oldest = 0;

	for (uint64_t i = 0; i < hold; i++)
		held[i] = LOOP(win)(user, slots, 0);
	for (uint64_t round = 0; round < rounds; round++) {
		CLEAR(user, held[oldest]);
		held[oldest] = LOOP(win)(user, slots, round);
		oldest = oldest + 1 < hold ? oldest + 1 : 0;
	}
	for (uint64_t i = 0; i < hold; i++)
		CLEAR(user, held[i]);
	return rounds + hold;
}

#ifdef GET_BATCH
uint64_t LOOP(batches)(USER *user, volatile uint64_t *slots, uint32_t batch, uint64_t rounds)
{
	uint64_t won = 0;

	for (uint64_t round = 0; round < rounds / batch; round++) {
		uint32_t first = 0;
		uint64_t mask = GET_BATCH(user, batch, &first);

		for (uint64_t rest = mask; rest; rest &= rest - 1) {
			TOUCH(user, slots, first + (uint32_t)__builtin_ctzll(rest), round);
			won++;
		}
		if (mask)
			CLEAR_BATCH(user, first, mask);
	}
	return won;
}
#endif

#undef LOOP
#undef LOOPS
#undef USER
#undef GET
#undef CLEAR
#undef TOUCH
#undef GET_BATCH
#undef CLEAR_BATCH
