/*
 * A bitmap of a program's own, for C and C++: a get sets a bit, a clear takes it away, and nothing records who holds a tag. The
 * words lie side by side, or each on lines of its own. A bit that is 1 is taken, or no tag.
 */
#ifndef GROWTH_BITMAP_H
#define GROWTH_BITMAP_H
#include <stdbool.h>
#include <stdint.h>
#include <stdlib.h>

/* Words of memory from one word of the bitmap to the next. */
enum bitmap_apart { SIDE_BY_SIDE = 1, ON_OWN_LINES = 16 };

struct bitmap {
	uint64_t *words;
	uint32_t count;
	/* binary logarithm of the tags of a word */
	uint32_t shift;
};

/* The largest shift up to 6 with which there are four whole words, as in the kernel. */
static inline uint32_t bitmap_shift_of(uint32_t tags)
{
	uint32_t shift = 6;

	while (shift > 0 && tags >> shift < 4)
		shift--;
	return shift;
}

static inline uint64_t *bitmap_word(const struct bitmap *it, enum bitmap_apart apart, uint32_t word)
{
	return &it->words[(uint64_t)word * (uint64_t)apart];
}

static inline bool bitmap_open(struct bitmap *it, enum bitmap_apart apart, uint32_t shift, uint32_t tags)
{
	const uint64_t bits = shift == 6 ? UINT64_MAX : (UINT64_C(1) << (1u << shift)) - 1;
	const uint32_t rest = tags & ((1u << shift) - 1);

	it->shift = shift;
	it->count = (tags + (1u << shift) - 1) >> shift;
	it->words = (uint64_t *)aligned_alloc(128, (size_t)it->count * 128);
	if (!it->words)
		return false;
	for (uint32_t word = 0; word < it->count; word++)
		*bitmap_word(it, apart, word) = ~bits;
	if (rest > 0)
		*bitmap_word(it, apart, it->count - 1) = ~((UINT64_C(1) << rest) - 1);
	return true;
}

/* The place of a free bit of the word, which is taken now, or -1. */
static inline int32_t bitmap_claim(uint64_t *word)
{
	uint64_t taken;

	while ((taken = __atomic_load_n(word, __ATOMIC_RELAXED)) != UINT64_MAX) {
		const int32_t place = __builtin_ctzll(~taken);
		const uint64_t bit = UINT64_C(1) << place;

		if (!(__atomic_fetch_or(word, bit, __ATOMIC_ACQUIRE) & bit))
			return place;
	}
	return -1;
}

/* A free tag of the first word that has any, from the hint on, or -1. The hint becomes its word. */
static inline int32_t bitmap_get(const struct bitmap *it, enum bitmap_apart apart, uint32_t *hint)
{
	uint32_t word = *hint;

	for (uint32_t looked = 0; looked < it->count; looked++) {
		const int32_t place = bitmap_claim(bitmap_word(it, apart, word));

		if (place >= 0) {
			*hint = word;
			return (int32_t)(word << it->shift) + place;
		}
		word = word + 1 < it->count ? word + 1 : 0;
	}
	return -1;
}

static inline void bitmap_clear(const struct bitmap *it, enum bitmap_apart apart, uint32_t tag)
{
	const uint32_t word = tag >> it->shift;
	const uint64_t bit = UINT64_C(1) << (tag - (word << it->shift));

	__atomic_fetch_and(bitmap_word(it, apart, word), ~bit, __ATOMIC_RELEASE);
}

/* Whether so many tags, which are all, can still be got. The bitmap ends. */
static inline bool bitmap_close(struct bitmap *it, enum bitmap_apart apart, uint32_t tags)
{
	uint32_t hint = 0;

	while (tags > 0 && bitmap_get(it, apart, &hint) >= 0)
		tags--;
	free(it->words);
	return tags == 0;
}
#endif
