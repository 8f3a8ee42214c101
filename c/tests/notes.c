/*
 * Notes: which of them a report passes, of whom, and with which time; that refused calls leave them; and
 * threads that publish notes beside others that read them. Each note that was read is compared afterwards with
 * what its holder did: it was published within the time that it has, and its tag had not gone back before
 * the report began.
 * notes [ROUNDS]
 */
#define _GNU_SOURCE
#include <inttypes.h>
#include <pthread.h>
#include <sched.h>
#include <stdbool.h>
#include <stdio.h>
#include <stdlib.h>
#include <string.h>
#include <time.h>

#include "../tags.h"

static long rounds = 20000;
static uint64_t wrong;

static void check(bool is_well, const char *what, int line)
{
	if (is_well)
		return;
	__atomic_fetch_add(&wrong, 1, __ATOMIC_RELAXED);
	fprintf(stderr, "line %d, wrong: %s\n", line, what);
}

#define CHECK(what) check(what, #what, __LINE__)

static uint64_t now(void)
{
	struct timespec time;

	clock_gettime(CLOCK_MONOTONIC, &time);
	return (uint64_t)time.tv_sec * 1000000000 + (uint64_t)time.tv_nsec;
}

/*
 * One thread
 */

enum { LARGE = 1000, NO_NOTE = -1, NOT_BUSY = -2 };

/* What a report passed: of each tag its note, NO_NOTE, or NOT_BUSY if it was not passed. */
static int64_t passed[TAGS_MAX_TOTAL];
static uint64_t since[TAGS_MAX_TOTAL];

static int take(uint32_t tag, const struct tags_noted *note, void *last)
{
	CHECK(passed[tag] == NOT_BUSY);
	passed[tag] = note ? (int64_t)note->value : NO_NOTE;
	since[tag] = note ? note->since : 0;
	return tag == *(const uint32_t *)last;
}

static int32_t report(struct tags_pool *pool)
{
	uint32_t none = UINT32_MAX;

	for (uint32_t tag = 0; tag < TAGS_MAX_TOTAL; tag++)
		passed[tag] = NOT_BUSY;
	return tags_pool_each_noted(pool, take, &none);
}

static void open_pool(struct tags_pool *pool, uint32_t total, uint32_t cache)
{
	const struct tags_options options = {
		.total = total, .reserved = 2, .hands = 8, .cache = cache, .flags = TAGS_NOTES,
	};

	CHECK(tags_open(pool, &options) == TAGS_OK);
}

static void close_pool(struct tags_pool *pool)
{
	struct tags_sums sums;

	CHECK(tags_close(pool, &sums) == TAGS_OK);
}

/* Of one tag, from its get to the next one. */
static void follow_one(struct tags_pool *pool, struct tags_hand *hand, struct tags_hand *other)
{
	uint64_t before, value = 0;

	CHECK(tags_get(hand) == 2 && report(pool) == 1 && passed[2] == NO_NOTE);
	CHECK(tags_note(other, 2, 5) == TAGS_NOT_HELD && report(pool) == 1 && passed[2] == NO_NOTE);
	before = now();
	CHECK(tags_note(hand, 2, 7) == TAGS_OK && report(pool) == 1 && passed[2] == 7);
	CHECK(since[2] >= before && since[2] <= now());
	before = now();
	CHECK(tags_note(hand, 2, 0) == TAGS_OK && report(pool) == 1 && passed[2] == 0);
	CHECK(since[2] >= before && since[2] <= now());
	CHECK(tags_post(hand, 2) == TAGS_OK && report(pool) == 1 && passed[2] == 0);
	CHECK(tags_note(hand, 2, 5) == TAGS_NOT_HELD && report(pool) == 1 && passed[2] == 0);
	CHECK(tags_take(other, 2) == TAGS_OK && report(pool) == 1 && passed[2] == 0);
	CHECK(tags_note(other, 2, 8) == TAGS_OK && report(pool) == 1 && passed[2] == 8);
	CHECK(tags_clear(hand, 2) == TAGS_NOT_HELD && report(pool) == 1 && passed[2] == 8);
	CHECK(tags_read_clear(hand, 2, &value) == TAGS_NOT_HELD && report(pool) == 1 && passed[2] == 8);
	CHECK(tags_clear(other, 2) == TAGS_OK && report(pool) == 0);
	CHECK(tags_get_exactly(hand, 2) == 2 && report(pool) == 1 && passed[2] == NO_NOTE);
	CHECK(tags_note(hand, 2, 9) == TAGS_OK && tags_read_clear(hand, 2, &value) == TAGS_OK);
	CHECK(tags_get_exactly(hand, 2) == 2 && report(pool) == 1 && passed[2] == NO_NOTE);
	CHECK(tags_clear(hand, 2) == TAGS_OK);
}

/* Gets the tags from 2 to 5 and notes them, and tells whether they all have their notes and no others are busy. */
static void note_four(struct tags_hand *hand)
{
	for (uint32_t tag = 2; tag < 6; tag++)
		CHECK(tags_get_exactly(hand, tag) == (int32_t)tag && tags_note(hand, tag, 10 + tag) == TAGS_OK);
}

static bool has_four(struct tags_pool *pool)
{
	if (report(pool) != 4)
		return false;
	for (uint32_t tag = 2; tag < 6; tag++)
		if (passed[tag] != 10 + tag)
			return false;
	return true;
}

static bool has_none(struct tags_pool *pool, int32_t busy)
{
	if (report(pool) != busy)
		return false;
	for (uint32_t tag = 0; tag < 8; tag++)
		if (passed[tag] >= 0)
			return false;
	return true;
}

/* A list or a mask goes back with all its notes, or none of them ends. */
static void follow_four(struct tags_pool *pool, struct tags_hand *hand, uint32_t kept)
{
	uint32_t list[TAGS_MAX_BATCH + 1] = { 2, 3, 4, 5, 2 };
	const int32_t before = (int32_t)kept;

	note_four(hand);
	CHECK(tags_clear_batch(hand, list, 0) == TAGS_BAD_COUNT && has_four(pool));
	CHECK(tags_clear_batch(hand, list, TAGS_MAX_BATCH + 1) == TAGS_BAD_COUNT && has_four(pool));
	CHECK(tags_clear_batch(hand, list, SIZE_MAX / 4) == TAGS_BAD_COUNT && has_four(pool));
	CHECK(tags_clear_batch(hand, list, 5) == TAGS_NOT_HELD && has_four(pool));
	list[4] = 6;
	CHECK(tags_clear_batch(hand, list, 5) == TAGS_NOT_HELD && has_four(pool));
	list[4] = 0;
	CHECK(tags_clear_batch(hand, list, 5) == TAGS_NO_SUCH_TAG && has_four(pool));
	list[4] = UINT32_MAX;
	CHECK(tags_clear_batch(hand, list, 5) == TAGS_NO_SUCH_TAG && has_four(pool));
	CHECK(tags_clear_mask(hand, 2, 0) == TAGS_BAD_COUNT && has_four(pool));
	CHECK(tags_clear_mask(hand, 2, 31) == TAGS_NOT_HELD && has_four(pool));
	CHECK(tags_clear_mask(hand, 1, 3) == TAGS_NO_SUCH_TAG && has_four(pool));
	CHECK(tags_clear_mask(hand, UINT32_MAX, UINT64_MAX) == TAGS_NO_SUCH_TAG && has_four(pool));
	CHECK(tags_clear_batch(hand, list, 4) == TAGS_OK && has_none(pool, before));
	note_four(hand);
	CHECK(tags_clear_mask(hand, 2, 15) == TAGS_OK && has_none(pool, before));
	note_four(hand);
	CHECK(tags_post_mask(hand, 2, 15) == TAGS_OK && has_four(pool));
	CHECK(tags_take_mask(hand, 2, 31) == TAGS_NOT_POSTED && has_four(pool));
	CHECK(tags_take_mask(hand, 2, 15) == TAGS_OK && has_four(pool));
	for (uint32_t tag = 2; tag < 6; tag++)
		CHECK(tags_clear(hand, tag) == TAGS_OK);
	CHECK(has_none(pool, before));
}

/* A reserved tag; and one whose hand has left. */
static void follow_away(struct tags_pool *pool, struct tags_hand *hand)
{
	CHECK(tags_get_reserved(hand) == 0 && tags_note(hand, 0, 20) == TAGS_OK);
	CHECK(tags_get_reserved(hand) == 1 && report(pool) == 2 && passed[0] == 20 && passed[1] == NO_NOTE);
	CHECK(tags_clear(hand, 0) == TAGS_OK && report(pool) == 1 && passed[1] == NO_NOTE);
	CHECK(tags_note(hand, 1, 21) == TAGS_OK && tags_leave(hand) == TAGS_OK);
	CHECK(tags_note(hand, 1, 22) == TAGS_BAD_HANDLE && report(pool) == 1 && passed[1] == 21);
	CHECK(tags_join(pool, hand, TAGS_STAY) == TAGS_OK && report(pool) == 1 && passed[1] == 21);
	CHECK(tags_note(hand, 1, 23) == TAGS_OK && report(pool) == 1 && passed[1] == 23);
	CHECK(tags_clear(hand, 1) == TAGS_OK && report(pool) == 0);
}

/* What the library says of a pool whose clears keep tags: they are busy, and have no user. */
static void follow_kept(void)
{
	struct tags_pool pool = TAGS_EMPTY;
	struct tags_hand hand = TAGS_EMPTY;

	open_pool(&pool, 64, 8);
	CHECK(tags_join(&pool, &hand, TAGS_STAY) == TAGS_OK);
	CHECK(tags_get(&hand) == 2 && tags_note(&hand, 2, 30) == TAGS_OK);
	CHECK(report(&pool) == 1 && passed[2] == 30);
	CHECK(tags_clear(&hand, 2) == TAGS_OK && report(&pool) == 1 && passed[2] == NO_NOTE);
	CHECK(tags_note(&hand, 2, 31) == TAGS_NOT_HELD && report(&pool) == 1 && passed[2] == NO_NOTE);
	CHECK(tags_get(&hand) == 2 && report(&pool) == 1 && passed[2] == NO_NOTE);
	CHECK(tags_note(&hand, 2, 32) == TAGS_OK && tags_flush(&hand) == TAGS_OK);
	CHECK(report(&pool) == 1 && passed[2] == 32 && tags_clear(&hand, 2) == TAGS_OK);
	CHECK(tags_flush(&hand) == TAGS_OK && report(&pool) == 0);
	CHECK(tags_leave(&hand) == TAGS_OK);
	close_pool(&pool);
}

static void follow_shared(void)
{
	struct tags_hands hands = TAGS_EMPTY;
	struct tags_pool pool = TAGS_EMPTY;
	int32_t tag;

	CHECK(tags_hands_note(NULL, 2, 1) == TAGS_NULL && tags_hands_note(&hands, 2, 1) == TAGS_BAD_HANDLE);
	open_pool(&pool, 64, 0);
	CHECK(tags_hands_open(&pool, &hands, 3) == TAGS_OK);
	tag = tags_hands_get(&hands);
	CHECK(tag >= 0 && tags_hands_note(&hands, (uint32_t)tag, 40) == TAGS_OK);
	CHECK(report(&pool) == 1 && passed[tag] == 40);
	CHECK(tags_hands_note(&hands, 64, 41) == TAGS_NO_SUCH_TAG);
	CHECK(tags_hands_note(&hands, 63, 41) == TAGS_NOT_HELD);
	CHECK(tags_hands_clear(&hands, 63) == TAGS_NOT_HELD && report(&pool) == 1 && passed[tag] == 40);
	CHECK(tags_hands_clear(&hands, (uint32_t)tag) == TAGS_OK && report(&pool) == 0);
	CHECK(tags_hands_clear(&hands, (uint32_t)tag) == TAGS_NOT_HELD);
	CHECK(tags_hands_close(&hands) == TAGS_OK);
	close_pool(&pool);
}

/* Notes follow a pool that grows and shrinks; a resize that is refused leaves them. */
static void follow_sizes(void)
{
	struct tags_pool pool = TAGS_EMPTY;
	struct tags_hand hand = TAGS_EMPTY;
	uint32_t last = 299;

	open_pool(&pool, 4, 0);
	CHECK(tags_join(&pool, &hand, TAGS_STAY) == TAGS_OK);
	CHECK(tags_get_reserved(&hand) == 0 && tags_note(&hand, 0, 50) == TAGS_OK);
	CHECK(tags_resize(&pool, LARGE) == TAGS_HANDS_OUT && report(&pool) == 1 && passed[0] == 50);
	CHECK(tags_leave(&hand) == TAGS_OK);
	CHECK(tags_resize(&pool, LARGE) == TAGS_IN_USE && report(&pool) == 1 && passed[0] == 50);
	CHECK(tags_join(&pool, &hand, TAGS_STAY) == TAGS_OK && tags_clear(&hand, 0) == TAGS_OK);
	CHECK(tags_leave(&hand) == TAGS_OK && tags_resize(&pool, LARGE) == TAGS_OK);
	CHECK(tags_join(&pool, &hand, TAGS_STAY) == TAGS_OK);
	for (uint32_t tag = 2; tag < LARGE; tag++)
		CHECK(tags_get(&hand) >= 2);
	for (uint32_t tag = 2; tag < LARGE; tag += 2)
		CHECK(tags_note(&hand, tag, tag) == TAGS_OK);
	CHECK(report(&pool) == LARGE - 2);
	for (uint32_t tag = 2; tag < LARGE; tag++)
		CHECK(passed[tag] == (tag % 2 == 0 ? (int64_t)tag : NO_NOTE));
	for (uint32_t tag = 0; tag < LARGE; tag++)
		passed[tag] = NOT_BUSY;
	CHECK(tags_pool_each_noted(&pool, take, &last) == 298);
	CHECK(passed[299] == NO_NOTE && passed[300] == NOT_BUSY);
	for (uint32_t tag = 2; tag < LARGE; tag++)
		CHECK(tags_clear(&hand, tag) == TAGS_OK);
	CHECK(tags_leave(&hand) == TAGS_OK && tags_resize(&pool, 2) == TAGS_OK && report(&pool) == 0);
	close_pool(&pool);
}

enum { FAR = 500 };

/* A function that gives back the tag that it is passed, unless that is back, and one far behind it. */
static int give_two(uint32_t tag, const struct tags_noted *note, void *hand)
{
	CHECK(note && note->value == tag);
	for (uint32_t other = tag; other <= tag + FAR; other += FAR)
		if (tags_holds(hand, other) == 1)
			CHECK(tags_clear(hand, other) == TAGS_OK);
	return 0;
}

/* A function that closes the pool once 300 tags were passed. */
struct closing {
	struct tags_pool *pool;
	struct tags_hand *hand;
	int left;
};

static int close_after(uint32_t tag, const struct tags_noted *note, void *argument)
{
	struct closing *closing = argument;

	CHECK(!note && tag < LARGE);
	if (--closing->left == 0) {
		CHECK(tags_leave(closing->hand) == TAGS_OK);
		close_pool(closing->pool);
	}
	return 0;
}

/* The pool may change, and end, while a report goes on: tags that it has found are passed, and no others. */
static void change_amid(void)
{
	struct tags_pool pool = TAGS_EMPTY;
	struct tags_hand hand = TAGS_EMPTY;
	struct closing closing = { &pool, &hand, 300 };

	open_pool(&pool, LARGE, 0);
	CHECK(tags_join(&pool, &hand, TAGS_STAY) == TAGS_OK);
	for (uint32_t i = 2; i < LARGE; i++) {
		int32_t tag = tags_get(&hand);

		CHECK(tag >= 0 && tags_note(&hand, (uint32_t)tag, (uint32_t)tag) == TAGS_OK);
	}
	/* tags 2 to 257, then 258 to 501 and 758 to 769; the others go back before they are looked at */
	CHECK(tags_pool_each_noted(&pool, give_two, &hand) == 512);
	CHECK(report(&pool) == 0);
	for (uint32_t i = 2; i < LARGE; i++)
		CHECK(tags_get(&hand) >= 0);
	CHECK(tags_pool_each_noted(&pool, close_after, &closing) == 512);
	CHECK(tags_pool_each_noted(&pool, close_after, &closing) == TAGS_BAD_HANDLE);
}

static void follow_alone(void)
{
	struct tags_pool pool = TAGS_EMPTY;
	struct tags_hand hand = TAGS_EMPTY;
	struct tags_hand other = TAGS_EMPTY;

	open_pool(&pool, 64, 0);
	CHECK(tags_join(&pool, &hand, TAGS_STAY) == TAGS_OK && tags_join(&pool, &other, TAGS_STAY) == TAGS_OK);
	CHECK(tags_note(&hand, 2, 1) == TAGS_NOT_HELD && tags_note(&hand, 64, 1) == TAGS_NO_SUCH_TAG);
	follow_one(&pool, &hand, &other);
	follow_four(&pool, &hand, 0);
	follow_away(&pool, &hand);
	CHECK(tags_leave(&hand) == TAGS_OK && tags_leave(&other) == TAGS_OK);
	close_pool(&pool);
	follow_kept();
	follow_shared();
	follow_sizes();
	change_amid();
}

/*
 * Many threads. Thread i has notes i << 32 | 1, i << 32 | 2, ..
 */

enum { OWN = 3, SHARED = 2, THREADS = OWN + SHARED, READERS = 2, A_HOLD = 3, SAMPLES = 200000 };

/* Of each note of a thread: when its holder was about to publish it, had published it, and had given the tag back. */
struct past {
	uint32_t tag;
	uint64_t before;
	uint64_t after;
	uint64_t gone;
};

struct holder {
	uint64_t number;
	struct past *past;
	uint32_t count;
	/* the first note of the hold that goes on */
	uint32_t first;
};

/* What a report passed: a note, and when it began. */
struct sample {
	uint64_t begin;
	uint32_t tag;
	struct tags_noted note;
};

struct reader {
	uint64_t begin;
	struct sample *samples;
	uint32_t count;
	uint64_t reports;
	/* the tags that are busy with a note all the while were passed so */
	uint32_t found;
};

static struct tags_pool many;
static struct tags_hands hands;
static struct holder holders[THREADS];
static bool is_over;
/* Main holds these two: the note of the first stays, that of the second is replaced all the while. */
static uint32_t steady[2];
static struct tags_noted the_steady;

static void begin_note(struct holder *holder, uint32_t tag)
{
	struct past *past = &holder->past[holder->count];

	past->tag = tag;
	past->before = now();
}

static uint64_t value_of(const struct holder *holder)
{
	return (holder->number + 1) << 32 | holder->count;
}

static void end_note(struct holder *holder)
{
	holder->past[holder->count++].after = now();
}

static void note(struct holder *holder, struct tags_hand *hand, uint32_t tag)
{
	begin_note(holder, tag);
	CHECK((hand ? tags_note(hand, tag, value_of(holder)) : tags_hands_note(&hands, tag, value_of(holder))) ==
	      TAGS_OK);
	end_note(holder);
}

/* The tags of all notes of the hold have gone back. */
static void end_hold(struct holder *holder)
{
	const uint64_t gone = now();

	for (; holder->first < holder->count; holder->first++)
		holder->past[holder->first].gone = gone;
}

static void give_back(struct tags_hand *hand, uint32_t tag, uint32_t way)
{
	const uint32_t twice[] = { tag, tag };
	uint64_t unused;

	if (way & 4)
		CHECK(tags_clear_batch(hand, twice, 2) == TAGS_NOT_HELD);
	switch (way & 3) {
	case 0:
		CHECK(tags_clear(hand, tag) == TAGS_OK);
		break;
	case 1:
		CHECK(tags_read_clear(hand, tag, &unused) == TAGS_OK);
		break;
	case 2:
		CHECK(tags_clear_batch(hand, twice, 1) == TAGS_OK);
		break;
	default:
		CHECK(tags_clear_mask(hand, tag, 1) == TAGS_OK);
	}
}

static void *hold(void *argument)
{
	struct holder *holder = argument;
	struct tags_hand hand = TAGS_EMPTY;

	CHECK(tags_join(&many, &hand, 0) == TAGS_OK);
	for (long i = 0; i < rounds; i++) {
		const int32_t tag = tags_get(&hand);

		if (tag < 0)
			continue;
		for (long n = i % (A_HOLD + 1); n > 0; n--)
			note(holder, &hand, (uint32_t)tag);
		if (i % 5 == 0) {
			CHECK(tags_post(&hand, (uint32_t)tag) == TAGS_OK);
			CHECK(tags_take(&hand, (uint32_t)tag) == TAGS_OK);
		}
		give_back(&hand, (uint32_t)tag, (uint32_t)i / 7);
		end_hold(holder);
	}
	CHECK(tags_leave(&hand) == TAGS_OK);
	return NULL;
}

static void *hold_shared(void *argument)
{
	struct holder *holder = argument;

	for (long i = 0; i < rounds; i++) {
		const int32_t tag = tags_hands_get(&hands);

		if (tag < 0)
			continue;
		for (long n = i % (A_HOLD + 1); n > 0; n--)
			note(holder, NULL, (uint32_t)tag);
		CHECK(tags_hands_clear(&hands, (uint32_t)tag) == TAGS_OK);
		end_hold(holder);
	}
	return NULL;
}

static int take_sample(uint32_t tag, const struct tags_noted *found, void *argument)
{
	struct reader *reader = argument;

	if (tag == steady[0]) {
		reader->found++;
		CHECK(found && found->value == the_steady.value && found->since == the_steady.since);
	} else if (tag == steady[1]) {
		reader->found++;
		CHECK(found && found->value == found->since / 1000000000 / 1000000000);
	} else if (found) {
		const struct holder *holder = &holders[(found->value >> 32) - 1];

		/* the note orders what its holder wrote before */
		CHECK(holder->past[(uint32_t)found->value].tag == tag);
		if (reader->count < SAMPLES)
			reader->samples[reader->count++] = (struct sample){ reader->begin, tag, *found };
	}
	return 0;
}

static void *read_all(void *argument)
{
	struct reader *reader = argument;

	while (!__atomic_load_n(&is_over, __ATOMIC_SEQ_CST)) {
		reader->begin = now();
		reader->found = 0;
		CHECK(tags_pool_each_noted(&many, take_sample, reader) >= 2);
		CHECK(reader->found == 2);
		__atomic_fetch_add(&reader->reports, 1, __ATOMIC_SEQ_CST);
	}
	return NULL;
}

/* Replaces the note of a tag all the while, and reads the one that stays. */
static void *renew(void *hand)
{
	while (!__atomic_load_n(&is_over, __ATOMIC_SEQ_CST))
		CHECK(tags_note(hand, steady[1], 0) == TAGS_OK);
	return NULL;
}

static int take_steady(uint32_t tag, const struct tags_noted *found, void *unused)
{
	(void)unused;
	if (tag == steady[0])
		the_steady = *found;
	return tag == steady[0];
}

static void look_back(const struct reader *reader)
{
	for (uint32_t i = 0; i < reader->count; i++) {
		const struct sample *sample = &reader->samples[i];
		const struct past *past = &holders[(sample->note.value >> 32) - 1].past[(uint32_t)sample->note.value];

		CHECK(past->tag == sample->tag);
		CHECK(past->before <= sample->note.since && sample->note.since <= past->after);
		CHECK(past->gone >= sample->begin);
	}
}

static void follow_many(uint32_t total, uint32_t cache)
{
	struct reader readers[READERS];
	pthread_t ids[THREADS + READERS + 1];
	struct tags_hand hand = TAGS_EMPTY;
	uint64_t samples = 0;

	memset(readers, 0, sizeof(readers));
	memset(holders, 0, sizeof(holders));
	open_pool(&many, total, cache);
	CHECK(tags_hands_open(&many, &hands, 2) == TAGS_OK && tags_join(&many, &hand, 0) == TAGS_OK);
	for (int i = 0; i < 2; i++) {
		steady[i] = (uint32_t)tags_get_reserved(&hand);
		CHECK(tags_note(&hand, steady[i], 0) == TAGS_OK);
	}
	CHECK(tags_pool_each_noted(&many, take_steady, NULL) == 1);
	__atomic_store_n(&is_over, false, __ATOMIC_SEQ_CST);
	for (int i = 0; i < THREADS; i++) {
		holders[i].number = (uint64_t)i;
		holders[i].past = calloc((size_t)rounds * A_HOLD + 1, sizeof(struct past));
		CHECK(holders[i].past != NULL);
	}
	for (int i = 0; i < READERS; i++) {
		readers[i].samples = calloc(SAMPLES, sizeof(struct sample));
		CHECK(pthread_create(&ids[THREADS + i], NULL, read_all, &readers[i]) == 0);
	}
	CHECK(pthread_create(&ids[THREADS + READERS], NULL, renew, &hand) == 0);
	for (int i = 0; i < READERS; i++)
		while (__atomic_load_n(&readers[i].reports, __ATOMIC_SEQ_CST) == 0)
			sched_yield();
	for (int i = 0; i < THREADS; i++)
		CHECK(pthread_create(&ids[i], NULL, i < OWN ? hold : hold_shared, &holders[i]) == 0);
	for (int i = 0; i < THREADS; i++)
		pthread_join(ids[i], NULL);
	__atomic_store_n(&is_over, true, __ATOMIC_SEQ_CST);
	for (int i = 0; i <= READERS; i++)
		pthread_join(ids[THREADS + i], NULL);
	for (int i = 0; i < READERS; i++) {
		look_back(&readers[i]);
		samples += readers[i].count;
		free(readers[i].samples);
	}
	for (int i = 0; i < 2; i++)
		CHECK(tags_clear(&hand, steady[i]) == TAGS_OK);
	CHECK(tags_leave(&hand) == TAGS_OK && tags_hands_close(&hands) == TAGS_OK);
	CHECK(report(&many) == 0);
	close_pool(&many);
	for (int i = 0; i < THREADS; i++)
		free(holders[i].past);
	fprintf(stderr, "%" PRIu32 " tags, caches of %" PRIu32 ": %" PRIu64 " notes were read\n", total, cache,
		samples);
}

int main(int argc, char **argv)
{
	if (argc > 1)
		rounds = strtol(argv[1], NULL, 10);
	follow_alone();
	follow_many(3 + 2, 0);
	follow_many(1000, 0);
	follow_many(64, 8);
	printf("%" PRIu64 " wrong\n", wrong);
	return wrong != 0;
}
