/*
 * The examples of the man pages, which c/package/manual.py takes from here: each call of
 * tags.h in a function that shows what it is for. main() runs them all.
 */
#include <poll.h>
#include <pthread.h>
#include <stdbool.h>
#include <stdio.h>
#include <sys/eventfd.h>
#include <time.h>
#include <unistd.h>

#include "../tags.h"

/* Opens a pool of 64 tags, four of them reserved, for up to eight threads, with words for batches of eight. */
static bool open_pool(struct tags_pool *pool)
{
	const struct tags_options options = {
		.total = 64, .reserved = 4, .hands = 8, .shift = TAGS_SHIFT_AS_KERNEL
	};
	int32_t status = tags_open(pool, &options);

	if (status != TAGS_OK)
		fprintf(stderr, "tags_open: %s\n", tags_strerror(status));
	return status == TAGS_OK;
}

/* Opens a pool whose hands keep up to eight tags that they give back. */
static bool open_cached_pool(struct tags_pool *pool)
{
	struct tags_options options = TAGS_OPTIONS_INIT;

	options.total = 1024;
	options.hands = 8;
	options.cache = 8;
	options.flags = TAGS_KEEP_WHILE_HOLDING;
	return tags_open(pool, &options) == TAGS_OK;
}

/* One request: its number is in the slot of its tag until it is done. */
static bool carry_out(struct tags_hand *hand, uint64_t request)
{
	uint64_t found = 0;
	int32_t tag = tags_get(hand);

	if (tag < 0)
		return false; /* TAGS_NO_TAG: try again later, or wait */
	tags_write(hand, (uint32_t)tag, request, NULL);
	/* the request is in flight, and its completion names the tag */
	tags_read(hand, (uint32_t)tag, &found);
	/* only a mistake can have a clear refused: then this ends the program */
	TAGS_MUST(tags_clear(hand, (uint32_t)tag));
	return found == request;
}

/* What a thread does, from its first call to its last. */
static bool work(struct tags_pool *pool)
{
	struct tags_hand hand = TAGS_EMPTY;
	bool is_done;

	if (tags_join(pool, &hand, 0) != TAGS_OK)
		return false;
	is_done = carry_out(&hand, 7);
	return tags_leave(&hand) == TAGS_OK && is_done;
}

/* The same request by two calls in place of four. */
static bool carry_out_by_pairs(struct tags_hand *hand, uint64_t request)
{
	uint64_t found = 0;
	int32_t tag = tags_get_write(hand, request);

	if (tag < 0)
		return false;
	/* this gives the tag back, and fills in what was in its slot */
	return tags_read_clear(hand, (uint32_t)tag, &found) >= 0 && found == request;
}

/* A request that must go ahead takes a reserved tag, and an ordinary one if none is free. */
static int32_t get_for_flush(struct tags_hand *hand)
{
	int32_t tag = tags_get_reserved(hand);

	return tag == TAGS_NO_TAG ? tags_get_blocking(hand) : tag;
}

/* One that must go ahead and is not to queue with others waits for a reserved tag, if no tag is free. */
static int32_t get_ahead(struct tags_hand *hand)
{
	int32_t tag = tags_get_reserved(hand);

	if (tag == TAGS_NO_TAG)
		tag = tags_get(hand);
	return tag == TAGS_NO_TAG ? tags_get_reserved_blocking(hand) : tag;
}

/* Requests of low priority use 16 of the ordinary tags, and leave the others to tags_get(). */
static int32_t get_for_readahead(struct tags_hand *hand)
{
	return tags_get_shallow(hand, 16);
}

/* After a restart a request that was not complete takes the tag again that it had. */
static bool take_up_again(struct tags_hand *hand, uint32_t tag)
{
	return tags_get_exactly(hand, tag) == (int32_t)tag;
}

/* Up to eight requests at once. Returns how many there were. */
static uint32_t carry_out_eight(struct tags_hand *hand)
{
	uint32_t requests = 0;
	uint64_t won = 0;
	int32_t first = tags_get_batch(hand, 8, &won);

	if (first < 0)
		return 0;
	for (uint32_t i = 0; i < 8; i++)
		if (won >> i & 1)
			requests++; /* request tag first + i */
	TAGS_MUST(tags_clear_mask(hand, (uint32_t)first, won));
	return requests;
}

/* A request in parts, each of which needs a tag: it begins once there is one for every part. */
static bool carry_out_in_parts(struct tags_hand *hand, size_t parts)
{
	uint32_t tags[TAGS_MAX_BATCH];

	if (parts > TAGS_MAX_BATCH || tags_get_many(hand, tags, parts) != TAGS_OK)
		return false;
	/* part i of the request has tags[i] */
	return tags_clear_batch(hand, tags, parts) >= 0;
}

/* Gives back the tags of completions that came together. */
static bool complete_all(struct tags_hand *hand, const uint32_t *completed, size_t count)
{
	/* none is given back if one of them can't be */
	return tags_clear_batch(hand, completed, count) >= 0;
}

/* One thread offers a tag with its request, and sends the tag's number to another one. */
static int32_t submit(struct tags_hand *hand, uint64_t request)
{
	int32_t tag = tags_get_blocking(hand);

	if (tag < 0)
		return tag;
	tags_write(hand, (uint32_t)tag, request, NULL);
	TAGS_MUST(tags_post(hand, (uint32_t)tag));
	return tag;
}

/* The other thread takes the tag, reads the request in its slot, and gives the tag back. */
static bool complete(struct tags_hand *hand, uint32_t tag, uint64_t *request)
{
	if (tags_take(hand, tag) != TAGS_OK)
		return false; /* another thread was first */
	tags_read(hand, tag, request);
	return tags_clear(hand, tag) >= 0;
}

/* One thread offers a batch with its requests, and sends the first number and the mask to another one. */
static int32_t submit_eight(struct tags_hand *hand, uint64_t *won)
{
	int32_t first = tags_get_batch(hand, 8, won);

	if (first < 0)
		return first;
	for (uint32_t i = 0; i < 8; i++)
		if (*won >> i & 1)
			tags_write(hand, (uint32_t)first + i, i, NULL);
	TAGS_MUST(tags_post_mask(hand, (uint32_t)first, *won));
	return first;
}

/* The other thread takes all of these tags, or none of them. */
static bool take_all(struct tags_hand *hand, uint32_t first, uint64_t won)
{
	return tags_take_mask(hand, first, won) == TAGS_OK;
}

/* Waits for a tag, but no longer than ten milliseconds. */
static int32_t get_soon(struct tags_hand *hand)
{
	struct timespec end;

	clock_gettime(CLOCK_MONOTONIC, &end);
	end.tv_nsec += 10000000;
	if (end.tv_nsec >= 1000000000) {
		end.tv_sec++;
		end.tv_nsec -= 1000000000;
	}
	return tags_get_timed(hand, CLOCK_MONOTONIC, &end);
}

/* Waits for a reserved tag, but no longer than until this moment. */
static int32_t get_reserved_until(struct tags_hand *hand, const struct timespec *end)
{
	return tags_get_reserved_timed(hand, CLOCK_MONOTONIC, end);
}

/* An event loop has a reserved tag, or waits for one by a non-blocking eventfd, and asks again when that is readable. */
static bool has_reserved(struct tags_hand *hand, int event, int32_t *tag)
{
	uint64_t told;

	if (read(event, &told, sizeof(told)) < 0)
		told = 0;
	*tag = tags_get_reserved_async(hand, event);
	return *tag != TAGS_NO_TAG;
}

/* An event loop waits for a tag by a non-blocking eventfd, and gives up after a second. */
static int32_t get_in_loop(struct tags_hand *hand, int event)
{
	struct pollfd look = { .fd = event, .events = POLLIN };
	uint64_t told;
	int32_t tag;

	while ((tag = tags_get_async(hand, event)) == TAGS_NO_TAG) {
		if (poll(&look, 1, 1000) != 1) {
			tags_cancel(hand);
			return TAGS_NO_TAG;
		}
		if (read(event, &told, sizeof(told)) != sizeof(told))
			continue;
	}
	return tag;
}

/* Where a thread sleeps by means of the program's own. */
struct bed {
	pthread_mutex_t lock;
	pthread_cond_t changed;
	bool is_told;
};

/* Called in the call that gives a tag back, on whatever thread makes it. */
static void wake(void *argument)
{
	struct bed *bed = argument;

	pthread_mutex_lock(&bed->lock);
	bed->is_told = true;
	pthread_cond_signal(&bed->changed);
	pthread_mutex_unlock(&bed->lock);
}

/* Sleeps by means of the program's own until it has a tag: wake() sets is_told, and signals. */
static int32_t get_with_own_sleep(struct tags_hand *hand, struct bed *bed)
{
	int32_t tag;

	while ((tag = tags_get_notified(hand, wake, bed)) == TAGS_NO_TAG) {
		pthread_mutex_lock(&bed->lock);
		while (!bed->is_told)
			pthread_cond_wait(&bed->changed, &bed->lock);
		bed->is_told = false;
		pthread_mutex_unlock(&bed->lock);
	}
	return tag;
}

/* The same for a reserved tag. It asks once more each time that wake() was called. */
static int32_t ask_for_reserved(struct tags_hand *hand, struct bed *bed)
{
	return tags_get_reserved_notified(hand, wake, bed);
}

/* A thread that keeps tags gives them back before it sleeps elsewhere. */
static void rest(struct tags_hand *hand, void (*nap)(void))
{
	tags_flush(hand);
	nap();
}

/* Prints which tags are busy, and how many this thread holds. */
static uint32_t count_own(struct tags_hand *hand)
{
	uint64_t busy[TAGS_MAX_TOTAL / 64];
	uint32_t own = 0;

	if (tags_busy(hand, busy, TAGS_MAX_TOTAL / 64) < 0)
		return 0;
	for (uint32_t tag = 0; tag < TAGS_MAX_TOTAL; tag++)
		if (busy[tag / 64] >> tag % 64 & 1)
			own += tags_holds(hand, tag) == 1;
	return own;
}

/* How full the ordinary tags are, in percent, and how many wait for one. */
static uint32_t load_of(struct tags_hand *hand, int32_t *waiting)
{
	struct tags_sizes sizes = { 0, 0, 0, 0, 0 };

	*waiting = tags_waiting(hand);
	tags_show(hand, TAGS_ORDINARY, &sizes);
	return sizes.depth > 0 ? 100 * sizes.busy / sizes.depth : 0;
}

/* What a monitor prints of a pool, without a hand of its own and while others work. */
static void monitor(struct tags_pool *pool)
{
	uint64_t busy[TAGS_MAX_TOTAL / 64];
	struct tags_sizes sizes = { 0, 0, 0, 0, 0 };

	tags_pool_show(pool, TAGS_ORDINARY, &sizes);
	printf("%d tags, %d in a batch at most\n", tags_pool_total(pool), tags_pool_batch(pool));
	printf("%d busy, ", tags_pool_busy(pool, busy, TAGS_MAX_TOTAL / 64));
	printf("%u of them ordinary; %d wait\n", sizes.busy, tags_pool_waiting(pool));
}

/* When the request of each tag began, in ms, or 0: set by holders after a get, reset before a clear. */
static uint64_t begun[64];

struct watch {
	uint64_t now;
	uint32_t late;
};

static int watch_tag(uint32_t tag, void *argument)
{
	struct watch *watch = argument;
	uint64_t since = __atomic_load_n(&begun[tag], __ATOMIC_RELAXED);

	if (since != 0 && watch->now >= since + 30000)
		watch->late++;
	return 0;
}

/* How many requests take 30 seconds or more: watch_tag() looks at what the tag's holder noted, and returns 0. */
static uint32_t count_late(struct tags_pool *pool, uint64_t now)
{
	struct watch watch = { now, 0 };

	tags_pool_each_busy(pool, watch_tag, &watch);
	return watch.late;
}

/* Opens a pool in which anybody can read what each tag is used for, and since when. */
static bool open_noted_pool(struct tags_pool *pool)
{
	const struct tags_options options = { .total = 64, .hands = 8, .flags = TAGS_NOTES };

	return tags_open(pool, &options) == TAGS_OK;
}

/* A request with a number: until its tag goes back, reports pass it. */
static int32_t submit_noted(struct tags_hand *hand, uint64_t request)
{
	int32_t tag = tags_get_blocking(hand);

	if (tag >= 0)
		TAGS_MUST(tags_note(hand, (uint32_t)tag, request));
	return tag;
}

/* The same with hands that threads share. */
static int32_t submit_noted_shared(struct tags_hands *hands, uint64_t request)
{
	int32_t tag = tags_hands_get_blocking(hands);

	if (tag >= 0)
		TAGS_MUST(tags_hands_note(hands, (uint32_t)tag, request));
	return tag;
}

/* The request that has taken longest, and the time of its note. */
struct slowest {
	uint32_t tag;
	struct tags_noted note;
};

static int compare_note(uint32_t tag, const struct tags_noted *note, void *argument)
{
	struct slowest *slowest = argument;

	/* a tag without a note has just been got, or is kept */
	if (note && note->since < slowest->note.since)
		*slowest = (struct slowest){ tag, *note };
	return 0;
}

/* Finds the request that has taken longest, while others run: compare_note() looks at each. */
static struct slowest find_slowest(struct tags_pool *pool)
{
	struct slowest slowest = { 0, { 0, UINT64_MAX } };

	tags_pool_each_noted(pool, compare_note, &slowest);
	return slowest;
}

/* A thread of a program with more threads than hands: it sleeps until a hand is free. */
static bool join_in_turn(struct tags_pool *pool, struct tags_hand *hand)
{
	return tags_join_blocking(pool, hand, 0) == TAGS_OK;
}

/* The hand of this thread, wherever in the program it is asked for. It leaves when the thread ends. */
static struct tags_hand *own_hand(struct tags_pool *pool)
{
	struct tags_hand *hand = tags_thread_hand(pool);
	int32_t status = hand ? tags_join(pool, hand, 0) : (int32_t)TAGS_NO_MEMORY;

	/* not empty: this thread has joined before */
	return status == TAGS_OK || status == TAGS_NOT_EMPTY ? hand : NULL;
}

/* Hands for all threads of a program, however many it has: one for each processor. */
static bool share_hands(struct tags_pool *pool, struct tags_hands *hands)
{
	return tags_hands_open(pool, hands, 0) == TAGS_OK;
}

/* Any thread begins a request. */
static int32_t submit_shared(struct tags_hands *hands, uint64_t request)
{
	int32_t tag = tags_hands_get(hands);

	if (tag >= 0)
		tags_hands_write(hands, (uint32_t)tag, request, NULL);
	return tag;
}

/* And any thread that is told of the tag ends it. */
static uint64_t complete_shared(struct tags_hands *hands, uint32_t tag)
{
	uint64_t request = 0;

	tags_hands_read(hands, tag, &request);
	TAGS_MUST(tags_hands_clear(hands, tag));
	return request;
}

/* A request that must go ahead: a reserved tag, or else whichever is free first. */
static int32_t get_shared_for_flush(struct tags_hands *hands)
{
	int32_t tag = tags_hands_get_reserved(hands);

	return tag == TAGS_NO_TAG ? tags_hands_get_blocking(hands) : tag;
}

/* A second from now. */
static struct timespec in_a_second(void)
{
	struct timespec end;

	clock_gettime(CLOCK_MONOTONIC, &end);
	end.tv_sec++;
	return end;
}

/* The same for no longer than a second. */
static bool join_soon(struct tags_pool *pool, struct tags_hand *hand)
{
	const struct timespec end = in_a_second();

	return tags_join_timed(pool, hand, 0, CLOCK_MONOTONIC, &end) == TAGS_OK;
}

/* A tag within a second. */
static int32_t get_shared_soon(struct tags_hands *hands)
{
	const struct timespec end = in_a_second();

	return tags_hands_get_timed(hands, CLOCK_MONOTONIC, &end);
}

/* No thread makes calls with the hands for a while: they are to keep no tag from those who wait. */
static void rest_shared(struct tags_hands *hands)
{
	tags_hands_flush(hands);
}

/* Once no thread makes calls with the hands any more. */
static bool close_shared(struct tags_hands *hands)
{
	return tags_hands_close(hands) == TAGS_OK; /* TAGS_IN_USE: a tag was not given back */
}

/* Opens a pool with two queues: for requests, and for those that were carried out. */
static bool open_queued_pool(struct tags_pool *pool)
{
	const struct tags_options options = { .total = 64, .hands = 8, .queues = 2 };

	return tags_open(pool, &options) == TAGS_OK;
}

/* Leaves a request to the threads that carry requests out. */
static int32_t hand_over(struct tags_hand *hand, uint64_t request)
{
	int32_t tag = tags_get_write(hand, request);

	if (tag >= 0)
		TAGS_MUST(tags_submit(hand, (uint32_t)tag));
	return tag;
}

/* Passes on what was carried out. */
static void report_done(struct tags_hand *hand, uint32_t tag)
{
	TAGS_MUST(tags_submit_to(hand, tag, 1));
}

/* A thread that carries requests out, until the pool is stopped and no request is left. */
static uint32_t serve(struct tags_hand *hand)
{
	uint32_t served = 0;
	uint64_t request;
	int32_t tag;

	while ((tag = tags_next_blocking(hand, 0)) >= 0) {
		tags_read(hand, (uint32_t)tag, &request);
		/* carry it out here */
		served++;
		report_done(hand, (uint32_t)tag);
	}
	return served;
}

/* Ends the requests that were carried out, if there are any. */
static uint32_t end_done(struct tags_hand *hand)
{
	uint32_t ended = 0;
	int32_t tag;

	while ((tag = tags_next(hand, 1)) >= 0) {
		TAGS_MUST(tags_clear(hand, (uint32_t)tag));
		ended++;
	}
	return ended;
}

/* The next request, within a second. */
static int32_t next_soon(struct tags_hand *hand)
{
	const struct timespec end = in_a_second();

	return tags_next_timed(hand, 0, CLOCK_MONOTONIC, &end);
}

/* An event loop carries out the next request, or is told by its eventfd when to repeat this. */
static int32_t next_in_loop(struct tags_hand *hand, int event)
{
	return tags_next_async(hand, 0, event);
}

/* The same where wake() tells. */
static int32_t next_when_told(struct tags_hand *hand, struct bed *bed)
{
	return tags_next_notified(hand, 0, wake, bed);
}

/* It carries out no more requests: others are told of the next one. */
static bool serve_no_more(struct tags_hand *hand)
{
	return tags_cancel_next(hand, 0) == TAGS_OK; /* TAGS_NOT_WAITING: it does not wait for one */
}

/* How many requests nobody has begun with. */
static int32_t count_requests(struct tags_pool *pool)
{
	return tags_pool_queued(pool, 0);
}

/* Ends all waits for a tag, waits until all tags are back, and lets waits begin again. */
static bool pause_pool(struct tags_pool *pool)
{
	tags_stop(pool);
	if (tags_drain(pool) != TAGS_OK)
		return false;
	return tags_resume(pool) == TAGS_OK;
}

/* Whether all tags are back within a second. */
static bool is_drained(struct tags_pool *pool)
{
	const struct timespec end = in_a_second();

	return tags_drain_timed(pool, CLOCK_MONOTONIC, &end) == TAGS_OK;
}

/* Ends a connection whose requests have these tags, once all of them have ended. Others go on. */
static bool end_connection(struct tags_pool *pool, const uint32_t *tags, size_t count)
{
	return tags_drain_list(pool, tags, count) == TAGS_OK;
}

/* Whether they have ended within a second. */
static bool ends_soon(struct tags_pool *pool, const uint32_t *tags, size_t count)
{
	const struct timespec end = in_a_second();

	return tags_drain_list_timed(pool, tags, count, CLOCK_MONOTONIC, &end) == TAGS_OK;
}

/* Changes the number of tags, once all hands have left. */
static bool grow(struct tags_pool *pool, uint32_t total)
{
	int32_t status = tags_resize(pool, total);

	if (status == TAGS_HANDS_OUT || status == TAGS_IN_USE)
		return false; /* not yet: the pool is as it was */
	return status == TAGS_OK;
}

/* Ends all waits, so that threads give back what they hold, and leave. */
static void shut_down(struct tags_pool *pool)
{
	tags_stop(pool);
	/* join the threads here */
}

/* Closes a pool whose hands have left. Whatever is still held or posted was leaked. */
static bool close_pool(struct tags_pool *pool)
{
	struct tags_sums sums;

	if (tags_close(pool, &sums) != TAGS_OK)
		return false;
	if (sums.held + sums.posted > 0)
		fprintf(stderr, "%llu tags leaked\n", (unsigned long long)(sums.held + sums.posted));
	return sums.got == sums.back;
}

static void nap(void)
{
}

static bool passes_eight(struct tags_hand *hand, struct tags_hand *other)
{
	uint64_t request = 0;
	uint64_t won = 0;
	int32_t first = submit_eight(hand, &won);

	if (first < 0 || !take_all(other, (uint32_t)first, won))
		return false;
	tags_read(other, (uint32_t)first + 7, &request);
	return tags_clear_mask(other, (uint32_t)first, won) >= 0 && request == 7;
}

/* The pool has four reserved tags. */
static bool gets_reserved(struct tags_hand *hand, int event, struct bed *bed)
{
	const struct timespec past = { 0, 0 };
	int32_t tags[4];

	tags[0] = get_ahead(hand);
	tags[1] = get_reserved_until(hand, &past);
	tags[2] = ask_for_reserved(hand, bed);
	if (!has_reserved(hand, event, &tags[3]))
		return false;
	for (int i = 0; i < 4; i++)
		if (tags[i] < 0 || tags[i] > 3 || tags_clear(hand, (uint32_t)tags[i]) < 0)
			return false;
	return true;
}

static bool runs_with(struct tags_hand *hand, struct tags_hand *other, int event)
{
	const struct timespec past = { 0, 0 };
	uint64_t request = 0;
	struct bed bed = { PTHREAD_MUTEX_INITIALIZER, PTHREAD_COND_INITIALIZER, false };
	int32_t waiting = 1;
	uint64_t won = 0;
	uint32_t tags[5];
	int32_t tag;

	for (int i = 0; i < 5; i++)
		tags[i] = (uint32_t)tags_get(hand);
	if (!complete_all(hand, tags, 5) || carry_out_eight(hand) != 8 ||
	    !carry_out_in_parts(hand, 12) ||
	    !passes_eight(hand, other) || !carry_out_by_pairs(hand, 9))
		return false;
	tag = submit(hand, 11);
	if (tag < 0 || !complete(other, (uint32_t)tag, &request) || request != 11)
		return false;
	for (int i = 0; i < 3; i++)
		tags[i] = (uint32_t)tags_get(hand);
	tag = tags_get_batch(hand, 2, &won);
	if (count_own(hand) != 5 || load_of(hand, &waiting) != 100 * 5 / 60 || waiting != 0 ||
	    !complete_all(hand, tags, 3) || tags_clear_mask(hand, (uint32_t)tag, won) < 0)
		return false;
	rest(hand, nap);
	for (int i = 0; i < 4; i++)
		tags[i] = (uint32_t)(i == 0   ? get_for_flush(hand)
				     : i == 1 ? get_for_readahead(hand)
				     : i == 2 ? get_soon(hand)
					      : get_in_loop(hand, event));
	tags[4] = (uint32_t)get_with_own_sleep(hand, &bed);
	for (int i = 0; i < 5; i++)
		if (tags_clear(hand, tags[i]) < 0)
			return false;
	if (!gets_reserved(hand, event, &bed))
		return false;
	if (!take_up_again(hand, 40) || take_up_again(other, 40) || tags_clear(hand, 40) < 0)
		return false;
	return tags_get_timed(hand, CLOCK_MONOTONIC, &past) >= 0;
}

static void *carry_out_two(void *pool)
{
	for (uint64_t request = 12; request < 14; request++) {
		struct tags_hand *hand = own_hand(pool);

		if (!hand || !carry_out(hand, request))
			return NULL;
	}
	return pool;
}

static bool runs_on_a_thread(struct tags_pool *pool)
{
	pthread_t thread;
	void *ended = NULL;

	return pthread_create(&thread, NULL, carry_out_two, pool) == 0 &&
	       pthread_join(thread, &ended) == 0 && ended == pool;
}

static bool runs_shared(struct tags_pool *pool)
{
	struct tags_hands hands = TAGS_EMPTY;
	int32_t tags[3];

	if (!share_hands(pool, &hands))
		return false;
	tags[0] = submit_shared(&hands, 15);
	tags[1] = get_shared_for_flush(&hands);
	tags[2] = get_shared_soon(&hands);
	for (int i = 0; i < 3; i++)
		if (tags[i] < 0 || (complete_shared(&hands, (uint32_t)tags[i]) == 15) != (i == 0))
			return false;
	rest_shared(&hands);
	return close_shared(&hands);
}

static bool runs_with_notes(void)
{
	struct tags_pool pool = TAGS_EMPTY;
	struct tags_hand hand = TAGS_EMPTY;
	struct tags_hands hands = TAGS_EMPTY;
	struct slowest slowest;
	int32_t tags[2];
	bool is_well;

	if (!open_noted_pool(&pool) || tags_join(&pool, &hand, 0) != TAGS_OK || !share_hands(&pool, &hands))
		return false;
	tags[0] = submit_noted_shared(&hands, 70);
	tags[1] = submit_noted(&hand, 71);
	slowest = find_slowest(&pool);
	is_well = slowest.tag == (uint32_t)tags[0] && slowest.note.value == 70;
	TAGS_MUST(tags_hands_clear(&hands, (uint32_t)tags[0]));
	slowest = find_slowest(&pool);
	is_well = is_well && slowest.tag == (uint32_t)tags[1] && slowest.note.value == 71;
	TAGS_MUST(tags_clear(&hand, (uint32_t)tags[1]));
	is_well = is_well && find_slowest(&pool).note.since == UINT64_MAX;
	return close_shared(&hands) && tags_leave(&hand) == TAGS_OK && close_pool(&pool) && is_well;
}

static bool runs_in_order(struct tags_hand *hand, int event, struct bed *bed)
{
	const int32_t first = hand_over(hand, 80), second = hand_over(hand, 81);
	int32_t tags[2];

	tags[0] = next_soon(hand);
	tags[1] = next_in_loop(hand, event);
	if (tags[0] != first || tags[1] != second || next_when_told(hand, bed) != TAGS_NO_TAG || !serve_no_more(hand))
		return false;
	for (int i = 0; i < 2; i++)
		TAGS_MUST(tags_clear(hand, (uint32_t)tags[i]));
	return true;
}

static bool runs_with_queues(int event)
{
	struct bed bed = { PTHREAD_MUTEX_INITIALIZER, PTHREAD_COND_INITIALIZER, false };
	struct tags_pool pool = TAGS_EMPTY;
	struct tags_hand hand = TAGS_EMPTY;
	bool is_well;

	if (!open_queued_pool(&pool) || tags_join(&pool, &hand, 0) != TAGS_OK || !runs_in_order(&hand, event, &bed))
		return false;
	for (uint64_t request = 82; request < 87; request++)
		hand_over(&hand, request);
	is_well = count_requests(&pool) == 5;
	shut_down(&pool);
	is_well = is_well && serve(&hand) == 5 && count_requests(&pool) == 0 && end_done(&hand) == 5;
	return tags_leave(&hand) == TAGS_OK && close_pool(&pool) && is_well;
}

int main(void)
{
	struct tags_pool pool = TAGS_EMPTY;
	struct tags_pool cached = TAGS_EMPTY;
	struct tags_hand hand = TAGS_EMPTY;
	struct tags_hand other = TAGS_EMPTY;
	const uint32_t two[] = { 0, 63 };
	int event = eventfd(0, EFD_NONBLOCK);
	bool is_well = open_pool(&pool) && open_cached_pool(&cached) && close_pool(&cached) &&
		       work(&pool) && join_in_turn(&pool, &hand) && join_soon(&pool, &other) &&
		       runs_with(&hand, &other, event) && runs_on_a_thread(&pool) && runs_shared(&pool) && runs_with_notes() &&
		       runs_with_queues(event) && !grow(&pool, 128);

	monitor(&pool);
	begun[63] = 50000;
	is_well = is_well && count_late(&pool, 90000) == 0;
	for (uint32_t tag = 0; tag < 64; tag++)
		begun[tag] = tags_holds(&hand, tag) == 1 ? 50000 : 0;
	is_well = is_well && count_late(&pool, 79999) == 0 && count_late(&pool, 80000) == count_own(&hand);
	is_well = is_well && tags_clear(&hand, 0) == TAGS_NOT_HELD;
	for (uint32_t tag = 0; tag < 64; tag++)
		if (tags_holds(&hand, tag) == 1)
			TAGS_MUST(tags_clear(&hand, tag));
	is_well = is_well && end_connection(&pool, two, 2) && ends_soon(&pool, two, 2) &&
		  pause_pool(&pool) && is_drained(&pool) &&
		  tags_leave(&hand) == TAGS_OK && tags_leave(&other) == TAGS_OK && grow(&pool, 128);
	shut_down(&pool);
	is_well = is_well && close_pool(&pool);
	close(event);
	puts(is_well ? "calls: 0 wrong" : "calls: wrong");
	return !is_well;
}
