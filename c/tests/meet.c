/*
 * As many threads as tags: nobody should ever wait for long. In each round every
 * thread gets a tag, meets the others, and gives its tag back. Or threads share one
 * tag, beside others whose batches sweep and take nothing. They wait asleep, asleep
 * with a deadline, or for an eventfd of their own, in pools of several shifts, with
 * caches and without. If none makes progress, a tag is free and nobody knows: the
 * watchdog says who waits beside which tags. meet [SECONDS [SEED]]
 */
#define _GNU_SOURCE
#include <inttypes.h>
#include <poll.h>
#include <pthread.h>
#include <stdbool.h>
#include <stdio.h>
#include <stdlib.h>
#include <string.h>
#include <sys/eventfd.h>
#include <sys/syscall.h>
#include <time.h>
#include <unistd.h>

#include "../tags.h"

enum {
	MOST = 16,
	/* tenths of a second after which threads hang that all sleep, and make no progress */
	PATIENCE = 100
};

enum way { ASLEEP, TIMED, BY_EVENT, ANY_WAY };

struct setting {
	uint32_t tags;
	int32_t shift;
	enum way way;
	/* threads that share one tag, beside as many that get batches of two; 0 if they meet */
	uint32_t sharers;
	uint32_t cache;
	uint32_t flags;
};

static const struct setting settings[] = {
	{ .tags = 3 },
	{ .tags = 8, .shift = 1 },
	{ .tags = 8, .shift = 3 },
	{ .tags = 3, .way = BY_EVENT },
	{ .tags = 1, .sharers = 3 },
	{ .tags = 1, .sharers = 3, .way = BY_EVENT },
	{ .tags = 4, .shift = 2, .way = ANY_WAY },
	{ .tags = 4, .cache = 1, .way = ANY_WAY },
	{ .tags = 3, .cache = 2, .flags = TAGS_KEEP_WHILE_HOLDING },
	{ .tags = 5, .shift = 1, .flags = TAGS_ROUND_ROBIN, .way = TIMED },
	{ .tags = 1, .sharers = 2, .way = ANY_WAY },
	{ .tags = 3, .shift = TAGS_ONE_PER_WORD, .way = ANY_WAY },
};

enum { SETTINGS = sizeof(settings) / sizeof(*settings) };

struct thread {
	pthread_t id;
	struct tags_hand hand;
	int event;
	enum way way;
	/* what it does now, for the watchdog, and as which task */
	const char *doing;
	long task;
};

static struct thread threads[MOST];
static struct tags_hand watcher;
static pthread_barrier_t meeting;
static uint64_t rounds;
static bool is_over;
/* as all threads of a meeting read it */
static bool ends;
static uint64_t state = 1;

static uint32_t below(uint32_t bound)
{
	state = state * 6364136223846793005u + 1442695040888963407u;
	return (uint32_t)(state >> 33) % bound;
}

static void must(bool is_well, const char *what)
{
	if (is_well)
		return;
	fprintf(stderr, "wrong: %s\n", what);
	printf("1 wrong\n");
	exit(1);
}

#define MUST(what) must(what, #what)

static bool is_late(void)
{
	return __atomic_load_n(&is_over, __ATOMIC_SEQ_CST);
}

static int32_t get_timed(struct thread *self)
{
	struct timespec end;

	clock_gettime(CLOCK_MONOTONIC, &end);
	end.tv_sec += 600;
	return tags_get_timed(&self->hand, CLOCK_MONOTONIC, &end);
}

static int32_t get_by_event(struct thread *self)
{
	struct pollfd look = { self->event, POLLIN, 0 };
	int32_t tag;
	uint64_t told;

	while ((tag = tags_get_async(&self->hand, self->event)) == TAGS_NO_TAG) {
		MUST(poll(&look, 1, -1) == 1);
		MUST(read(self->event, &told, sizeof(told)) == sizeof(told));
	}
	return tag;
}

static uint32_t get(struct thread *self)
{
	int32_t tag;

	self->doing = "waits";
	if (self->way == TIMED)
		tag = get_timed(self);
	else if (self->way == BY_EVENT)
		tag = get_by_event(self);
	else
		tag = tags_get_blocking(&self->hand);
	MUST(tag >= 0);
	self->doing = "has a tag";
	return (uint32_t)tag;
}

static void note_task(struct thread *self)
{
	__atomic_store_n(&self->task, syscall(SYS_gettid), __ATOMIC_RELAXED);
}

static void *meet(void *argument)
{
	struct thread *self = argument;
	bool goes_on = true;

	note_task(self);
	while (goes_on) {
		uint32_t tag = get(self);

		if (pthread_barrier_wait(&meeting) == PTHREAD_BARRIER_SERIAL_THREAD) {
			__atomic_fetch_add(&rounds, 1, __ATOMIC_RELAXED);
			ends = is_late();
		}
		MUST(tags_clear(&self->hand, tag) >= 0);
		pthread_barrier_wait(&meeting);
		goes_on = !ends;
	}
	self->doing = "has ended";
	return NULL;
}

static void *share(void *argument)
{
	struct thread *self = argument;

	note_task(self);
	while (!is_late()) {
		uint32_t tag = get(self);

		MUST(tags_clear(&self->hand, tag) >= 0);
		__atomic_fetch_add(&rounds, 1, __ATOMIC_RELAXED);
	}
	self->doing = "has ended";
	return NULL;
}

/* The shared tag is alone in its word, so a batch of two sweeps it and leaves it. */
static void *sweep(void *argument)
{
	struct thread *self = argument;
	uint64_t won;

	self->doing = "sweeps";
	while (!is_late())
		MUST(tags_get_batch(&self->hand, 2, &won) == TAGS_NO_TAG);
	return NULL;
}

static void tell(const struct setting *setting, uint32_t count)
{
	struct tags_sizes sizes = { 0 };
	uint64_t busy = 0;

	if (tags_show(&watcher, TAGS_ORDINARY, &sizes) != TAGS_OK || tags_busy(&watcher, &busy, 1) < 0)
		return;
	fprintf(stderr, "hung: %" PRIu32 " tags, shift %" PRId32 ", cache %" PRIu32 ", flags %" PRIu32 "\n",
		setting->tags, setting->shift, setting->cache, setting->flags);
	fprintf(stderr, "%" PRIu32 " busy, mask %" PRIx64 ", %" PRIu32 " set aside; %" PRId32 " wait\n",
		sizes.busy, busy, sizes.cleared, tags_waiting(&watcher));
	for (uint32_t i = 0; i < count; i++)
		fprintf(stderr, "thread %" PRIu32 ", way %d: %s\n", i, threads[i].way, threads[i].doing);
}

/* Whether a thread sleeps, by what /proc says of it. One that is only kept from a processor does not. */
static bool sleeps(long task)
{
	char path[64], said[300] = "";
	const char *name_ends;
	FILE *file;

	snprintf(path, sizeof(path), "/proc/self/task/%ld/stat", task);
	file = fopen(path, "r");
	if (!file)
		return false;
	name_ends = fgets(said, sizeof(said), file) ? strrchr(said, ')') : NULL;
	fclose(file);
	return name_ends && strncmp(name_ends, ") S", 3) == 0;
}

/* Whether all threads sleep but those that never wait. */
static bool all_sleep(const struct setting *setting, uint32_t count)
{
	for (uint32_t i = 0; i < (setting->sharers ? setting->sharers : count); i++)
		if (!sleeps(__atomic_load_n(&threads[i].task, __ATOMIC_RELAXED)))
			return false;
	return true;
}

/* Whether there is progress for so many milliseconds, and beyond that until all threads have ended. */
static bool watch(const struct setting *setting, uint32_t count, long ms)
{
	struct timespec tenth = { 0, ms < 100 ? ms * 1000000 : 100000000 };
	uint64_t last = UINT64_MAX;
	int quiet = 0;

	for (long past = 0; past < ms; past += 100) {
		uint64_t now = __atomic_load_n(&rounds, __ATOMIC_RELAXED);

		quiet = now == last && all_sleep(setting, count) ? quiet + 1 : 0;
		/* a hang late in the time is one, too */
		if (quiet > 0)
			past -= 100;
		if (quiet == PATIENCE) {
			tell(setting, count);
			return false;
		}
		last = now;
		nanosleep(&tenth, NULL);
	}
	return true;
}

/* The tags before the shared one, which fill a word of two. */
enum { BEFORE = 2 };

static void hold_others(void)
{
	uint64_t won = 0;

	MUST(tags_get_batch(&watcher, BEFORE, &won) == 0 && won == 3);
}

static void run(const struct setting *setting, long ms)
{
	struct tags_options options = {
		.total = setting->tags,
		.shift = setting->shift,
		.flags = setting->flags,
		.cache = setting->cache,
	};
	uint32_t count = setting->sharers ? 2 * setting->sharers : setting->tags;
	struct tags_pool pool = TAGS_EMPTY;
	struct tags_sums sums;

	options.hands = count + 1;
	if (setting->sharers) {
		options.total = BEFORE + 1;
		options.shift = 1;
	}
	MUST(tags_open(&pool, &options) == TAGS_OK && tags_join(&pool, &watcher, 0) == TAGS_OK);
	if (setting->sharers)
		hold_others();
	MUST(pthread_barrier_init(&meeting, NULL, count) == 0);
	is_over = false;
	for (uint32_t i = 0; i < count; i++) {
		struct thread *it = &threads[i];
		bool is_sweeper = setting->sharers && i >= setting->sharers;

		it->way = setting->way == ANY_WAY ? (enum way)(i % 3) : setting->way;
		it->task = 0;
		it->event = eventfd(0, EFD_NONBLOCK);
		MUST(tags_join(&pool, &it->hand, 0) == TAGS_OK);
		MUST(pthread_create(&it->id, NULL, is_sweeper ? sweep : setting->sharers ? share : meet, it) == 0);
	}
	if (!watch(setting, count, ms)) {
		printf("1 wrong\n");
		fflush(stdout);
		_exit(1);
	}
	__atomic_store_n(&is_over, true, __ATOMIC_SEQ_CST);
	for (uint32_t i = 0; i < count; i++) {
		pthread_join(threads[i].id, NULL);
		MUST(tags_leave(&threads[i].hand) == TAGS_OK);
		close(threads[i].event);
	}
	pthread_barrier_destroy(&meeting);
	if (setting->sharers)
		MUST(tags_clear_mask(&watcher, 0, 3) == TAGS_OK);
	MUST(tags_waiting(&watcher) == 0 && tags_leave(&watcher) == TAGS_OK);
	MUST(tags_close(&pool, &sums) == TAGS_OK && sums.got == sums.back);
}

static struct setting any_setting(void)
{
	struct setting setting = {
		.tags = 1 + below(MOST),
		.shift = (int32_t)below(5),
		.way = (enum way)below(ANY_WAY + 1),
		.cache = below(2) ? 0 : 1 + below(3),
		.flags = below(2) ? 0 : TAGS_KEEP_WHILE_HOLDING,
	};

	if (below(3) == 0) {
		setting.sharers = 1 + below(MOST / 2);
		setting.tags = 1;
		setting.cache = 0;
		setting.shift = 0;
	}
	return setting;
}

int main(int argc, char **argv)
{
	long ms = argc > 1 ? (long)(strtod(argv[1], NULL) * 1000) : 8000;
	uint32_t turns = SETTINGS;

	for (uint32_t i = 0; i < SETTINGS && argc < 3; i++)
		run(&settings[i], ms / SETTINGS);
	if (argc > 2) {
		state = strtoull(argv[2], NULL, 10) * 2 + 1;
		turns = ms / 500 > 1 ? (uint32_t)(ms / 500) : 1;
	}
	for (uint32_t i = 0; i < turns && argc > 2; i++) {
		struct setting setting = any_setting();

		run(&setting, ms / turns);
	}
	fprintf(stderr, "%" PRIu64 " rounds\n", rounds);
	printf("0 wrong\n");
	return 0;
}
