/*
 * Requests that threads hand over to others: by a queue of the pool (tags), by a ring behind a mutex with a
 * condition variable (list), by a ring without a lock that takers look at again and again (polled), or by that
 * ring with a semaphore that counts what is in it (semaphore).
 * queues CONTENDER LOAD THREADS MILLISECONDS
 *
 * There are as many threads on each side. One that submits gets a tag and hands it over; one that takes it has
 * it then as its holder, and clears it. So all get, take and clear the tags of one pool, and only the queue
 * differs. With the load `idle` a submitter sleeps for 50 us before each request, so that takers mostly wait; with
 * `loaded` it does not. It prints nanoseconds of each request: of processor time; and, by the clock, from the
 * submit to the take if idle, or else of all threads together.
 */
#define _GNU_SOURCE
#include <pthread.h>
#include <sched.h>
#include <semaphore.h>
#include <stdbool.h>
#include <stdio.h>
#include <stdlib.h>
#include <string.h>
#include <sys/resource.h>
#include <time.h>
#include <unistd.h>

#include "../c/tags.h"

enum { MOST = 16, TAGS = 256, LINE = 64, NONE = -1 };

/* What one thread writes, on cache lines of its own. */
struct thread {
	pthread_t id;
	struct tags_hand hand;
	uint64_t requests, ns;
	char apart[2 * LINE];
};

static struct thread submitters[MOST], takers[MOST];
static struct tags_pool pool = TAGS_EMPTY;
static bool is_idle, is_over, has_ended;
/* of each tag, when it was submitted: its holder writes and reads it */
static uint64_t since[TAGS];

static void expect(bool is_well)
{
	if (!is_well)
		abort();
}

static uint64_t now(void)
{
	struct timespec time;

	clock_gettime(CLOCK_MONOTONIC, &time);
	return (uint64_t)time.tv_sec * 1000000000 + (uint64_t)time.tv_nsec;
}

/* Between two looks. A thread that looks for long gives way, as others may need its processor. */
static void rest(uint32_t looks)
{
#ifdef __x86_64__
	__builtin_ia32_pause();
#endif
	if (looks % 128 == 127)
		sched_yield();
}

/*
 * The queue of the pool
 */

static void submit_to_pool(struct thread *self, uint32_t tag)
{
	expect(tags_submit(&self->hand, tag) == TAGS_OK);
}

static int32_t take_from_pool(struct thread *self)
{
	const int32_t tag = tags_next_blocking(&self->hand, 0);

	expect(tag >= 0 || tag == TAGS_STOPPED);
	return tag >= 0 ? tag : NONE;
}

static void end_pool(uint32_t count)
{
	(void)count;
	expect(tags_stop(&pool) == TAGS_OK);
}

/*
 * A ring behind a mutex. There is room for every tag, so it is never full.
 */
static struct {
	pthread_mutex_t lock;
	pthread_cond_t filled;
	uint32_t first, count;
	uint32_t tags[TAGS];
} list = { .lock = PTHREAD_MUTEX_INITIALIZER, .filled = PTHREAD_COND_INITIALIZER };

static void submit_to_list(struct thread *self, uint32_t tag)
{
	expect(tags_post(&self->hand, tag) == TAGS_OK);
	pthread_mutex_lock(&list.lock);
	list.tags[(list.first + list.count++) % TAGS] = tag;
	pthread_cond_signal(&list.filled);
	pthread_mutex_unlock(&list.lock);
}

static int32_t take_from_list(struct thread *self)
{
	int32_t tag = NONE;

	pthread_mutex_lock(&list.lock);
	while (list.count == 0 && !has_ended)
		pthread_cond_wait(&list.filled, &list.lock);
	if (list.count > 0) {
		tag = (int32_t)list.tags[list.first];
		list.first = (list.first + 1) % TAGS;
		list.count--;
	}
	pthread_mutex_unlock(&list.lock);
	expect(tag < 0 || tags_take(&self->hand, (uint32_t)tag) == TAGS_OK);
	return tag;
}

static void end_list(uint32_t count)
{
	(void)count;
	pthread_mutex_lock(&list.lock);
	has_ended = true;
	pthread_cond_broadcast(&list.filled);
	pthread_mutex_unlock(&list.lock);
}

/*
 * A ring as DPDK's programmer's guide describes rte_ring, for any number of threads on each side: whoever
 * moves the head has the entry there for itself, and once it has written or read that, moves the tail in its turn.
 */
struct end {
	uint32_t head __attribute__((aligned(LINE)));
	uint32_t tail;
};

static struct {
	struct end in, out;
	uint32_t tags[TAGS] __attribute__((aligned(LINE)));
} ring;

static uint32_t load(const uint32_t *word)
{
	return __atomic_load_n(word, __ATOMIC_ACQUIRE);
}

/* Moves the head by one, if it is not yet @room beyond the other end's tail. */
static bool claim(struct end *end, const struct end *other, uint32_t room, uint32_t *at)
{
	*at = load(&end->head);
	do
		if (*at - load(&other->tail) == room)
			return false;
	while (!__atomic_compare_exchange_n(&end->head, at, *at + 1, false, __ATOMIC_ACQ_REL, __ATOMIC_ACQUIRE));
	return true;
}

/* Those that claimed an entry before do this first. */
static void publish(struct end *end, uint32_t at)
{
	for (uint32_t looks = 0; load(&end->tail) != at; looks++)
		rest(looks);
	__atomic_store_n(&end->tail, at + 1, __ATOMIC_RELEASE);
}

static void push(uint32_t tag)
{
	uint32_t at;

	expect(claim(&ring.in, &ring.out, TAGS, &at));
	ring.tags[at % TAGS] = tag;
	publish(&ring.in, at);
}

static int32_t pop(void)
{
	uint32_t at, tag;

	if (!claim(&ring.out, &ring.in, 0, &at))
		return NONE;
	tag = ring.tags[at % TAGS];
	publish(&ring.out, at);
	return (int32_t)tag;
}

static void submit_to_ring(struct thread *self, uint32_t tag)
{
	expect(tags_post(&self->hand, tag) == TAGS_OK);
	push(tag);
}

/* What was submitted before the end is there after that. */
static int32_t take_from_ring(struct thread *self)
{
	bool is_last_look = false;
	uint32_t looks = 0;
	int32_t tag;

	while ((tag = pop()) == NONE && !is_last_look) {
		is_last_look = __atomic_load_n(&has_ended, __ATOMIC_ACQUIRE);
		rest(looks++);
	}
	expect(tag < 0 || tags_take(&self->hand, (uint32_t)tag) == TAGS_OK);
	return tag;
}

static void end_ring(uint32_t count)
{
	(void)count;
	__atomic_store_n(&has_ended, true, __ATOMIC_RELEASE);
}

/*
 * The same with a semaphore
 */
static sem_t filled;

static void submit_and_post(struct thread *self, uint32_t tag)
{
	submit_to_ring(self, tag);
	expect(sem_post(&filled) == 0);
}

static int32_t wait_and_take(struct thread *self)
{
	int32_t tag;

	while (sem_wait(&filled) != 0)
		;
	tag = pop();
	expect(tag < 0 || tags_take(&self->hand, (uint32_t)tag) == TAGS_OK);
	return tag;
}

static void end_semaphore(uint32_t count)
{
	for (uint32_t i = 0; i < count; i++)
		expect(sem_post(&filled) == 0);
}

static const struct contender {
	const char *name;
	void (*submit)(struct thread *self, uint32_t tag);
	/* sleeps, or looks, until there is a tag, and takes it; NONE once the queue has ended and is empty */
	int32_t (*take)(struct thread *self);
	/* once nobody submits any more, for so many takers */
	void (*end)(uint32_t count);
} contenders[] = {
	{ "tags", submit_to_pool, take_from_pool, end_pool },
	{ "list", submit_to_list, take_from_list, end_list },
	{ "polled", submit_to_ring, take_from_ring, end_ring },
	{ "semaphore", submit_and_post, wait_and_take, end_semaphore },
};
static const struct contender *contender;

/*
 * Threads
 */

static void *submit_all(void *argument)
{
	const struct timespec pause = { 0, 50000 };
	struct thread *self = argument;
	int32_t tag;

	/* one at least, however busy the machine is */
	do {
		if (is_idle)
			nanosleep(&pause, NULL);
		tag = tags_get_blocking(&self->hand);
		expect(tag >= 0);
		since[tag] = is_idle ? now() : 0;
		contender->submit(self, (uint32_t)tag);
		self->requests++;
	} while (!__atomic_load_n(&is_over, __ATOMIC_RELAXED));
	return NULL;
}

static void *take_all(void *argument)
{
	struct thread *self = argument;
	int32_t tag;

	for (; (tag = contender->take(self)) != NONE; self->requests++) {
		self->ns += is_idle ? now() - since[tag] : 0;
		expect(tags_clear(&self->hand, (uint32_t)tag) == TAGS_OK);
	}
	return NULL;
}

static void open_all(uint32_t count)
{
	struct tags_options options = TAGS_OPTIONS_INIT;

	options.total = TAGS;
	options.hands = 2 * count;
	options.queues = 1;
	expect(tags_open(&pool, &options) == TAGS_OK && sem_init(&filled, 0, 0) == 0);
	for (uint32_t i = 0; i < count; i++) {
		expect(tags_join(&pool, &takers[i].hand, 0) == TAGS_OK);
		expect(tags_join(&pool, &submitters[i].hand, 0) == TAGS_OK);
	}
}

static void start(uint32_t count)
{
	for (uint32_t i = 0; i < count; i++) {
		expect(pthread_create(&takers[i].id, NULL, take_all, &takers[i]) == 0);
		expect(pthread_create(&submitters[i].id, NULL, submit_all, &submitters[i]) == 0);
	}
}

static void end(uint32_t count)
{
	__atomic_store_n(&is_over, true, __ATOMIC_RELAXED);
	for (uint32_t i = 0; i < count; i++)
		expect(pthread_join(submitters[i].id, NULL) == 0);
	contender->end(count);
	for (uint32_t i = 0; i < count; i++)
		expect(pthread_join(takers[i].id, NULL) == 0);
}

/* Each request that was submitted was taken, and its tag came back. Returns how many. */
static uint64_t close_all(uint32_t count, uint64_t *ns)
{
	uint64_t submitted = 0, taken = 0;
	struct tags_sums sums;

	*ns = 0;
	for (uint32_t i = 0; i < count; i++) {
		submitted += submitters[i].requests;
		taken += takers[i].requests;
		*ns += takers[i].ns;
		expect(tags_leave(&submitters[i].hand) == TAGS_OK && tags_leave(&takers[i].hand) == TAGS_OK);
	}
	expect(tags_close(&pool, &sums) == TAGS_OK && sums.got == sums.back);
	expect(submitted == taken && taken == sums.got);
	return taken;
}

static double used(void)
{
	struct rusage usage;

	getrusage(RUSAGE_SELF, &usage);
	return (double)(usage.ru_utime.tv_sec + usage.ru_stime.tv_sec) * 1e9 +
	       (double)(usage.ru_utime.tv_usec + usage.ru_stime.tv_usec) * 1e3;
}

int main(int argc, char **argv)
{
	const uint32_t count = argc == 5 ? (uint32_t)atoi(argv[3]) : 0;
	uint64_t begin, requests, latencies;

	for (size_t i = 0; argc == 5 && i < sizeof(contenders) / sizeof(*contenders); i++)
		if (strcmp(argv[1], contenders[i].name) == 0)
			contender = &contenders[i];
	if (!contender || count == 0 || count > MOST)
		return 2;
	is_idle = strcmp(argv[2], "idle") == 0;
	open_all(count);
	begin = now();
	start(count);
	usleep((useconds_t)atoi(argv[4]) * 1000);
	end(count);
	begin = now() - begin;
	requests = close_all(count, &latencies);
	printf("%.0f %.0f\n", used() / (double)requests,
	       (double)(is_idle ? latencies : begin) / (double)requests);
	return 0;
}
