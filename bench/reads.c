/*
 * reads KIND THREADS FILE COUNT [direct]: threads read blocks of a file at random
 * through io_uring, each as many at a time as its share of the tags, and take a
 * tag for each read: from a pool, from a pool with caches, from a list behind a
 * mutex, or from a list of the thread's own. COUNT is for each thread. Prints
 * nanoseconds per read, by the clock and of the processors.
 */
#define _GNU_SOURCE
#include <fcntl.h>
#include <liburing.h>
#include <pthread.h>
#include <stdbool.h>
#include <stdio.h>
#include <stdlib.h>
#include <string.h>
#include <sys/resource.h>
#include <tags.h>
#include <time.h>
#include <unistd.h>

/* BLOCK in bytes; DEPTH is the number of tags for each thread */
enum { BLOCK = 4096, DEPTH = 32, MOST = 16, NONE = -1 };

enum kind { POOL, CACHES, LIST, OWN_LISTS, KINDS };

static const char *const names[KINDS] = { "pool", "caches", "list", "own-lists" };

struct list {
	pthread_mutex_t lock;
	uint32_t count;
	int32_t tags[DEPTH * MOST];
};

struct worker {
	pthread_t thread;
	struct tags_hand hand;
	struct list own;
	uint64_t random;
};

static enum kind kind;
static uint32_t threads;
static int file;
static uint64_t blocks;
static uint64_t count;
static struct list shared = { .lock = PTHREAD_MUTEX_INITIALIZER };
static struct worker workers[MOST];

static void must(bool is_well, const char *what)
{
	if (is_well)
		return;
	perror(what);
	exit(1);
}

static int32_t pop(struct list *list)
{
	return list->count > 0 ? list->tags[--list->count] : NONE;
}

static int32_t get(struct worker *self)
{
	int32_t tag;

	if (kind == OWN_LISTS)
		return pop(&self->own);
	if (kind != LIST)
		return tags_get(&self->hand);
	pthread_mutex_lock(&shared.lock);
	tag = pop(&shared);
	pthread_mutex_unlock(&shared.lock);
	return tag;
}

static void give(struct worker *self, int32_t tag)
{
	if (kind == OWN_LISTS) {
		self->own.tags[self->own.count++] = tag;
	} else if (kind != LIST) {
		must(tags_clear(&self->hand, (uint32_t)tag) >= 0, "tags_clear");
	} else {
		pthread_mutex_lock(&shared.lock);
		shared.tags[shared.count++] = tag;
		pthread_mutex_unlock(&shared.lock);
	}
}

/* xorshift64 */
static uint64_t draw(struct worker *self)
{
	self->random ^= self->random << 13;
	self->random ^= self->random >> 7;
	self->random ^= self->random << 17;
	return self->random;
}

static void queue_read(struct worker *self, struct io_uring *ring, char *buffers, int32_t tag)
{
	struct io_uring_sqe *entry = io_uring_get_sqe(ring);

	must(entry != NULL, "io_uring_get_sqe");
	io_uring_prep_read(entry, file, buffers + (size_t)tag * BLOCK, BLOCK,
			   draw(self) % blocks * BLOCK);
	entry->user_data = (uint64_t)tag;
}

/* Gives back the tags of the reads that are done, and returns their number. */
static uint32_t reap(struct worker *self, struct io_uring *ring)
{
	struct io_uring_cqe *found;
	uint32_t done = 0;
	unsigned int at;

	io_uring_for_each_cqe(ring, at, found) {
		must(found->res == BLOCK, "a read");
		give(self, (int32_t)found->user_data);
		done++;
	}
	io_uring_cq_advance(ring, done);
	return done;
}

static void *work(void *argument)
{
	struct worker *self = argument;
	struct io_uring ring;
	uint64_t begun = 0;
	uint64_t done = 0;
	char *buffers;

	must(posix_memalign((void **)&buffers, BLOCK, (size_t)DEPTH * MOST * BLOCK) == 0, "memory");
	must(io_uring_queue_init(DEPTH, &ring, 0) == 0, "io_uring_queue_init");
	while (done < count) {
		int32_t tag;

		while (begun < count && begun - done < DEPTH && (tag = get(self)) >= 0) {
			queue_read(self, &ring, buffers, tag);
			begun++;
		}
		/* its reads under way give their tags back, so it need not wait for others */
		io_uring_submit_and_wait(&ring, begun > done);
		done += reap(self, &ring);
	}
	io_uring_queue_exit(&ring);
	free(buffers);
	return NULL;
}

static void start(struct tags_pool *pool)
{
	for (uint32_t i = 0; i < threads; i++) {
		struct worker *worker = &workers[i];

		worker->random = i + 1;
		for (int32_t tag = 0; tag < DEPTH; tag++)
			worker->own.tags[worker->own.count++] = (int32_t)i * DEPTH + tag;
		must(tags_join(pool, &worker->hand, 0) == TAGS_OK, "tags_join");
		must(pthread_create(&worker->thread, NULL, work, worker) == 0, "pthread_create");
	}
}

static double now(void)
{
	struct timespec time;

	clock_gettime(CLOCK_MONOTONIC, &time);
	return time.tv_sec * 1e9 + time.tv_nsec;
}

static double processor_time(void)
{
	struct rusage used;

	getrusage(RUSAGE_SELF, &used);
	return (used.ru_utime.tv_sec + used.ru_stime.tv_sec) * 1e9 +
	       (used.ru_utime.tv_usec + used.ru_stime.tv_usec) * 1e3;
}

int main(int argc, char **arguments)
{
	struct tags_options options = TAGS_OPTIONS_INIT;
	struct tags_pool pool = TAGS_EMPTY;
	double begin;

	must(argc >= 5, "reads KIND THREADS FILE COUNT [direct]");
	while (kind < KINDS && strcmp(names[kind], arguments[1]) != 0)
		kind++;
	threads = (uint32_t)atoi(arguments[2]);
	must(kind < KINDS && threads > 0 && threads <= MOST, "arguments");
	file = open(arguments[3], O_RDONLY | (argc > 5 ? O_DIRECT : 0));
	must(file >= 0, arguments[3]);
	blocks = (uint64_t)lseek(file, 0, SEEK_END) / BLOCK;
	count = strtoull(arguments[4], NULL, 10);
	options.total = DEPTH * threads;
	options.hands = threads;
	options.cache = kind == CACHES ? 8 : 0;
	must(tags_open(&pool, &options) == TAGS_OK, "tags_open");
	while (shared.count < options.total) {
		shared.tags[shared.count] = (int32_t)shared.count;
		shared.count++;
	}
	begin = now();
	start(&pool);
	for (uint32_t i = 0; i < threads; i++)
		pthread_join(workers[i].thread, NULL);
	printf("%.0f %.0f\n", (now() - begin) / (threads * count), processor_time() / (threads * count));
	return 0;
}
