/*
 * An I/O queue of eight threads. Five submit requests: each takes a tag, and
 * waits while none is free, fills the slot of the tag with the number of the
 * request, posts the tag and sends it to the device. Three complete: each takes
 * the next tag from the device, reads the slot, carries the request out and
 * clears the tag, which may wake a submitter.
 */
#include <inttypes.h>
#include <pthread.h>
#include <stdio.h>
#include <stdlib.h>
#include <tags.h>

enum {
	SUBMITTERS = 5,
	COMPLETERS = 3,
	THREADS = SUBMITTERS + COMPLETERS,
	REQUESTS = 60000,
	TAGS = 16,
	/* what device_pop() returns once the device is closed and empty */
	CLOSED = -1
};

struct request {
	uint32_t bytes;
	/* how often the request was carried out */
	uint32_t done;
};

/* A queue of tags on their way to the completers. It never holds more than TAGS. */
struct device {
	pthread_mutex_t lock;
	pthread_cond_t filled;
	int32_t tags[TAGS];
	uint32_t first;
	uint32_t count;
	int closed;
};

struct worker {
	pthread_t thread;
	struct tags_hand hand;
	uint32_t number;
};

static struct request requests[REQUESTS];
static struct device device = {
	.lock = PTHREAD_MUTEX_INITIALIZER,
	.filled = PTHREAD_COND_INITIALIZER,
};

/* Exits if a call was refused, which none of the calls here should be. */
static int32_t must(const char *call, int32_t answer)
{
	if (answer < 0) {
		fprintf(stderr, "%s: %s\n", call, tags_strerror(answer));
		exit(1);
	}
	return answer;
}

static void device_push(int32_t tag)
{
	pthread_mutex_lock(&device.lock);
	device.tags[(device.first + device.count++) % TAGS] = tag;
	pthread_cond_signal(&device.filled);
	pthread_mutex_unlock(&device.lock);
}

static int32_t device_pop(void)
{
	int32_t tag = CLOSED;

	pthread_mutex_lock(&device.lock);
	while (device.count == 0 && !device.closed)
		pthread_cond_wait(&device.filled, &device.lock);
	if (device.count > 0) {
		tag = device.tags[device.first];
		device.first = (device.first + 1) % TAGS;
		device.count--;
	}
	pthread_mutex_unlock(&device.lock);
	return tag;
}

static void device_close(void)
{
	pthread_mutex_lock(&device.lock);
	device.closed = 1;
	pthread_cond_broadcast(&device.filled);
	pthread_mutex_unlock(&device.lock);
}

static void *submit(void *argument)
{
	struct worker *self = argument;

	for (uint32_t i = self->number; i < REQUESTS; i += SUBMITTERS) {
		int32_t tag = must("tags_get_blocking", tags_get_blocking(&self->hand));

		must("tags_write", tags_write(&self->hand, (uint32_t)tag, i, NULL));
		must("tags_post", tags_post(&self->hand, (uint32_t)tag));
		device_push(tag);
	}
	return NULL;
}

static void *complete(void *argument)
{
	struct worker *self = argument;
	int32_t tag;

	while ((tag = device_pop()) != CLOSED) {
		uint64_t number;

		must("tags_take", tags_take(&self->hand, (uint32_t)tag));
		must("tags_read", tags_read(&self->hand, (uint32_t)tag, &number));
		requests[number].done++;
		must("tags_clear", tags_clear(&self->hand, (uint32_t)tag));
	}
	return NULL;
}

static void start(struct worker *worker, struct tags_pool *pool, uint32_t number,
		  void *(*work)(void *))
{
	worker->number = number;
	must("tags_join", tags_join(pool, &worker->hand, 0));
	if (pthread_create(&worker->thread, NULL, work, worker) != 0)
		exit(1);
}

static void join(struct worker *worker)
{
	pthread_join(worker->thread, NULL);
	must("tags_leave", tags_leave(&worker->hand));
}

static void run(struct tags_pool *pool)
{
	static struct worker workers[THREADS];

	for (uint32_t i = 0; i < THREADS; i++)
		start(&workers[i], pool, i, i < SUBMITTERS ? submit : complete);
	for (int i = 0; i < SUBMITTERS; i++)
		join(&workers[i]);
	device_close();
	for (int i = SUBMITTERS; i < THREADS; i++)
		join(&workers[i]);
}

static void report(const struct tags_sums *sums)
{
	uint64_t once = 0;
	uint64_t bytes = 0;

	for (int i = 0; i < REQUESTS; i++) {
		once += requests[i].done == 1;
		bytes += (uint64_t)requests[i].bytes * requests[i].done;
	}
	printf("requests=%" PRIu64 "\nbytes=%" PRIu64 "\n", once, bytes);
	printf("got=%" PRIu64 "\nback=%" PRIu64 "\n", sums->got, sums->back);
	printf("held=%" PRIu64 "\nposted=%" PRIu64 "\n", sums->held, sums->posted);
}

int main(void)
{
	struct tags_options options = {
		.total = TAGS,
		.hands = THREADS,
	};
	struct tags_pool pool = TAGS_EMPTY;
	struct tags_sums sums;

	for (uint32_t i = 0; i < REQUESTS; i++)
		requests[i].bytes = 512 * (1 + i % 8);
	must("tags_open", tags_open(&pool, &options));
	run(&pool);
	must("tags_close", tags_close(&pool, &sums));
	report(&sums);
	return 0;
}
