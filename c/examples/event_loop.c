/*
 * One thread that never sleeps for a tag alone: under poll() it waits for "a tag
 * or a completion". Each request takes a tag; a device in a second thread sends
 * the tags of completed requests back by a pipe, as a ring of completions would
 * come. Four streams of requests share three tags, each through a hand of its
 * own, and a third thread uses tags of the pool for work of its own.
 */
#include <inttypes.h>
#include <poll.h>
#include <pthread.h>
#include <stdio.h>
#include <stdlib.h>
#include <sys/eventfd.h>
#include <tags.h>
#include <unistd.h>

enum { STREAMS = 4, TAGS = 3, REQUESTS = 5000 };

struct stream {
	struct tags_hand hand;
	uint32_t submitted;
	uint32_t completed;
};

static struct stream streams[STREAMS];
static struct tags_hand other = TAGS_EMPTY;
static int to_device[2];
static int to_loop[2];

static int32_t must(const char *call, int32_t answer)
{
	if (answer < 0) {
		fprintf(stderr, "%s: %s\n", call, tags_strerror(answer));
		exit(1);
	}
	return answer;
}

static void must_move(ssize_t moved)
{
	if (moved != sizeof(uint32_t)) {
		fprintf(stderr, "a pipe is broken\n");
		exit(1);
	}
}

/* Completes each request that it is sent. */
static void *run_device(void *unused)
{
	uint32_t tag;

	while (read(to_device[0], &tag, sizeof(tag)) == sizeof(tag))
		must_move(write(to_loop[1], &tag, sizeof(tag)));
	return unused;
}

/* A thread that sleeps for its tags, beside the loop. */
static void *run_other(void *unused)
{
	for (uint32_t i = 0; i < REQUESTS; i++) {
		int32_t tag = must("tags_get_blocking", tags_get_blocking(&other));

		must("tags_clear", tags_clear(&other, (uint32_t)tag));
	}
	return unused;
}

/* Submits as many requests as there are tags for. Where none is free, the eventfd will tell. */
static void submit(struct stream *stream, uint64_t number, int event)
{
	while (stream->submitted < REQUESTS) {
		int32_t answer = tags_get_async(&stream->hand, event);
		uint32_t tag = (uint32_t)answer;

		if (answer == TAGS_NO_TAG)
			return;
		must("tags_get_async", answer);
		must("tags_write", tags_write(&stream->hand, tag, number, NULL));
		must("tags_post", tags_post(&stream->hand, tag));
		must_move(write(to_device[1], &tag, sizeof(tag)));
		stream->submitted++;
	}
}

/* The hand of the first stream takes each completed request, whose slot names its stream. */
static void complete(void)
{
	struct tags_hand *hand = &streams[0].hand;
	uint64_t number = 0;
	uint32_t tag;

	must_move(read(to_loop[0], &tag, sizeof(tag)));
	must("tags_take", tags_take(hand, tag));
	must("tags_read", tags_read(hand, tag, &number));
	streams[number].completed++;
	must("tags_clear", tags_clear(hand, tag));
}

static uint32_t completed(void)
{
	uint32_t sum = 0;

	for (uint32_t i = 0; i < STREAMS; i++)
		sum += streams[i].completed;
	return sum;
}

static void loop(int event)
{
	struct pollfd looks[] = { { event, POLLIN, 0 }, { to_loop[0], POLLIN, 0 } };
	uint64_t told;

	for (uint32_t i = 0; i < STREAMS; i++)
		submit(&streams[i], i, event);
	while (completed() < STREAMS * REQUESTS) {
		if (poll(looks, 2, -1) < 0)
			exit(1);
		if (looks[1].revents)
			complete();
		if (looks[0].revents && read(event, &told, sizeof(told)) == sizeof(told))
			for (uint32_t i = 0; i < STREAMS; i++)
				submit(&streams[i], i, event);
	}
}

int main(void)
{
	struct tags_options options = {
		.total = TAGS,
		.hands = STREAMS + 1,
	};
	struct tags_pool pool = TAGS_EMPTY;
	struct tags_sums sums;
	int event = eventfd(0, EFD_NONBLOCK);
	pthread_t device;
	pthread_t thread;

	must("tags_open", tags_open(&pool, &options));
	for (uint32_t i = 0; i < STREAMS; i++)
		must("tags_join", tags_join(&pool, &streams[i].hand, 0));
	must("tags_join", tags_join(&pool, &other, 0));
	if (pipe(to_device) || pipe(to_loop) || pthread_create(&device, NULL, run_device, NULL) ||
	    pthread_create(&thread, NULL, run_other, NULL))
		return 1;
	loop(event);
	pthread_join(thread, NULL);
	close(to_device[1]);
	pthread_join(device, NULL);
	for (uint32_t i = 0; i < STREAMS; i++) {
		printf("stream %" PRIu32 ": %" PRIu32 " requests\n", i, streams[i].completed);
		must("tags_leave", tags_leave(&streams[i].hand));
	}
	must("tags_leave", tags_leave(&other));
	must("tags_close", tags_close(&pool, &sums));
	printf("got=%" PRIu64 "\nback=%" PRIu64 "\n", sums.got, sums.back);
	close(event);
	return 0;
}
