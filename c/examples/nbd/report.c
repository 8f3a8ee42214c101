/*
 * report.c - what the server prints: who is busy, while it runs, and the sums at its end.
 */
#include "server.h"

#include <inttypes.h>
#include <stdio.h>
#include <time.h>

static const char *const NAMES[] = {
	[COMMAND_READ] = "READ",   [COMMAND_WRITE] = "WRITE", [COMMAND_DISC] = "DISC",
	[COMMAND_FLUSH] = "FLUSH", [COMMAND_TRIM] = "TRIM",   [COMMAND_WRITE_ZEROES] = "WRITE_ZEROES",
};

static uint64_t nanoseconds(void)
{
	struct timespec time;

	clock_gettime(CLOCK_MONOTONIC, &time);
	return (uint64_t)time.tv_sec * 1000000000 + (uint64_t)time.tv_nsec;
}

/* Only the holder may look into a request, so what others see of it is the note of its tag. */
void note_request(struct connection *connection, uint32_t tag, uint16_t command)
{
	uint64_t place = (uint64_t)(connection - connection->server->connections);

	must("tags_note", tags_note(&connection->hand, tag, place << 8 | command));
}

/* A tag that a hand keeps, or that has just been got, has no note. */
static int report_tag(uint32_t tag, const struct tags_noted *note, void *unused)
{
	(void)unused;
	if (note)
		printf("tag %" PRIu32 ": connection %" PRIu64 ", %s, %" PRIu64 " ms\n", tag, note->value >> 8,
		       NAMES[note->value & 0xff], (nanoseconds() - note->since) / 1000000);
	return 0;
}

static uint32_t open_count(struct server *server)
{
	uint32_t count = 0;

	pthread_mutex_lock(&server->lock);
	for (uint32_t i = 0; i < server->settings.connections; i++)
		count += server->connections[i].state == STATE_OPEN;
	pthread_mutex_unlock(&server->lock);
	return count;
}

/* The readers that wait for a tag: a worker that is idle waits in the queue. */
static uint32_t waiting_count(struct server *server)
{
	const uint32_t waiting = (uint32_t)must("tags_pool_waiting", tags_pool_waiting(&server->pool));
	const uint32_t idle = __atomic_load_n(&server->idle, __ATOMIC_RELAXED);

	return waiting > idle ? waiting - idle : 0;
}

/* This needs no hand, and stops nobody. */
void report_busy(struct server *server)
{
	const uint32_t waiting = waiting_count(server);
	struct tags_sizes ordinary;
	struct tags_sizes reserved;

	must("tags_pool_show", tags_pool_show(&server->pool, TAGS_ORDINARY, &ordinary));
	must("tags_pool_show", tags_pool_show(&server->pool, TAGS_RESERVED, &reserved));
	printf("busy: ordinary %" PRIu32 "/%" PRIu32 ", reserved %" PRIu32 "/%" PRIu32 "; connections %" PRIu32
	       ", of which %" PRIu32 " wait for a tag\n", ordinary.busy, ordinary.depth, reserved.busy,
	       reserved.depth, open_count(server), waiting);
	must("tags_pool_each_noted", tags_pool_each_noted(&server->pool, report_tag, NULL));
	fflush(stdout);
}

/* Returns the status with which the program ends. */
int report_sums(const struct tags_sums *sums)
{
	printf("got=%" PRIu64 "\nback=%" PRIu64 "\n", sums->got, sums->back);
	return sums->got == sums->back ? 0 : 1;
}
